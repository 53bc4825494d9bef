"""The cases that tools/redis_compare plays: what connections ask, by tables."""

import itertools

CHANNEL = "__redis__:invalidate"


class Case:
    """Steps of some connections: `GET k` of a, `b: GET k` of b, or `wait 300` milliseconds. Several
    requests with ` ; ` between them are sent at once. In a word '' is the empty one, \\s a space,
    \\xNN a byte, {b} the id of the connection b."""

    is_raw = False

    def __init__(self, name, *steps):
        self.name = name
        self.steps = steps


class Raw(Case):
    """Bytes of one connection as they are, in pieces."""

    is_raw = True


# The words of each served command, and the keys that a case begins with.
STRINGS = (
    "GET k", "SET k v", "SETNX k v", "GETDEL k", "APPEND k v", "STRLEN k", "GETRANGE k 0 -1",
    "INCR k", "DECR k", "INCRBY k 2", "DECRBY k 2", "MGET k none h", "MSET k 1 new 2",
)
HASHES = (
    "HSET k f v", "HGET k f", "HMGET k f none", "HGETALL k", "HDEL k f", "HLEN k", "HEXISTS k f",
    "HKEYS k", "HVALS k", "HINCRBY k f 2",
)
KEYS = (
    "DEL k", "EXISTS k k none", "TYPE k", "RENAME k new", "EXPIRE k 100", "PEXPIRE k 100000",
    "EXPIREAT k 4000000000", "PEXPIREAT k 4000000000000", "TTL k", "PTTL none", "PERSIST k",
    "DBSIZE", "FLUSHALL", "FLUSHDB",
)
CONNECTION = (
    "PING", "ECHO k", "HELLO", "RESET", "QUIT", "CLIENT ID", "CLIENT TRACKING ON",
    "CLIENT CACHING YES", "CLIENT GETREDIR", "CLIENT TRACKINGINFO", f"SUBSCRIBE {CHANNEL}",
    "UNSUBSCRIBE",
)
SERVED = STRINGS + HASHES + KEYS + CONNECTION
READS = (
    "GET k", "STRLEN k", "GETRANGE k 0 -1", "MGET k none", "HGET k f", "HMGET k f none",
    "HGETALL k", "HLEN k", "HEXISTS k f", "HKEYS k", "HVALS k", "EXISTS k none", "TYPE k", "TTL k",
    "DBSIZE", "PTTL none",
)
WRITES = (
    "SET k 3", "SETNX k 3", "SETNX new 3", "GETDEL k", "GETDEL none", "APPEND k 3", "APPEND k ''",
    "APPEND new ''", "INCR k", "DECRBY k 0", "INCRBY new 2", "MSET k 3 k 4 new 5", "MSET new 5 k 3",
    "DEL k", "DEL k k none", "DEL new k", "RENAME k new", "RENAME k k", "RENAME new k",
    "RENAME none k", "EXPIRE k 100", "EXPIRE k 0", "EXPIRE k -1", "PEXPIRE k 0", "EXPIREAT k 1",
    "PEXPIREAT k 1", "EXPIRE none 100", "PERSIST k", "SET k 3 XX", "SET k 3 NX", "SET new 3 XX",
    "SET k 3 EX 100", "SET k 3 KEEPTTL", "HSET k f 3", "HSET k f v", "HSET k g 3 h 4", "HDEL k f",
    "HDEL k none", "HINCRBY k f 0", "HSET new f 3", "FLUSHALL", "FLUSHDB", "FLUSHALL ASYNC",
    "FLUSHDB SYNC", "TTL k", "EXISTS k", "TYPE k",
)
STATES = {
    "none": (),
    "number": ("SET k 10",),
    "text": ("SET k text EX 1000",),
    "hash": ("HSET k f 5 g text",),
    "lasting hash": ("HSET k f 5", "EXPIRE k 1000"),
}
LOOK = ("TYPE k", "GET k", "HGETALL k", "TTL k", "DBSIZE")
NUMBERS = (
    "0", "-0", "+0", "1", "+1", "-1", "01", "-01", "00", "1\\s", "\\s1", "''", "-", "+", "1.0",
    "1e3", "1.5", "abc", "0x10", "1a", "--1", "1\\x00", "\\x00", "2147483648", "-2147483649",
    "1000", "9223372036854775", "9223372036854776", "-9223372036854775", "-9223372036854776",
    "9223372036854775806", "9223372036854775807", "9223372036854775808", "-9223372036854775807",
    "-9223372036854775808", "-9223372036854775809", "18446744073709551615", "18446744073709551616",
    "99999999999999999999999", "inf", "nan",
)
NUMBER_PLACES = (
    "INCRBY k {0}", "DECRBY k {0}", "INCRBY none {0}", "DECRBY none {0}", "HINCRBY h f {0}",
    "HINCRBY h none {0}", "GETRANGE k {0} -2", "GETRANGE k 0 {0}", "GETRANGE none {0} 0",
    "EXPIRE k {0}", "PEXPIRE k {0}", "EXPIREAT k {0}", "PEXPIREAT k {0}", "EXPIRE none {0}",
    "PEXPIRE none {0}", "EXPIREAT none {0}", "SET k v EX {0}", "SET k v PX {0}", "HELLO {0}",
    "CLIENT TRACKING ON REDIRECT {0}", "CLIENT TRACKING OFF REDIRECT {0}",
)
STORED_PLACES = (
    "SET k {0} ; INCR k ; GET k", "SET k {0} ; DECR k ; GET k", "SET k {0} ; INCRBY k 0 ; GET k",
    "HSET h f {0} ; HINCRBY h f 1 ; HGET h f", "HSET h f {0} ; HINCRBY h f -1 ; HGET h f",
    "SET k {0} ; APPEND k 1 ; GET k ; STRLEN k",
)
SET_OPTIONS = ("NX", "XX", "KEEPTTL", "EX 50", "PX 50000", "GET", "EXAT 4000000000", "FOO")
EXPIRE_OPTIONS = ("NX", "XX", "GT", "LT", "nx gt", "XX GT", "FOO", "''")
TRACKING_OPTIONS = ("BCAST", "OPTIN", "OPTOUT", "NOLOOP", "PREFIX a", "REDIRECT {b}")
TRACKING_MODES = (
    "", "OPTIN", "OPTOUT", "NOLOOP", "BCAST", "BCAST PREFIX a", "BCAST PREFIX ab PREFIX b",
    "BCAST NOLOOP", "REDIRECT {b}", "OPTIN NOLOOP REDIRECT {b}", "OPTIN OPTOUT",
)
TRACKING_WORDS = (
    "", "ON", "OFF", "on", "oFF", "FOO", "''", "ON FOO", "ON ''", "OFF FOO", "ON ON", "OFF OFF",
    "ON PREFIX", "ON BCAST PREFIX", "ON PREFIX a", "ON REDIRECT", "ON BCAST PREFIX ''",
    "ON BCAST PREFIX a PREFIX a", "ON BCAST PREFIX a PREFIX ab", "ON BCAST PREFIX ab PREFIX a",
    "ON BCAST PREFIX a PREFIX ''", "ON BCAST PREFIX '' PREFIX ''", "ON BCAST BCAST",
    "ON OPTIN OPTIN", "ON NOLOOP NOLOOP", "ON bcast prefix B prefix c", "ON REDIRECT {a}",
    "ON REDIRECT {b} REDIRECT {b}", "ON REDIRECT {b} REDIRECT {a}", "ON REDIRECT 0 REDIRECT {b}",
    "ON REDIRECT 123456789", "OFF REDIRECT {b}", "OFF PREFIX a", "OFF OPTIN OPTOUT BCAST",
    "OFF REDIRECT 123456789", "ON REDIRECT 123456789 FOO", "ON FOO REDIRECT 123456789",
    "FOO REDIRECT 123456789", "FOO FOO", "OFF PREFIX", "ON PREFIX PREFIX",
    "ON BCAST PREFIX \\x00 PREFIX \\x00a", "ON BCAST PREFIX \\xff", "ON BCAST PREFIX PREFIX",
)
CACHING_WORDS = ("", "YES", "NO", "yes", "no", "FOO", "''", "YES YES", "YES NO", "1")
HELLO_WORDS = (
    "", "2", "3", "1", "4", "0", "-1", "FOO", "''", "2.0", "02", "+3", "3 FOO", "2 FOO",
    "3 AUTH", "3 AUTH default", "3 AUTH default x", "3 AUTH foo bar", "3 SETNAME", "3 SETNAME name",
    "2 SETNAME name", "3 SETNAME ''", "3 SETNAME a\\sb", "4 FOO", "FOO BAR", "AUTH a b",
    "SETNAME a", "3 3", "3 ''", "9223372036854775808", "3 AUTH default x SETNAME name",
)
CLIENT_WORDS = (
    "", "FOO", "''", "foo bar", "HELP", "LIST", "INFO", "SETNAME x", "GETNAME", "REPLY ON", "ID x",
    "KILL ID 99", "PAUSE 0", "UNPAUSE", "UNBLOCK 9", "NO-EVICT ON", "NO-TOUCH ON", "SETINFO a b",
    "GETREDIR x", "TRACKINGINFO x", "id", "getREDIR", "TRACKING", "CACHING", "ID\\x00",
)
UNKNOWN = (
    "FOO", "foo a b", "''", "GETT k", "\\x00", "a\\x0d\\x0ab", "FOO " + "x" * 200, "get\\x00 k",
    "FOO a\\sb '' c", "gets k", "'' a", "\\xff", "\\sGET k",
    # Commands of Redis that aren't served.
    "GETSET k v", "GETEX k", "SETEX k 10 v", "PSETEX k 10 v", "MSETNX k v", "INCRBYFLOAT k 1",
    "SETRANGE k 0 v", "SUBSTR k 0 1", "LCS k k", "HSETNX h f v", "HMSET h f v", "HSTRLEN h f",
    "HINCRBYFLOAT h f 1", "HSCAN h 0", "HRANDFIELD h", "RENAMENX k n", "UNLINK k", "TOUCH k",
    "COPY k n", "KEYS *", "SCAN 0", "RANDOMKEY", "EXPIRETIME k", "PEXPIRETIME k", "OBJECT HELP",
    "DUMP k", "SORT k", "MOVE k 1", "SWAPDB 0 0", "SELECT 0", "SELECT 1", "AUTH x", "MULTI",
    "EXEC", "WATCH k", "UNWATCH", "DISCARD", "INFO", "CONFIG GET save", "COMMAND COUNT", "TIME",
    "LASTSAVE", "ROLE", "WAIT 0 0", "PUBLISH a b", "PSUBSCRIBE a", "PUNSUBSCRIBE", "SSUBSCRIBE a",
    "SUNSUBSCRIBE", "PUBSUB CHANNELS", "LPUSH l a", "SADD s a", "ZADD z 1 a", "SETBIT b 1 1",
    "XADD x * a b", "EVAL return\\s1 0", "PFADD p a", "GEOADD g 1 1 a", "MONITOR", "DEBUG SLEEP 0",
    "MEMORY USAGE k", "LATENCY LATEST", "SLOWLOG GET", "ACL WHOAMI", "MODULE LIST", "ASKING",
    "READONLY", "CLUSTER INFO", "REPLICAOF NO ONE", "SAVE", "BGSAVE", "FUNCTION LIST", "LOLWUT",
    "FAILOVER", "PFCOUNT p", "BITCOUNT k", "GETBIT k 0", "FLUSH", "LLEN l", "SCARD s", "ZCARD z",
)
SHUTDOWN_WORDS = (
    "FOO", "SAVE NOSAVE", "NOSAVE SAVE", "ABORT", "ABORT NOW", "NOSAVE FOO", "''", "ABORT ABORT",
)
SUBSCRIBED = (
    *SERVED, "PING word", "PING a b", "FOO", "GET", f"UNSUBSCRIBE {CHANNEL}", "UNSUBSCRIBE other",
    "CLIENT", "CLIENT FOO", "HELLO 3", "HELLO 2", "quit", "Reset", "SHUTDOWN FOO", "PSUBSCRIBE a",
    "PUNSUBSCRIBE", "UNSUBSCRIBE a b", "SUBSCRIBE", "SUBSCRIBE other", f"SUBSCRIBE {CHANNEL} b",
    "RESET a", "QUIT a", "PUBLISH a b", "SELECT 0", "SET k v FOO", "INCRBY k x", "EXPIRE k x",
    "SET k v EX 0", "HELLO x", "CLIENT CACHING FOO", "CLIENT TRACKING FOO", "FLUSHALL FOO",
    "GET a b",
)


def arities():
    """Each name with no word behind it to too many, over keys of each type."""
    names = {command.split()[0] for command in SERVED} | {"SHUTDOWN"}
    subcommands = ("ID", "TRACKING", "CACHING", "GETREDIR", "TRACKINGINFO")
    names |= {f"CLIENT {word}" for word in subcommands}
    for name in sorted(names):
        for count in range(8):
            if name == "SHUTDOWN" and count == 0 or name == "PEXPIRE" and count == 2:
                continue
            for kind, words in (("a number", "1"), ("a word", "k")):
                if count or kind == "a number":
                    yield Case(
                        f"arity: {name} and {count} times {kind}", "SET k 10", "HSET 1 1 1",
                        " ".join([name, *[words] * count]), *LOOK,
                    )


def types():
    """Each command over each type of key, in both protocols, and what it leaves."""
    for state, begin in STATES.items():
        for command in STRINGS + HASHES + KEYS:
            for hello in ("2", "3"):
                yield Case(
                    f"types: {command} over {state} by RESP{hello}", *begin, "HSET h f v",
                    f"HELLO {hello}", command, *LOOK, "TYPE new", "TTL new",
                )


def numbers():
    for place, number in itertools.product(NUMBER_PLACES, NUMBERS):
        if number == "1" and place.split()[0] in ("PEXPIRE", "SET") and "EX {0}" not in place:
            # A millisecond is over now and then before the next request.
            continue
        yield Case(
            f"numbers: {place.format(number)}", "SET k 10", "HSET h f 10", place.format(number),
            "GET k", "HGET h f", "TTL k", "EXISTS k",
        )
    for place, number in itertools.product(STORED_PLACES, NUMBERS):
        yield Case(f"numbers: {place.format(number)}", *place.format(number).split(" ; "))
    for millis in (450, 900, 1450, 1900, 100_450):
        for then in ("TTL k", "APPEND k 1 ; TTL k", "SET k 2 KEEPTTL ; TTL k", "RENAME k n"):
            yield Case(f"numbers: {then} of {millis}", f"SET k 1 PX {millis} ; {then}")
    for first, second in itertools.product(range(-5, 6), repeat=2):
        asked = f"GETRANGE k {first} {second}"
        yield Case(f"numbers: {asked} of abc", "SET k abc", asked)


def options():
    """Options in each order and case, repeated ones too, over a key and none."""
    chosen = [(it,) for it in SET_OPTIONS]
    chosen += itertools.product(SET_OPTIONS, repeat=2)
    chosen += [("NX", "EX 50", "FOO"), ("nx", "ex 50", "px 50"), ("EX", "NX", "50"), ("EX",)]
    chosen += [("PX",), ("EXAT",), ("ex 50", "Nx"), ("KeepTTL", "xX"), ("EX 50", "KEEPTTL", "XX")]
    for words in chosen:
        for state in ("none", "text", "hash"):
            yield Case(
                f"options: SET {' '.join(words)} over {state}", *STATES[state],
                f"SET k v {' '.join(words)}", *LOOK,
            )
    for name, option in itertools.product(("EXPIRE", "PEXPIRE", "EXPIREAT"), EXPIRE_OPTIONS):
        for state in ("number", "text"):
            yield Case(
                f"options: {name} {option} over {state}", *STATES[state],
                f"{name} k 4000000000 {option}", "TYPE k",
            )
    for name in ("FLUSHALL", "FLUSHDB"):
        for words in ("", "ASYNC", "SYNC", "sync", "FOO", "ASYNC SYNC", "ASYNC ASYNC", "''"):
            yield Case(f"options: {name} {words}", "SET k v", f"{name} {words}", "DBSIZE")
    for word in ("PING", "pInG", "ECHO x", "eChO x", "get k", "hGetAll k", "client id", "Type k"):
        yield Case(f"options: {word} in its case", word)


def odd_words():
    """Empty and binary keys, fields and values, and large ones."""
    odd = ("''", "\\x00", "\\x0d\\x0a", "\\xff\\xfe", "a\\sb", "\\x22", "\\x5cx", "x" * 70, "é")
    for word in odd:
        yield Case(
            f"odd words: {word} as all", f"SET {word} {word}", f"GET {word}", f"STRLEN {word}",
            f"APPEND {word} {word}", f"MGET {word} {word}", f"GETRANGE {word} 0 0",
            f"EXISTS {word}", f"TYPE {word}", f"RENAME {word} {word}{word}", f"DEL {word}{word}",
            f"HSET {word} {word} {word}", f"HGET {word} {word}", f"HGETALL {word}",
            f"HKEYS {word}", f"HDEL {word} {word}", f"ECHO {word}", f"PING {word}",
            f"INCR {word}", "DBSIZE",
        )
    for size in (100, 65_535, 65_536, 1_000_000, 4_000_000):
        yield Case(
            f"odd words: {size} bytes", f"SET k {'v' * size}", "STRLEN k", f"GETRANGE k -3 {size}",
            "GET k", f"HSET h {'f' * size} v", "HKEYS h", "APPEND k 1", "STRLEN k",
        )
    yield Case(
        "odd words: past the limit of a string", f"SET k {'v' * 16_777_216}", "APPEND k 1",
    )
    for count in (100, 600):
        pairs = " ".join(f"k{number} {number}" for number in range(count))
        names = " ".join(f"k{number}" for number in range(count))
        yield Case(f"odd words: MSET and MGET of {count}", f"MSET {pairs}", f"MGET {names}")
        yield Case(f"odd words: HSET and HMGET of {count}", f"HSET h {pairs}", f"HMGET h {names}")
        yield Case(f"odd words: HGETALL of {count}", f"HSET h {pairs}", "HLEN h", "HGETALL h")
    three = "HSET h b 1 a 2 c 3"
    yield Case("odd words: order of fields", three, "HGETALL h", "HKEYS h", "HVALS h")
    yield Case("odd words: order of a long value", f"{three} d 4 e {'x' * 65}", "HKEYS h")
    yield Case("odd words: a field twice", "HSET h b 1 b 2 a 3", "HGETALL h", "HMGET h b b")
    yield Case(
        "odd words: order after changes", "HSET h b 1 a 2 c 3", "HDEL h a", "HSET h a 4",
        "HSET h b 5", "HINCRBY h z 1", "HGETALL h",
    )


def connection_words():
    for words in HELLO_WORDS:
        for begin in ("2", "3"):
            yield Case(
                f"hello: HELLO {words} behind RESP{begin}", f"HELLO {begin}", f"HELLO {words}",
                "GET none", "CLIENT TRACKINGINFO", "HELLO",
            )
    for words in CLIENT_WORDS:
        yield Case(f"client: CLIENT {words}", f"CLIENT {words}")
    for words in UNKNOWN:
        yield Case(f"unknown: {words}", "SET k 10", "HSET h f 1", words, "TYPE k")
    for words in SHUTDOWN_WORDS:
        yield Case(f"connection: SHUTDOWN {words}", f"SHUTDOWN {words}", "PING")
    for words in ("", "a", "a b"):
        for name in ("PING", "ECHO", "RESET", "QUIT"):
            for hello in ("2", "3"):
                yield Case(
                    f"connection: {name} {words} by RESP{hello}", f"HELLO {hello}",
                    f"{name} {words}", "GET none", "HGETALL none",
                )
    text = "SET k 1 ; QUIT ; SET k 2 ; GET k"
    yield Case("connection: QUIT and requests behind", text, "b: GET k")
    for begin in ("CLIENT TRACKING ON", "CLIENT TRACKING ON BCAST", f"SUBSCRIBE {CHANNEL}"):
        yield Case(
            f"connection: RESET behind {begin}", "HELLO 3", begin, "GET k", "RESET",
            "CLIENT TRACKINGINFO", "GET none", "b: SET k 1", "PING a", "HELLO 3", "b: SET k 2",
        )


def tracking_words():
    """CLIENT TRACKING and CLIENT CACHING with each choice of words, and what they leave."""
    left = ("CLIENT TRACKINGINFO", "CLIENT GETREDIR")
    for size in range(len(TRACKING_OPTIONS) + 1):
        for chosen in itertools.combinations(TRACKING_OPTIONS, size):
            for switch in ("ON", "OFF"):
                words = " ".join([switch, *chosen])
                yield Case(f"tracking words: {words}", "b: PING", f"CLIENT TRACKING {words}", *left)
    for words in TRACKING_WORDS:
        for hello in ("2", "3"):
            yield Case(
                f"tracking words: {words} by RESP{hello}", f"HELLO {hello}", "b: PING",
                f"CLIENT TRACKING {words}", *left,
            )
    for first, second in itertools.product(TRACKING_MODES, repeat=2):
        yield Case(
            f"tracking words: {first}, then {second}", "b: PING", f"CLIENT TRACKING ON {first}",
            f"CLIENT TRACKING ON {second}", *left, "CLIENT TRACKING OFF", *left,
        )
    for mode in ("OFF", *(f"ON {mode}" for mode in TRACKING_MODES[:9])):
        for words in CACHING_WORDS:
            yield Case(
                f"caching words: {words} behind {mode}", "b: PING", f"CLIENT TRACKING {mode}",
                f"CLIENT CACHING {words}", "CLIENT TRACKINGINFO", "GET k", "CLIENT TRACKINGINFO",
            )
    for opt, word in (("OPTIN", "YES"), ("OPTOUT", "NO")):
        for between in SERVED + ("FOO", "GET", "CLIENT FOO", "CLIENT CACHING FOO"):
            if between.split()[0] in ("QUIT", "RESET"):
                continue
            yield Case(
                f"caching words: {between} behind {opt} and {word}", "HELLO 3", "SET k 1",
                f"CLIENT TRACKING ON {opt}", f"CLIENT CACHING {word}", between,
                "CLIENT TRACKINGINFO", "GET k", "b: SET k 2", "PING",
            )


def subscriptions():
    for command in SUBSCRIBED:
        for hello in ("2", "3"):
            yield Case(
                f"subscribed: {command} by RESP{hello}", f"HELLO {hello}", "SET k 1", "HSET h f 1",
                f"SUBSCRIBE {CHANNEL}", command, "PING", "UNSUBSCRIBE", "PING", "GET k",
            )
    for words in ("", CHANNEL, "other", "''", "a b", f"{CHANNEL} {CHANNEL}"):
        for hello in ("2", "3"):
            yield Case(
                f"subscribed: UNSUBSCRIBE {words} of none by RESP{hello}", f"HELLO {hello}",
                f"UNSUBSCRIBE {words}", "GET none",
            )
            yield Case(
                f"subscribed: first by SUBSCRIBE {words} by RESP{hello}", f"HELLO {hello}",
                f"SUBSCRIBE {words}", "PING", "GET none", "UNSUBSCRIBE",
            )
            yield Case(
                f"subscribed: twice, then UNSUBSCRIBE {words} by RESP{hello}", f"HELLO {hello}",
                f"SUBSCRIBE {CHANNEL}", f"SUBSCRIBE {CHANNEL}", f"UNSUBSCRIBE {words}", "GET none",
            )
    subscribe = f"SUBSCRIBE {CHANNEL}"
    yield Case("subscribed: RESP3, then RESP2", "HELLO 3", subscribe, "HELLO 2", "GET k")


def invalidations():
    """Each read of a tracking connection, and each write of another and of its own."""
    for read, write in itertools.product(READS, WRITES):
        for state in ("text", "hash"):
            yield Case(
                f"told: {read}, then {write} over {state}", *STATES[state], "HELLO 3",
                "CLIENT TRACKING ON", read, f"b: {write}", "b: SET k again", "b: SET new again",
            )
    modes = (
        "", "NOLOOP", "OPTIN", "OPTOUT", "BCAST", "BCAST NOLOOP", "BCAST PREFIX k",
        "BCAST PREFIX k PREFIX n", "BCAST PREFIX other",
    )
    for mode, write in itertools.product(modes, WRITES):
        for state in ("text", "hash", "none"):
            yield Case(
                f"told: own {write} over {state} by {mode}", *STATES[state], "HELLO 3",
                f"CLIENT TRACKING ON {mode}", "EXISTS k new none", write, "GET k", write,
                "b: SET k again", "PING",
            )
    for mode, write in itertools.product(modes, WRITES):
        yield Case(
            f"told: another's {write} by {mode}", "SET k 10", "HELLO 3",
            f"CLIENT TRACKING ON {mode}", "EXISTS k new none", f"b: {write}", "PING", f"b: {write}",
        )


def redirections():
    ends = {
        "RESP2 that subscribed": ("b: HELLO 2", f"b: SUBSCRIBE {CHANNEL}"),
        "RESP2 that did not": ("b: HELLO 2",),
        "RESP3": ("b: HELLO 3",),
        "RESP3 that subscribed": ("b: HELLO 3", f"b: SUBSCRIBE {CHANNEL}"),
        "RESP2 that left": (f"b: SUBSCRIBE {CHANNEL}", "b: UNSUBSCRIBE"),
        "RESP2 that was reset": ("b: HELLO 3", "b: RESET"),
        "one that quit": ("b: QUIT",),
    }
    modes = ("", "NOLOOP", "BCAST", "BCAST PREFIX k", "OPTOUT")
    writes = ("SET k 2", "DEL k", "FLUSHALL", "MSET k 1 kk 2", "RENAME k kk", "PEXPIRE k 0")
    for (end, begin), hello in itertools.product(ends.items(), ("2", "3")):
        for mode, write in itertools.product(modes, writes):
            yield Case(
                f"redirected: {write} by {mode} from RESP{hello} to {end}", f"HELLO {hello}",
                "SET k 1", *(begin if end != "one that quit" else ()), "b: PING",
                f"CLIENT TRACKING ON REDIRECT {{b}} {mode}", "EXISTS k kk",
                *(begin if end == "one that quit" else ()), f"c: {write}", "CLIENT TRACKINGINFO",
                "CLIENT GETREDIR", "EXISTS k kk", write, "PING", "CLIENT TRACKINGINFO",
            )
    yield Case(
        "redirected: each to the other", "HELLO 3", "b: HELLO 3", "CLIENT TRACKING ON REDIRECT {b}",
        "b: CLIENT TRACKING ON REDIRECT {a}", "GET k", "b: GET k", "c: SET k 1", "PING", "b: PING",
    )
    yield Case(
        "redirected: two to one", f"c: SUBSCRIBE {CHANNEL}", "CLIENT TRACKING ON REDIRECT {c}",
        "b: CLIENT TRACKING ON REDIRECT {c}", "GET k", "b: GET k", "d: SET k 1", "d: FLUSHALL",
    )
    yield Case(
        "redirected: broken, and mended by itself", "HELLO 3", "CLIENT TRACKING ON REDIRECT {b}",
        "GET k", "b: QUIT", "c: SET k 1", "CLIENT TRACKINGINFO", "CLIENT TRACKING ON",
        "CLIENT TRACKINGINFO", "GET k", "c: SET k 2", "PING",
    )
    yield Case(
        "redirected: broken, then off", "HELLO 3", "CLIENT TRACKING ON REDIRECT {b}", "GET k",
        "b: QUIT", "c: SET k 1", "CLIENT TRACKING OFF", "CLIENT TRACKINGINFO", "CLIENT GETREDIR",
    )
    for end in ("CLIENT TRACKING OFF", "RESET", "HELLO 2", "HELLO 3", "QUIT"):
        yield Case(
            f"redirected: behind {end}", f"b: SUBSCRIBE {CHANNEL}", "HELLO 3",
            "CLIENT TRACKING ON REDIRECT {b}", "GET k", end, "c: SET k 1", "PING",
        )


def expiries():
    """Keys that leave at their deadlines, as a connection that tracks is told of them."""
    modes = ("", "NOLOOP", "BCAST", "BCAST NOLOOP", "BCAST PREFIX k PREFIX l", "BCAST PREFIX z")
    for mode in modes:
        yield Case(
            f"expiry: an idle wait by {mode}", "HELLO 3", f"CLIENT TRACKING ON {mode}",
            "b: SET k 1 PX 150", "GET k", "wait 500", "PING", "GET k", "EXISTS k", "DBSIZE",
        )
        yield Case(
            f"expiry: its own key by {mode}", "HELLO 3", f"CLIENT TRACKING ON {mode}",
            "SET k 1 PX 150", "GET k", "wait 500", "PING", "SET k 2", "PING",
        )
        yield Case(
            f"expiry: of several by {mode}", "HELLO 3", f"CLIENT TRACKING ON {mode}",
            "b: SET k 1 PX 150 ; SET l 1 PX 190", "MGET k l", "wait 600", "PING", "MGET k l",
        )
    for mode, hello in itertools.product(("", "NOLOOP", "BCAST"), ("2", "3")):
        yield Case(
            f"expiry: told by {mode} to another on RESP{hello}", f"b: HELLO {hello}",
            f"b: SUBSCRIBE {CHANNEL}", f"CLIENT TRACKING ON REDIRECT {{b}} {mode}",
            "SET k 1 PX 150 ; GET k", "wait 500", "PING",
        )
    for command in ("EXPIRE k 0", "PEXPIRE k -5", "EXPIREAT k 1", "PEXPIREAT k 1"):
        yield Case(
            f"expiry: {command} of a key that is read", "HELLO 3", "SET k 1", "CLIENT TRACKING ON",
            "GET k", f"b: {command}", "b: EXISTS k", "PING", "GET k", command,
        )


def behind_deadlines():
    """Commands on keys whose deadlines have passed."""
    asked = (
        "GET k", "INCR k", "SET k 2 NX", "SET k 2 XX", "SET k 3 KEEPTTL", "TTL k", "PERSIST k",
        "DEL k", "APPEND k 1", "RENAME k n", "HSET k f 2", "EXPIRE k 100", "TYPE k", "DBSIZE",
        "SETNX k 5", "GETDEL k", "EXISTS k", "HINCRBY k f 1",
    )
    for begin, then in itertools.product(("SET k 1 PX 60", "HSET k f 1 ; PEXPIRE k 60"), asked):
        yield Case(f"expiry: {then} behind {begin}", begin, "wait 250", then, *LOOK)
    for then in asked[:5]:
        yield Case(f"expiry: {then} behind a second", "SET k 1 EX 1", "wait 1300", then, *LOOK)
    for mode in ("", "NOLOOP", "OPTOUT"):
        for number in range(3):
            # Redis finds the key at the GET, unless it looks for such keys just before.
            yield Case(
                f"expiry: found by its own GET by {mode}, {number}", "HELLO 3",
                f"CLIENT TRACKING ON {mode}", "SET k 1 PX 30 ; GET k", "wait 32", "GET k", "PING",
            )
    fields = " ".join(f"f{number} {'v' * 50}" for number in range(400))
    yield Case(
        "expiry: among requests at once", f"HSET h {fields}",
        " ; ".join(["SET k 1 PX 1", *["HGETALL h"] * 100, "GET k"]),
    )


ON = "CLIENT TRACKING ON"
SEEN = ("b: SET k 1", "PING")


def switches():
    """Tracking that is switched between a read and a write of its key."""
    for then in ("", "OPTIN", "NOLOOP", "REDIRECT {c}", "BCAST PREFIX z"):
        for off in ("CLIENT TRACKING OFF", "RESET ; HELLO 3"):
            yield Case(
                f"tracking: behind {off}, then on {then}", "HELLO 3", "c: HELLO 3", ON, "GET k",
                off, f"{ON} {then}", *SEEN,
            )
    for then in ("OPTIN", "NOLOOP", "REDIRECT {c}", "OPTOUT", "REDIRECT {a}", ""):
        yield Case(
            f"tracking: on, then on {then}", "HELLO 3", "c: HELLO 3", ON, "GET k", f"{ON} {then}",
            *SEEN, "GET k", "SET k 2", "PING",
        )
        yield Case(
            f"tracking: on {then}, then on", "HELLO 3", "c: HELLO 3", f"{ON} {then}", "GET k", ON,
            *SEEN, "GET k", "SET k 2", "PING",
        )
    for mode, word in (("OPTIN", "YES"), ("OPTOUT", "NO")):
        for then in (ON, f"{ON} {mode}", "CLIENT TRACKING OFF", "HELLO 3"):
            yield Case(
                f"tracking: {then} behind {mode} and CACHING {word}", "HELLO 3", f"{ON} {mode}",
                f"CLIENT CACHING {word}", then, f"{ON} {mode}", "GET k", *SEEN,
            )
    yield Case("tracking: RESP2, then RESP3", ON, "GET k", "HELLO 3", *SEEN)
    yield Case("tracking: RESP3, then RESP2", "HELLO 3", ON, "GET k", "HELLO 2", *SEEN, "HELLO 3")


def together():
    """Requests at once, connections that redirect to themselves, and two that track a key."""
    texts = (
        "GET k ; SET k 1 ; GET k ; SET k 2 ; PING", "GET k ; FLUSHALL ; GET k ; DEL k",
        "SET k 1 ; SET k 2 ; GET k ; GET l ; MSET k 1 l 2", "GET k ; FLUSHDB ; SET k 1",
    )
    for mode in ("", "NOLOOP", "BCAST", "BCAST NOLOOP", "OPTOUT"):
        for text in texts:
            name = f"tracking: {text} at once by {mode}"
            yield Case(name, "HELLO 3", f"{ON} {mode}", text, *SEEN)
    for words in ("", "REDIRECT {a}", "REDIRECT {a} NOLOOP", "BCAST REDIRECT {a}"):
        way, subscribe = f"{ON} {words}", f"SUBSCRIBE {CHANNEL}"
        yield Case(f"tracking: itself by {words} on RESP2", way, "GET k", subscribe, *SEEN)
        yield Case(f"tracking: itself by {words} on RESP3", "HELLO 3", way, "GET k", *SEEN)
    yield Case(
        "tracking: two that track a key", "HELLO 3", "b: HELLO 3", ON, f"b: {ON} NOLOOP", "GET k",
        "b: GET k", "c: SET k 1", "GET k", "b: GET k", "SET k 2", "GET k", "b: GET k", "b: SET k 3",
    )


def ways():
    """Longer ways of connections that track."""
    two = ("HELLO 3", "MSET k 1 n 2")
    yield Case("tracking: RENAME over a key", *two, ON, "MGET k n", "b: RENAME k n")
    yield Case("tracking: RENAME by BCAST", *two, f"{ON} BCAST", "b: RENAME n k")
    yield Case("tracking: GETRANGE of no number", "HELLO 3", ON, "GETRANGE k a b", *SEEN)
    yield Case(
        "tracking: BCAST of two prefixes", "HELLO 3", f"{ON} BCAST PREFIX a PREFIX b",
        "b: MSET b1 1 c 3 b2 4", "b: MSET a1 1 b1 2", "b: SET c 1", "PING", f"{ON} BCAST",
        "CLIENT TRACKINGINFO", "b: SET a1 1", "PING",
    )
    yield Case(
        "tracking: OPTIN of several keys", "HELLO 3", f"{ON} OPTIN", "CLIENT CACHING YES",
        "MGET k l", "GET m", "b: MSET k 1 l 2 m 3", "PING", "CLIENT CACHING YES",
        "CLIENT CACHING YES", "GET k", "GET l", "b: MSET k 1 l 2", "PING",
    )
    yield Case(
        "tracking: a target that subscribes later", "HELLO 3", f"{ON} REDIRECT {{b}}", "GET k",
        "c: SET k 1", f"b: SUBSCRIBE {CHANNEL}", "GET k", "c: SET k 2", "b: UNSUBSCRIBE", "GET k",
        "c: SET k 3", "b: HELLO 3", "GET k", "c: SET k 4",
    )


A_PING = b"*1\r\n$4\r\nPING\r\n"
# Lines that are no request of an array, and bytes that are one or break the protocol.
INLINE = (
    b"PING\r\n", b"PING\n", b"ping\r\n", b"  PING  \r\n", b"\tPING\t\r\n", b"\r\n", b"\n",
    b"\r\nPING\r\n", b"\n\n\nPING\n", b"   \r\nPING\r\n", b"PING a\r\n", b"PING a b\r\n",
    b"SET k v\r\nGET k\r\n", b'SET k "v"\r\nGET k\r\n', b"SET k 'v'\r\nGET k\r\n",
    b'SET k "a b"\r\nGET k\r\n', b'SET k "v\r\nPING\r\n', b'SET k "v"x\r\nPING\r\n',
    b'SET k a"b"\r\nGET k\r\n', b"SET k a'b\r\nPING\r\n", b'ECHO "\\x41\\n"\r\n',
    b"PING\r\r\n", b"PING\ra\r\n", b"PING\x0b\r\n", b"\x0bPING\r\n", b"\x0cPING\r\n",
    b"PING \x0b\r\n", b"PING\x00\r\n", b"PING \x00\r\n", b"\x00PING\r\nPING\r\n",
    b"PI\x00NG\r\nPING\r\n", b"ECHO a\x00b\r\n", b"ECHO \xff\xfe\r\n", b"ECHO a\\b\r\n",
    b"ECHO #\r\n", b"FOO\r\n", b"FOO a b\r\n", b"GET\r\n", b"QUIT\r\nPING\r\n", b"ECHO *1\r\n",
    b"HELLO 4\r\nGET none\r\n", b"P" * 70_000, b"P" * 65_000 + b"\r\n", b"P" * 70_000 + b"\r\n",
    b"ECHO " + b"x" * 65_000 + b"\r\n", b"ECHO " + b"x" * 65_529 + b"\r\n",
)
BYTES = (
    A_PING, A_PING + A_PING, b"*0\r\n" + A_PING, b"*-1\r\n" + A_PING, b"*-2\r\n" + A_PING,
    b"*-9223372036854775808\r\n" + A_PING, b"*-10\r\n" + A_PING, b"*-0\r\n" + A_PING,
    b"*00\r\n" + A_PING, b"*01\r\n$4\r\nPING\r\n", b"*+1\r\n$4\r\nPING\r\n",
    b"* 1\r\n$4\r\nPING\r\n", b"*1 \r\n$4\r\nPING\r\n", b"*\r\n" + A_PING, b"*a\r\n" + A_PING,
    b"*1a\r\n" + A_PING, b"*1.0\r\n" + A_PING, b"*--1\r\n" + A_PING, b"*1\n$4\nPING\n",
    b"*1\r$4\r\nPING\r\n" + A_PING, b"*1\r\n$04\r\nPING\r\n", b"*1\r\n$+4\r\nPING\r\n",
    b"*1\r\n$-1\r\n" + A_PING, b"*1\r\n$-4\r\nPING\r\n", b"*1\r\n$\r\nPING\r\n",
    b"*1\r\n$a\r\nPING\r\n", b"*1\r\n$4a\r\nPING\r\n", b"*1\r\n$ 4\r\nPING\r\n",
    b"*1\r\n$4\nPING\r\n" + A_PING, b"*1\r\n$0\r\n\r\n" + A_PING, b"*1\r\n$3\r\nPING\r\n" + A_PING,
    b"*1\r\n$5\r\nPING\r\n" + A_PING, b"*1\r\n$4\r\nPINGxx" + A_PING,
    b"*1\r\n$4\r\nPING\n\n" + A_PING,
    b"*1\r\n$4\r\nPING\r\r" + A_PING, b"*1\r\n:4\r\n" + A_PING, b"*1\r\n+PING\r\n" + A_PING,
    b"*1\r\nPING\r\n" + A_PING, b"*1\r\n\r\n" + A_PING, b"*1\r\n*1\r\n$4\r\nPING\r\n" + A_PING,
    b"*1\r\n_\r\n", b"*1\r\n%1\r\n", b"*2\r\n$4\r\nPING\r\n", b"*2\r\n$4\r\nPING\r\n$1\r\n",
    b"*2147483647\r\n", b"*2147483648\r\n", b"*9223372036854775807\r\n", b"*1048577\r\n",
    b"*65536\r\n", b"*65537\r\n", b"*9223372036854775808\r\n", b"*1\r\n$536870913\r\n",
    b"*1\r\n$16777216\r\n", b"*1\r\n$16777217\r\n", b"*1\r\n$9223372036854775808\r\n",
    b"*" + b"1" * 70_000, b"*1\r\n$" + b"1" * 70_000, b"*1\r\n$4\r\nPING", b"*1\r\n$4\r\nPI",
    b"*1", b"*", b"$4\r\nPING\r\n" + A_PING, b"+PING\r\n" + A_PING, b"-PING\r\n", b":1\r\n",
    b"_\r\n" + A_PING, b"%0\r\n", b"~0\r\n" + A_PING, b">1\r\n" + A_PING, b"#t\r\n" + A_PING,
    b"|1\r\n" + A_PING, b"\xff\xfe\r\n" + A_PING, b"GET / HTTP/1.1\r\n\r\n" + A_PING,
    b"POST / HTTP/1.1\r\n" + A_PING, b"post / HTTP/1.1\r\n" + A_PING, b"Host: a\r\n" + A_PING,
    b"host: a\r\n" + A_PING, b"PUT / HTTP/1.1\r\n" + A_PING, b"OPTIONS * HTTP/1.1\r\n" + A_PING,
    b"DELETE / HTTP/1.1\r\n" + A_PING, b"PATCH / HTTP/1.1\r\n" + A_PING, b"POST\r\n" + A_PING,
    b"GET / HTTP/1.1\r\nHost: a\r\n" + A_PING, b"PING\r\nHost: a\r\n" + A_PING,
    A_PING + b"Host: a\r\n",
    A_PING + b"POST / HTTP/1.1\r\n" + A_PING, b"*1\r\n$4\r\nPOST\r\n" + A_PING, b"PUT\r\n" + A_PING,
    b"*2\r\n$5\r\nHost:\r\n$1\r\na\r\n" + A_PING, b"Host:a\r\n" + A_PING, b" Host: a\r\n" + A_PING,
)


def raw_bytes():
    for data in INLINE:
        yield Raw(f"inline: {data[:40]!r}, {len(data)} bytes", data)
    for data in BYTES:
        yield Raw(f"bytes: {data[:40]!r}, {len(data)} bytes", data)
    for cut in range(1, len(A_PING) + 3):
        whole = A_PING + b"*2\r\n$4\r\nPING\r\n$1\r\na\r\n"
        yield Raw(f"bytes: cut at {cut}", whole[:cut], whole[cut:])


TABLES = (
    arities, types, numbers, options, odd_words, connection_words, tracking_words, subscriptions,
    invalidations, redirections, expiries, behind_deadlines, switches, together, ways, raw_bytes,
)
