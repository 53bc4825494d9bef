"""What both connections offer: commands as methods, pipelines, and their options."""

import math
import os

from ._library import Client
from ._link import Address
from ._resp import ReplyError, request_of, request_to_read, value_of, word_of


class Settings:
    """What a connection is made with.

    - `capacity`: how many keys are held at most.
    - `db`, `username`, `password`, `client_name`: set before the cache begins.
    - `ssl`: an `ssl.SSLContext`, or True for the default one; `unix_socket_path`: a path in the
      place of host and port.
    - `encoding`: answers are str by it; None for bytes.
    - `timeout`: how many seconds a call waits for the server; None for ever. `connect_timeout`: how
      many it waits for a connection; as `timeout` where it is not given.
    - `health_check_interval`: where nothing was read for so many seconds a PING goes out, whose
      answer is waited for as long at most; None for never.
    - `max_age`: after how many seconds what was fetched is fetched anew; None for never.
    - `tracking`: default, optin, optout or bcast, the last with `prefixes`; `noloop`: the server
      does not tell of this connection's own writes.
    """

    def __init__(self, host, port, capacity, *, db=0, username=None, password=None, ssl=None,
                 unix_socket_path=None, client_name=None, encoding=None, timeout=None,
                 connect_timeout=None, health_check_interval=30, max_age=None, tracking="default",
                 prefixes=(), noloop=False):
        self.encoding = encoding
        self.timeout = timeout
        self.interval = health_check_interval
        self.is_aged = max_age is not None
        self.address = Address(
            host, port, unix_socket_path=unix_socket_path, tls=ssl, username=username,
            password=password, database=db, client_name=client_name,
            connect_timeout=timeout if connect_timeout is None else connect_timeout)
        self._limits = (capacity, _microseconds(max_age))
        self._tracking = {
            "tracking": tracking,
            "prefixes": [word_of(prefix, encoding or "utf-8") for prefix in prefixes],
            "noloop": noloop,
        }

    def client(self):
        return Client(*self._limits, **self._tracking)

    def wait(self):
        """How long the answer to a set-up or a PING is waited for."""
        waits = [wait for wait in (self.interval, self.timeout) if wait is not None]
        return min(waits, default=None)


def _microseconds(max_age):
    """A bound in whole microseconds, 0 for none."""
    if max_age is None:
        return 0
    if not 0 < max_age < math.inf:
        raise ValueError("max_age is a number of seconds above 0, or None")
    return max(1, int(1_000_000 * max_age))


def _told(value):
    """The value; an error is raised."""
    if isinstance(value, Exception):
        raise value
    return value


def _is_ok(value):
    """True where a SET was done; None where its condition did not hold."""
    return True if _told(value) in ("OK", b"OK") else value


def _is_one(value):
    return _told(value) == 1


def _is_pong(value):
    return _told(value) in ("PONG", b"PONG")


def _strings(values):
    """The values of keys as MGET tells them, to which a key of another type is None."""
    return [None if is_wrong_type(value) else _told(value) for value in values]


def is_wrong_type(value):
    return isinstance(value, ReplyError) and str(value).startswith("WRONGTYPE")


def _listed(name, others):
    """Names that are given as a list, or one by one, as redis-py takes them."""
    names = list(name) if isinstance(name, (list, tuple, set, frozenset)) else [name]
    return names + list(others)


class Commands:
    """Commands as methods, by redis-py's names, words and answers.

    `_run` takes a command's words, and what makes the method's answer of its value; `_run_all`
    takes commands, and what makes the answer of their values.
    """

    def _read(self, name, key):
        """A read that has a key alone."""
        return self._run((name, key))

    def execute(self, *words):
        """The answer to any command. Reads of strings and hashes are answered from the cache."""
        return self._run(words)

    execute_command = execute

    def get(self, name):
        """The value of a key, from the cache where it is held."""
        return self._read("GET", name)

    def mget(self, keys, *args):
        """The values of keys, each from the cache where it is held; the others in one round trip,
        and so not of one moment."""
        return self._run_all([("GET", name) for name in _listed(keys, args)], _strings)

    def strlen(self, name):
        return self._read("STRLEN", name)

    def hget(self, name, key):
        return self._run(("HGET", name, key))

    def hmget(self, name, keys, *args):
        return self._run(("HMGET", name, *_listed(keys, args)))

    def hgetall(self, name):
        """The fields of a hash with their values, a dict."""
        return self._read("HGETALL", name)

    def hexists(self, name, key):
        return self._run(("HEXISTS", name, key), _is_one)

    def exists(self, *names):
        """How many of the keys there are; of one key from the cache where it is held."""
        return self._run(("EXISTS", *names))

    def set(self, name, value, ex=None, px=None, nx=False, xx=False, keepttl=False):
        """True where it was set; None where nx or xx did not hold."""
        words = ["SET", name, value]
        words += [] if ex is None else ["EX", ex]
        words += [] if px is None else ["PX", px]
        words += ["KEEPTTL"] * bool(keepttl) + ["NX"] * bool(nx) + ["XX"] * bool(xx)
        return self._run(words, _is_ok)

    def hset(self, name, key=None, value=None, mapping=None):
        """How many fields were added."""
        pairs = [] if key is None else [key, value]
        for field in mapping or {}:
            pairs += [field, mapping[field]]
        return self._run(("HSET", name, *pairs))

    def delete(self, *names):
        """How many keys were deleted."""
        return self._run(("DEL", *names))

    def expire(self, name, time):
        """Whether there is such a key, which then has so many seconds to live."""
        return self._run(("EXPIRE", name, time), _is_one)

    def ttl(self, name):
        return self._run(("TTL", name))

    def ping(self):
        return self._run(("PING",), _is_pong)


class Connection(Commands):
    """A connection whose reads are cached. `_answer` gives the bytes of the answer to a request, or
    why it was refused, and `_answers` those of several."""

    def __init__(self, host="localhost", port=6379, capacity=10_000, **settings):
        self._settings = Settings(host, port, capacity, **settings)
        self._encoding = self._settings.encoding
        self._word_encoding = self._encoding or "utf-8"
        self._process = os.getpid()

    def pipeline(self, transaction=False):
        """Commands that are sent together. No other client's commands are kept from running in
        between: there are no transactions."""
        if transaction:
            raise ValueError("there are no transactions: MULTI is refused")
        return Pipeline(self)

    def _read(self, name, key):
        # most hits come this way, so it is a short one
        answer = self._answer(request_to_read(name, key, self._word_encoding))
        return _told(value_of(answer, self._encoding))

    def _run(self, words, made=_told):
        answer = self._answer(request_of(words, self._word_encoding))
        return made(value_of(answer, self._encoding))

    def _run_all(self, commands, made):
        return made(self._values(commands))

    def _values(self, commands):
        answers = self._answers([request_of(words, self._word_encoding) for words in commands])
        return [value_of(answer, self._encoding) for answer in answers]

    def _answer(self, request):
        raise NotImplementedError

    def _answers(self, requests):
        raise NotImplementedError

    def __enter__(self):
        return self

    def __exit__(self, *_):
        self.close()

    def close(self):
        raise NotImplementedError

    def __reduce__(self):
        raise TypeError("a connection can't be copied")


class Pipeline(Commands):
    """Commands that wait for `execute()`, which sends them in one go. Each method of a command gives
    the pipeline itself."""

    def __init__(self, connection):
        self._connection = connection
        self._waiting = []

    def _run(self, words, made=_told):
        return self._run_all([words], lambda values: made(values[0]))

    def _run_all(self, commands, made):
        self._waiting.append((commands, made))
        return self

    def execute(self, *words, raise_on_error=True):
        """Without words, the answers to all that waits, in its order, those that are held among
        them; the first error is raised once each was answered, or stands in its place. With words,
        one command more."""
        if words:
            return super().execute(*words)
        waiting, self._waiting = self._waiting, []
        values = iter(self._connection._values([it for commands, _ in waiting for it in commands]))
        answers = [_made(made, [next(values) for _ in commands]) for commands, made in waiting]
        if raise_on_error:
            for answer in answers:
                if isinstance(answer, Exception):
                    raise answer
        return answers

    execute_command = execute

    def __len__(self):
        return len(self._waiting)

    def __enter__(self):
        return self

    def __exit__(self, *_):
        self._waiting = []


def _made(made, values):
    """A method's answer, or its error."""
    try:
        return made(values)
    except (ReplyError, ValueError) as error:
        return error
