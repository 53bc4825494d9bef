"""The Python binding of one thread against a server that stands in for Redis: one that stops reading,
one that falls silent, interrupts, other threads, forks, settings, pipelines, and words and answers
of each type. It ends with 1 where the binding does anything else than docs/library.md says."""

import copy
import os
import random
import signal
import socket
import subprocess
import sys
import tempfile
import threading
import time
import unittest
import zipfile
from pathlib import Path

import stand_in

from zeovalki import CachedRedis, Client, ReplyError

TOP = Path(__file__).resolve().parents[1]


class Test(stand_in.Test):
    def connect(self, **options):
        redis = CachedRedis("127.0.0.1", self.server.port, **options)
        self.addCleanup(redis.close)
        return redis


class Interrupted(Test):
    def test_a_timeout_in_sending_ends_the_connection(self):
        redis = self.connect(timeout=0.3)
        redis.execute("SET", "small", "old")
        self.server.deaf = 0.5
        big = b"x" * 12_000_000
        with self.assertRaises(TimeoutError):
            redis.execute("SET", "big", big)
        self.server.deaf = 0
        redis.execute("SET", "small", "new")
        self.assertEqual(redis.get("small"), b"new")
        time.sleep(1)
        self.assertEqual(self.server.faults, [])
        self.assertIn(self.server.values.get(b"big", big), [big])
        self.assertEqual(redis.stats()["connections"], 2)

    def test_a_timeout_in_receiving_leaves_no_reply(self):
        redis = self.connect(timeout=0.2)
        self.server.values = {b"a": b"a", b"b": b"b"}
        redis.execute("PING")
        self.server.delay = 0.4
        with self.assertRaises(TimeoutError):
            redis.get("a")
        self.server.delay = 0
        time.sleep(0.5)
        self.assertEqual([redis.get("b"), redis.get("a")], [b"b", b"a"])

    def test_an_interrupt_gives_no_other_keys_value(self):
        redis = self.connect()
        chosen = random.Random(1)
        wrong, cut = [], 0
        for trial in range(200):
            key = b"key:%d" % trial
            self.server.values[key] = key
            try:
                self.check_until_interrupted(redis, key, wrong, chosen.uniform(0.00002, 0.0006))
            except KeyboardInterrupt:
                cut += 1
            self.check(redis, key, wrong)
        self.assertEqual(wrong, [])
        self.assertGreater(cut, 50)
        self.assertEqual(self.server.faults, [])

    def check_until_interrupted(self, redis, key, wrong, seconds):
        try:
            signal.setitimer(signal.ITIMER_REAL, seconds)
            for _ in range(30):
                self.check(redis, key, wrong)
        finally:
            # no later than here
            signal.setitimer(signal.ITIMER_REAL, 0)

    def check(self, redis, key, wrong):
        answers = (redis.execute("GET", key), redis.execute("ECHO", key))
        if answers != (key, b"echo"):
            wrong.append((key, *answers))

    def setUp(self):
        super().setUp()
        self.addCleanup(signal.signal, signal.SIGALRM, signal.getsignal(signal.SIGALRM))
        signal.signal(signal.SIGALRM, signal.default_int_handler)


REFUSED = """AUTH x;HELLO;HELLO 2 SETNAME x;RESET;QUIT;SELECT 1;SWAPDB 0 1;MULTI;multi;EXEC;DISCARD
WATCH k;UNWATCH;SUBSCRIBE a b;UNSUBSCRIBE;PSUBSCRIBE a;PUNSUBSCRIBE;SSUBSCRIBE a;SUNSUBSCRIBE
MONITOR;SYNC;PSYNC ? -1;REPLCONF x;ASKING;READONLY;READWRITE;DEBUG SLEEP 1;SHUTDOWN X Y;FAILOVER
CLIENT;CLIENT REPLY OFF;CLIENT TRACKING OFF;CLIENT KILL ID 1;SCRIPT DEBUG YES"""


class Commands(Test):
    def test_what_changes_the_connection_is_refused(self):
        redis = self.connect()
        self.server.values = {b"k": b"1"}
        redis.get("k")
        for line in REFUSED.replace("\n", ";").split(";"):
            with self.assertRaisesRegex(ValueError, "how the server serves", msg=line):
                redis.execute(*line.split())
        self.assertEqual(redis.get("k"), b"1")
        stats = redis.stats()
        self.assertEqual((stats["hits"], stats["connections"]), (1, 1))
        self.assertEqual(self.server.names(), [b"GET"])
        redis.execute("CLIENT", "SETNAME", "x")

    def test_what_an_unknown_command_writes_is_not_read_from_the_cache(self):
        redis = self.connect()
        for words in [("SETEX", "k", "1"), ("EVAL", "script", 1, "k", "2")]:
            redis.execute("SET", "k", "old")
            self.assertEqual([redis.get("k"), redis.get("k")], [b"old", b"old"])
            redis.execute(*words)
            self.assertEqual(redis.get("k"), words[-1].encode())

    def test_an_error_of_the_server_makes_the_cache_anew(self):
        redis = self.connect()
        for name, connections in [("XGROUP", 1), ("FCALL", 2)]:
            with self.assertRaises(ReplyError):
                redis.execute(name)
            redis.execute("PING")
            self.assertEqual(redis.stats()["connections"], connections)


class Ages(Test):
    def test_no_hit_is_older_than_the_bound(self):
        redis = self.connect(max_age=0.3)
        self.server.values = {b"k": b"1"}
        self.assertEqual(redis.get("k"), b"1")
        self.server.values = {b"k": b"2"}
        self.assertEqual(redis.get("k"), b"1")
        time.sleep(0.35)
        self.assertEqual(redis.get("k"), b"2")
        self.assertEqual(redis.stats()["hits"], 1)

    def test_a_bound_that_is_none_is_refused(self):
        for bound in (0, -1, float("inf"), float("nan")):
            with self.assertRaises(ValueError):
                self.connect(max_age=bound)


class Silent(Test):
    def test_a_silent_peer_is_given_up(self):
        redis = self.connect(health_check_interval=0.3)
        self.server.values = {b"k": b"1"}
        self.assertEqual([redis.get("k"), redis.get("k")], [b"1", b"1"])
        self.server.silent = {0}
        self.server.values = {b"k": b"2"}
        time.sleep(0.4)
        self.assertEqual(redis.get("k"), b"2")
        self.assertEqual(redis.stats()["connections"], 2)

    def test_a_peer_that_answers_a_ping_lives(self):
        redis = self.connect(health_check_interval=0.2)
        self.server.values = {b"k": b"1"}
        redis.get("k")
        time.sleep(0.3)
        self.assertEqual(redis.get("k"), b"1")
        stats = redis.stats()
        self.assertEqual((stats["hits"], stats["connections"]), (1, 1))
        self.assertEqual(self.server.names(), [b"GET", b"PING"])

    def test_a_set_up_that_is_not_answered_is_given_up(self):
        self.server.silent = {0}
        redis = self.connect(health_check_interval=0.3)
        with self.assertRaises(TimeoutError):
            redis.get("k")
        self.assertIsNone(redis.get("k"))

    def test_the_socket_is_kept_alive(self):
        redis = self.connect()
        self.assertTrue(redis._link.keeps_alive())


class Limits(Test):
    def test_a_limit_that_is_not_served_is_refused(self):
        for capacity, max_age in [(0, 0), (1_000_001, 0), (2**64 + 5, 0), (-1, 0), (1, -1), (1, 2**64)]:
            with self.assertRaises(ValueError, msg=(capacity, max_age)):
                Client(capacity, max_age)
        with self.assertRaises(TypeError):
            Client(1.5)

    def test_a_missing_library_is_one_error(self):
        code = "import zeovalki\ntry: zeovalki.Client(1)\nexcept OSError: print('missing')"
        done = subprocess.run(
            [sys.executable, "-c", code], capture_output=True, text=True, check=False,
            env={**os.environ, "PYTHONPATH": str(stand_in.BINDING),
                 "ZEOVALKI_LIBRARY": "/no/such.so"})
        self.assertEqual((done.stdout, done.stderr), ("missing\n", ""))


class Types(Test):
    def test_words(self):
        redis = self.connect()
        integers = memoryview(b"\1\0\0\0\2\0\0\0").cast("i")
        rows = [(b"\0", b"\0"), ("\u00e9", b"\xc3\xa9"), (-5, b"-5"), (1.5, b"1.5"),
                (1e100, b"1e+100"), (memoryview(b"ab"), b"ab"), (bytearray(b"ab"), b"ab"),
                (integers, b"\1\0\0\0\2\0\0\0")]
        for word, wanted in rows:
            redis.execute("SET", "k", word)
            self.assertEqual(redis.get("k"), wanted)
        for word in (None, True, [], object()):
            with self.assertRaisesRegex(TypeError, "a word of a command"):
                redis.execute("SET", "k", word)
        with self.assertRaisesRegex(ValueError, "no command"):
            redis.execute()
        self.assertEqual(redis.get("k"), bytes(integers))
        self.assertEqual(redis.stats()["connections"], 1)

    def test_an_encoding_is_that_of_words_and_answers(self):
        redis = self.connect(encoding="latin-1")
        redis.execute("SET", "\u00e9", "\u00fc")
        self.assertEqual(self.server.values, {b"\xe9": b"\xfc"})
        self.assertEqual(redis.get("\u00e9"), "\u00fc")

    def test_sets(self):
        redis = self.connect()
        self.assertEqual(redis.execute("SMEMBERS", "s"), {b"a", b"b"})
        self.assertEqual(redis.execute("SLOWSET", "s"), [[b"a"]])

    def test_maps(self):
        redis = self.connect()
        long = b"x" * 300
        rows = [(b"%0\r\n", {}), (b"%1\r\n$1\r\na\r\n_\r\n", {b"a": None}),
                (b"%1\r\n$0\r\n\r\n$300\r\n" + long + b"\r\n", {b"": long}),
                # as many lines as with texts alone, and lines that look like sizes
                (b"%1\r\n$5\r\na\r\n$1\r\n:5\r\n", {b"a\r\n$1": 5}),
                (b"%1\r\n$2\r\n\r\n\r\n$4\r\n\r\n$1\r\n", {b"\r\n": b"\r\n$1"}),
                (b"%1\r\n*1\r\n$1\r\na\r\n$1\r\nb\r\n", [([b"a"], b"b")])]
        for answer, wanted in rows:
            self.server.answers[b"MAP"] = answer
            self.assertEqual(redis.execute("MAP"), wanted)

    def test_no_copy(self):
        with self.assertRaises(TypeError):
            copy.copy(self.connect())


class Callers(Test):
    def test_a_second_thread_raises(self):
        redis = self.connect()
        self.server.values = {b"slow": b"slow", b"k": b"k"}
        redis.execute("PING")
        self.server.delay = 0.4
        answers = []
        thread = threading.Thread(target=lambda: answers.append(redis.get("slow")))
        thread.start()
        time.sleep(0.1)
        with self.assertRaisesRegex(RuntimeError, "in progress"):
            redis.get("k")
        with self.assertRaisesRegex(RuntimeError, "in progress"):
            redis.close()
        thread.join()
        self.server.delay = 0
        self.assertEqual(answers, [b"slow"])
        self.assertEqual([redis.get("k"), redis.get("slow")], [b"k", b"slow"])
        self.assertEqual(redis.stats()["connections"], 1)

    def test_a_forked_child_raises(self):
        redis = self.connect()
        self.server.values = {b"k": b"1"}
        redis.get("k")
        child = os.fork()
        if child == 0:
            try:
                redis.get("k")
            except RuntimeError:
                redis.close()
                os._exit(0)
            os._exit(1)
        self.assertEqual(os.waitstatus_to_exitcode(os.waitpid(child, 0)[1]), 0)
        self.assertEqual(redis.get("k"), b"1")
        stats = redis.stats()
        self.assertEqual((stats["hits"], stats["connections"]), (1, 1))


class Settings(Test):
    def test_user_name_and_database_come_before_the_set_up(self):
        self.server.password = b"secret"
        redis = self.connect(username="ada", password="secret", db=2, client_name="page")
        self.assertIsNone(redis.get("k"))
        self.assertEqual(self.server.heard[:4], [
            [b"AUTH", b"ada", b"secret"], [b"CLIENT", b"SETNAME", b"page"], [b"SELECT", b"2"],
            [b"HELLO", b"3"]])

    def test_they_are_sent_on_each_connection(self):
        self.server.password = b"secret"
        redis = self.connect(password="secret", timeout=1)
        redis.ping()
        self.server.connections[0].cut()
        with self.assertRaises(ConnectionError):
            redis.ping()
        redis.ping()
        self.assertEqual([it[0] for it in self.server.heard].count(b"AUTH"), 2)

    def test_a_wrong_password_is_told(self):
        self.server.password = b"secret"
        with self.assertRaisesRegex(ReplyError, "AUTH: WRONGPASS"):
            self.connect(password="guess")
        with self.assertRaises(ValueError):
            self.connect(username="ada")

    def test_a_unix_socket(self):
        with tempfile.TemporaryDirectory() as folder:
            path = f"{folder}/redis.sock"
            server = stand_in.StandIn(path)
            self.addCleanup(server.listener.close)
            with CachedRedis(unix_socket_path=path, capacity=5) as redis:
                redis.set("k", "1")
                self.assertEqual([redis.get("k"), redis.get("k")], [b"1", b"1"])
                self.assertEqual(redis.stats()["hits"], 1)

    def test_nobody_who_listens_is_told(self):
        with socket.create_server(("127.0.0.1", 0)) as listener:
            port = listener.getsockname()[1]
        with self.assertRaises(ConnectionRefusedError):
            CachedRedis("127.0.0.1", port, connect_timeout=1)

    def test_each_tracking_is_asked_for(self):
        rows = [({}, []), ({"tracking": "optin"}, [b"OPTIN"]),
                ({"tracking": "optout", "noloop": True}, [b"OPTOUT", b"NOLOOP"]),
                ({"tracking": "bcast"}, [b"BCAST"]),
                ({"tracking": "bcast", "prefixes": ["user:", b"\r\n"]},
                 [b"BCAST", b"PREFIX", b"user:", b"PREFIX", b"\r\n"])]
        for settings, words in rows:
            redis = self.connect(**settings)
            redis.ping()
            redis.close()
            tracking = [it for it in self.server.heard if it[:2] == [b"CLIENT", b"TRACKING"]]
            self.assertEqual(tracking[-1], [b"CLIENT", b"TRACKING", b"ON", *words])

    def test_a_tracking_that_is_none_is_refused(self):
        for settings in ({"tracking": "all"}, {"prefixes": ["a"]},
                         {"tracking": "optin", "prefixes": ["a"]}):
            with self.assertRaises(ValueError, msg=settings):
                self.connect(**settings)


class Methods(Test):
    def test_answers_are_those_of_redis_py(self):
        redis = self.connect()
        self.server.values = {b"h": {b"f": b"1"}}
        rows = [(redis.set("k", "abc"), True), (redis.set("k", "x", nx=True), None),
                (redis.get("k"), b"abc"), (redis.strlen("k"), 3), (redis.exists("k"), 1),
                (redis.exists("k", "none", "h"), 2), (redis.hget("h", "f"), b"1"),
                (redis.hget("h", "g"), None), (redis.hgetall("h"), {b"f": b"1"}),
                (redis.hgetall("none"), {}), (redis.expire("k", 10), True),
                (redis.expire("none", 10), False), (redis.ping(), True),
                (redis.delete("k", "none"), 1), (redis.get("k"), None)]
        for answer, wanted in rows:
            self.assertEqual(answer, wanted)
        with self.assertRaisesRegex(ReplyError, "WRONGTYPE"):
            redis.get("h")

    def test_options_of_set(self):
        redis = self.connect()
        redis.set("k", 1, ex=5, keepttl=True, xx=True)
        redis.set("k", 1, px=7)
        self.assertEqual(self.server.heard[-2:], [
            [b"SET", b"k", b"1", b"EX", b"5", b"KEEPTTL", b"XX"],
            [b"SET", b"k", b"1", b"PX", b"7"]])

    def test_mget_asks_the_cache_of_each_key(self):
        redis = self.connect()
        self.server.values = {b"a": b"1", b"b": b"2", b"h": {b"f": b"1"}}
        self.assertEqual(redis.mget("a", "none"), [b"1", None])
        self.assertEqual(redis.mget(["a", "b", "h", "none"]), [b"1", b"2", None, None])
        self.assertEqual(self.server.names(), [b"GET"] * 4)
        stats = redis.stats()
        self.assertEqual((stats["hits"], stats["misses"]), (2, 4))

    def test_a_pipeline_goes_out_at_once(self):
        redis = self.connect()
        self.server.values = {b"a": b"1", b"h": {b"f": b"1"}}
        redis.get("a")
        pipeline = redis.pipeline()
        answers = (pipeline.get("a").set("b", "2").get("b").mget("a", "b").hget("h", "f")
                   .execute("ECHO", "x").execute())
        self.assertEqual(answers, [b"1", True, b"2", [b"1", b"2"], b"1", b"echo"])
        self.assertEqual(redis.get("b"), b"2")
        self.assertEqual(len(pipeline), 0)
        self.assertEqual(pipeline.execute(), [])

    def test_a_pipeline_keeps_errors_in_their_places(self):
        redis = self.connect()
        self.server.values = {b"a": b"1", b"h": {b"f": b"1"}}

        def filled():
            pipeline = redis.pipeline().get("a").get("h").set("b", 2)
            return pipeline.execute("SELECT", 1).get("b")

        answers = filled().execute(raise_on_error=False)
        self.assertEqual([answers[0], *answers[2:3], answers[4]], [b"1", True, b"2"])
        self.assertIsInstance(answers[1], ReplyError)
        self.assertIsInstance(answers[3], ValueError)
        with self.assertRaisesRegex(ReplyError, "WRONGTYPE"):
            filled().execute()
        self.assertEqual(redis.get("a"), b"1")
        self.assertEqual(redis.stats()["connections"], 1)

    def test_no_transactions(self):
        with self.assertRaises(ValueError):
            self.connect().pipeline(transaction=True)


class Wheel(unittest.TestCase):
    def test_it_is_installed_and_finds_its_library(self):
        with tempfile.TemporaryDirectory() as folder:
            built = subprocess.run([TOP / "tools" / "build_wheel", folder], check=True,
                                   capture_output=True, text=True)
            wheel = Path(built.stdout.strip())
            names = zipfile.ZipFile(wheel).namelist()
            self.assertIn("zeovalki/libzeovalki.so", names)
            if not self.is_installed(wheel, folder):
                self.skipTest("no pip is installed")
            code = "import zeovalki; zeovalki.Client(1); print(zeovalki.__file__)"
            environment = {**os.environ, "PYTHONPATH": f"{folder}/site"}
            environment.pop("ZEOVALKI_LIBRARY", None)
            done = subprocess.run([sys.executable, "-c", code], check=True, env=environment,
                                  cwd=folder, capture_output=True, text=True)
            self.assertEqual(done.stdout.strip(), f"{folder}/site/zeovalki/__init__.py")

    def is_installed(self, wheel, folder):
        words = [sys.executable, "-m", "pip", "--disable-pip-version-check", "install", "--no-index",
                 "--quiet", "--target", f"{folder}/site", wheel]
        done = subprocess.run(words, check=False, capture_output=True, text=True)
        if "No module named pip" in done.stderr:
            return False
        self.assertEqual(done.returncode, 0, done.stderr)
        return True


if __name__ == "__main__":
    unittest.main()
