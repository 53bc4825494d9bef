"""One cache for many threads, by the Python binding, against a server that stands in for Redis: hits
while a fetch waits, many readers and writers, a lost connection, a silent peer, timeouts, forks and
interrupts. It ends with 1 where the binding does anything else than docs/library.md says."""

import gc
import os
import random
import signal
import threading
import time
import unittest

import stand_in

from zeovalki import ReplyError, ThreadSafeCachedRedis


class Test(stand_in.Test):
    def connect(self, **options):
        redis = ThreadSafeCachedRedis("127.0.0.1", self.server.port, **options)
        self.addCleanup(redis.close)
        return redis

    def wait_for(self, holds):
        """It holds within a second."""
        for _ in range(100):
            if holds():
                return
            time.sleep(0.01)
        self.fail("it does not come to hold")

    def in_thread(self, work, *words):
        """A call in a thread of its own, and the list of what it answers or raises."""
        told = []

        def run():
            try:
                told.append(work(*words))
            except Exception as error:
                told.append(error)

        thread = threading.Thread(target=run)
        thread.start()
        self.addCleanup(thread.join)
        return thread, told


class Hits(Test):
    def test_a_fetch_holds_up_no_hit(self):
        redis = self.connect()
        self.server.values = {b"slow": b"slow", b"k": b"k"}
        redis.get("k")
        self.server.slow = {b"slow": 0.5}
        thread, told = self.in_thread(redis.get, "slow")
        time.sleep(0.1)
        began = time.monotonic()
        for _ in range(1000):
            self.assertEqual(redis.get("k"), b"k")
        self.assertLess(time.monotonic() - began, 0.3)
        self.assertEqual(told, [])
        thread.join()
        self.assertEqual(told, [b"slow"])
        self.assertEqual(redis.stats()["hits"], 1000)

    def test_a_change_is_read_without_a_call(self):
        redis = self.connect()
        self.server.values = {b"k": b"1"}
        self.assertEqual([redis.get("k"), redis.get("k")], [b"1", b"1"])
        self.server.change(b"k", b"2")
        self.wait_for(lambda: redis.stats()["invalidations"] == 1)
        self.assertEqual(redis.get("k"), b"2")

    def test_many_threads_read_what_they_wrote(self):
        redis = self.connect()
        wrong = []

        def work(name):
            chosen = random.Random(name)
            mine = {}
            for count in range(200):
                key = f"{name}:{chosen.randrange(5)}"
                if chosen.random() < 0.2:
                    mine[key] = b"%d" % count
                    redis.set(key, count)
                answer = redis.get(key)
                if answer != mine.get(key):
                    wrong.append((key, answer, mine.get(key)))

        threads = [threading.Thread(target=work, args=(name,)) for name in range(8)]
        for thread in threads:
            thread.start()
        for thread in threads:
            thread.join()
        self.assertEqual(wrong, [])
        stats = redis.stats()
        self.assertEqual((stats["hits"] + stats["misses"], stats["connections"]), (1600, 1))
        self.assertEqual(self.server.faults, [])

    def test_commands_are_those_of_one_thread(self):
        redis = self.connect(encoding="utf-8")
        self.server.values = {b"h": {b"f": b"1"}, b"a": b"1"}
        self.assertEqual(redis.hgetall("h"), {"f": "1"})
        self.assertEqual(redis.mget("a", "none"), ["1", None])
        self.assertEqual(redis.pipeline().set("b", "2").get("b").execute(), [True, "2"])
        with self.assertRaisesRegex(ReplyError, "WRONGTYPE"):
            redis.get("h")
        with self.assertRaisesRegex(ValueError, "how the server serves"):
            redis.execute("MULTI")
        with self.assertRaises(TypeError):
            redis.set("k", None)
        self.assertEqual(redis.stats()["connections"], 1)

    def test_no_hit_is_older_than_the_bound(self):
        redis = self.connect(max_age=0.3)
        self.server.values = {b"k": b"1"}
        redis.get("k")
        self.server.values = {b"k": b"2"}
        self.assertEqual(redis.get("k"), b"1")
        time.sleep(0.35)
        self.assertEqual(redis.get("k"), b"2")


class Ends(Test):
    def test_a_timeout_leaves_the_connection_to_others(self):
        redis = self.connect(timeout=0.2)
        self.server.values = {b"slow": b"slow", b"k": b"k"}
        redis.get("k")
        self.server.slow = {b"slow": 0.4}
        with self.assertRaises(TimeoutError):
            redis.get("slow")
        self.assertEqual(redis.get("k"), b"k")
        time.sleep(0.4)
        self.assertEqual([redis.get("slow"), redis.execute("ECHO", "x")], [b"slow", b"echo"])
        self.assertEqual(redis.stats()["connections"], 1)

    def test_a_lost_connection_is_told_to_each_who_waits(self):
        redis = self.connect()
        self.server.values = {b"slow": b"1", b"k": b"1"}
        redis.get("k")
        self.server.slow = {b"slow": 1}
        calls = [self.in_thread(redis.get, "slow") for _ in range(3)]
        time.sleep(0.1)
        self.server.connections[0].cut()
        for thread, told in calls:
            thread.join()
            self.assertIsInstance(told[0], ConnectionError)
        self.server.values[b"k"] = b"2"
        self.assertEqual(redis.get("k"), b"2")
        self.assertEqual(redis.stats()["connections"], 2)

    def test_a_silent_peer_is_given_up(self):
        redis = self.connect(health_check_interval=0.2)
        self.server.values = {b"k": b"1"}
        redis.get("k")
        self.server.silent = {0}
        self.server.values = {b"k": b"2"}
        time.sleep(0.7)
        self.assertEqual(redis.get("k"), b"2")
        self.assertEqual(redis.stats()["connections"], 2)

    def test_a_peer_that_answers_a_ping_lives(self):
        redis = self.connect(health_check_interval=0.1)
        self.server.values = {b"k": b"1"}
        redis.get("k")
        time.sleep(0.5)
        self.assertEqual(redis.get("k"), b"1")
        stats = redis.stats()
        self.assertEqual((stats["hits"], stats["connections"]), (1, 1))

    def test_an_error_of_the_server_makes_the_cache_anew(self):
        redis = self.connect()
        self.server.values = {b"k": b"1", b"slow": b"1"}
        redis.get("k")
        self.server.slow = {b"slow": 0.3}
        thread, told = self.in_thread(redis.get, "slow")
        time.sleep(0.1)
        with self.assertRaises(ReplyError):
            redis.execute("FCALL")
        redis.get("k")
        thread.join()
        self.assertEqual(told, [b"1"])
        stats = redis.stats()
        self.assertEqual((stats["hits"], stats["connections"]), (0, 2))

    def test_a_set_up_that_is_not_answered_is_given_up(self):
        self.server.silent = {0}
        with self.assertRaises(TimeoutError):
            self.connect(health_check_interval=0.2)

    def test_no_thread_is_left(self):
        def readers():
            return [it for it in threading.enumerate() if it.name == "zeovalki"]

        with self.connect() as redis:
            redis.ping()
            self.assertEqual(len(readers()), 1)
        self.wait_for(lambda: not readers())
        # after the end it connects anew
        self.assertTrue(redis.ping())
        redis.close()
        forgotten = ThreadSafeCachedRedis("127.0.0.1", self.server.port)
        forgotten.ping()
        del forgotten
        gc.collect()
        self.wait_for(lambda: not readers())


class Processes(Test):
    def test_a_forked_child_raises(self):
        redis = self.connect()
        self.server.values = {b"k": b"1"}
        redis.get("k")
        child = os.fork()
        if child == 0:
            try:
                redis.get("k")
            except RuntimeError:
                redis.close()
                os._exit(0)
            os._exit(1)
        self.assertEqual(os.waitstatus_to_exitcode(os.waitpid(child, 0)[1]), 0)
        self.assertEqual(redis.get("k"), b"1")
        stats = redis.stats()
        self.assertEqual((stats["hits"], stats["connections"]), (1, 1))

    def test_an_interrupt_gives_no_other_keys_value(self):
        self.addCleanup(signal.signal, signal.SIGALRM, signal.getsignal(signal.SIGALRM))
        signal.signal(signal.SIGALRM, signal.default_int_handler)
        redis = self.connect()
        chosen = random.Random(1)
        wrong, cut = [], 0
        for trial in range(200):
            key = b"key:%d" % trial
            self.server.values[key] = key
            try:
                signal.setitimer(signal.ITIMER_REAL, chosen.uniform(0.00002, 0.0006))
                for _ in range(30):
                    self.check(redis, key, wrong)
                    redis.execute("DEL", "none")
            except KeyboardInterrupt:
                cut += 1
            except ConnectionError:
                pass
            finally:
                signal.setitimer(signal.ITIMER_REAL, 0)
            self.check(redis, key, wrong)
        self.assertEqual(wrong, [])
        self.assertGreater(cut, 50)
        self.assertEqual(self.server.faults, [])

    def check(self, redis, key, wrong):
        answers = (redis.execute("GET", key), redis.execute("ECHO", key))
        if answers != (key, b"echo"):
            wrong.append((key, *answers))


if __name__ == "__main__":
    unittest.main()
