"""What a hit through the Python binding takes, whole and by its parts, against a redis-server:
library_cost.py PORT. Each is timed in 300 batches of 1,000, of which the best and the middle one
are told, in nanoseconds. All take turns, so what else is at work slows down each alike."""

import os
import statistics
import sys
import threading
import timeit
from pathlib import Path

sys.path.insert(0, str(Path(__file__).resolve().parents[1] / "bindings" / "python"))

from zeovalki import CachedRedis, ThreadSafeCachedRedis  # noqa: E402
from zeovalki._resp import request_to_read, value_of  # noqa: E402

BATCH = 1_000
BATCHES = 300
TEXT = "x" * 100
HASHES = {"measured:2": {"name": "Ada", "visits": 10},
          "measured:5": {f"field:{number}": number for number in range(5)}}


class Timed:
    """A statement, and the times of its batches."""

    def __init__(self, what, statement, **names):
        self.what = what
        self.timer = timeit.Timer(statement, globals=names)
        self.times = []

    def run(self):
        self.times.append(1e9 * self.timer.timeit(BATCH) / BATCH)

    def tell(self):
        print(f"{self.what:44} {min(self.times):7.0f} {statistics.median(self.times):7.0f}")


def of_the_machine(client):
    yield Timed("a look-up in a dict", "names['a']", names={"a": 1})
    yield Timed("a call of Python with no work", "work()", work=lambda: None)
    yield Timed("a call of C with no work", "call(client)", client=client._client,
                call=client.library.zeovalki_ended)


def of_parts(redis):
    client = redis._client
    client.ask(request_to_read("HGETALL", "measured:2", "utf-8"))
    small = client.answer()
    request = request_to_read("GET", "measured", "utf-8")
    client.ask(request)
    answer = client.answer()
    yield Timed("the request of a GET", "of('GET', 'measured', 'utf-8')", of=request_to_read)
    yield Timed("ask", "ask(request)", ask=client.ask, request=request)
    yield Timed("answer, of 100 bytes", "answer()", answer=client.answer)
    yield Timed("its value", "of(answer, None)", of=value_of, answer=answer)
    yield Timed("its value, as str", "of(answer, 'utf-8')", of=value_of, answer=answer)
    yield Timed("a hash of two fields", "of(answer, None)", of=value_of, answer=small)
    yield Timed("that one call is in progress", "alone(work)", alone=redis._alone,
                work=lambda: None)
    yield Timed("a lock", "with lock: pass", lock=threading.RLock())
    yield Timed("which process it is", "of()", of=os.getpid)
    yield Timed("a look at the socket", "look()", look=redis._link.received)


def of_hits(redis, name):
    assert len(redis.get("measured")) == 100
    yield Timed(f"{name}: get", "get('measured')", get=redis.get)
    for key, fields in HASHES.items():
        assert len(redis.hgetall(key)) == len(fields)
        yield Timed(f"{name}: hgetall of {len(fields)}", "hgetall(key)", hgetall=redis.hgetall,
                    key=key)


def main(port):
    redis = CachedRedis("127.0.0.1", port)
    redis.set("measured", TEXT)
    for key, fields in HASHES.items():
        redis.delete(key)
        redis.hset(key, mapping=fields)
    redis.get("measured")
    redis.hgetall("measured:2")
    timed = [*of_the_machine(redis._client), *of_parts(redis)]
    for kind in (CachedRedis, ThreadSafeCachedRedis):
        for encoding in (None, "utf-8"):
            each = kind("127.0.0.1", port, encoding=encoding)
            timed += of_hits(each, f"{kind.__name__}, {encoding or 'bytes'}")
    for _ in range(BATCHES):
        for each in timed:
            each.run()
    for each in timed:
        each.tell()


if __name__ == "__main__":
    main(*map(int, sys.argv[1:2]))
