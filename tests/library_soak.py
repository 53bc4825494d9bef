"""Asks for keys for long, while a second connection changes them: library_soak.py PORT HITS FETCHES.
It ends with 1 where an answer is older than the last invalidation of its key that was read, or where
the memory at the end is more than 5 percent above that after the first hundred thousand asks."""

import random
import socket
import sys
import time
from pathlib import Path

sys.path.insert(0, str(Path(__file__).resolve().parents[1] / "bindings" / "python"))

from zeovalki import CachedRedis  # noqa: E402

KEYS = 1000
WARM = 100_000
AHEAD = 64


class Watched(CachedRedis):
    """A connection that knows, of each key, the oldest version that an answer may have."""

    def __init__(self, *words, **settings):
        self.fetched = [0] * KEYS
        self.oldest = [0] * KEYS
        super().__init__(*words, **settings)

    def _feed(self, data):
        super()._feed(data)
        # so little comes between two asks that each invalidation is in one piece
        for push in data.split(b">2\r\n$10\r\ninvalidate\r\n*1\r\n")[1:]:
            key = int(push.split(b"\r\n", 2)[1].split(b":")[1])
            # the write that it tells of came after the last fetch
            self.oldest[key] = self.fetched[key] + 1


class Writer:
    """A connection that changes keys, and is answered up to so many commands later."""

    def __init__(self, port):
        self.link = socket.create_connection(("127.0.0.1", port))
        self.awaited = 0

    def change(self, key):
        self.link.sendall(b"INCR key:%d\r\n" % key)
        self.awaited += 1
        while self.awaited >= AHEAD:
            self.awaited -= self.link.recv(4096).count(b"\n")


def resident():
    return int(Path("/proc/self/statm").read_text().split()[1])


def main(port, hits, fetches):
    chosen = random.Random(1)
    each = hits // fetches + 1
    keys = [f"key:{key}" for key in range(KEYS)]
    writer = Writer(port)
    stats, first, asks = {"hits": 0, "misses": 0}, 0, 0
    began = time.monotonic()
    with Watched("127.0.0.1", port, capacity=KEYS, max_age=1_000_000) as reader:
        while stats["hits"] < hits or stats["misses"] < fetches:
            if chosen.randrange(each) == 0:
                writer.change(chosen.randrange(KEYS))
            key = chosen.randrange(KEYS)
            missed = reader._client.count(1)
            version = int(reader.get(keys[key]) or 0)
            if version < reader.oldest[key]:
                print(f"key:{key} is {version} and was invalidated at {reader.oldest[key]}")
                return 1
            if reader._client.count(1) != missed:
                reader.fetched[key] = version
            asks += 1
            if asks % WARM == 0:
                stats = reader.stats()
                first = first or resident()
        last = resident()
        stats = reader.stats()
    print(f"Python: {stats['hits']} hits, {stats['misses']} fetches, {stats['invalidations']}"
          f" invalidations in {time.monotonic() - began:.0f} s; {last} pages, and {first} at first")
    return int(last * 100 > first * 105)


if __name__ == "__main__":
    sys.exit(main(*map(int, sys.argv[1:4])))
