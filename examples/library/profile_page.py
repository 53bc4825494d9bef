"""A profile page that is shown 1,000 times, while another program changes the profile ten times.

    python3 examples/library/profile_page.py [PORT]
"""

import sys
from pathlib import Path

sys.path.insert(0, str(Path(__file__).resolve().parents[2] / "bindings" / "python"))

from zeovalki import CachedRedis  # noqa: E402


def main(port=6379):
    with CachedRedis("localhost", port, encoding="utf-8") as page, CachedRedis(
        "localhost", port
    ) as writer:
        writer.execute("HSET", "profile:7", "name", "Ada", "visits", 0)
        for shown in range(1000):
            if shown % 100 == 50:
                writer.execute("HINCRBY", "profile:7", "visits", 1)
            profile = page.execute("HGETALL", "profile:7")
        stats = page.stats()
        print(f"{profile['name']} has {profile['visits']} visits")
        print(f"{stats['hits']} pages from the cache, {stats['misses']} from the server")


if __name__ == "__main__":
    main(*map(int, sys.argv[1:2]))
