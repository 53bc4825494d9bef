"""A Redis connection with a client-side cache, over the library libzeovalki.

    from zeovalki import CachedRedis

    with CachedRedis("localhost", 6379, capacity=10_000) as redis:
        redis.set("greeting", "hello")
        redis.get("greeting")        # b"hello", from the server
        redis.get("greeting")        # b"hello", from the cache

A `CachedRedis` is one thread's at a time; `ThreadSafeCachedRedis` is for any number of threads.
docs/library.md says what a user has to know.
"""

from ._commands import Pipeline, Settings
from ._connection import CachedRedis
from ._library import (BAD_LIMIT, BAD_NOLOOP, BAD_PREFIXES, BAD_RESERVED, BAD_TRACKING, BYTES,
                       CONTROL, DONE, ENDED, HIT, LOG_FULL, NO_MEMORY, NO_NUMBER, NO_QUERY,
                       NO_REQUEST, NOT_READY, NOT_YET, QUIET, REPLY, SENT, Client)
from ._resp import ReplyError
from ._threads import ThreadSafeCachedRedis

__version__ = "0.1.0"

__all__ = [
    "BAD_LIMIT", "BAD_NOLOOP", "BAD_PREFIXES", "BAD_RESERVED", "BAD_TRACKING", "BYTES", "CONTROL",
    "CachedRedis", "Client", "DONE", "ENDED", "HIT", "LOG_FULL", "NOT_READY", "NOT_YET",
    "NO_MEMORY", "NO_NUMBER", "NO_QUERY", "NO_REQUEST", "Pipeline", "QUIET", "REPLY",
    "ReplyError", "SENT", "Settings", "ThreadSafeCachedRedis",
]
