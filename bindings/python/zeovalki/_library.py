"""The library's client, through ctypes. Nothing here knows of sockets."""

import ctypes
import operator
import os
from pathlib import Path

DONE, HIT, SENT, NOT_YET, REPLY, BYTES, QUIET, ENDED = range(8)
NOT_READY, CONTROL, NO_NUMBER, LOG_FULL, NO_MEMORY, NO_REQUEST, NO_QUERY = range(8, 15)
BAD_LIMIT, BAD_TRACKING, BAD_NOLOOP, BAD_PREFIXES, BAD_RESERVED = range(15, 20)

PIECE = 65536
CAPACITY_MOST = 1_000_000
NUMBER_MOST = 2**64 - 1

# What is counted, by the numbers of the header. To count keys and bytes goes over all of them.
HITS, MISSES, INVALIDATIONS, KEYS_HELD, BYTES_HELD = range(5)

# How the server is to track, by the numbers of the header.
TRACKINGS = {"default": 0, "optin": 1, "optout": 2, "bcast": 3}


class _Options(ctypes.Structure):
    """`zeovalki_options` of the header."""

    _fields_ = [
        ("capacity", ctypes.c_uint64),
        ("max_age", ctypes.c_uint64),
        ("tracking", ctypes.c_uint64),
        ("noloop", ctypes.c_uint64),
        ("reserved", ctypes.c_uint64 * 4),
    ]


def _path():
    """The shared library: where ZEOVALKI_LIBRARY says, or in this package, as a wheel has it, or
    where tools/build_library puts it."""
    named = os.environ.get("ZEOVALKI_LIBRARY")
    if named is not None:
        return named
    here = Path(__file__).resolve()
    packed = here.parent / "libzeovalki.so"
    return str(packed if packed.exists() else here.parents[3] / "out" / "libzeovalki.so")


def _load():
    # no call waits, so that each keeps the interpreter to itself: a thread that gave it up would
    # have to wait for it again
    library = ctypes.PyDLL(_path())
    client, number, size = ctypes.c_void_p, ctypes.c_uint64, ctypes.c_size_t
    for name, parameters in {
        "new_with_prefixes": (ctypes.POINTER(_Options), ctypes.c_char_p, size,
                              ctypes.POINTER(ctypes.c_void_p)),
        "feed": (client, ctypes.c_char_p, size),
        "take_out": (client, number),
        "ask": (client, ctypes.c_char_p, size),
        "send": (client, ctypes.c_char_p, size),
        "poll": (client, number),
        "time": (client, number),
        "end": (client,),
        "ended": (client,),
        "number": (client,),
        "count": (client, number),
        "answer": (client, ctypes.c_void_p, size),
        "close": (client,),
    }.items():
        function = getattr(library, f"zeovalki_{name}")
        function.argtypes = parameters
        function.restype = ctypes.c_uint64
    library.rattle_dealloc.argtypes = (client,)
    library.rattle_dealloc.restype = None
    return library


def _room(size):
    """Room for an answer, and what each call is told of it."""
    room = ctypes.create_string_buffer(size)
    return room, ctypes.c_void_p(ctypes.addressof(room)), ctypes.c_size_t(size)


def _within(name, number, least, most):
    """A whole number between these; ctypes would cut off the rest of another."""
    if not least <= operator.index(number) <= most:
        raise ValueError(f"{name} is {least} to {most}, and not {number}")
    return number


def _tracking(name, prefixes):
    """The number of a tracking."""
    if name not in TRACKINGS:
        raise ValueError(f"tracking is one of {', '.join(TRACKINGS)}, and not {name}")
    if prefixes and name != "bcast":
        raise ValueError("prefixes go with the tracking bcast alone")
    return TRACKINGS[name]


class Client:
    """The library's client: bytes go in and come out, and each call tells a status.

    It is one thread's at a time, and no forked child's. `max_age` is in the unit of the times that
    are told; 0 is no bound. `tracking` is default, optin, optout or bcast, the last with `prefixes`
    in bytes; with `noloop` the server does not tell of this connection's own writes.
    """

    library = None
    _client = None

    def __init__(self, capacity, max_age=0, *, tracking="default", prefixes=(), noloop=False):
        options = _Options(
            capacity=_within("capacity", capacity, 1, CAPACITY_MOST),
            max_age=_within("max_age", max_age, 0, NUMBER_MOST),
            tracking=_tracking(tracking, prefixes),
            noloop=bool(noloop),
        )
        if Client.library is None:
            Client.library = _load()
        self._room = _room(4096)
        words = b"".join(b"$%d\r\n%b\r\n" % (len(prefix), prefix) for prefix in prefixes)
        written = b"*%d\r\n%b" % (len(prefixes), words) if prefixes else b""
        made = ctypes.c_void_p()
        status = self.library.zeovalki_new_with_prefixes(
            ctypes.byref(options), written, len(written), ctypes.byref(made))
        if status == NO_MEMORY:
            raise MemoryError
        if status != DONE:
            raise ValueError(f"an option that the library does not serve, by its status {status}")
        self._client = made
        # a hit calls these two, and finds them here in less time
        self._ask, self._answer = self.library.zeovalki_ask, self.library.zeovalki_answer

    def feed(self, data):
        return self.library.zeovalki_feed(self._client, data, len(data))

    def take_out(self, most=PIECE):
        return self.library.zeovalki_take_out(self._client, most)

    def ask(self, request):
        return self._ask(self._client, request, len(request))

    def send(self, request):
        return self.library.zeovalki_send(self._client, request, len(request))

    def poll(self, number):
        return self.library.zeovalki_poll(self._client, number)

    def time(self, now):
        """The time of the asks that follow."""
        return self.library.zeovalki_time(self._client, now)

    def end(self):
        return self.library.zeovalki_end(self._client)

    def ended(self):
        return self.library.zeovalki_ended(self._client) != 0

    def number(self):
        """The number that the last call told."""
        return self.library.zeovalki_number(self._client)

    def count(self, name):
        """The count of that name: HITS and so on."""
        return self.library.zeovalki_count(self._client, name)

    def counts(self):
        """The counts that take no time to tell."""
        return {"hits": self.count(HITS), "misses": self.count(MISSES),
                "invalidations": self.count(INVALIDATIONS)}

    def held(self):
        """How many keys are held, and how many bytes of queries and values."""
        sizes = {"keys": self.count(KEYS_HELD), "bytes": self.count(BYTES_HELD)}
        if NUMBER_MOST in sizes.values():
            raise MemoryError
        return sizes

    def answer(self):
        """The bytes that the last call told."""
        room, start, most = self._room
        size = self._answer(self._client, start, most)
        if size > len(room):
            # at once, since an interrupt may come between
            self._room = room, start, most = _room(2 * size)
            self._answer(self._client, start, most)
        return room[:size]

    def close(self):
        """What it has is let go; a later call tells that its link has ended."""
        if self._client is not None:
            return self.library.zeovalki_close(self._client)
        return DONE

    def __del__(self):
        if self._client is not None:
            self.close()
            self.library.rattle_dealloc(self._client)
            self._client = None
