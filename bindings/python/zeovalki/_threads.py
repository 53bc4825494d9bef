"""One cache for many threads."""

import collections
import os
import threading
import time

from ._commands import Connection
from ._connection import COUNTED, PING, refusal, summed
from ._library import (BYTES, CONTROL, DONE, HIT, NO_MEMORY, NO_QUERY, NO_REQUEST, NOT_READY,
                       NOT_YET, QUIET, REPLY, SENT)
from ._resp import is_passing


class ThreadSafeCachedRedis(Connection):
    """One connection and one cache for any number of threads.

        ThreadSafeCachedRedis(host="localhost", port=6379, capacity=10_000, **settings)

    It takes commands and settings as `CachedRedis` does. A thread of its own reads what the server
    sends, so a hit asks the cache alone: it waits for no socket, and no fetch of another thread
    holds it up. A call that waits longer than `timeout` raises TimeoutError and leaves the
    connection to the others. Where the connection is lost, each call that waits for a reply raises
    ConnectionError, and the next call connects anew, with an empty cache.

    A call in a forked child raises RuntimeError.
    """

    def __init__(self, host="localhost", port=6379, capacity=10_000, **settings):
        self._session = None
        super().__init__(host, port, capacity, **settings)
        self._connecting = threading.RLock()
        # of the sessions before this one
        self._counts = dict.fromkeys(COUNTED, 0)
        self._current()

    def stats(self):
        """Hits, misses, invalidations, other commands, and connections that were made."""
        with self._connecting:
            return dict(self._counts if self._session is None
                        else self._session.summed(self._counts))

    def held(self):
        """How many keys are held, and how many bytes of queries and values: it goes over all, and
        holds up each other thread for so long."""
        return self._on_session(_Session.held)

    def close(self):
        if self._session is None:
            return
        if os.getpid() != self._process:
            self._session.leave()
            return
        with self._connecting:
            if self._session is not None:
                self._session.end()
                self._retire()

    def __del__(self):
        # the reader knows the session alone, so it keeps no connection that nobody has
        if getattr(self, "_session", None) is not None and os.getpid() == self._process:
            self._session.give_up()

    def _answer(self, request):
        return self._on_session(_Session.answered, request)

    def _answers(self, requests):
        return self._on_session(_Session.all_answered, requests)

    def _on_session(self, work, *arguments):
        if os.getpid() != self._process:
            raise RuntimeError("a connection can't be used in a forked child: make another one")
        session = None
        try:
            session = self._current()
            return work(session, *arguments)
        except BaseException:
            # an interrupt may come where a lock is let go, so this thread may still have it
            let_go(self._connecting)
            if session is not None:
                session.let_go()
            raise

    def _current(self):
        """The session that serves; a new one where the last has ended."""
        session = self._session
        if session is not None and session.serves:
            return session
        with self._connecting:
            if self._session is None or not self._session.serves:
                self._retire()
                self._session = _Session(self._settings)
                self._counts["connections"] += 1
            return self._session

    def _retire(self):
        """Calls that wait in the session are still answered by it, and no new ones."""
        if self._session is not None:
            self._counts = self._session.summed(self._counts)
            self._session = None


def let_go(lock):
    """The thread no longer has the lock, if it has it."""
    try:
        while True:
            lock.release()
    except RuntimeError:
        pass


class _Awaited:
    """A reply that a thread waits for."""

    def __init__(self):
        self._answer = None
        self._there = threading.Lock()
        self._there.acquire()

    def put(self, answer):
        self._answer = answer
        self._there.release()

    def take(self, end):
        left = -1 if end is None else max(0, end - time.monotonic())
        if not self._there.acquire(timeout=left):
            raise TimeoutError("the server does not answer")
        if isinstance(self._answer, Exception):
            raise self._answer
        return self._answer


class _Session:
    """A connection from its begin to its end, with its client, its cache and its reader.

    `_lock` is held for each use of the client, and never while anything is waited for. `_sending`
    is held while bytes are taken out and sent, so that they leave in their order.
    """

    def __init__(self, settings):
        self._settings = settings
        self._is_aged = settings.is_aged
        self._lock = threading.RLock()
        self._sending = threading.RLock()
        # by number, as they were sent
        self._waiting = collections.deque()
        self._commands = 0
        self._is_over = False
        self._is_pinged = False
        # whether new calls may use it
        self.serves = True
        self._client = settings.client()
        self._link = settings.address.open()
        try:
            self._set_up()
            self._reader = threading.Thread(target=self._read, name="zeovalki", daemon=True)
            self._reader.start()
        except BaseException:
            self._link.close()
            raise

    def summed(self, counts):
        """The counts with those of this session."""
        with self._lock:
            more = summed(counts, self._client)
            more["commands"] += self._commands
        return more

    def held(self):
        with self._lock:
            return self._client.held()

    def let_go(self):
        let_go(self._lock)
        let_go(self._sending)

    def answered(self, request):
        """The bytes of the answer, or why a command was refused, of which nothing was sent."""
        with self._lock:
            if self._is_aged:
                self._tell_time()
            answer = self._asked(request)
        return self._received([answer])[0] if isinstance(answer, _Awaited) else answer

    def all_answered(self, requests):
        with self._lock:
            if self._is_aged:
                self._tell_time()
            answers = [self._asked(request) for request in requests]
        return self._received(answers)

    def _received(self, answers):
        """The replies in the place of those that are awaited, whose commands are sent."""
        if not any(isinstance(answer, _Awaited) for answer in answers):
            return answers
        self._send()
        seconds = self._settings.timeout
        end = None if seconds is None else time.monotonic() + seconds
        return [it.take(end) if isinstance(it, _Awaited) else it for it in answers]

    def _tell_time(self):
        self._client.time(time.monotonic_ns() // 1000)

    def _asked(self, request):
        """What is held; or a reply that is awaited. Of who holds the lock."""
        status = self._client.ask(request)
        if status == HIT:
            return self._client.answer()
        if status == NO_QUERY:
            status = self._client.send(request)
            self._commands += status == SENT
        if status in (CONTROL, NO_REQUEST):
            return refusal(status)
        if status != SENT:
            self.serves = False
            raise refusal(status)
        awaited = _Awaited()
        self._waiting.append((self._client.number(), awaited))
        return awaited

    def _send(self):
        """All that is to be sent. Where that is broken off, the bytes are lost: so is the link."""
        try:
            with self._sending:
                while data := self._taken_out():
                    self._link.send(data, self._settings.timeout)
        except BaseException:
            self.end()
            raise

    def _taken_out(self):
        with self._lock:
            status = self._client.take_out()
            if status == BYTES:
                return self._client.answer()
        if status != QUIET:
            raise refusal(status)
        return None

    def _set_up(self):
        """The server has answered the library's set-up, and a PING behind it."""
        while True:
            self._send()
            status = self._client.send(PING)
            if status != NOT_READY:
                break
            self._feed(self._link.receive(self._settings.wait()))
        if status != SENT:
            raise ConnectionError("the server refuses the set-up")
        awaited = _Awaited()
        self._waiting.append((self._client.number(), awaited))
        self._send()
        while self._waiting:
            self._feed(self._link.receive(self._settings.wait()))
        awaited.take(None)

    def _read(self):
        """The reader: what the server sends is processed, until the session ends."""
        try:
            while not self._is_over:
                data = self._link.received()
                if data is not None:
                    self._feed(data)
                elif not self._link.wait(self._settings.interval):
                    self._on_silence()
        except Exception:
            # each who waits is told that the connection has ended
            pass
        self.end()
        # nobody sends now
        with self._sending:
            self._link.close()

    def _feed(self, data):
        if not data:
            raise ConnectionResetError("the server has ended the connection")
        with self._lock:
            self._is_pinged = False
            status = self._client.feed(data)
            self._hand_out()
            has_ended = self._client.ended() or not (self.serves or self._waiting)
        if status != DONE:
            raise refusal(NO_MEMORY)
        if has_ended:
            raise ConnectionError("the connection has ended")

    def _hand_out(self):
        """The replies that are there, to those who wait. Of who holds the lock."""
        while self._waiting:
            number, awaited = self._waiting[0]
            status = self._client.poll(number)
            if status == NOT_YET:
                return
            answer = self._client.answer() if status == REPLY else refusal(status)
            if status == REPLY and is_passing(answer):
                # it may be held: new calls go to a new cache
                self.serves = False
            self._waiting.popleft()
            awaited.put(answer)

    def _on_silence(self):
        """A PING goes out; where one is out already the peer is gone."""
        if self._is_pinged:
            raise TimeoutError("the server is silent")
        # who sends takes out what stands there
        if not self._sending.acquire(blocking=False):
            return
        self._sending.release()
        with self._lock:
            if self._client.send(PING) != SENT:
                raise ConnectionError("the connection has ended")
            self._waiting.append((self._client.number(), _Awaited()))
            self._is_pinged = True
        self._send()

    def end(self):
        """The connection is lost, or is given up: who waits is told so."""
        self.serves = False
        with self._lock:
            self._is_over = True
            self._client.end()
            self._hand_out()
        self._link.shut()

    def give_up(self):
        """As `end`, which the reader does. It waits for no lock, so any thread may do it anywhere."""
        self.serves = False
        self._link.shut()

    def leave(self):
        """In a forked child: the socket is closed here, and goes on in the parent."""
        self.serves = False
        self._link.close()
