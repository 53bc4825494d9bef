"""A connection of one thread."""

import math
import os
import time

from ._commands import Connection
from ._library import (BYTES, CONTROL, DONE, HIT, NO_MEMORY, NO_QUERY, NO_REQUEST, NOT_READY,
                       NOT_YET, QUIET, REPLY, SENT)
from ._resp import is_passing, request_of

PING = request_of(("PING",))

# What `stats` tells.
COUNTED = ("hits", "misses", "invalidations", "commands", "connections")


def summed(counts, client):
    """The counts with those of a client, if there is one."""
    more = {} if client is None else client.counts()
    return {name: count + more.get(name, 0) for name, count in counts.items()}


class CachedRedis(Connection):
    """A connection to a Redis server of version 6 or later, whose reads are cached.

        CachedRedis(host="localhost", port=6379, capacity=10_000, **settings)

    Words are bytes, str, int or float, and buffers of bytes. Answers are bytes, or str where an
    encoding is given; None is nil, and an error reply is raised as a ReplyError. Where the
    connection is lost a call raises ConnectionError, or TimeoutError, and the next one connects
    anew with an empty cache; so it does after any other exception in the middle of a call, such as
    KeyboardInterrupt. `Settings` has the settings.

    A call while another is in progress, in this thread or in another, and one in a forked child
    raises RuntimeError.
    """

    def __init__(self, host="localhost", port=6379, capacity=10_000, **settings):
        super().__init__(host, port, capacity, **settings)
        self._link = None
        self._client = None
        # of the clients before this one, and what they don't count
        self._counts = dict.fromkeys(COUNTED, 0)
        self._callers = {}
        # whether the last call came to its end, and so left no reply behind
        self._is_whole = False
        self._alone(self._connect)

    def stats(self):
        """Hits, misses, invalidations, other commands, and connections that were made."""
        return self._alone(lambda: summed(self._counts, self._client))

    def held(self):
        """How many keys are held, and how many bytes of queries and values: it goes over all."""
        return self._alone(lambda: self._client.held())

    def close(self):
        if os.getpid() == self._process:
            self._alone(self._disconnect)
        elif self._link is not None:
            self._link.close()

    def _answer(self, request):
        return self._alone(self._answered, request)

    def _answers(self, requests):
        return self._alone(self._all_answered, requests)

    def _alone(self, work, *arguments):
        """A call from its begin to its end. What one left that did not come to its end goes."""
        if os.getpid() != self._process:
            raise RuntimeError("a connection can't be used in a forked child: make another one")
        caller = object()
        try:
            # of two callers one is the first here
            if self._callers.setdefault("first", caller) is not caller:
                raise RuntimeError("another call of this connection is in progress")
            if not self._is_whole:
                self._disconnect()
            self._is_whole = False
            answer = work(*arguments)
            self._is_whole = True
            return answer
        except BaseException:
            if self._callers.get("first") is caller:
                self._disconnect()
            raise
        finally:
            # without a call, at whose return an interrupt could come
            if "first" in self._callers and self._callers["first"] is caller:
                del self._callers["first"]

    def _connect(self):
        self._counts = summed(self._counts, self._client)
        self._client = self._settings.client()
        self._link = self._settings.address.open()
        self._note_sound()
        self._counts["connections"] += 1

    def _disconnect(self):
        if self._link is not None:
            self._link.close()
            self._link = None
        if self._client is not None:
            self._client.end()

    def _answered(self, request):
        """The bytes of the answer, or why a command was refused, of which nothing was sent."""
        self._prepare()
        answer = self._asked(request)
        return self._received([answer])[0] if isinstance(answer, _Number) else answer

    def _all_answered(self, requests):
        self._prepare()
        return self._received([self._asked(request) for request in requests])

    def _received(self, answers):
        """The replies in the place of the numbers of commands, which are sent."""
        if any(isinstance(answer, _Number) for answer in answers):
            self._send()
        answers = [
            self._reply(it.number) if isinstance(it, _Number) else it for it in answers
        ]
        if any(isinstance(it, bytes) and is_passing(it) for it in answers):
            self._disconnect()
        return answers

    def _prepare(self):
        """A connection whose messages were processed."""
        while self._link is not None and (data := self._link.received()) is not None:
            self._feed(data)
        if self._link is not None and time.monotonic() >= self._silent_at:
            self._check_health()
        if self._link is None:
            self._connect()
        if self._settings.is_aged:
            self._client.time(time.monotonic_ns() // 1000)

    def _asked(self, request):
        """What is held; or the number of a command that goes to the server."""
        status = self._client.ask(request)
        if status == HIT:
            return self._client.answer()
        if status == NOT_READY:
            status = self._taken(self._client.ask, request)
        if status == NO_QUERY:
            status = self._taken(self._client.send, request)
            self._counts["commands"] += status == SENT
        if status in (CONTROL, NO_REQUEST):
            return refusal(status)
        if status != SENT:
            raise refusal(status)
        return _Number(self._client.number())

    def _taken(self, work, request):
        """What the client tells of a command, once it is set up."""
        while (status := work(request)) == NOT_READY:
            self._send()
            self._feed(self._link.receive(self._settings.wait()))
        return status

    def _reply(self, number, seconds=None):
        while (status := self._client.poll(number)) == NOT_YET:
            self._feed(self._link.receive(self._settings.timeout if seconds is None else seconds))
        if status != REPLY:
            raise refusal(status)
        return self._client.answer()

    def _send(self):
        while (status := self._client.take_out()) == BYTES:
            self._link.send(self._client.answer(), self._settings.timeout)
        if status != QUIET:
            raise refusal(status)

    def _feed(self, data):
        self._note_sound()
        if not data:
            raise ConnectionResetError("the server has ended the connection")
        if self._client.feed(data) != DONE:
            raise refusal(NO_MEMORY)

    def _note_sound(self):
        """The server was heard: until when it need not be asked whether it is there."""
        interval = self._settings.interval
        self._silent_at = math.inf if interval is None else time.monotonic() + interval

    def _check_health(self):
        """A PING is answered, or the connection ends."""
        try:
            if self._taken(self._client.send, PING) == SENT:
                number = self._client.number()
                self._send()
                self._reply(number, self._settings.wait())
            else:
                self._disconnect()
        except OSError:
            self._disconnect()


class _Number:
    """A command that is on its way."""

    def __init__(self, number):
        self.number = number


def refusal(status):
    """Why a call did not do what it was asked; a ValueError where nothing has happened."""
    if status == CONTROL:
        return ValueError("the command would change how the server serves this connection")
    if status == NO_REQUEST:
        return ValueError("no command")
    if status == NO_MEMORY:
        return MemoryError()
    return ConnectionError("the connection has ended")
