"""A server that stands in for Redis, in threads of a test's own: strings and hashes in small, one
that stops reading, one that falls silent, one that is slow."""

import os
import socket
import sys
import threading
import time
import unittest
from pathlib import Path

BINDING = Path(__file__).resolve().parents[1] / "bindings" / "python"
sys.path.insert(0, os.environ.get("ZEOVALKI_BINDING", str(BINDING)))

WRONGTYPE = b"-WRONGTYPE Operation against a key holding the wrong kind of value\r\n"


def blob(text):
    return b"$%d\r\n%b\r\n" % (len(text), text)


def invalidation(key):
    return b">2\r\n$10\r\ninvalidate\r\n*1\r\n" + blob(key)


def spelled(value):
    if value is None:
        return b"_\r\n"
    return WRONGTYPE if isinstance(value, dict) else blob(value)


def hash_answer(words, value):
    if not isinstance(value, dict):
        return WRONGTYPE
    if words[0] == b"HGET":
        return spelled(value.get(words[2]))
    return b"%%%d\r\n" % len(value) + b"".join(blob(k) + blob(v) for k, v in value.items())


class Connection:
    """One connection to the stand-in, in a thread of its own."""

    def __init__(self, server, link):
        self.server = server
        self.link = link
        self.sending = threading.Lock()
        self.number = len(server.connections)
        threading.Thread(target=self.serve, daemon=True).start()

    def serve(self):
        try:
            with self.link, self.link.makefile("rb") as heard:
                while words := self.read(heard):
                    self.server.heard.append(words)
                    time.sleep(self.server.slow.get(words[-1], self.server.delay))
                    if self.number not in self.server.silent:
                        self.send(self.answer(words))
        except (OSError, ValueError):
            pass

    def send(self, data):
        with self.sending:
            self.link.sendall(data)

    def cut(self):
        self.link.shutdown(socket.SHUT_RDWR)

    def read(self, heard):
        """The words of the next command; anything else is a fault of the client."""
        line = heard.readline()
        if not line.endswith(b"\r\n"):
            return None
        if line[:1] != b"*":
            self.server.faults.append(line[:40])
            return None
        words = []
        for _ in range(int(line[1:])):
            size = heard.readline()
            if not size.endswith(b"\r\n"):
                return None
            if size[:1] != b"$":
                self.server.faults.append(size[:40])
                return None
            time.sleep(self.server.deaf)
            word = heard.read(int(size[1:]) + 2)
            if len(word) < int(size[1:]) + 2:
                return None
            words.append(word[:-2])
        return words

    def answer(self, words):
        name, values = words[0].upper(), self.server.values
        if name == b"AUTH":
            is_known = words[-1] == self.server.password
            return b"+OK\r\n" if is_known else b"-WRONGPASS invalid username-password pair\r\n"
        if name == b"GET":
            return spelled(values.get(words[1]))
        if name == b"STRLEN":
            return b":%d\r\n" % len(values.get(words[1], b""))
        if name == b"EXISTS":
            return b":%d\r\n" % sum(word in values for word in words[1:])
        if name in (b"HGET", b"HGETALL"):
            return hash_answer(words, values.get(words[1], {}))
        if name in (b"EXPIRE", b"HEXISTS"):
            return b":%d\r\n" % (words[1] in values)
        if name == b"SET" and words[3:] == [b"NX"] and words[1] in values:
            return b"_\r\n"
        if name == b"SET":
            values[words[1]] = words[2]
            return b"+OK\r\n" + invalidation(words[1])
        if name == b"DEL":
            gone = [word for word in words[1:] if values.pop(word, None) is not None]
            return b":%d\r\n" % len(gone) + b"".join(map(invalidation, gone))
        if name in (b"SETEX", b"EVAL"):
            # the reply comes first, and the invalidation only with the next reply, as from Redis
            values[words[-2]] = words[-1]
            return b"+OK\r\n"
        return self.server.answers.get(name, b"+OK\r\n")


class StandIn:
    """A server in small: strings, and answers that are given by the name of a command."""

    def __init__(self, path=None):
        self.values = {}
        self.password = None
        self.slow = {}
        self.heard = []
        self.faults = []
        self.connections = []
        self.silent = set()
        self.deaf = 0
        self.delay = 0
        self.answers = {
            b"HELLO": b"%1\r\n" + blob(b"proto") + b":3\r\n",
            b"PING": b"+PONG\r\n",
            b"ECHO": b"+echo\r\n",
            b"SMEMBERS": b"~2\r\n$1\r\na\r\n$1\r\nb\r\n",
            b"SLOWSET": b"~1\r\n*1\r\n$1\r\na\r\n",
            b"XGROUP": b"-BUSYGROUP Consumer Group name already exists\r\n",
            b"FCALL": b"-BUSY Redis is busy running a script\r\n",
        }
        if path is None:
            self.listener = socket.create_server(("127.0.0.1", 0))
            self.listener.setsockopt(socket.SOL_SOCKET, socket.SO_RCVBUF, 65536)
            self.port = self.listener.getsockname()[1]
        else:
            self.listener = socket.socket(socket.AF_UNIX, socket.SOCK_STREAM)
            self.listener.bind(path)
            self.listener.listen()
        threading.Thread(target=self.accept, daemon=True).start()

    def accept(self):
        try:
            while True:
                link, _ = self.listener.accept()
                self.connections.append(Connection(self, link))
        except OSError:
            pass

    def change(self, key, value):
        """Another client writes, and each connection is told so."""
        self.values[key] = value
        for connection in self.connections:
            try:
                connection.send(invalidation(key))
            except OSError:
                pass

    def names(self):
        """The names of the commands that were heard, without those of the set-up."""
        return [words[0] for words in self.heard if words[0] not in (b"HELLO", b"CLIENT")]


class Test(unittest.TestCase):
    def setUp(self):
        self.server = StandIn()
        self.addCleanup(self.server.listener.close)
