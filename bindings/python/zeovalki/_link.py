"""The connection's socket: how it is opened, and how bytes are carried without a wait that has no
bound."""

import select
import socket
import ssl
import threading
import time

from ._library import PIECE
from ._resp import ReplyError, request_of

# What a socket that does not wait raises where it would have to.
NOT_NOW = (BlockingIOError, InterruptedError, ssl.SSLWantReadError, ssl.SSLWantWriteError)


class Address:
    """Where a server is, and who speaks to it: what is sent before the library takes over."""

    def __init__(self, host, port, *, unix_socket_path=None, tls=None, username=None,
                 password=None, database=0, client_name=None, connect_timeout=None):
        if username is not None and password is None:
            raise ValueError("a username goes with a password")
        tls = ssl.create_default_context() if tls is True else tls or None
        if tls is not None and unix_socket_path is not None:
            raise ValueError("a Unix socket has no TLS")
        self._host, self._port, self._path = host, port, unix_socket_path
        self._tls = tls
        self._timeout = connect_timeout
        self._commands = []
        if password is not None:
            user = [] if username is None else [username]
            self._commands.append(("AUTH", *user, password))
        if client_name is not None:
            self._commands.append(("CLIENT", "SETNAME", client_name))
        if database != 0:
            self._commands.append(("SELECT", database))

    def open(self):
        """A link on which the user, the name and the database are set. Where the server refuses
        one, ReplyError is raised, and there is no link."""
        link = self._connect()
        try:
            if self._commands:
                self._set_up(link)
        except BaseException:
            link.close()
            raise
        return link

    def _connect(self):
        try:
            return Link(self._connect_unix() if self._path is not None else self._connect_tcp())
        except socket.timeout:
            # before Python 3.10 it is no TimeoutError
            raise TimeoutError("the server can't be reached") from None

    def _connect_unix(self):
        link = socket.socket(socket.AF_UNIX, socket.SOCK_STREAM)
        try:
            link.settimeout(self._timeout)
            link.connect(self._path)
            return link
        except BaseException:
            link.close()
            raise

    def _connect_tcp(self):
        link = socket.create_connection((self._host, self._port), self._timeout)
        try:
            link.setsockopt(socket.IPPROTO_TCP, socket.TCP_NODELAY, 1)
            link.setsockopt(socket.SOL_SOCKET, socket.SO_KEEPALIVE, 1)
            if self._tls is None:
                return link
            return self._tls.wrap_socket(link, server_hostname=self._host)
        except BaseException:
            link.close()
            raise

    def _set_up(self, link):
        """Each command is answered by one line, and nothing else comes before the library's own."""
        link.send(b"".join(request_of(words) for words in self._commands), self._timeout)
        came = b""
        while came.count(b"\r\n") < len(self._commands):
            came += link.receive(self._timeout)
        for words, line in zip(self._commands, came.split(b"\r\n")):
            if line != b"+OK":
                raise ReplyError(f"{words[0]}: {line[1:].decode(errors='replace')}")


class Link:
    """A socket that never waits by itself: each wait is here, and has its bound.

    One thread may send while another one receives: with TLS, whose state is one for both, each
    takes its turn, which no wait is a part of.
    """

    def __init__(self, link):
        link.setblocking(False)
        self._socket = link
        self._turn = threading.Lock() if isinstance(link, ssl.SSLSocket) else None
        self._reads, self._writes = select.poll(), select.poll()
        self._reads.register(link, select.POLLIN)
        self._writes.register(link, select.POLLOUT)

    def _alone(self, work, data):
        if self._turn is None:
            return work(data)
        with self._turn:
            return work(data)

    def received(self):
        """What has arrived, or None; no bytes where the peer has ended the connection."""
        if self._turn is None and not self._reads.poll(0):
            return None
        try:
            return self._alone(self._socket.recv, PIECE)
        except NOT_NOW:
            return None

    def receive(self, seconds):
        """The next bytes. TimeoutError where none arrive for so many seconds."""
        end = None if seconds is None else time.monotonic() + seconds
        while (data := self.received()) is None:
            self._wait(self._reads, end)
        if not data:
            raise ConnectionResetError("the server has ended the connection")
        return data

    def send(self, data, seconds):
        """All of the bytes. TimeoutError where none leave for so many seconds."""
        rest = memoryview(data)
        while rest:
            end = None if seconds is None else time.monotonic() + seconds
            while (sent := self._sent(rest)) is None:
                self._wait(self._writes, end)
            rest = rest[sent:]

    def _sent(self, rest):
        try:
            return self._alone(self._socket.send, rest)
        except NOT_NOW:
            return None

    @staticmethod
    def _wait(poll, end):
        left = None if end is None else 1000 * (end - time.monotonic())
        if not poll.poll(left if left is None else max(0, left)) and left is not None:
            raise TimeoutError("the server does not answer")

    def wait(self, seconds):
        """Whether something has arrived, or the connection has ended, within so many seconds."""
        return bool(self._reads.poll(None if seconds is None else 1000 * seconds))

    def keeps_alive(self):
        return self._socket.getsockopt(socket.SOL_SOCKET, socket.SO_KEEPALIVE) != 0

    def shut(self):
        """Both ways are shut: who waits for it is woken."""
        try:
            self._socket.shutdown(socket.SHUT_RDWR)
        except OSError:
            pass

    def close(self):
        self._socket.close()
