"""A server of this program, and connections to it by hand, for tools/serve_check."""

import os
import resource
import socket
import struct
import subprocess
import tempfile
import time
from pathlib import Path

# The bytes of a large value.
LARGE = 2**20


class Failed(Exception):
    """A step did not see what it should."""


def expect(held, what):
    if not held:
        raise Failed(what)


def request(*words):
    """The bytes of a request."""
    parts = [b"*%d\r\n" % len(words)]
    for word in words:
        data = word if isinstance(word, bytes) else word.encode()
        parts.append(b"$%d\r\n%s\r\n" % (len(data), data))
    return b"".join(parts)


class Client:
    """A connection by hand. `room` is what the system keeps of what comes, in bytes."""

    def __init__(self, port, wait=10.0, room=None):
        self.socket = socket.socket()
        if room is not None:
            self.socket.setsockopt(socket.SOL_SOCKET, socket.SO_RCVBUF, room)
        self.socket.settimeout(wait)
        self.socket.connect(("127.0.0.1", port))
        self.socket.setsockopt(socket.IPPROTO_TCP, socket.TCP_NODELAY, 1)

    def __enter__(self):
        return self

    def __exit__(self, *_):
        self.socket.close()

    def send(self, data):
        self.socket.sendall(data)

    def read(self, count, wait=10.0):
        """So many bytes, or those that came before the end or the wait."""
        self.socket.settimeout(wait)
        data = b""
        try:
            while len(data) < count:
                piece = self.socket.recv(count - len(data))
                if not piece:
                    break
                data += piece
        except (TimeoutError, ConnectionResetError):
            pass
        return data

    def ask(self, reply, *words):
        """Sends a request, and expects this reply."""
        self.send(request(*words))
        got = self.read(len(reply))
        expect(got == reply, f"{words[0]} answered {got!r}, not {reply!r}")

    def kill(self):
        """Ends the connection with a reset, whatever is in flight."""
        self.socket.setsockopt(socket.SOL_SOCKET, socket.SO_LINGER, struct.pack("ii", 1, 0))
        self.socket.close()


class Server:
    """The program as a server at a free port. `limits` are limits of the system on it, by name, and
    `more` is what its environment has beside this one's."""

    def __init__(self, program, *options, limits=(), more={}):
        with socket.socket() as probe:
            probe.bind(("127.0.0.1", 0))
            self.port = probe.getsockname()[1]

        def limit():
            for name, most in limits:
                resource.setrlimit(name, (most, most))

        self.said = tempfile.NamedTemporaryFile()
        with open(self.said.name, "ab") as said:
            self.process = subprocess.Popen(
                [program, "serve", "--port", str(self.port), *options],
                stdin=subprocess.DEVNULL,
                stdout=subprocess.PIPE,
                stderr=said,
                preexec_fn=limit,
                env=os.environ | more,
            )

    def wait_until_listening(self):
        # A port that is bound answers a connect, which the server counts as one.
        for _ in range(600):
            expect(self.process.poll() is None, "the server ended at once")
            with open("/proc/net/tcp", encoding="ascii") as table:
                if f"0100007F:{self.port:04X} 00000000:0000 0A" in table.read():
                    return
            time.sleep(0.05)
        raise Failed("the server does not listen")

    def __enter__(self):
        self.wait_until_listening()
        return self

    def __exit__(self, *_):
        if self.process.poll() is None:
            self.process.terminate()
        self.process.wait()
        self.process.stdout.close()
        self.said.close()

    def lines(self, count=0):
        """What it said on standard error so far, once it has so many lines or a while is over."""
        for _ in range(100):
            self.said.seek(0)
            lines = self.said.read().decode().splitlines()
            if len(lines) >= count:
                break
            time.sleep(0.05)
        return lines

    def pid(self):
        """The program's own number: the launcher runs it as its child."""
        for stat in Path("/proc").glob("[0-9]*/stat"):
            try:
                parent = stat.read_text().rsplit(") ", 1)[1].split()[1]
            except (FileNotFoundError, ProcessLookupError):
                continue
            if int(parent) == self.process.pid:
                return int(stat.parent.name)
        return self.process.pid

    def cpu_seconds(self):
        fields = Path(f"/proc/{self.pid()}/stat").read_text().rsplit(") ", 1)[1].split()
        return (int(fields[11]) + int(fields[12])) / os.sysconf("SC_CLK_TCK")

    def memory(self):
        """Resident memory, in MiB."""
        pages = int(Path(f"/proc/{self.pid()}/statm").read_text().split()[1])
        return pages * os.sysconf("SC_PAGE_SIZE") / 2**20

    def threads(self):
        status = Path(f"/proc/{self.pid()}/status").read_text()
        return int(status.split("Threads:")[1].split()[0])
