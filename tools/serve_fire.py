"""A server under fire, for tools/serve_check: clients that break off, beside others that count."""

import os
import random
import threading
import time

from serve_clients import LARGE, Client, expect, request

# The clients of each kind that breaks off, and the others, 64 in all; how many keys each of these
# has, what stands for a round's number in its bytes, how long the first and smaller fire is, and
# the bytes of the largest value.
HOSTILE = 10
STEADY = 64 - 4 * HOSTILE
KEYS = 500
ROUND = b"RRRRRRRR"
WARM_SECONDS = 20
LARGEST = 16 * 2**20
# By itself the C library keeps large pieces that were let go: from where on it gives them back
# rises with the largest so far, up to 32 MiB. With this it stands still.
LET_GO = {"MALLOC_MMAP_THRESHOLD_": "262144"}


class Fire:
    """What the clients of a fire share: until when it lasts, and what they saw."""

    def __init__(self, server):
        self.server = server
        # The rounds that each steady client was answered, and the others' connections by kind.
        self.answered = [0] * STEADY
        self.connections = {"killed": 0, "silent": 0, "garbage": 0, "half": 0}
        self.sent = 0
        self.acknowledged = 0
        self.wrong = []
        self.lock = threading.Lock()

    def burn(self, seconds, commands):
        """All of them at once, for so long and until so many commands are answered. Answers the
        most memory that the server took."""
        self.begun, self.first = time.monotonic(), list(self.answered)
        self.seconds, self.rounds = seconds, -(-commands // (2 * KEYS * STEADY))
        players = self.players()
        for player in players:
            player.start()
        most = 0
        while any(player.is_alive() for player in players):
            most = max(most, self.server.memory())
            time.sleep(0.5)
        expect(not self.wrong, "; ".join(self.wrong))
        # The server sees within a second that a connection is gone.
        time.sleep(2)
        return most

    def burns(self):
        late = time.monotonic() > self.begun + self.seconds
        over = all(n - m >= self.rounds for n, m in zip(self.answered, self.first))
        return not self.wrong and not (late and over)

    def note(self, kind, sent=0, acknowledged=0):
        with self.lock:
            self.connections[kind] += 1
            self.sent += sent
            self.acknowledged += acknowledged

    def steady(self, number):
        """Sets its keys to the round's number and reads them, round by round, a thousand commands
        at a time."""
        keys = [f"own{number}:{key}" for key in range(KEYS)]
        sets = b"".join(request("SET", key, ROUND) for key in keys)
        data = sets + b"".join(request("GET", key) for key in keys[1:])
        data += request("INCR", f"rounds{number}")
        replies = b"+OK\r\n" * KEYS + b"$8\r\n%s\r\n" % ROUND * (KEYS - 1)
        pause = self.seconds / self.rounds
        with Client(self.server.port) as client:
            while self.burns():
                count = self.answered[number] + 1
                client.send(data.replace(ROUND, b"%08d" % count))
                want = replies.replace(ROUND, b"%08d" % count) + b":%d\r\n" % count
                got = client.read(len(want), 120)
                if got != want:
                    at = len(os.path.commonprefix([got, want]))
                    said = got[at:][:40]
                    self.wrong.append(f"round {count} of {number}: {said!r} at byte {at}")
                    return
                self.answered[number] = count
                ahead = self.begun + (count - self.first[number]) * pause - time.monotonic()
                time.sleep(min(max(ahead, 0), 5))

    def killed(self, number):
        """Counts, and is killed in the middle of a request, with some replies read or none."""
        chance = random.Random(number)
        half = request("SET", "never", "x" * 1000)
        while self.burns():
            with Client(self.server.port) as client:
                client.send(request("INCR", "killed") * 20 + half[: chance.randrange(1, len(half))])
                got = client.read(chance.choice((0, 1, 30, 200)), 0.2)
                client.kill()
            self.note("killed", 20, got.count(b"\n"))
            time.sleep(0.1)

    def silent(self, number):
        """Asks for much and takes nothing, until the server gives it up."""
        while self.burns():
            with Client(self.server.port) as client:
                client.send(request("GET", "large") * 7)
                for _ in range(120):
                    if not self.burns():
                        break
                    time.sleep(0.1)
                client.kill()
            self.note("silent")

    def garbage(self, number):
        chance = random.Random(number)
        while self.burns():
            with Client(self.server.port) as client:
                client.send(b"*" + chance.randbytes(chance.randrange(1, 5000)) + b"\r\n")
                client.read(100, 1)
                client.kill()
            self.note("garbage")
            time.sleep(0.1)

    def half(self, number):
        """Sends half of the largest value, waits, and breaks off."""
        head = b"*3\r\n$3\r\nSET\r\n$5\r\nnever\r\n$%d\r\n" % LARGEST
        data = head + b"z" * (LARGEST // 2)
        while self.burns():
            with Client(self.server.port) as client:
                client.send(data)
                client.read(1, 2)
                client.kill()
            self.note("half")

    def play(self, kind, number):
        """A hostile client may be cut off at any time, and then begins anew."""
        while self.burns():
            try:
                kind(number)
            except OSError as error:
                if kind == self.steady:
                    self.wrong.append(f"the connection of {number}: {error}")
                    return
                time.sleep(0.1)

    def players(self):
        kinds = [(self.steady, number) for number in range(STEADY)]
        for kind in (self.killed, self.silent, self.garbage, self.half):
            kinds += [(kind, number) for number in range(HOSTILE)]
        return [threading.Thread(target=self.play, args=each, daemon=True) for each in kinds]

    def check(self):
        """What was acknowledged is there, and nothing of what was sent by halves."""
        with Client(self.server.port) as client:
            for number, rounds in enumerate(self.answered):
                value = b"$8\r\n%08d\r\n" % rounds
                client.send(b"".join(request("GET", f"own{number}:{key}") for key in range(KEYS)))
                kept = client.read(len(value) * KEYS, 60) == value * KEYS
                expect(kept, f"not all of round {rounds} of {number} is there")
                told = b"$%d\r\n%d\r\n" % (len(str(rounds)), rounds)
                client.ask(told, "GET", f"rounds{number}")
            client.ask(b"$-1\r\n", "GET", "never")
            client.send(request("INCR", "killed"))
            counted = int(client.read(20, 1)[1:-2]) - 1
        expect(
            self.acknowledged <= counted <= self.sent,
            f"{counted} ran, {self.acknowledged} were acknowledged, {self.sent} sent",
        )


def under_fire(server, seconds, commands):
    with Client(server.port) as client:
        client.ask(b"+OK\r\n", "SET", "large", "y" * LARGE)
    fire = Fire(server)
    # The server has met each kind by then, and the system's store of memory has what it keeps.
    fire.burn(min(WARM_SECONDS, seconds), 2 * KEYS * STEADY)
    memory, threads, warm = server.memory(), server.threads(), sum(fire.answered)
    most = fire.burn(seconds, commands)
    taken = time.monotonic() - fire.begun
    expect(server.process.poll() is None, "the server ended")
    grown = server.memory() - memory
    expect(server.threads() == threads, f"{threads} threads, and {server.threads()} at the end")
    fire.check()
    expect(grown < 64, f"memory grew by {grown:.0f} MiB from {memory:.0f}")
    kinds = ", ".join(f"{count} {kind}" for kind, count in fire.connections.items())
    answered = (sum(fire.answered) - warm) * 2 * KEYS
    return (
        f"{answered} commands of {STEADY} connections in {taken:.0f} s, beside those that broke off "
        f"({kinds}); {threads} threads before and behind; memory {memory:.0f} MiB before, "
        f"{most:.0f} at most, {grown:.0f} more behind"
    )
