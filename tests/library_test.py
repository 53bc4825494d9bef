"""Plays a recorded dialogue through the Python binding: library_test.py FILE PIECE. It ends with 1
where a call tells anything else than the dialogue says."""

import sys
from pathlib import Path

sys.path.insert(0, str(Path(__file__).resolve().parents[1] / "bindings" / "python"))

from zeovalki import DONE, Client  # noqa: E402

LETTERS = {"r": "\r", "n": "\n", "s": " "}


def read_bytes(text):
    """The bytes of a printed form."""
    if text == "-":
        return b""
    letters = iter(text)
    return "".join(
        LETTERS.get(escaped := next(letters), escaped) if letter == "\\" else letter
        for letter in letters
    ).encode("latin-1")


def feed(client, data, piece):
    status = DONE
    for at in range(0, len(data), piece or len(data)):
        status = client.feed(data[at : at + (piece or len(data))])
    return status


def call(client, verb, argument, piece):
    """The status, the number and the answer that a call tells."""
    if verb == "ended":
        return int(client.ended()), 0, b""
    if verb == "count":
        return client.count(int(argument)), 0, b""
    if verb == "feed":
        status = feed(client, read_bytes(argument), piece)
    elif verb in ("ask", "send"):
        status = getattr(client, verb)(read_bytes(argument))
    elif verb in ("poll", "take", "time"):
        name = "take_out" if verb == "take" else verb
        status = getattr(client, name)(int(argument))
    else:
        status = getattr(client, verb)()
    return status, client.number(), client.answer()


TRACKINGS = ["default", "optin", "optout", "bcast"]


def words_of(line):
    """The words of prefixes, which stand as a command or as a line."""
    parts = line.split(b"\r\n")
    return parts[2::2] if line.startswith(b"*") else parts[0].split()


def make(lines):
    """A client by the first lines of a dialogue, each an option and its value; and how many."""
    options = {"max_age": 0, "tracking": 0, "noloop": 0, "prefixes": "-"}
    count = 0
    while lines[count].split()[0] in options:
        name, value = lines[count].split()
        options[name] = value
        count += 1
    prefixes = words_of(read_bytes(options["prefixes"])) if options["prefixes"] != "-" else []
    return count, Client(100, int(options["max_age"]), prefixes=prefixes,
                         tracking=TRACKINGS[int(options["tracking"])],
                         noloop=options["noloop"] == "1")


def main(path, piece):
    lines = Path(path).read_text().splitlines()
    count, client = make(lines)
    failed = 0
    for number, line in enumerate(lines[count:], count + 1):
        if line.startswith("#"):
            continue
        verb, argument, *wanted, answer = line.split()
        told = call(client, verb, argument, piece)
        if told != (*map(int, wanted), read_bytes(answer)):
            print(f"line {number} tells {told}", file=sys.stderr)
            failed = 1
    return failed


if __name__ == "__main__":
    sys.exit(main(sys.argv[1], int(sys.argv[2])))
