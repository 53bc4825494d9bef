"""Commands in bytes, and answers as Python's values."""


class ReplyError(Exception):
    """The server answered with an error."""


# Replies that tell of the server and not of the key, by their first word: a cache that held one is
# made anew.
PASSING_ERRORS = {"LOADING", "BUSY", "TRYAGAIN", "CLUSTERDOWN", "MASTERDOWN", "NOAUTH", "NOPERM"}


class _Sizes(dict):
    """The line before a text, by the text's size. Those of short texts stand ready."""

    def __init__(self, form):
        super().__init__((size, form % size) for size in range(256))
        self._form = form

    def __missing__(self, size):
        return self._form % size


SIZES, DECODED_SIZES = _Sizes(b"$%d"), _Sizes("$%d")

# Encodings that leave ASCII as it is.
PLAIN = {"ascii", "latin-1", "utf-8"}

# How reads begin that have a key alone.
READS = {name: b"*2\r\n$%d\r\n%b" % (len(name), name.encode())
         for name in ("GET", "HGETALL", "STRLEN")}

# How answers begin that are read in a shorter way.
TEXT, MAP = b"$%"


def word_of(word, encoding):
    """A word's bytes, by the rules of redis-py."""
    if isinstance(word, bytes):
        return word
    if isinstance(word, str):
        return word.encode(encoding)
    if isinstance(word, (bytearray, memoryview)):
        return bytes(word)
    if isinstance(word, int) and not isinstance(word, bool):
        return b"%d" % word
    if isinstance(word, float):
        return float.__repr__(word).encode()
    kind = "None" if word is None else type(word).__name__
    raise TypeError(f"a word of a command is bytes, str, int or float, and not {kind}")


def request_of(words, encoding="utf-8"):
    """A command's bytes."""
    lines = [b"*%d" % len(words)]
    for word in words:
        word = word.encode(encoding) if type(word) is str else word_of(word, encoding)
        lines += SIZES[len(word)], word
    lines.append(b"")
    return b"\r\n".join(lines)


def request_to_read(name, key, encoding):
    """The bytes of a read that has a key alone."""
    key = key.encode(encoding) if type(key) is str else word_of(key, encoding)
    return b"\r\n".join((READS[name], SIZES[len(key)], key, b""))


class _Reading:
    """Reads one value of RESP3, which the library has checked."""

    def __init__(self, data, encoding):
        self._data = data
        self._at = 0
        self._encoding = encoding

    def _line(self):
        end = self._data.index(b"\r\n", self._at)
        line = self._data[self._at : end]
        self._at = end + 2
        return line

    def _text(self, text):
        return text if self._encoding is None else text.decode(self._encoding)

    def _blob(self, size, skipped=0):
        text = self._data[self._at + skipped : self._at + size]
        self._at += size + 2
        return text

    def _pairs(self, count):
        pairs = [(self.value(), self.value()) for _ in range(count)]
        try:
            return dict(pairs)
        except TypeError:
            return pairs

    def _set(self, count):
        members = [self.value() for _ in range(count)]
        try:
            return set(members)
        except TypeError:
            return members

    def value(self):
        line = self._line()
        kind, rest = line[:1], line[1:]
        if kind == b"$":
            return self._text(self._blob(int(rest)))
        if kind == b"+":
            return self._text(rest)
        if kind == b":":
            return int(rest)
        if kind == b"_":
            return None
        if kind == b"-":
            return ReplyError(rest.decode(errors="replace"))
        if kind == b"!":
            return ReplyError(self._blob(int(rest)).decode(errors="replace"))
        if kind == b"=":
            return self._text(self._blob(int(rest), skipped=4))
        if kind == b"#":
            return rest == b"t"
        if kind == b"%":
            return self._pairs(int(rest))
        if kind == b"~":
            return self._set(int(rest))
        return [self.value() for _ in range(int(rest))]


def _map_of_lines(lines, sizes):
    """A map of texts that are one line each, or None where it has anything else."""
    pairs = {}
    rest = iter(lines)
    next(rest)
    for key_size, key, size, text in zip(rest, rest, rest, rest):
        # where each size holds, each line is what it seems
        if key_size != sizes[len(key)] or size != sizes[len(text)]:
            return None
        pairs[key] = text
    return pairs if len(lines) == 4 * len(pairs) + 2 else None


def _map_of_texts(answer, encoding):
    """The same, of an answer."""
    if encoding in PLAIN and answer.isascii():
        return _map_of_lines(answer.decode().split("\r\n"), DECODED_SIZES)
    pairs = _map_of_lines(answer.split(b"\r\n"), SIZES)
    if pairs is None or encoding is None:
        return pairs
    return {key.decode(encoding): text.decode(encoding) for key, text in pairs.items()}


def value_of(answer, encoding):
    """An answer's value; an error reply is a ReplyError that is not raised. Why a command was
    refused is no bytes, and stays as it is."""
    if type(answer) is not bytes:
        return answer
    kind = answer[0]
    if kind == TEXT:
        text = answer[answer.index(b"\n") + 1 : -2]
        return text if encoding is None else text.decode(encoding)
    value = _map_of_texts(answer, encoding) if kind == MAP else None
    return _Reading(answer, encoding).value() if value is None else value


def is_passing(answer):
    """Whether it is an error that tells of the server, by its first word."""
    if answer[:1] not in (b"-", b"!"):
        return False
    return str(value_of(answer, None)).partition(" ")[0] in PASSING_ERRORS
