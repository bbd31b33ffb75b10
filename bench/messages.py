#!/usr/bin/env python3
"""A second reading of the rules for messages of HTTP (RFC 9110, RFC 9112).

It reads the tables of crates/swf_test_http/data, and prints what has to come of them: what is read of each message, of each of its
beginnings, and what is written of those that are written again. It takes one byte after another, and says after each what the bytes
so far are. It knows the rules and nothing of the program.
"""
import itertools
import os
import string
import sys

FOLDER = os.path.join(os.path.dirname(os.path.abspath(__file__)), "..", "crates", "swf_test_http", "data")

ENDED = "the bytes end within a message"
LONG = "the message is too long"
BAD = "the bytes begin no message"

MOST_HEAD = 65_536
MOST_FIELDS = 100
MOST_BODY = 1_048_576
MOST_LINES = 16_777_216

CR, LF, SP, COLON, SEMICOLON = 13, 10, 32, 58, 59
ENDS = b"\r\n"
BLANKS = b" \t"
DIGITS = string.digits.encode()
HEX_DIGITS = string.hexdigits.encode()
# RFC 9110, section 5.6.2
TOKEN = (string.ascii_letters + string.digits + "!#$%&'*+-.^_`|~").encode()
# RFC 9110, section 5.5: visible characters, spaces, tabs, and bytes past ASCII
IN_VALUE = bytes([9, *range(32, 127), *range(128, 256)])
# a target's bytes: visible, or past ASCII
IN_TARGET = bytes([*range(33, 127), *range(128, 256)])
# RFC 9110, section 15: the phrases of those statuses that are written
PHRASES = {200: "OK", 201: "Created", 404: "Not Found", 500: "Internal Server Error", 503: "Service Unavailable"}

# the calls that fail, one of them each time
FAILING = (0, 2, 9)


class Bad(Exception):
    """The bytes begin no message."""


class Long(Exception):
    """The message is larger than one may be."""


class Message:
    """A request or a response: what its first line says, its fields in order, and its body."""

    def __init__(self, first, fields, body):
        self.first, self.fields, self.body = first, fields, body

    def headers(self):
        """Names in lower case and their values in ascending order; values of one name are joined."""
        joined = {}
        for name, value in self.fields:
            joined.setdefault(name.decode("ascii").lower(), []).append(value.decode("latin-1"))
        return [(name, ", ".join(joined[name])) for name in sorted(joined)]

    def told(self):
        headers = "".join(f"{told_text(name)}={told_text(value)};" for name, value in self.headers())
        return "|".join([*map(told_text, self.first), headers, told_bytes(self.body)])


class Room:
    """How many bytes a part of a message may still have."""

    def __init__(self, most):
        self.left = most


# Each of the readers below is handed a byte where it yields what the bytes before it are.


def take(room):
    """The next byte of a part."""
    if room.left == 0:
        raise Long
    room.left -= 1
    return (yield ENDED)


def take_all(room, byte, among):
    """Bytes of a class, from this one on, and the first that is none of it."""
    taken = bytearray()
    while byte in among:
        taken.append(byte)
        byte = yield from take(room)
    return bytes(taken), byte


def take_words(room, words):
    for word in words:
        if (yield from take(room)) != word:
            raise Bad


def line_end(room, byte):
    """The rest of a line end that begins with this byte: CR LF, or LF (RFC 9112, section 2.2)."""
    if byte == CR:
        byte = yield from take(room)
    if byte != LF:
        raise Bad


def first_byte(room):
    """The first byte behind empty lines (RFC 9112, section 2.2)."""
    while True:
        byte = yield from take(room)
        if byte not in ENDS:
            return byte
        yield from line_end(room, byte)


def section(room):
    """Fields, and the empty line behind them (RFC 9112, section 5). A line that begins with a blank is none."""
    fields = []
    while True:
        byte = yield from take(room)
        if byte in ENDS:
            yield from line_end(room, byte)
            return fields
        name, byte = yield from take_all(room, byte, TOKEN)
        if not name or byte != COLON:
            raise Bad
        value, byte = yield from take_all(room, (yield from take(room)), IN_VALUE)
        yield from line_end(room, byte)
        fields.append((name, value.strip(BLANKS)))


def minor_digit(room):
    byte = yield from take(room)
    if byte not in b"01":
        raise Bad
    return byte - 48


def is_utf8(text):
    try:
        text.decode("utf-8")
    except UnicodeDecodeError:
        return False
    return True


def request_head(room):
    """RFC 9112, section 3."""
    method, byte = yield from take_all(room, (yield from first_byte(room)), TOKEN)
    if not method or byte != SP:
        raise Bad
    target, byte = yield from take_all(room, (yield from take(room)), IN_TARGET)
    if not target or byte != SP or not is_utf8(target):
        raise Bad
    yield from take_words(room, b"HTTP/1.")
    minor = yield from minor_digit(room)
    yield from line_end(room, (yield from take(room)))
    fields = yield from section(room)
    return method.decode("ascii"), target.decode("utf-8"), minor, fields


def response_head(room):
    """RFC 9112, section 4. The phrase and the space before it may be missing."""
    if (yield from first_byte(room)) != b"H"[0]:
        raise Bad
    yield from take_words(room, b"TTP/1.")
    minor = yield from minor_digit(room)
    yield from take_words(room, b" ")
    digits = bytearray()
    for _ in range(3):
        digits.append((yield from take(room)))
        if digits[-1] not in DIGITS:
            raise Bad
    byte = yield from take(room)
    if byte == SP:
        _, byte = yield from take_all(room, (yield from take(room)), IN_VALUE)
    yield from line_end(room, byte)
    fields = yield from section(room)
    return int(digits), minor, fields


def values_of(fields, name):
    return [value for other, value in fields if other.lower() == name]


def declared_length(values):
    """One length, which may be told more than once; a list of lengths is none (RFC 9112, section 6.3)."""
    for value in values:
        if not value or any(byte not in DIGITS for byte in value) or int(value) >= 2**64:
            raise Bad
    if len({int(value) for value in values}) != 1:
        raise Bad
    return int(values[0])


def is_chunked(values):
    """Whether the last coding is chunked (RFC 9112, section 6.1). Empty elements but the last count for nothing."""
    codings = [coding.strip(BLANKS).lower() for value in values for coding in value.split(b",")]
    last = codings.pop()
    for coding in codings:
        if coding == b"chunked" or any(byte not in TOKEN for byte in coding):
            raise Bad
    if not last or any(byte not in TOKEN for byte in last):
        raise Bad
    return last == b"chunked"


def framing(minor, fields):
    """How fields frame a body: by a length, as "chunked", as "coded" otherwise, or not (None)."""
    lengths, codings = values_of(fields, b"content-length"), values_of(fields, b"transfer-encoding")
    if codings and (lengths or minor == 0):
        raise Bad
    if codings:
        return "chunked" if is_chunked(codings) else "coded"
    return declared_length(lengths) if lengths else None


def sized(size):
    body = bytearray()
    for _ in range(size):
        body.append((yield ENDED))
    return body


def request():
    method, target, minor, fields = yield from request_head(Room(MOST_HEAD))
    how = framing(minor, fields)
    if how in ("chunked", "coded"):
        raise Bad
    size = how or 0
    if len(fields) > MOST_FIELDS or size > MOST_BODY:
        raise Long
    return Message([method, target], fields, (yield from sized(size)))


def chunk_line(room):
    """The size that a chunk line tells (RFC 9112, section 7.1): 16 digits at most, blanks, and an extension of any bytes."""
    digits, byte = bytearray(), (yield from take(room))
    while byte in HEX_DIGITS and len(digits) < 16:
        digits.append(byte)
        byte = yield from take(room)
    if not digits:
        raise Bad
    while byte in BLANKS:
        byte = yield from take(room)
    if byte == SEMICOLON:
        while byte not in ENDS:
            byte = yield from take(room)
    if byte != CR or (yield from take(room)) != LF:
        raise Bad
    return int(digits, 16)


def chunked():
    """A body in chunks, of which the lines and the trailer have room together."""
    room, body = Room(MOST_LINES), bytearray()
    while True:
        size = yield from chunk_line(room)
        if size == 0:
            break
        if len(body) + size > MOST_BODY:
            raise Long
        body += yield from sized(size)
        for byte in ENDS:
            if (yield ENDED) != byte:
                raise Bad
    if len((yield from section(room))) > MOST_FIELDS:
        raise Long
    return body


def rest(status, fields):
    """A body that goes on to the end, which has always a message before it."""
    message = Message([str(status)], fields, bytearray())
    while len(message.body) <= MOST_BODY:
        message.body.append((yield message))
    raise Long


def response(to_head=False):
    room = Room(MOST_HEAD)
    status = 100
    while status < 200:
        status, minor, fields = yield from response_head(room)
        if not 100 <= status <= 599:
            raise Bad
        how = framing(minor, fields)
        if to_head or status < 200 or status in (204, 304):
            how = 0
        if len(fields) > MOST_FIELDS or (isinstance(how, int) and how > MOST_BODY):
            raise Long
    if how == "chunked":
        body = yield from chunked()
    elif isinstance(how, int):
        body = yield from sized(how)
    else:
        body = yield from rest(status, fields)
    return Message([str(status)], fields, body)


def verdicts(reader, data):
    """What the first byte, the first two, and so on, are. It begins with what none are."""
    try:
        now = next(reader)
        for byte in data:
            yield now
            now = reader.send(byte)
        yield now
        return
    except StopIteration as end:
        last = end.value
    except Bad:
        last = BAD
    except Long:
        last = LONG
    yield from itertools.repeat(last)


# ---- the form of rows


def bytes_in(text):
    """The bytes that a text in the form of rows tells."""
    data, at = bytearray(), 0
    while at < len(text):
        if text[at] == "{":
            end = text.index("}", at)
            times, part = text[at + 1 : end].split("*", 1)
            data += bytes_in(part) * int(times)
            at = end + 1
        elif text.startswith("\\x", at):
            data.append(int(text[at + 2 : at + 4], 16))
            at += 4
        elif text[at] == "\\":
            data.append({"r": CR, "n": LF}[text[at + 1]])
            at += 2
        else:
            data += text[at].encode()
            at += 1
    return bytes(data)


def told_byte(byte):
    if byte in ENDS:
        return "\\r" if byte == CR else "\\n"
    return chr(byte) if 32 <= byte <= 126 and byte not in b"\\{" else f"\\x{byte:02x}"


def each_told(data):
    return "".join(map(told_byte, data))


def told_bytes(data):
    return each_told(data) if len(data) <= 60 else f"{each_told(data[:20])}.. ({len(data)} bytes)"


def told_text(text):
    return text if len(text) <= 60 else f"{text[:20]}.. ({len(text)} characters)"


def told(verdict):
    return verdict.told() if isinstance(verdict, Message) else verdict


# ---- messages that are written


def is_plain(text):
    """Visible ASCII, with spaces and tabs between."""
    return text.strip(" \t") == text and all("!" <= character <= "~" or character in " \t" for character in text)


def is_sent(message):
    """Whether a message can be written. A response says its length itself, and has a body."""
    texts = [*message.first, *(value for _, value in message.headers())]
    if not all(map(is_plain, texts)):
        return False
    if len(message.first) == 2:
        return True
    own = {"content-length", "connection", "transfer-encoding"}
    return message.first[0] not in ("204", "304") and not own & {name for name, _ in message.headers()}


def written(message):
    headers = "".join(f"{name}: {value}\r\n" for name, value in message.headers())
    if len(message.first) == 2:
        method, target = message.first
        return f"{method} {target} HTTP/1.1\r\n{headers}\r\n".encode() + message.body
    status = message.first[0]
    own = f"Content-Length: {len(message.body)}\r\nConnection: close\r\n"
    return f"HTTP/1.1 {status} {PHRASES.get(int(status), '')}\r\n{headers}{own}\r\n".encode() + message.body


def say_written(row, message):
    """What is written of a message, and how much of it where a call fails; each call writes ten bytes."""
    if not is_sent(message):
        outcomes = ["is not sent"] * 4
    else:
        all_bytes = written(message)
        outcomes = [each_told(all_bytes)]
        for call in FAILING:
            end = " and then a write failed" if call * 10 < len(all_bytes) else ""
            outcomes.append(each_told(all_bytes[: call * 10] if end else all_bytes) + end)
    for name, outcome in zip([row, *(f"call {call} fails" for call in FAILING)], outcomes):
        print(f"{name} => {outcome}")


# ---- the tables


def say_runs(said, first, past):
    for verdict, run in itertools.groupby(range(first, past), lambda n: said[n]):
        run = list(run)
        print(f"{run[0]}-{run[-1]} => {verdict}")


def say_read(row, reader, data):
    """What is read of a message and of its beginnings: all of them, or of a long one the first and the last."""
    count = len(data)
    spans = [(0, count)] if count <= 2000 else [(0, 200), (count - 50, count)]
    said = {}
    for n, verdict in zip(range(count + 1), verdicts(reader, data)):
        if n == count or any(first <= n < past for first, past in spans):
            said[n] = told(verdict)
    print(f"{row} => {said[count]}")
    for first, past in spans:
        say_runs(said, first, past)


def say(row):
    word, text = row.split(" ", 1)
    data = bytes_in(text)
    if word in ("answer", "send"):
        reader = response() if word == "answer" else request()
        *_, message = zip(range(len(data) + 1), verdicts(reader, data))
        say_written(row, message[1])
    else:
        reader = request() if word == "read" else response(word == "head")
        say_read(row, reader, data)


def main():
    sys.stdout.reconfigure(encoding="utf-8", newline="\n")
    for name in ("responses.txt", "requests.txt", "writes.txt"):
        with open(os.path.join(FOLDER, name), encoding="utf-8", newline="\n") as table:
            for row in table.read().split("\n")[:-1]:
                if row.startswith("#"):
                    print(row)
                else:
                    say(row)


if __name__ == "__main__":
    main()
