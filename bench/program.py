"""Shared by bench/kill and bench/session: where the built program lies, and the bytes of its journal and of labels, read and
written as docs/JOURNAL.md lists them."""
import json
import os
import sys

HEADER = b"SWFJRNL1" + bytes(8)

OPEN_GATE = b"\xa5"


def built():
    """The path of the program: crates/swf/out/swf, or the one that the environment names as SWF."""
    top = os.path.dirname(os.path.dirname(os.path.abspath(__file__)))
    path = os.path.abspath(os.environ.get("SWF") or os.path.join(top, "crates/swf/out/swf"))
    if not os.access(path, os.X_OK):
        print(f"There is no program at {path}.", file=sys.stderr)
        print("`cd crates/swf && rt run -- session < stdin` builds it; SWF=PATH names another.", file=sys.stderr)
        sys.exit(2)
    return path


def text(value):
    return len(value).to_bytes(4, "big") + value


def compact(value):
    """The JSON text of a value as the program writes it."""
    return json.dumps(value, sort_keys=True, separators=(",", ":"), ensure_ascii=False).encode()


def load_label(document):
    return b"\x01" + text(compact(document))


def start_label(name, key, value):
    return b"\x02" + b"".join(text(it) for it in (name, *key, compact(value)))


def step_label(name):
    """A step of an instance's only strand."""
    return b"\x06" + text(name) + bytes(2)


def frame(labels):
    """An open gate, a length and a body."""
    body = len(labels).to_bytes(4, "big") + b"".join(labels)
    return OPEN_GATE + len(body).to_bytes(8, "big") + body


class Fields:
    """Bytes that are taken field by field; it raises ValueError where they end too early."""

    def __init__(self, data):
        self.data, self.at = data, 0

    def take(self, count):
        piece = self.data[self.at : self.at + count]
        if len(piece) != count:
            raise ValueError(f"cut at {self.at}")
        self.at += count
        return piece

    def number(self, size):
        return int.from_bytes(self.take(size), "big")

    def text(self):
        return self.take(self.number(4))

    def label(self):
        """A label as its kind and its fields."""
        tag = self.number(1)
        if tag == 1:
            return ("load", self.text())
        if tag == 2:
            return ("start", self.text(), *(self.text() for _ in range(4)))
        if tag == 6:
            return ("step", self.text(), self.take(2 * self.number(2)))
        raise ValueError(f"no tag at {self.at - 1}")


def labels_of(body):
    fields = Fields(body)
    labels = [fields.label() for _ in range(fields.number(4))]
    if not labels or fields.at != len(body):
        raise ValueError("no list of labels")
    return labels


def labels_in(path):
    """The labels of a journal, read without the program; it raises ValueError where the journal is damaged."""
    with open(path, "rb") as file:
        data = file.read()
    if len(data) < 25:
        return []
    fields = Fields(data)
    if fields.take(16) != HEADER:
        raise ValueError("a wrong header")
    labels = []
    while fields.take(1) == OPEN_GATE:
        labels += labels_of(fields.take(fields.number(8)))
    return labels
