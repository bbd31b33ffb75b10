"""JSON read with the place of each part: what stands at an offset, the first fault of a text that is no JSON, and the nodes of
one that is. An offset counts characters; `Text.place` gives line and column, which begin at 1."""
import bisect
import re

NUMBER = re.compile(r"-?(?:0|[1-9][0-9]*)(\.[0-9]+)?([eE][+-]?[0-9]+)?")
ESCAPES = {'"': '"', "\\": "\\", "/": "/", "b": "\b", "f": "\f", "n": "\n", "r": "\r", "t": "\t"}
GREATEST = 9007199254740991
KEY = re.compile(r"[A-Za-z_$][A-Za-z0-9_$-]*")


class NotJson(Exception):
    """The first fault of a text, with its offset."""

    def __init__(self, at, why):
        super().__init__(why)
        self.at, self.why = at, why


class Text:
    """A text by its lines."""

    def __init__(self, text):
        self.text = text
        self.starts = [0] + [found.end() for found in re.finditer("\n", text)]

    def place(self, at):
        line = bisect.bisect_right(self.starts, at)
        return line, at - self.starts[line - 1] + 1


class Node:
    """A value: its kind (object, list, text, number, flag or null), where it begins and ends, and what it is. Of an object
    `value` is a list of members (name, node of the name, node); of a text it is the text, and `spots` are the offsets of its
    characters; of a number it is its spelling."""

    def __init__(self, kind, start, end, value, spots=None):
        self.kind, self.start, self.end, self.value, self.spots = kind, start, end, value, spots
        self.last = {member[0]: member for member in value} if kind == "object" else {}

    def member(self, name):
        """The last member of the name, as (name, node of the name, node), or None."""
        return self.last.get(name)

    def get(self, name):
        member = self.member(name)
        return member[2] if member else None

    def names(self):
        return list(self.last)

    def plain(self):
        """The value without places."""
        if self.kind == "object":
            return {name: node.plain() for name, _, node in self.value}
        if self.kind == "list":
            return [node.plain() for node in self.value]
        if self.kind == "number":
            return int(self.value) if self.is_whole() else float(self.value)
        return self.value

    def is_whole(self):
        return re.fullmatch(r"-?[0-9]+", self.value) is not None and self.value != "-0" and abs(int(self.value)) <= GREATEST

    def walk(self):
        """Each node, an outer one first."""
        yield self
        if self.kind == "list":
            for node in self.value:
                yield from node.walk()
        elif self.kind == "object":
            for _, _, node in self.value:
                yield from node.walk()


class Reader:
    """Reads one value. `too_deep` is the first list or object below 64 others."""

    def __init__(self, text):
        self.text, self.at, self.levels, self.too_deep = text, 0, 0, None

    def blanks(self):
        while self.at < len(self.text) and self.text[self.at] in " \t\r\n":
            self.at += 1
        if self.text.startswith(("//", "/*"), self.at):
            raise NotJson(self.at, "a comment: JSON has none. Take it out, or say it in `metadata` or `summary`")
        if self.text.startswith("#", self.at):
            raise NotJson(self.at, "a comment: JSON has none. Take it out, or say it in `metadata` or `summary`")

    def whole(self):
        node = self.value("a value")
        self.blanks()
        if self.at < len(self.text):
            if self.text[self.at] in "]}":
                raise NotJson(self.at, f"`{self.text[self.at]}` closes nothing: the value has ended before it")
            raise NotJson(self.at, "more text behind the value: a file holds one document")
        return node

    def value(self, wanted):
        self.blanks()
        rest = self.text[self.at:self.at + 20]
        if not rest:
            raise NotJson(self.at, f"the text ends where {wanted} is to come: is a `}}`, `]` or `\"` missing at the end?")
        mark = rest[0]
        if mark in "{[":
            return self.inside(mark)
        if mark == '"':
            return self.string()
        if mark in "-0123456789":
            return self.number()
        for word, kind, value in (("true", "flag", True), ("false", "flag", False), ("null", "null", None)):
            if re.match(word + r"(?![A-Za-z0-9_])", rest):
                self.at += len(word)
                return Node(kind, self.at - len(word), self.at, value)
        raise NotJson(self.at, self.no_value(rest, wanted))

    def no_value(self, rest, wanted):
        mark = rest[0]
        if mark in "'\u2018\u2019\u201c\u201d":
            return f"`{mark}`: a text stands between double quotes, `\"`"
        if mark in "]},:":
            return f"`{mark}` stands where {wanted} is to come"
        if mark in "+.":
            return f"`{mark}`: a number begins with a digit or `-`"
        word = KEY.match(rest)
        if word is None:
            return f"`{mark}` begins no value"
        hints = {"true": "true", "false": "false", "null": "null", "none": "null", "undefined": "null", "nan": None, "yes": "true",
                 "infinity": None, "no": "false"}
        lower = word.group().lower()
        if lower in hints:
            return f"`{word.group()}` is no value of JSON" + (f": write `{hints[lower]}`" if hints[lower] else "")
        return f"`{word.group()}` is no value of JSON: a text stands between double quotes"

    def number(self):
        start = self.at
        found = NUMBER.match(self.text, start)
        if found is None:
            raise NotJson(start, "`-` without a digit behind it is no number")
        self.at = found.end()
        more = re.compile(r"[0-9A-Za-z_.]").match(self.text, self.at)
        if more:
            spelled = re.compile(r"[-+0-9A-Za-z_.]*").match(self.text, start).group()
            why = ": a number has no zero in front" if re.match("-?0[0-9]", spelled) else ""
            raise NotJson(start, f"`{spelled}` is no number of JSON{why}")
        return Node("number", start, self.at, found.group())

    def string(self):
        start, text, value, spots = self.at, self.text, [], []
        at = start + 1
        while True:
            if at >= len(text):
                raise NotJson(start, "a text that begins here has no closing `\"`")
            mark, spot = text[at], at
            if mark == '"':
                break
            if mark < " ":
                what = {"\n": "a line break", "\t": "a tab"}.get(mark, "a control character")
                how = {"\n": "\\n", "\t": "\\t"}.get(mark, "\\u%04x" % ord(mark))
                more = " (or is its closing `\"` missing?)" if mark in "\r\n" else ""
                raise NotJson(at, f"{what} in a text: write `{how}`{more}")
            if mark != "\\":
                at += 1
            elif text[at + 1:at + 2] in ESCAPES and at + 1 < len(text):
                mark = ESCAPES[text[at + 1]]
                at += 2
            else:
                mark, at = self.unicode(at)
            value.append(mark)
            spots.append(spot)
        self.at = at + 1
        spots.append(at)
        return Node("text", start, self.at, "".join(value), spots)

    def unicode(self, at):
        """The character of `\\uXXXX` or of two of them, and what is behind it."""
        one = re.compile(r"\\u([0-9a-fA-F]{4})").match(self.text, at)
        if one is None:
            if self.text.startswith("\\u", at):
                raise NotJson(at, "`\\u` is followed by four hexadecimal digits")
            raise NotJson(at, f"`{self.text[at:at + 2]}` is no escape: a backslash is written `\\\\`")
        code = int(one.group(1), 16)
        if not 0xD800 <= code < 0xE000:
            return chr(code), one.end()
        two = re.compile(r"\\u([dD][c-fC-F][0-9a-fA-F]{2})").match(self.text, one.end())
        if code >= 0xDC00 or two is None:
            raise NotJson(at, "half of a surrogate pair is no character")
        return chr(0x10000 + ((code - 0xD800) << 10) + (int(two.group(1), 16) - 0xDC00)), two.end()

    def inside(self, opening):
        start = self.at
        self.levels += 1
        if self.levels == 65 and self.too_deep is None:
            self.too_deep = start
        if self.levels > 127:
            raise NotJson(start, "lists and objects nest deeper than 127")
        self.at += 1
        closing, found = "}]"["{[".index(opening)], []
        self.blanks()
        while self.text[self.at:self.at + 1] != closing:
            found.append(self.named() if opening == "{" else self.value("a value or `]`"))
            self.blanks()
            mark = self.text[self.at:self.at + 1]
            if mark == ",":
                comma = self.at
                self.at += 1
                self.blanks()
                if self.text[self.at:self.at + 1] == closing:
                    raise NotJson(comma, f"a comma in front of `{closing}`: take it out")
            elif mark != closing:
                raise NotJson(self.at, self.no_comma(opening, closing, start))
        self.at += 1
        self.levels -= 1
        return Node("object" if opening == "{" else "list", start, self.at, found)

    def no_comma(self, opening, closing, start):
        mark = self.text[self.at:self.at + 1]
        line = self.text.count("\n", 0, start) + 1
        if not mark:
            return f"the text ends, and `{opening}` of line {line} has no `{closing}`"
        if mark in "]}":
            return f"`{mark}` stands where `{opening}` of line {line} needs `{closing}`"
        if mark == ":" and opening == "[":
            return f"`:` in a list (`[` of line {line}): members stand in an object, between `{{` and `}}`"
        return "a comma is missing in front of this"

    def named(self):
        self.blanks()
        mark = self.text[self.at:self.at + 1]
        if mark != '"':
            word = KEY.match(self.text, self.at)
            if not mark:
                raise NotJson(self.at, "the text ends where a member is to come: is a `}` missing at the end?")
            if word:
                raise NotJson(self.at, f"the name `{word.group()}` needs double quotes: `\"{word.group()}\"`")
            if mark == "'":
                raise NotJson(self.at, "`'`: a name stands between double quotes, `\"`")
            raise NotJson(self.at, f"`{mark}` stands where the name of a member is to come")
        name = self.string()
        self.blanks()
        if self.text[self.at:self.at + 1] != ":":
            raise NotJson(self.at, f"a `:` is missing behind the name `{name.value}`")
        self.at += 1
        return name.value, name, self.value(f"the value of `{name.value}`")


def compact(node, text):
    """The value on one line, each text and number as it is spelled."""
    if node.kind == "object":
        members = (text[name.start:name.end] + ":" + compact(value, text) for _, name, value in node.value)
        return "{" + ",".join(members) + "}"
    if node.kind == "list":
        return "[" + ",".join(compact(value, text) for value in node.value) + "]"
    return text[node.start:node.end]
