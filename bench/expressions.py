"""The subset of jq that documents may use, read without the program. `parse` gives the tree of a text or raises `Bad`, and
`free` gives the variables of a tree that it does not bind itself. They tell no place of a fault."""
import json
import re
import sys

sys.setrecursionlimit(100000)

GREATEST = 9007199254740991


class Bad(Exception):
    """The text is no expression."""
    pass


KEYWORDS = {"if", "then", "elif", "else", "end", "and", "or", "as", "null", "true", "false"}
ARGUMENTS = {
    "length": [0],
    "keys": [0],
    "has": [1],
    "add": [0],
    "any": [0, 1],
    "all": [0, 1],
    "map": [1],
    "select": [1],
    "empty": [0],
    "not": [0],
    "type": [0],
    "error": [0, 1],
    "tostring": [0],
    "tojson": [0],
    "tonumber": [0],
    "to_entries": [0],
    "from_entries": [0],
    "with_entries": [1],
    "sort": [0],
    "sort_by": [1],
    "unique": [0],
    "min": [0],
    "max": [0],
    "reverse": [0],
    "join": [1],
    "split": [1],
    "startswith": [1],
    "endswith": [1],
    "ascii_downcase": [0],
    "ascii_upcase": [0],
    "range": [1, 2],
    "first": [0, 1],
    "last": [0],
}
NAME = re.compile("[A-Za-z_][A-Za-z0-9_]*")


class Parser:
    """Reads a text from left to right. Each call below takes what one rule of the grammar spells, and gives its tree."""

    def __init__(self, text):
        self.source, self.at, self.levels, self.given = (text, 0, 0, None)

    def blanks(self):
        while self.at < len(self.source) and self.source[self.at] in " \t\r\n":
            self.at += 1

    def peek(self, t):
        self.blanks()
        if NAME.fullmatch(t):
            m = NAME.match(self.source, self.at)
            return bool(m) and m.group() == t
        if not self.source.startswith(t, self.at):
            return False
        two = self.source[self.at:self.at + 2]
        if t == "/" and two == "//":
            return False
        if t in "<>" and two in ("<=", ">="):
            return False
        if t == "." and two == "..":
            raise Bad("..")
        return True

    def take(self, t):
        if self.peek(t):
            self.at += len(t)
            return True
        return False

    def need(self, t):
        if not self.take(t):
            raise Bad("%s at %d" % (t, self.at))

    def name(self):
        m = NAME.match(self.source, self.at)
        if not m:
            return None
        self.at = m.end()
        return m.group()

    def open(self):
        self.levels += 1
        if self.levels > 64:
            raise Bad("deep")

    def close(self):
        self.levels -= 1

    def whole(self):
        """The tree of the whole text."""
        e = self.pipe()
        self.blanks()
        if self.at != len(self.source):
            raise Bad("rest at %d" % self.at)
        return e

    def pipe(self):
        if not self.peek("-"):
            a = self.post()
            if self.take("as"):
                self.blanks()
                self.need("$")
                n = self.name()
                if n is None or n in KEYWORDS:
                    raise Bad("$")
                self.need("|")
                return ("bind", a, n, self.pipe())
            self.given = a
        a = self.comma()
        if self.peek("|"):
            self.take("|")
            return ("pipe", a, self.pipe())
        return a

    def comma(self):
        a = self.alt()
        while self.take(","):
            a = ("both", a, self.alt())
        return a

    def alt(self):
        a = self.orr()
        if self.take("//"):
            return ("alt", a, self.alt())
        return a

    def orr(self):
        a = self.andd()
        while self.take("or"):
            a = ("or", a, self.andd())
        return a

    def andd(self):
        a = self.cmp()
        while self.take("and"):
            a = ("and", a, self.cmp())
        return a

    def cmp(self):
        a = self.sum()
        for op in ("==", "!=", "<=", ">=", "<", ">"):
            if self.take(op):
                return ("bin", op, a, self.sum())
        return a

    def sum(self):
        a = self.prod()
        while True:
            for op in "+-":
                if self.take(op):
                    a = ("bin", op, a, self.prod())
                    break
            else:
                return a

    def prod(self):
        a = self.unary()
        while True:
            for op in "*/%":
                if self.take(op):
                    a = ("bin", op, a, self.unary())
                    break
            else:
                return a

    def unary(self):
        if self.given is not None:
            a, self.given = (self.given, None)
            return a
        if self.take("-"):
            return ("neg", self.unary())
        return self.post()

    def text(self):
        self.at += 1
        raw, pieces = ("", [])
        while True:
            if self.at >= len(self.source):
                raise Bad("text")
            c = self.source[self.at]
            if c == '"':
                self.at += 1
                break
            if c < " ":
                raise Bad("text")
            if c == '\\':
                n = self.source[self.at + 1:self.at + 2]
                if n == "(":
                    if raw:
                        pieces.append(("lit", json.loads('"' + raw + '"')))
                    raw = ""
                    self.at += 2
                    self.open()
                    e = self.pipe()
                    self.need(")")
                    self.close()
                    pieces.append(("pipe", e, ("call", "tostring", [])))
                elif n == "u":
                    if not re.match("[0-9a-fA-F]{4}", self.source[self.at + 2:self.at + 6]):
                        raise Bad("text")
                    raw += self.source[self.at:self.at + 6]
                    self.at += 6
                elif n and n in '"\\/bfnrt':
                    raw += c + n
                    self.at += 2
                else:
                    raise Bad("text")
            else:
                raw += c
                self.at += 1
        if raw or not pieces:
            pieces.append(("lit", json.loads('"' + raw + '"')))
        e = pieces[0]
        for p in pieces[1:]:
            e = ("bin", "+", e, p)
        return e

    def post(self):
        """A term and what follows it; the term may have been read by `pipe` already."""
        e = self.term()
        while True:
            self.blanks()
            at = self.at
            if self.source[at:at + 1] == ".":
                if self.source[at + 1:at + 2] == ".":
                    raise Bad("..")
                self.at += 1
                n = self.name()
                if n is not None:
                    e = ("index", e, ("lit", n))
                    continue
                self.blanks()
                if self.source[self.at:self.at + 1] == '"':
                    e = ("index", e, self.text())
                    continue
                if self.source[self.at:self.at + 1] == "[":
                    at = self.at
                else:
                    raise Bad(".")
                self.at = at
            if self.source[self.at:self.at + 1] == "[":
                self.at += 1
                self.open()
                if self.take("]"):
                    self.close()
                    e = ("iter", e)
                    continue
                k = self.pipe()
                self.need("]")
                self.close()
                e = ("index", e, k)
                continue
            if self.take("?"):
                e = ("maybe", e)
                continue
            return e

    def term(self):
        self.blanks()
        c = self.source[self.at:self.at + 1]
        if c == "":
            raise Bad("end")
        if c == ".":
            if self.source[self.at + 1:self.at + 2] == ".":
                raise Bad("..")
            self.at += 1
            n = self.name()
            if n is not None:
                return ("index", ("here",), ("lit", n))
            at = self.at
            self.blanks()
            if self.source[self.at:self.at + 1] == '"':
                return ("index", ("here",), self.text())
            self.at = at
            return ("here",)
        if c.isdigit() and c.isascii():
            m = re.compile("(0|[1-9][0-9]*)(\\.[0-9]+|\\.?[0-9]*[eE][+-]?[0-9]+)?").match(self.source, self.at)
            if m.group(2):
                raise Bad("whole")
            self.at = m.end()
            if self.source[self.at:self.at + 1].isdigit():
                raise Bad("zero")
            if int(m.group(1)) > GREATEST:
                raise Bad("range")
            return ("lit", int(m.group(1)))
        if c == '"':
            return self.text()
        if c == "$":
            self.at += 1
            n = self.name()
            if n is None or n in KEYWORDS:
                raise Bad("$")
            return ("var", n)
        if c == "(":
            self.at += 1
            self.open()
            e = self.pipe()
            self.need(")")
            self.close()
            return e
        if c == "[":
            self.at += 1
            self.open()
            if self.take("]"):
                self.close()
                return ("list", None)
            e = self.pipe()
            self.need("]")
            self.close()
            return ("list", e)
        if c == "{":
            self.at += 1
            self.open()
            ms = []
            if not self.take("}"):
                while True:
                    ms.append(self.member())
                    if self.take(","):
                        continue
                    self.need("}")
                    break
            self.close()
            return ("obj", ms)
        n = self.name()
        if n is None:
            raise Bad("term " + c)
        if n == "null":
            return ("lit", None)
        if n == "true":
            return ("lit", True)
        if n == "false":
            return ("lit", False)
        if n == "if":
            a = self.pipe()
            self.need("then")
            b = self.pipe()
            return ("if", a, b, self.tail())
        if n in KEYWORDS:
            raise Bad("keyword")
        if n not in ARGUMENTS:
            raise Bad("unknown " + n)
        args = []
        if self.take("("):
            self.open()
            while True:
                args.append(self.pipe())
                if self.take(";"):
                    continue
                self.need(")")
                break
            self.close()
        if len(args) not in ARGUMENTS[n]:
            raise Bad("arguments")
        return ("call", n, args)

    def tail(self):
        if self.take("elif"):
            a = self.pipe()
            self.need("then")
            b = self.pipe()
            return ("if", a, b, self.tail())
        if self.take("else"):
            e = self.pipe()
            self.need("end")
            return e
        self.need("end")
        return None

    def member(self):
        self.blanks()
        c = self.source[self.at:self.at + 1]
        if c == "$":
            self.at += 1
            n = self.name()
            if n is None or n in KEYWORDS:
                raise Bad("$")
            return (("lit", n), ("var", n))
        if c == '"':
            k = self.text()
            if self.take(":"):
                return (k, self.value())
            return (k, ("index", ("here",), k))
        if c == "(":
            self.at += 1
            self.open()
            k = self.pipe()
            self.need(")")
            self.close()
            self.need(":")
            return (k, self.value())
        n = self.name()
        if n is None:
            raise Bad("member")
        if self.take(":"):
            return (("lit", n), self.value())
        if n in KEYWORDS:
            raise Bad("keyword member")
        return (("lit", n), ("index", ("here",), ("lit", n)))

    def value(self):
        a = self.alt()
        if self.take("|"):
            return ("pipe", a, self.value())
        return a


def parse(text):
    """The tree of a text of at most 4,096 bytes."""
    if len(text.encode()) > 4096:
        raise Bad("long")
    return Parser(text).whole()


def free(e, bound=frozenset()):
    """The variables of a tree that it does not bind itself."""
    k = e[0]
    if k in ("here", "lit"):
        return set()
    if k == "var":
        return set() if e[1] in bound else {e[1]}
    if k == "bind":
        return free(e[1], bound) | free(e[3], bound | {e[2]})
    if k == "obj":
        return set().union(*[free(a, bound) | free(b, bound) for a, b in e[1]])
    if k == "call":
        return set().union(*[free(a, bound) for a in e[2]])
    out = set()
    for p in e[1:]:
        if isinstance(p, tuple):
            out |= free(p, bound)
    return out
