"""The subset of jq that expressions are of, read with places: `parse` gives the variables of a text that it does not bind
itself, each with its offset, or raises `Bad` at the first fault, with an offset and what to write instead."""
import difflib
import re

GREATEST = 9007199254740991
# Among more names than these only some are compared.
MOST = 100
KEYWORDS = ("if", "then", "elif", "else", "end", "and", "or", "as", "null", "true", "false")
ARGUMENTS = {
    "length": [0], "keys": [0], "has": [1], "add": [0], "any": [0, 1], "all": [0, 1], "map": [1], "select": [1], "empty": [0],
    "not": [0], "type": [0], "error": [0, 1], "tostring": [0], "tojson": [0], "tonumber": [0], "to_entries": [0],
    "from_entries": [0], "with_entries": [1], "sort": [0], "sort_by": [1], "unique": [0], "min": [0], "max": [0],
    "reverse": [0], "join": [1], "split": [1], "startswith": [1], "endswith": [1], "ascii_downcase": [0], "ascii_upcase": [0],
    "range": [1, 2], "first": [0, 1], "last": [0],
}
NAME = re.compile("[A-Za-z_][A-Za-z0-9_]*")
# What jq has and the subset does not, with what says the same in it.
ELSEWHERE = {
    "def": "functions are not defined in an expression: write it out, or use a function of `use.functions`",
    "reduce": "write it with `map`, `add` and `select`, or as a `for` task",
    "foreach": "write it as a `for` task",
    "label": "write it with `if`",
    "try": "write `?` behind what may fail, or a `try` task",
    "limit": "write a filter with `select`",
    "recurse": "name the members that you mean",
    "now": "an expression knows no time: hand it in with the input or an event",
    "contains": "write `any(. == X)`, or `has(X)` for a member",
    "inside": "write `any(. == X)`",
    "test": "there are no regular expressions: write `startswith`, `endswith` or `split`",
    "match": "there are no regular expressions: write `startswith`, `endswith` or `split`",
    "sub": "there are no regular expressions: write `split(X) | join(Y)`",
    "gsub": "there are no regular expressions: write `split(X) | join(Y)`",
    "group_by": "write it as a `for` task",
    "unique_by": "write `unique`, or a `for` task",
    "min_by": "write `sort_by(X) | first`",
    "max_by": "write `sort_by(X) | last`",
    "floor": "all numbers are whole",
    "ceil": "all numbers are whole",
    "round": "all numbers are whole",
    "in": "write `X | has(.)`",
    "index": "write `split`",
    "del": "build the object anew with the members that you keep",
    "path": "paths are no values here: name the members",
    "paths": "paths are no values here: name the members",
    "fromjson": "a text is not read as JSON in an expression",
    "ltrimstr": "write `split(X) | last`",
    "rtrimstr": "write `split(X) | first`",
    "env": "an expression sees nothing outside of the workflow",
    "input": "write `$input`",
    "flatten": "write `map(.[])`, or `[.[][]]`",
    "map_values": "write `with_entries(..)`",
    "upper": "write `ascii_upcase`",
    "lower": "write `ascii_downcase`",
    "today": "an expression knows no time: hand it in with the input or an event",
    "uuid": "an expression makes no ids: hand one in with the input",
}


def near(word, known, cutoff=0.6):
    """The known word that is nearest, or None."""
    folded = {}
    for name in known:
        folded.setdefault(name.lower(), name)
    if word.lower() in folded:
        return folded[word.lower()]
    if len(known) > MOST:
        known = [name for name in known if name[:1].lower() == word[:1].lower() and abs(len(name) - len(word)) < 2][:MOST]
        folded = {name.lower(): name for name in known}
    best = min(known, key=lambda name: distance(word.lower(), name.lower()), default=None)
    short = min(len(word), len(best or ""))
    if short > 2 and distance(word.lower(), best.lower()) <= max(1, short // 3):
        return best
    found = difflib.get_close_matches(word.lower(), folded, 1, cutoff)
    return folded[found[0]] if found else None


def distance(one, two):
    """How many characters are left out, put in, changed or swapped with the next between two words."""
    before, row = None, list(range(len(two) + 1))
    for i, a in enumerate(one, 1):
        last, before, row = before, row, [i]
        for j, b in enumerate(two, 1):
            cost = min(before[j] + 1, row[j - 1] + 1, before[j - 1] + (a != b))
            if last is not None and j > 1 and a == two[j - 2] and one[i - 2] == b:
                cost = min(cost, last[j - 2] + 1)
            row.append(cost)
    return row[-1]


class Bad(Exception):
    """The first fault of an expression, with its offset."""

    def __init__(self, at, why):
        super().__init__(why)
        self.at, self.why = at, why


class Parser:
    """Reads a text from left to right, and keeps the variables that are free where they stand."""

    def __init__(self, text):
        self.source, self.at, self.levels, self.bound, self.free = text, 0, 0, [], []

    def blanks(self):
        while self.at < len(self.source) and self.source[self.at] in " \t\r\n":
            self.at += 1

    def bad(self, why, at=None):
        raise Bad(self.at if at is None else at, why)

    def peek(self, mark):
        self.blanks()
        if NAME.fullmatch(mark):
            found = NAME.match(self.source, self.at)
            return found is not None and found.group() == mark
        if not self.source.startswith(mark, self.at):
            return False
        two = self.source[self.at:self.at + 2]
        return not (mark == "/" and two == "//" or mark in "<>" and two in ("<=", ">="))

    def take(self, mark):
        if self.peek(mark):
            self.at += len(mark)
            return True
        return False

    def need(self, mark, opened):
        if not self.take(mark):
            if self.at >= len(self.source):
                self.bad(f"the expression ends, and {opened} needs `{mark}`")
            self.strange(f"{opened} needs `{mark}`")

    def open(self):
        self.levels += 1
        if self.levels > 64:
            self.bad("brackets nest deeper than 64")

    def strange(self, otherwise):
        """What stands here belongs to no rule: says what it is."""
        rest = self.source[self.at:]
        before = self.source[:self.at].rstrip()
        path = re.search(r"\.([A-Za-z_][A-Za-z0-9_]*)$", before)
        for sign in ("|=", "//=", "+=", "-=", "*=", "/=", "%="):
            if rest.startswith(sign):
                self.bad(f"`{sign}` changes a value in place, which the subset leaves out: build the value anew, as `. + {{a: 1}}`")
        if rest.startswith("=") and not rest.startswith("=="):
            self.bad("`=` assigns, which the subset leaves out: write `==` to compare, or `. + {a: 1}` to build a value")
        words = {"&&": "and", "||": "or", "!": "not` behind a pipe, as in `.a | not", "===": "==", "<>": "!="}
        for sign, word in words.items():
            if rest.startswith(sign) and not rest.startswith("!="):
                self.bad(f"`{sign}` is no sign of jq: write `{word}`")
        if rest.startswith("${"):
            self.bad("a second `${`: the whole text is one expression; join parts as in `${ \"\\(.a) and \\(.b)\" }`")
        if rest.startswith("}"):
            self.bad("a `}` that closes nothing: the whole text is one expression, from the first `${` to the last `}`; join"
                     " parts as in `${ \"\\(.a) and \\(.b)\" }`")
        if rest.startswith(("]", ")")):
            self.bad(f"`{rest[0]}` closes nothing")
        if rest.startswith("#"):
            self.bad("comments are left out of the subset")
        if rest.startswith("@"):
            self.bad("formats such as `@base64` are left out of the subset")
        if rest.startswith("'"):
            self.bad("a text stands between double quotes, in JSON `\\\"`")
        if rest.startswith(":") and path:
            self.bad("slices are left out of the subset")
        word = NAME.match(rest)
        if word and word.group() in ELSEWHERE:
            self.bad(f"`{word.group()}` is left out of the subset: {ELSEWHERE[word.group()]}")
        if word and word.group() not in KEYWORDS:
            self.bad(f"`{word.group()}` stands where the expression is whole already: a sign is missing in front of it")
        self.bad(otherwise)

    def dashed(self):
        """Behind `.order`, says where `.order-id` was one name to its writer: the minus has no blank on either side."""
        found = re.compile(r"-([A-Za-z_][A-Za-z0-9_-]*)").match(self.source, self.at)
        before = re.search(r"\.([A-Za-z_][A-Za-z0-9_]*)$", self.source[:self.at])
        if found and before and found.group(1).split("-")[0] not in ARGUMENTS and found.group(1) not in KEYWORDS:
            name = before.group(1) + found.group()
            self.bad(f"`.{name}` is `.{before.group(1)}` less something called `{found.group(1)}`: write `.\"{name}\"`",
                     self.at - len(before.group(1)) - 1)

    def called(self, name):
        """Behind `.name`, says where it was called."""
        if self.source.startswith("(", self.at):
            self.bad(f"`.{name.group()}` is a member, and members are not called: a built-in stands behind a pipe, as `.a | length`",
                     name.start() - 1)

    def whole(self):
        self.pipe()
        self.blanks()
        if self.at != len(self.source):
            self.strange(f"`{self.source[self.at]}` does not belong here")
        return self.free

    def binding(self, began):
        self.blanks()
        at = self.at
        if not self.take("$"):
            self.bad("destructuring is left out of the subset: behind `as` stands one `$name`" if self.peek("[") or self.peek("{")
                     else "behind `as` stands `$` and a name", at)
        name = NAME.match(self.source, self.at)
        if name is None or name.group() in KEYWORDS:
            self.bad("behind `$` stands a name that is no keyword", at)
        self.at = name.end()
        self.need("|", f"`as ${name.group()}`")
        self.bound.append(name.group())
        self.pipe()
        self.bound.pop()

    def pipe(self):
        given = not self.peek("-")
        if given:
            self.post()
            if self.take("as"):
                return self.binding(self.at)
        self.comma(given)
        if self.take("|"):
            if self.source.startswith("=", self.at):
                self.at -= 1
                self.strange("")
            self.pipe()

    def comma(self, given=False):
        self.sides(given)
        while self.take(","):
            self.sides()

    def sides(self, given=False):
        """What `//`, `or`, `and`, comparisons and the signs of numbers join."""
        compared = False
        self.unary(given)
        while True:
            self.blanks()
            at = self.at
            sign = re.compile(r"//=|[-+*/%]=(?!=)|==|!=|<=|>=|//|[-+*/%<>]|(?:and|or)(?![A-Za-z0-9_])").match(self.source, at)
            if sign is None:
                return
            if sign.group() in ("==", "!=", "<=", ">=", "<", ">"):
                if compared:
                    self.bad("comparisons do not follow each other: put one of them in brackets, or join them with `and`")
                if self.source.startswith("===", at) or self.source.startswith("<>", at):
                    self.strange("")
                compared = True
            elif sign.group() in ("and", "or", "//"):
                compared = False
            elif sign.group().endswith("="):
                self.strange("")
            self.at = sign.end()
            self.unary()

    def unary(self, given=False):
        if given:
            return
        while self.take("-"):
            pass
        self.post()

    def string(self):
        start = self.at
        self.at += 1
        while True:
            mark = self.source[self.at:self.at + 1]
            if not mark:
                self.bad("a text that begins here has no closing quote", start)
            if mark == '"':
                self.at += 1
                return
            if mark < " ":
                self.bad("a control character in a text")
            if mark != "\\":
                self.at += 1
                continue
            after = self.source[self.at + 1:self.at + 2]
            if after == "(":
                self.at += 2
                self.open()
                self.pipe()
                self.need(")", "`\\(`")
                self.levels -= 1
            elif after == "u":
                if not re.compile("[0-9a-fA-F]{4}").match(self.source, self.at + 2):
                    self.bad("`\\u` is followed by four hexadecimal digits")
                self.at += 6
            elif after and after in '"\\/bfnrt':
                self.at += 2
            else:
                self.bad(f"`\\{after}` is no escape in a text of jq: a backslash is written `\\\\`, in JSON `\\\\\\\\`")

    def post(self):
        self.term()
        while True:
            self.blanks()
            mark = self.source[self.at:self.at + 1]
            if mark == ".":
                if not self.dotted():
                    continue
                mark = "["
            if mark == "[":
                self.index()
                continue
            if mark == "?":
                self.at += 1
                continue
            return

    def dotted(self):
        """Takes a `.` behind a term, with its name. True where an index comes."""
        if self.source.startswith("..", self.at):
            self.bad("`..` is left out of the subset: name the members")
        self.at += 1
        name = NAME.match(self.source, self.at)
        if name:
            self.at = name.end()
            self.dashed()
            self.called(name)
            return False
        self.blanks()
        mark = self.source[self.at:self.at + 1]
        if mark == '"':
            self.string()
            return False
        if mark != "[":
            digits = re.compile("[0-9]+").match(self.source, self.at)
            if digits:
                self.bad(f"`.{digits.group()}`: a number behind a point: write `[{digits.group()}]` for a position of a list")
            self.bad("behind a point stands a name, a text or `[`")
        return True

    def index(self):
        opened = self.at
        self.at += 1
        self.open()
        if not self.take("]"):
            if self.peek(":"):
                self.bad("slices are left out of the subset: write `.[0]`, `first`, `last`, or a `for` task", opened)
            self.pipe()
            if self.peek(":"):
                self.bad("slices are left out of the subset: write `.[0]`, `first`, `last`, or a `for` task", opened)
            self.need("]", "`[`")
        self.levels -= 1

    def term(self):
        self.blanks()
        start, mark = self.at, self.source[self.at:self.at + 1]
        if mark == "":
            self.bad("the expression is empty" if not self.source.strip() else "the expression ends where a value is to come")
        if mark == ".":
            if self.source.startswith("..", self.at):
                self.bad("`..` is left out of the subset: name the members")
            return self.here()
        if mark.isdigit() and mark.isascii():
            return self.number()
        if mark == '"':
            return self.string()
        if mark == "$":
            return self.variable()
        if mark in "([{":
            return self.bracket(mark)
        if mark == "|" and self.source[self.at - 1] == "|":
            self.bad("`||` is no sign of jq: write `or`", self.at - 1)
        name = NAME.match(self.source, self.at)
        if name is None:
            self.strange(f"`{mark}` begins no value")
        self.at = name.end()
        word = name.group()
        if word in ("null", "true", "false"):
            return
        if word == "if":
            return self.condition()
        if word in KEYWORDS:
            self.bad(f"`{word}` stands where a value is to come", start)
        self.call(word, start)

    def here(self):
        self.at += 1
        name = NAME.match(self.source, self.at)
        if name:
            self.at = name.end()
            self.dashed()
            return self.called(name)
        at = self.at
        self.blanks()
        if self.source[self.at:self.at + 1] == '"':
            return self.string()
        self.at = at
        if re.compile("[0-9]").match(self.source, at):
            self.bad("a number begins with a digit, and is whole here; a position of a list is written `.[0]`", at - 1)

    def number(self):
        found = re.compile(r"(0|[1-9][0-9]*)(\.[0-9]+|\.?[0-9]*[eE][+-]?[0-9]+)?").match(self.source, self.at)
        if found.group(2):
            self.bad(f"`{found.group()}` is not whole: all numbers are. Count in smaller units, as cents")
        if int(found.group(1)) > GREATEST:
            self.bad(f"`{found.group()}` lies beyond {GREATEST}")
        after = self.source[found.end():found.end() + 1]
        if after.isdigit():
            self.bad("a number has no zero in front")
        self.at = found.end()

    def variable(self):
        start = self.at
        self.at += 1
        name = NAME.match(self.source, self.at)
        if name is None:
            if self.source.startswith("{", self.at):
                self.bad("a second `${`: the whole text is one expression; join parts as in `${ \"\\(.a) and \\(.b)\" }`", start)
            self.bad("behind `$` stands a name", start)
        if name.group() in KEYWORDS:
            self.bad(f"`${name.group()}` is a keyword of jq, and names no variable", start)
        self.at = name.end()
        if name.group() not in self.bound:
            self.free.append((name.group(), start))

    def bracket(self, mark):
        opened, closing = self.at, {"(": ")", "[": "]", "{": "}"}[mark]
        self.at += 1
        self.open()
        if mark == "{":
            if not self.take("}"):
                self.entry()
                while self.take(","):
                    if self.peek("}"):
                        self.bad("a comma in front of `}`: take it out")
                    self.entry()
                self.need("}", "`{`")
        elif mark == "(" or not self.take("]"):
            self.pipe()
            self.need(closing, f"`{mark}`")
        self.levels -= 1

    def condition(self):
        self.pipe()
        self.need("then", "`if`")
        self.pipe()
        while self.take("elif"):
            self.pipe()
            self.need("then", "`elif`")
            self.pipe()
        if self.take("else"):
            self.pipe()
        self.need("end", "`if`")

    def call(self, word, start):
        if word in ELSEWHERE and word not in ARGUMENTS:
            self.bad(f"`{word}` is left out of the subset: {ELSEWHERE[word]}", start)
        if word not in ARGUMENTS:
            best = near(word, list(ARGUMENTS))
            why = f" (did you mean `{best}`?)" if best else ""
            self.bad(f"`{word}` is no built-in{why}; a member is written `.{word}`, a variable `${word}`, a text between quotes", start)
        count = 0
        if self.take("("):
            self.open()
            self.pipe()
            count = 1
            while self.take(";"):
                self.pipe()
                count += 1
            if self.peek(","):
                self.bad("arguments are parted by `;`")
            self.need(")", f"`{word}(`")
            self.levels -= 1
        if count not in ARGUMENTS[word]:
            wanted = " or ".join(map(str, ARGUMENTS[word]))
            self.bad(f"`{word}` takes {wanted} argument{'' if wanted == '1' else 's'}, and has {count} here", start)

    def entry(self):
        self.blanks()
        start, mark = self.at, self.source[self.at:self.at + 1]
        if mark == "$":
            return self.variable()
        if mark == '"':
            self.string()
            if self.take(":"):
                self.entry_value()
            return
        if mark == "(":
            self.at += 1
            self.open()
            self.pipe()
            self.need(")", "`(`")
            self.levels -= 1
            self.need(":", "a name in brackets")
            return self.entry_value()
        name = NAME.match(self.source, self.at)
        if name is None:
            self.strange("the name of a member is a word, a text, `$name` or an expression in round brackets")
        self.at = name.end()
        if self.take(":"):
            return self.entry_value()
        dashed = re.compile(r"(?:-[A-Za-z0-9_]+)+\s*:").match(self.source, self.at)
        if dashed:
            word = name.group() + dashed.group().rstrip(": \t")
            self.bad(f"the name `{word}` needs quotes: `\"{word}\"`", start)
        if name.group() in KEYWORDS:
            self.bad(f"`{name.group()}` is a keyword: as the name of a member write `{name.group()}: ..`", start)

    def entry_value(self):
        self.sides()
        while self.take("|"):
            self.sides()


def parse(text):
    """The free variables of a text with their offsets."""
    if len(text.encode()) > 4096:
        raise Bad(0, "the expression is longer than 4,096 bytes")
    return Parser(text).whole()
