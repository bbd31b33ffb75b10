"""What `swf check` prints of a document, judged without the program by the rules that docs/CHECK.md tells. `check` gives the
lines for a text. Faults are gathered in any order, and sorted by their places at the end."""
import json
import re

from expressions import Bad, KEYWORDS, free, parse
KINDS = [
    "missing",
    "wrong-kind",
    "unknown-member",
    "bad-text",
    "bad-expression",
    "not-in-profile",
    "unknown-target",
    "duplicate-name",
    "unknown-function",
    "unknown-error",
    "unknown-retry",
    "function-cycle",
    "export-in-fork",
    "unknown-variable",
    "too-many",
]
BLANKS = " \t\r\n"


def braced(s):
    """What stands between the braces of a text that is an expression by its form, or None."""
    t = s.strip(BLANKS)
    return t[2:-1] if t.startswith("${") and t.endswith("}") and (len(t) >= 3) else None


def is_int(v):
    return isinstance(v, int) and (not isinstance(v, bool))


NUMBER = "(0|[1-9][0-9]*)"
LETTERS = "[0-9A-Za-z-]"
PRE = NUMBER[:-1] + "|[0-9]*[A-Za-z-]" + LETTERS + "*)"
VERSION = re.compile("[.]".join([NUMBER] * 3) + "(-" + PRE + "([.]" + PRE + ")*)?([+]" + LETTERS + "+([.]" + LETTERS + "+)*)?")
LABEL = re.compile("[a-z0-9]([a-z0-9-]{0,61}[a-z0-9])?")
NAME = re.compile("[A-Za-z_][A-Za-z0-9_]*")
RESERVED = {"context", "input", "output", "task", "workflow"} | KEYWORDS


def duration(v):
    """The milliseconds of a duration, or None where it is none."""
    U = {"days": 86400000, "hours": 3600000, "minutes": 60000, "seconds": 1000, "milliseconds": 1}
    if isinstance(v, dict):
        if not v or any((k not in U or not is_int(x) or x < 0 for k, x in v.items())):
            return None
        ms = sum((U[k] * x for k, x in v.items()))
    elif isinstance(v, str):
        m = re.fullmatch("P(?:(\\d+)D)?(?:T(?:(\\d+)H)?(?:(\\d+)M)?(?:(\\d+)(?:\\.(\\d{1,3}))?S)?)?", v, re.A)
        if not m or v.endswith("T") or v == "P":
            return None
        *whole, f = m.groups()
        ms = sum((u * int(n or 0) for u, n in zip(U.values(), whole))) + int((f or "0").ljust(3, "0"))
    else:
        return None
    return ms if ms <= 315360000000 else None


class Reader:
    """Gathers the faults of what is written. A rule is a function of a value and its place."""

    def __init__(self):
        self.found = []

    def bad(self, kind, at):
        self.found.append((at, kind))

    def obj(self, v, at, req, opt, out=()):
        """An object by its members: those that it needs, those that it may have, and those that are left out of the profile."""
        if not isinstance(v, dict):
            self.bad("wrong-kind", at)
            return False
        for r in req:
            if r not in v:
                self.bad("missing", at)
        for k, x in v.items():
            rule = req.get(k) or opt.get(k)
            if k in out:
                self.bad("not-in-profile", at + (k,))
            elif rule is None:
                self.bad("unknown-member", at + (k,))
            else:
                rule(x, at + (k,))
        return True

    def form(self, test):

        def rule(v, at):
            if not isinstance(v, str):
                self.bad("wrong-kind", at)
            elif not test(v):
                self.bad("bad-text", at)
        return rule

    def any(self, v, at):
        pass

    def text(self, v, at):
        self.form(lambda s: True)(v, at)

    def object(self, v, at):
        if not isinstance(v, dict):
            self.bad("wrong-kind", at)

    def flag(self, v, at):
        if not isinstance(v, bool):
            self.bad("wrong-kind", at)

    def expr(self, v, at):
        if not isinstance(v, str):
            return self.bad("wrong-kind", at)
        b = braced(v)
        self.try_parse(v.strip(BLANKS) if b is None else b, at)

    def try_parse(self, s, at):
        try:
            parse(s)
        except Bad:
            self.bad("bad-expression", at)

    def template(self, v, at):
        if isinstance(v, str):
            b = braced(v)
            if b is not None:
                self.try_parse(b, at)
        elif isinstance(v, list):
            for i, x in enumerate(v):
                self.template(x, at + (i,))
        elif isinstance(v, dict):
            for k, x in v.items():
                self.template(x, at + (k,))

    def template_object(self, v, at):
        if not isinstance(v, dict):
            self.bad("wrong-kind", at)
        else:
            self.template(v, at)

    def template_text(self, v, at):
        if not isinstance(v, str):
            self.bad("wrong-kind", at)
        else:
            self.template(v, at)

    def transform(self, v, at):
        if isinstance(v, str):
            self.expr(v, at)
        elif isinstance(v, dict):
            self.template(v, at)
        else:
            self.bad("wrong-kind", at)

    def number(self, lo, hi):

        def rule(v, at):
            if not is_int(v):
                self.bad("wrong-kind", at)
            elif not lo <= v <= hi:
                self.bad("bad-text", at)
        return rule

    def dur(self, v, at):
        if duration(v) is None:
            self.bad("bad-text", at)

    def choice(self, good, out):

        def rule(v, at):
            if not isinstance(v, str):
                self.bad("wrong-kind", at)
            elif v in out:
                self.bad("not-in-profile", at)
            elif v not in good:
                self.bad("bad-text", at)
        return rule

    def map(self, rule):

        def go(v, at):
            if not isinstance(v, dict):
                return self.bad("wrong-kind", at)
            for k, x in v.items():
                rule(x, at + (k,))
        return go

    def list(self, rule, item=False, names=False):

        def go(v, at):
            if not isinstance(v, list):
                return self.bad("wrong-kind", at)
            if not v:
                return self.bad("not-in-profile", at)
            for i, x in enumerate(v):
                if not item:
                    rule(x, at + (i,))
                    continue
                if not isinstance(x, dict) or len(x) != 1:
                    self.bad("wrong-kind", at + (i,))
                    continue
                (k, y), = x.items()
                if names and k in ("continue", "exit", "end"):
                    self.bad("bad-text", at + (i, k))
                else:
                    rule(y, at + (i, k))
        return go

    def tasks(self, fun):
        return self.list(lambda v, at: self.task(v, at, fun), True, True)

    def document(self, v):
        return self.obj(
            v,
            (),
            {"document": self.head, "do": self.tasks(False)},
            {
                "input": lambda x,
                at: self.obj(x, at, {}, {"from": self.transform}, ("schema",)),
                "output": lambda x,
                at: self.obj(x, at, {}, {"as": self.transform}, ("schema",)),
                "use": self.use,
                "evaluate": lambda x,
                at: self.obj(
                    x,
                    at,
                    {},
                    {
                        "language": lambda y,
                        a: self.bad("wrong-kind", a) if not isinstance(y, str) else y == "jq" or self.bad("not-in-profile", a),
                        "mode": self.choice({"strict"}, {"loose"}),
                    },
                ),
            },
            ("timeout", "schedule"),
        )

    def head(self, v, at):
        label = self.form(lambda s: LABEL.fullmatch(s))
        self.obj(
            v,
            at,
            {
                "dsl": self.form(lambda s: re.fullmatch("1\\.0\\.[0-9]+", s)),
                "namespace": label,
                "name": label,
                "version": self.form(lambda s: VERSION.fullmatch(s)),
            },
            {"title": self.text, "summary": self.text, "tags": self.object, "metadata": self.object},
        )

    def use(self, v, at):
        self.obj(
            v,
            at,
            {},
            {
                "functions": self.map(lambda x, a: self.task(x, a, True)),
                "errors": self.map(self.error),
                "retries": self.map(self.policy),
            },
            ("authentications", "secrets", "extensions", "catalogs", "timeouts"),
        )

    def error(self, v, at):
        t = self.template_text
        self.obj(v, at, {"type": t, "status": self.number(100, 599)}, {"title": t, "detail": t, "instance": t})

    def policy(self, v, at):
        self.obj(
            v,
            at,
            {},
            {
                "delay": self.dur,
                "backoff": lambda x,
                a: self.obj(x, a, {}, {"constant": lambda y, b: self.obj(y, b, {}, {})}, ("exponential", "linear")),
                "limit": lambda x,
                a: self.obj(
                    x,
                    a,
                    {},
                    {"attempt": lambda y, b: self.obj(y, b, {}, {"count": self.number(0, 1000000)}, ("duration",))},
                    ("duration",),
                ),
                "when": self.expr,
                "exceptWhen": self.expr,
            },
            ("jitter",),
        )

    def filter(self, v, at):
        self.obj(
            v,
            at,
            {"with": self.template_object},
            {"correlate": self.map(lambda x, a: self.obj(x, a, {"from": self.expr}, {"expect": self.template}))},
        )

    def task(self, v, at, fun):
        if not isinstance(v, dict):
            return self.bad("wrong-kind", at)
        words = [
            k for k in ("call", "do", "emit", "for", "fork", "listen", "raise", "run", "set", "switch", "try", "wait") if k in v
        ]
        if "for" in words and "do" in words:
            words.remove("do")
        if len(words) != 1:
            return self.bad("wrong-kind", at)
        w = words[0]
        opt = {
            "if": self.expr,
            "input": lambda x,
            a: self.obj(x, a, {}, {"from": self.transform}, ("schema",)),
            "output": lambda x,
            a: self.obj(x, a, {}, {"as": self.transform}, ("schema",)),
            "then": self.text,
            "metadata": self.object,
        }
        out = ["timeout"]
        if fun:
            out.append("export")
        else:
            opt["export"] = lambda x, a: self.obj(x, a, {}, {"as": self.transform}, ("schema",))
        req = {}
        t = self.tasks(fun)
        if w == "set":

            def rule(x, a):
                if isinstance(x, dict):
                    self.template(x, a)
                elif isinstance(x, str):
                    self.template(x, a) if braced(x) is not None else self.bad("bad-text", a)
                else:
                    self.bad("wrong-kind", a)
            req["set"] = rule
        elif w == "do":
            req["do"] = t
        elif w == "wait":
            req["wait"] = self.dur
        elif w == "emit":
            req["emit"] = lambda x, a: self.obj(x, a, {"event": lambda y, b: self.obj(y, b, {"with": self.emitted}, {})}, {})
        elif w == "for":
            name = self.form(lambda s: NAME.fullmatch(s) and s not in RESERVED)
            req["for"] = lambda x, a: self.obj(x, a, {"in": self.expr}, {"each": name, "at": name})
            req["do"] = t
            opt["while"] = self.expr
        elif w == "fork":
            req["fork"] = lambda x, a: self.obj(x, a, {"branches": t}, {"compete": self.flag})
        elif w == "listen":
            out.append("foreach")
            req["listen"] = lambda x, a: self.obj(
                x,
                a,
                {"to": self.to},
                {"read": self.choice({"data", "envelope"}, {"raw"})},
                ("foreach",),
            )
        elif w == "raise":
            req["raise"] = lambda x, a: self.obj(
                x,
                a,
                {"error": lambda y, b: None if isinstance(y, str) else self.error(y, b)},
                {},
            )
        elif w == "run":
            label = self.form(lambda s: LABEL.fullmatch(s))

            def aw(x, a):
                if not isinstance(x, bool):
                    self.bad("wrong-kind", a)
                elif not x:
                    self.bad("not-in-profile", a)
            req["run"] = lambda x, a: self.obj(
                x,
                a,
                {
                    "workflow": lambda y,
                    b: self.obj(
                        y,
                        b,
                        {"namespace": label, "name": label},
                        {"version": self.form(lambda s: s == "latest" or VERSION.fullmatch(s)), "input": self.template},
                    ),
                },
                {"await": aw},
                ("container", "script", "shell"),
            )
        elif w == "switch":
            req["switch"] = self.list(lambda x, a: self.obj(x, a, {}, {"when": self.expr, "then": self.text}), True)
        elif w == "try":
            req["try"] = t
            req["catch"] = lambda x, a: self.catch(x, a, fun)
        else:
            c = v["call"]

            def rule(x, a):
                if not isinstance(x, str):
                    self.bad("wrong-kind", a)
                elif x in ("asyncapi", "grpc", "openapi"):
                    self.bad("not-in-profile", a)
            req["call"] = rule
            if not isinstance(c, str) or c in ("asyncapi", "grpc", "openapi"):
                opt["with"] = self.any
            elif c == "http":
                req["with"] = self.http
            else:
                opt["with"] = self.template_object
        self.obj(v, at, req, opt, tuple(out))

    def emitted(self, v, at):
        if not isinstance(v, dict):
            return self.bad("wrong-kind", at)
        rest = {k: self.template for k in v if k not in ("source", "type", "id", "time", "specversion")}
        self.obj(v, at, {"source": self.template, "type": self.template}, rest, ("id", "time", "specversion"))

    def to(self, v, at):
        if isinstance(v, dict):
            n = [k for k in ("one", "any", "all") if k in v]
            if len(n) > 1:
                return self.bad("wrong-kind", at)
            if not n:
                self.bad("missing", at)
        self.obj(v, at, {}, {"one": self.filter, "any": self.list(self.filter), "all": self.list(self.filter)}, ("until",))

    def http(self, v, at):

        def end(x, a):
            if isinstance(x, dict):
                self.obj(x, a, {"uri": uri}, {}, ("authentication",))
            else:
                uri(x, a)

        def uri(x, a):
            if not isinstance(x, str):
                return self.bad("wrong-kind", a)
            b = braced(x)
            if b is not None:
                return self.try_parse(b, a)
            if re.search("[{}]", re.sub("\\{[A-Za-z_][A-Za-z0-9_]*\\}", "", x)):
                self.bad("bad-text", a)
        self.obj(
            v,
            at,
            {
                "method": self.form(
                    lambda s: s.upper() in ("GET", "HEAD", "POST", "PUT", "DELETE", "PATCH", "OPTIONS") and s.isascii()
                ),
                "endpoint": end,
            },
            {
                "headers": self.map(self.template),
                "query": self.map(self.template),
                "body": self.template,
                "output": self.choice({"content", "response"}, {"raw"}),
                "redirect": self.flag,
            },
        )

    def catch(self, v, at, fun):

        def errors_with(x, a):
            det = {"detail": self.text} if isinstance(x, dict) and "detail" in x else {"details": self.text}
            self.obj(
                x,
                a,
                {},
                {"type": self.text, "status": self.number(100, 599), "instance": self.text, "title": self.text, **det},
            )
        self.obj(
            v,
            at,
            {},
            {
                "errors": lambda x,
                a: self.obj(x, a, {}, {"with": errors_with}),
                "as": self.form(lambda s: NAME.fullmatch(s) and s not in RESERVED),
                "when": self.expr,
                "exceptWhen": self.expr,
                "retry": lambda x,
                a: None if isinstance(x, str) else self.policy(x, a),
                "do": self.tasks(fun),
            },
        )


class Scope:
    """Gathers the faults of what belongs together, of a value that has no fault of the other kind."""

    def __init__(self, d):
        self.found, self.d, self.count, self.calls = ([], d, 0, {})

    def bad(self, kind, at):
        self.found.append((at, kind))

    def ex(self, s, at, vs):
        b = braced(s)
        e = parse(s.strip(BLANKS) if b is None else b)
        if free(e) - vs:
            self.bad("unknown-variable", at)

    def tm(self, v, at, vs):
        if isinstance(v, str) and braced(v) is not None:
            self.ex(v, at, vs)
        elif isinstance(v, list):
            for i, x in enumerate(v):
                self.tm(x, at + (i,), vs)
        elif isinstance(v, dict):
            for k, x in v.items():
                self.tm(x, at + (k,), vs)

    def tr(self, v, at, vs):
        self.ex(v, at, vs) if isinstance(v, str) else self.tm(v, at, vs)

    def run(self):
        d, W = (self.d, {"workflow"})
        u = d.get("use", {})
        self.fs, self.es, self.rs = (u.get(k, {}) for k in ("functions", "errors", "retries"))
        if "from" in d.get("input", {}):
            self.tr(d["input"]["from"], ("input", "from"), W)
        if "as" in d.get("output", {}):
            self.tr(d["output"]["as"], ("output", "as"), W | {"context", "input"})
        self.tasks(d["do"], ("do",), set(), False, None)
        for n, e in self.es.items():
            for k, x in e.items():
                self.tm(x, ("use", "errors", n, k), {"workflow", "context", "task", "input"})
        for n, r in self.rs.items():
            for k in ("when", "exceptWhen"):
                if k in r:
                    self.ex(r[k], ("use", "retries", n, k), {"workflow", "context", "task", "error"})
        for n, t in self.fs.items():
            self.calls[n] = set()
            self.task(t, ("use", "functions", n), set(), False, (), n)
        for n in self.fs:
            seen, todo = (set(), list(self.calls[n]))
            while todo:
                x = todo.pop()
                if x in seen:
                    continue
                seen.add(x)
                todo += self.calls.get(x, ())
            if n in seen:
                self.bad("function-cycle", ("use", "functions", n))
        if self.count > 4096:
            self.bad("too-many", ())
        return self.found

    def tasks(self, l, at, vs, branch, fun):
        names = [next(iter(x)) for x in l]
        for i, x in enumerate(l):
            (n, t), = x.items()
            if n in names[:i]:
                self.bad("duplicate-name", at + (i, n))
            self.task(t, at + (i, n), vs, branch, names, fun)

    def flow(self, s, at, names):
        if s not in ("continue", "exit", "end") and s not in names:
            self.bad("unknown-target", at)

    def task(self, t, at, around, branch, names, fun):
        self.count += 1
        base = {"workflow", "context", "task"} | around
        own = base | {"input"}
        if "from" in t.get("input", {}):
            self.tr(t["input"]["from"], at + ("input", "from"), base)
        if "if" in t:
            self.ex(t["if"], at + ("if",), own)
        if "as" in t.get("output", {}):
            self.tr(t["output"]["as"], at + ("output", "as"), own)
        if "as" in t.get("export", {}):
            if branch:
                self.bad("export-in-fork", at + ("export",))
            self.tr(t["export"]["as"], at + ("export", "as"), own | {"output"})
        if "then" in t:
            self.flow(t["then"], at + ("then",), names)
        if "set" in t:
            self.tm(t["set"], at + ("set",), own)
        elif "for" in t:
            f = t["for"]
            mine = {f.get("each", "item"), f.get("at", "index")}
            self.ex(f["in"], at + ("for", "in"), own)
            if "while" in t:
                self.ex(t["while"], at + ("while",), own | mine)
            self.tasks(t["do"], at + ("do",), around | mine, branch, fun)
        elif "do" in t:
            self.tasks(t["do"], at + ("do",), around, branch, fun)
        elif "emit" in t:
            self.tm(t["emit"], at + ("emit",), own)
        elif "fork" in t:
            bs = t["fork"]["branches"]
            a = at + ("fork", "branches")
            if len(bs) > 64:
                self.bad("too-many", at)
            ns = [next(iter(x)) for x in bs]
            for i, x in enumerate(bs):
                (n, y), = x.items()
                if n in ns[:i]:
                    self.bad("duplicate-name", a + (i, n))
                self.task(y, a + (i, n), around, True, (), fun)
        elif "listen" in t:
            (k, fs), = [(k, x) for k, x in t["listen"]["to"].items()]
            a = at + ("listen", "to", k)
            for p, f in [(a, fs)] if k == "one" else [(a + (i,), x) for i, x in enumerate(fs)]:
                self.tm(f["with"], p + ("with",), set())
                for n, c in f.get("correlate", {}).items():
                    self.ex(c["from"], p + ("correlate", n, "from"), set())
                    if "expect" in c:
                        self.tm(c["expect"], p + ("correlate", n, "expect"), own)
        elif "raise" in t:
            e = t["raise"]["error"]
            if isinstance(e, str):
                if e not in self.es:
                    self.bad("unknown-error", at + ("raise", "error"))
            else:
                self.tm(e, at + ("raise", "error"), own)
        elif "run" in t:
            self.tm(t["run"]["workflow"].get("input"), at + ("run", "workflow", "input"), own)
        elif "switch" in t:
            ns = [next(iter(x)) for x in t["switch"]]
            for i, x in enumerate(t["switch"]):
                (n, c), = x.items()
                p = at + ("switch", i, n)
                if n in ns[:i]:
                    self.bad("duplicate-name", p)
                if "when" in c:
                    self.ex(c["when"], p + ("when",), own)
                if "then" in c:
                    self.flow(c["then"], p + ("then",), names)
        elif "try" in t:
            c = t["catch"]
            p = at + ("catch",)
            n = c.get("as", "error")
            self.tasks(t["try"], at + ("try",), around, branch, fun)
            for q, o in ((p, c), (p + ("retry",), c.get("retry"))):
                if isinstance(o, dict):
                    for k in ("when", "exceptWhen"):
                        if k in o:
                            self.ex(o[k], q + (k,), base | {n})
            if isinstance(c.get("retry"), str) and c["retry"] not in self.rs:
                self.bad("unknown-retry", p + ("retry",))
            if "do" in c:
                self.tasks(c["do"], p + ("do",), around | {n}, branch, fun)
        elif "call" in t:
            w = t.get("with")
            a = at + ("with",)
            if t["call"] == "http":
                e = w["endpoint"]
                ea = a + ("endpoint",)
                if isinstance(e, dict):
                    e, ea = (e["uri"], ea + ("uri",))
                if braced(e) is not None:
                    self.ex(e, ea, own)
                for k in ("headers", "query", "body"):
                    self.tm(w.get(k), a + (k,), own)
            else:
                if t["call"] not in self.fs:
                    self.bad("unknown-function", at + ("call",))
                if fun is not None:
                    self.calls[fun].add(t["call"])
                self.tm(w, a, own)


def order(f):
    """Document order: members by their bytes, positions as numbers, and then the kinds."""
    return ([(0, x) if isinstance(x, int) else (1, x.encode()) for x in f[0]], KINDS.index(f[1]))


def pointer(at):
    return "".join(("/" + str(x).replace("~", "~0").replace("/", "~1") for x in at))


def depth(v):
    if isinstance(v, list):
        return 1 + max([0] + [depth(x) for x in v])
    if isinstance(v, dict):
        return 1 + max([0] + [depth(x) for x in v.values()])
    return 0


def nest(s):
    d = m = 0
    t = re.sub('"(\\\\.|[^"\\\\])*"', "", s)
    for c in t:
        if c in "[{":
            d += 1
            m = max(m, d)
        elif c in "]}":
            d -= 1
    return m


def whole(v):
    if isinstance(v, list):
        return all(map(whole, v))
    if isinstance(v, dict):
        return all(map(whole, v.values()))
    if isinstance(v, float):
        return False
    return not is_int(v) or abs(v) <= 9007199254740991


def read(s, most=64):
    """A word for bytes that are no value, or None and the value. Lists and objects nest at most so deep."""

    def num(t):
        return -0.5 if t == "-0" else int(t)

    def fl(t):
        x = float(t)
        if x in (float("inf"), float("-inf")):
            raise ValueError
        return x
    try:
        v = json.loads(s, parse_int=num, parse_float=fl, parse_constant=lambda t: 1 / 0)
    except (ValueError, ZeroDivisionError):
        return ("not-json", None)
    try:
        json.dumps(v, ensure_ascii=False).encode()
    except UnicodeEncodeError:
        return ("not-json", None)
    if nest(s) > 127:
        return ("not-json", None)
    if depth(v) > most:
        return ("too-deep", None)
    if not whole(v):
        return ("not-whole", None)
    return (None, v)


def faults(v):
    """The faults of a value in order."""
    r = Reader()
    r.document(v)
    f = r.found or Scope(v).run()
    return sorted(f, key=order)


def check(s):
    """The lines that are printed for the text of a document."""
    w, v = read(s)
    if w:
        return [w]
    f = faults(v)
    return ["%s %s" % (k, json.dumps(pointer(at), ensure_ascii=False)) for at, k in f] or ["accepted"]
