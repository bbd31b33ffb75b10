#!/usr/bin/env python3
"""A second reading of what workflow instances do, told without the program: it reads sessions, a block of commands each, and
prints the transcript that the program has to give for them.

The rules are those of the Serverless Workflow DSL 1.0.0 reference ("Workflow", "Task", "Do", "Emit", "For", "Fork", "Listen",
"Raise", "Run", "Set", "Switch", "Try", "Wait", "Call", "HTTP Call", "Data Flow", "Flow Directive", "Error", "Event Consumption
Strategy", "Event Filter", "Duration", "Endpoint", "HTTP Response", "Runtime Expressions") with the choices that docs/MEANING.md
tells. Events are those of CloudEvents 1.0.2 and its JSON format, with instants by RFC 3339 and base64 by RFC 4648; templates of
URIs are those of RFC 6570, level 1, and headers those of RFC 9110, section 5. It runs all twelve kinds of task, and a call only as
far as its request and its answer; what documents may hold is asked of judge.py. Expressions are evaluated by the program `jq`, so a
value never comes from here.

An instance is a tree of nodes, and a step rewrites it at one place. Its strands are the single lines of control in it: one from
the root and one from each branch, each up to the next fork. A strand is named by the numbers of the branches around it, from
the outside in. Which of the strands that can go on takes the next step is free by the rules; here `Instance.next_strand` says it.

Where jq and the profile differ (the texts of errors, texts times numbers, an `if` without `else` before jq 1.7), a session is of
no use here. Errors of jq are told in the profile's words where that can be done. The limit on turns is known of one form alone:
an expression with a `range` of 499,999 or more is taken to be above it. Where a session comes to what is not modelled, a line
that begins with `! not modelled` ends it. Of the lines that begin with `!` it knows `! reopen`, `! fail say N`, the words of a
session, and all that say who answers calls; a response is read by the library of Python.

Usage: bench/meaning.py < sessions.txt, the blocks of crates/swf_test_sessions/data; `bench/meaning.py stops < stops.txt` tells what
comes of stops: how many calls of the store the session takes, and how many of its stops came to another end; and
`bench/meaning.py orders < orders.txt`, whose rows lie there too, tells what every order of the steps of a workflow's strands
comes to. JQ names another program than `jq`.
"""
import base64
import copy
import datetime
import functools
import http.client
import io
import json
import os
import re
import subprocess
import sys
import urllib.parse
from collections import deque, namedtuple

sys.dont_write_bytecode = True
import judge

GREATEST = 9007199254740991
LAST_MOMENT = 4503599627370495
STANDARD = "https://serverlessworkflow.io/spec/1.0.0/errors/"
STATUSES = {"communication": 500, "configuration": 400, "expression": 400, "runtime": 500, "validation": 400}

# A `range` of so many takes more turns than an expression may.
LONG_RANGE = 499999

# So many branches the live forks of an instance have together.
MOST_BRANCHES = 256

# So many functions and sub-workflows may be around a task that calls another.
MOST_CALLS = 16

# Calls of the store by which a journal is opened that is not there yet, and those that add a label.
OPENING, ADDING = 5, 4

# What jq says of an error, and what the profile does.
WORDS = [
    ("Cannot index", "cannot index"),
    ("Cannot iterate", "cannot iterate"),
    ("cannot be added", "cannot add"),
    ("cannot be subtracted", "cannot subtract"),
    ("cannot be multiplied", "cannot multiply"),
    ("cannot be divided", "cannot divide"),
    ("cannot be negated", "cannot negate"),
    ("Object keys must be strings", "cannot key"),
    ("has no keys", "cannot keys"),
]

# A task of a document: its name, its place, and what stands there.
Task = namedtuple("Task", "name place body")

# The four kinds of node. `inside` is what a task that runs is at: one of the eleven forms below.
Fresh = namedtuple("Fresh", "task raw")
Live = namedtuple("Live", "task raw input inside")
Done = namedtuple("Done", "output flow")
Fault = namedtuple("Fault", "problem")

# `at` is a place in a list of tasks, and `node` what is there.
Seq = namedtuple("Seq", "at node")
Each = namedtuple("Each", "items number at node")
Try = namedtuple("Try", "retries at node")
Catch = namedtuple("Catch", "problem at node")
Later = namedtuple("Later", "retries until")
Sleep = namedtuple("Sleep", "until")

# The values of names, and the events that a `listen` took, each behind the number of its filter.
Hear = namedtuple("Hear", "bound heard")

# A call that was sent, and what it was answered, or None as long as it is open.
Await = namedtuple("Await", "activity request reply")

# A function, and the workflow of a document, which has a scene of its own.
Fun = namedtuple("Fun", "node")
Sub = namedtuple("Sub", "scene node")

# A node for each branch.
Fork = namedtuple("Fork", "branches")

# The forms with the next node of the same strand.
AROUND = (Seq, Each, Try, Catch, Fun, Sub)

# What all tasks of a document have in common while it runs: the document, what they see as `$workflow`, and the context.
Scene = namedtuple("Scene", "document workflow context")


class Raised(Exception):
    """A standard error at the task whose rule is being applied."""

    def __init__(self, detail, kind="expression", status=None):
        super().__init__(detail)
        self.detail, self.kind, self.status = detail, kind, status or STATUSES[kind]


class NotModelled(Exception):
    """This file does not say what happens."""


def text_of(value):
    return json.dumps(value, sort_keys=True, separators=(",", ":"), ensure_ascii=False)


# --- Values and expressions


def size(value):
    """One for each node, and one for each byte of a text or a name."""
    if isinstance(value, str):
        return 1 + len(value.encode())
    if isinstance(value, list):
        return 1 + sum(map(size, value))
    if isinstance(value, dict):
        return 1 + sum(len(name.encode()) + size(it) for name, it in value.items())
    return 1


def within_limits(value):
    if judge.depth(value) > 64 or size(value) > 4194304:
        raise Raised("value limit", "runtime")
    return value


def checked(value):
    """A value that jq gave, where it is one of the profile."""
    parts = value if isinstance(value, list) else list(value.values()) if isinstance(value, dict) else []
    for part in parts:
        checked(part)
    if isinstance(value, (int, float)) and abs(value) > GREATEST:
        raise Raised("out of range")
    if isinstance(value, float):
        raise Raised("cannot divide")
    return value


@functools.lru_cache(maxsize=None)
def asked(text, given):
    """What jq answers: an object with the first output as `v`, if there is one, or with the error as `e`."""
    names = json.loads(given)[1]
    bound = "".join(f".[1].{name} as ${name} | " for name in names)
    program = bound + ".[0] | try {v: [first(" + text + "\n)]} catch {e: .}"
    command = [os.environ.get("JQ", "jq"), "-cS", program]
    ran = subprocess.run(command, input=given, capture_output=True, text=True, check=False)
    if ran.returncode != 0:
        raise NotModelled("jq does not take " + text)
    return ran.stdout


def value_of(text, value, sight):
    """The first output of an expression, or null."""
    inner = judge.braced(text)
    if any(int(most) >= LONG_RANGE for most in re.findall(r"\brange\(([0-9]+)\)", text)):
        raise Raised("expression limit", "runtime")
    used = {name: it for name, it in sight.items() if "$" + name in text}
    answer = json.loads(asked(text if inner is None else inner, text_of([value, used])))
    if "v" in answer:
        found = checked(answer["v"][0] if answer["v"] else None)
        if judge.depth(found) > 64:
            raise Raised("too deep")
        return found
    said = answer["e"]
    if not isinstance(said, str):
        raise Raised(text_of(said))
    raise Raised(next((ours for theirs, ours in WORDS if theirs in said), said))


def is_true(text, value, sight):
    found = value_of(text, value, sight)
    return found is not None and found is not False


def filled(template, value, sight):
    """A template with the values of its expressions, in the order of items and of names."""
    if isinstance(template, str) and judge.braced(template) is not None:
        return value_of(template, value, sight)
    if isinstance(template, list):
        return [filled(it, value, sight) for it in template]
    if isinstance(template, dict):
        return {name: filled(template[name], value, sight) for name in sorted(template)}
    return template


def made(template, value, sight):
    """What a template gives."""
    return within_limits(filled(template, value, sight))


def transformed(by, value, sight):
    """What `from` or `as` makes of a value."""
    if by is None:
        return value
    return within_limits(value_of(by, value, sight)) if isinstance(by, str) else made(by, value, sight)


# --- Events and replies

# The attributes that an event needs, and those whose value is a text that is not empty where they are there.
NEEDED = ("id", "source", "specversion", "type")
TEXTS = ("datacontenttype", "dataschema", "subject")

DATE = "([0-9]{4})-([0-9]{2})-([0-9]{2})"
CLOCK = "([0-9]{2}):([0-9]{2}):([0-9]{2})([.][0-9]{1,9})?"
TIME = re.compile(DATE + "T" + CLOCK + "(?:Z|([+-])([0-9]{2}):([0-9]{2}))")

# The last instant that jiff has, 9999-12-30T22:00:00.999999999Z, in whole seconds since the first day of the year 1.
LAST_INSTANT = datetime.date(9999, 12, 30).toordinal() * 86400 + 22 * 3600


def seconds_of(day, hour, minute, second, sign, ahead):
    """Whole seconds since the first day of the year 1, of a time that is so many minutes ahead of UTC; a second 60 is a 59."""
    offset = -ahead if sign == "-" else ahead
    return day.toordinal() * 86400 + (hour * 60 + minute - offset) * 60 + min(second, 59)


def is_time(text):
    """An instant that jiff reads, in which a second 60 stands for any leap second."""
    found = TIME.fullmatch(text)
    if not found:
        return False
    year, month, day, hour, minute, second, _, sign, *offset = found.groups(default="0")
    leap = int(year) % 4 == 0 and (int(year) % 100 != 0 or int(year) % 400 == 0)
    days = {2: 29 if leap else 28, 4: 30, 6: 30, 9: 30, 11: 30}.get(int(month), 31)
    if not (1 <= int(month) <= 12 and 1 <= int(day) <= days):
        return False
    if not (int(hour) < 24 and int(minute) < 60 and int(second) < 61 and int(offset[0]) < 24 and int(offset[1]) < 60):
        return False
    if int(year) < 9999:
        return True
    ahead = int(offset[0]) * 60 + int(offset[1])
    return seconds_of(datetime.date(9999, int(month), int(day)), int(hour), int(minute), int(second), sign, ahead) <= LAST_INSTANT


def is_base64(text):
    """The one spelling of some bytes."""
    try:
        return base64.b64encode(base64.b64decode(text, validate=True)).decode() == text
    except ValueError:
        return False


def text_fault(value):
    """Why an attribute's value is no text of at least one character."""
    if not isinstance(value, str):
        return "wrong-kind"
    return None if value else "empty"


def known_faults(value, given):
    """What may be wrong with each attribute that the standard names, in order; `given` has those that are there."""
    for name in NEEDED:
        yield name, text_fault(given[name]) if name in given else "missing"
        if name == "specversion":
            yield name, None if given[name] == "1.0" else "bad-value"
    for name in TEXTS:
        yield name, text_fault(given[name]) if name in given else None
    if "time" in given:
        yield "time", "wrong-kind" if not isinstance(given["time"], str) else None if is_time(given["time"]) else "bad-value"
    if "data_base64" in given:
        spelled = given["data_base64"]
        yield "data_base64", "wrong-kind" if not isinstance(spelled, str) else None if is_base64(spelled) else "bad-value"
        yield "data_base64", "conflict" if "data" in value else None


def extension_fault(name, value):
    if not re.fullmatch("[a-z0-9]+", name):
        return "bad-name"
    is_simple = isinstance(value, (str, bool)) or (judge.is_int(value) and -(2**31) <= value < 2**31)
    return None if is_simple else "wrong-kind"


def event_fault(value):
    """The first fault of a value as an event, an attribute and a kind, or None where it is one."""
    if not isinstance(value, dict):
        return "", "wrong-kind"
    given = {name: it for name, it in value.items() if it is not None}
    for name, kind in known_faults(value, given):
        if kind is not None:
            return name, kind
    for name in sorted(set(given) - {*NEEDED, *TEXTS, "time", "data", "data_base64"}):
        if extension_fault(name, given[name]) is not None:
            return name, extension_fault(name, given[name])
    return None


def envelope(value):
    """An event as it prints: an attribute that is null is not there, and `data` may be null."""
    return {name: it for name, it in value.items() if it is not None or name == "data"}


def is_reply(value):
    """What a call may be answered."""
    if text_of(value) == '{"unreached":true}':
        return True
    if not isinstance(value, dict) or set(value) != {"content", "headers", "status"}:
        return False
    status, headers = value["status"], value["headers"]
    if not judge.is_int(status) or not 100 <= status <= 599 or not isinstance(headers, dict):
        return False
    return all(isinstance(it, str) for it in headers.values())


# --- Calls

# The name of a header, and its value without blanks at its ends.
TOKEN = re.compile("[!#$%&'*+.^_`|~0-9A-Za-z-]+")
FIELD = re.compile("([!-~]([!-~ \t]*[!-~])?)?")


def spelled(value):
    """A text, a number or a Boolean as a text."""
    if isinstance(value, str):
        return value
    if isinstance(value, (bool, int)):
        return text_of(value)
    raise Raised("cannot expand")


def escaped(text):
    return urllib.parse.quote(text, safe="-._~")


def expanded(pattern, value):
    """A URI with the members of a value in the place of their names. One that is null or not there is empty."""

    def part(found):
        if not isinstance(value, (dict, type(None))):
            raise Raised("cannot index")
        it = (value or {}).get(found[1])
        if isinstance(it, bool):
            raise Raised("cannot expand")
        return "" if it is None else escaped(spelled(it))

    return re.sub("[{](" + judge.NAME.pattern + ")[}]", part, pattern)


def uri_of(asked, value, sight):
    """The URI of a call. The values of its query are filled before it, and judged behind it."""
    query = {name: made(it, value, sight) for name, it in sorted(asked.get("query", {}).items())}
    endpoint = asked["endpoint"]["uri"] if isinstance(asked["endpoint"], dict) else asked["endpoint"]
    if judge.braced(endpoint) is None:
        uri = expanded(endpoint, value)
    else:
        uri = made(endpoint, value, sight)
        if not isinstance(uri, str):
            raise Raised("cannot expand")
    for name, it in query.items():
        uri += ("&" if "?" in uri else "?") + escaped(name) + "=" + escaped(spelled(it))
    return uri


def header_of(name, value):
    """What a header has as its text."""
    text = spelled(value)
    if not (TOKEN.fullmatch(name) and FIELD.fullmatch(text)):
        raise Raised("cannot expand")
    return text


def request_of(asked, value, sight):
    """What is sent: the URI is made first, then each header by its name, then the body where there is one."""
    uri = uri_of(asked, value, sight)
    headers = {name: header_of(name, made(it, value, sight)) for name, it in sorted(asked.get("headers", {}).items())}
    body = {"body": made(asked["body"], value, sight)} if "body" in asked else {}
    return {**body, "headers": headers, "method": asked["method"].upper(), "uri": uri}


def answered(asked, request, reply):
    """What a call gives, by what it was answered."""
    if "unreached" in reply:
        raise Raised("unreached", "communication")
    status, last = reply["status"], 399 if asked.get("redirect") else 299
    if not 200 <= status <= last:
        raise Raised(None, "communication", status)
    if asked.get("output") != "response":
        return reply["content"]
    sent = {name: request[name] for name in ("headers", "method", "uri")}
    return {"content": reply["content"], "headers": reply["headers"], "request": sent, "statusCode": status}


# --- Who answers calls

# A type of JSON, or one with its syntax, in front of its parameters.
JSON_TYPE = re.compile(r"[ \t]*(application/json|[^;]*[+]json)[ \t]*(;.*)?", re.A | re.I | re.S)


class Given:
    """What stands for a socket where a response is read: bytes that are given."""

    def __init__(self, given):
        self.given = given

    def makefile(self, mode):
        return io.BytesIO(self.given)


def content_of(kind, body):
    """What a body is as a value."""
    if not body:
        return None
    try:
        text = body.decode("utf-8")
    except UnicodeDecodeError:
        return base64.b64encode(body).decode("ascii")
    fault, value = judge.read(text, 64) if JSON_TYPE.fullmatch(kind) else ("no JSON", None)
    return text if fault else value


def response_of(given, method):
    """The answer that bytes are. Those that begin no whole response reached nobody."""
    response = http.client.HTTPResponse(Given(given), method=method)
    try:
        response.begin()
        body = response.read()
    except (http.client.HTTPException, ValueError):
        return {"unreached": True}
    if not 100 <= response.status <= 599:
        return {"unreached": True}
    headers = {}
    for name, value in response.getheaders():
        headers[name.lower()] = headers[name.lower()] + ", " + value if name.lower() in headers else value
    return {"content": content_of(headers.get("content-type", ""), body), "headers": headers, "status": response.status}


class Board:
    """Who answers the calls of a part of a session: one over HTTP, whose links give what stands there, one for each dial that does
    not fail, and behind it others, each of a scheme, which reach nobody."""

    def __init__(self, lines):
        orders = [line[2:].partition(" ")[::2] for line in lines if line.startswith("! ")]
        self.links = deque(self.link(word, rest) for word, rest in orders if word in ("response", "raw"))
        self.failing = [int(rest[len("dial "):]) for word, rest in orders if word == "fail" and rest.startswith("dial ")]
        self.schemes = [rest for word, rest in orders if word == "also"]
        self.is_nobody = not (self.links or self.failing or self.schemes)
        self.dials, self.told = 0, [0] * len(self.schemes)
        words = next((rest for word, rest in orders if word == "words"), "").replace("=", ",").split(",")
        options = dict(zip(words[:-1:2], words[1::2]))
        self.answers, self.steps = options.get("--calls") == "http", int(options.get("--steps", 1000))

    @staticmethod
    def link(word, rest):
        if word == "raw":
            return bytes.fromhex(rest)
        status, kind, body = (rest.split(" ", 2) + [""])[:3]
        body = body.encode("utf-8")
        return f"HTTP/1.1 {status} \r\nContent-Type: {kind}\r\nContent-Length: {len(body)}\r\n\r\n".encode("ascii") + body

    def dialed(self, request):
        """What the one over HTTP answers."""
        if not urllib.parse.urlsplit(request["uri"]).hostname:
            return {"unreached": True}
        self.dials += 1
        if self.dials - 1 in self.failing or not self.links:
            return {"unreached": True}
        return response_of(self.links.popleft(), request["method"])

    def perform(self, request):
        """What the first that takes a request answers."""
        if request["uri"].startswith("http:") and not self.is_nobody:
            return self.dialed(request)
        for at, scheme in enumerate(self.schemes):
            if request["uri"].startswith(scheme + ":"):
                self.told[at] += 1
                break
        return {"unreached": True}

    def asked(self):
        return "" if self.is_nobody else " ".join(["-", *map(str, self.told)])


# --- What a `listen` takes


def fits(wanted, name, event):
    """Whether what a filter says of an attribute is so."""
    if isinstance(wanted, str) and judge.braced(wanted) is not None:
        return is_true(wanted, event.get(name), {})
    return name in event and text_of(filled(wanted, event[name], {})) == text_of(event[name])


def correlated(asked, bound, event):
    """The values of names where a filter takes an event, or None where it does not."""
    try:
        if not all(fits(wanted, name, event) for name, wanted in asked["with"].items()):
            return None
        for name, rule in asked.get("correlate", {}).items():
            found = value_of(rule["from"], event, {})
            if found is None or text_of(bound.get(name, found)) != text_of(found):
                return None
            bound = {**bound, name: found}
    except Raised:
        return None
    return bound


def filters_of(task):
    """How many of its filters a `listen` needs an event for, and the filters."""
    (word, asked), = task.body["listen"]["to"].items()
    filters = [asked] if word == "one" else asked
    return len(filters) if word == "all" else 1, filters


def is_satisfied(task, inside):
    return len(inside.heard) >= filters_of(task)[0]


def taken(task, inside, event):
    """What a `listen` is at behind an offer, or None where it does not take the event."""
    if is_satisfied(task, inside):
        return None
    for number, asked in enumerate(filters_of(task)[1]):
        if all(number != other for other, _ in inside.heard):
            bound = correlated(asked, inside.bound, event)
            if bound is not None:
                return Hear(bound, inside.heard + [(number, event)])
    return None


def read(task, event):
    """What a `listen` gives of an event: its data, or all of it."""
    is_whole = task.body["listen"].get("read") == "envelope"
    return event if is_whole else event.get("data", event.get("data_base64"))


# --- One instance


def tasks(place, listed):
    found = []
    for number, entry in enumerate(listed):
        (name, body), = entry.items()
        found.append(Task(name, place + [str(number), name], body))
    return found


def begun(place, listed, value):
    """What stands at the first place of a list. Where the list is empty, that counts as done."""
    found = tasks(place, listed)
    return Fresh(found[0], value) if found else Done(value, "continue")


def list_inside(task, inside):
    """The list of tasks that a place of the given form stands in."""
    if isinstance(inside, Try):
        return tasks(task.place + ["try"], task.body["try"])
    if isinstance(inside, Catch):
        return tasks(task.place + ["catch", "do"], task.body["catch"]["do"])
    return tasks(task.place + ["do"], task.body["do"])


def loop_names(task, items, number):
    spelled = task.body["for"]
    return {spelled.get("each", "item"): items[number], spelled.get("at", "index"): number}


def caught_name(task, problem):
    return {task.body["catch"].get("as", "error"): problem}


def matches(wanted, problem):
    return all(problem.get("detail" if name == "details" else name) == it for name, it in wanted.items())


# --- The strands of an instance


def innermost(node):
    """The innermost node of a strand: it has not begun, is done, faulted, waits for something or holds branches."""
    while isinstance(node, Live) and isinstance(node.inside, AROUND):
        node = node.inside.node
    return node


def strands(node, name=()):
    """The strands from this one on, by ascending name and each before those below it: the name and the outermost node."""
    found, inner = [(list(name), node)], innermost(node)
    if isinstance(inner, Live) and isinstance(inner.inside, Fork):
        for number, branch in enumerate(inner.inside.branches):
            found += strands(branch, [*name, number])
    return found


def is_enabled(node, now):
    """Whether the strand of this outermost node can take a step."""
    inner = innermost(node)
    if isinstance(inner, (Done, Fault)):
        return inner is not node
    if isinstance(inner, Fresh):
        return True
    if isinstance(inner.inside, Hear):
        return is_satisfied(inner.task, inner.inside)
    if isinstance(inner.inside, Await):
        return inner.inside.reply is not None
    return not isinstance(inner.inside, Fork) and inner.inside.until <= now


def offered(node, event):
    """A node behind an offer to each `listen` in it, and how many of them take the event."""
    inside = node.inside if isinstance(node, Live) else None
    if isinstance(inside, Hear):
        heard = taken(node.task, inside, event)
        return (node, 0) if heard is None else (node._replace(inside=heard), 1)
    if isinstance(inside, Fork):
        found = [offered(branch, event) for branch in inside.branches]
        return node._replace(inside=Fork([branch for branch, _ in found])), sum(count for _, count in found)
    if isinstance(inside, AROUND):
        deeper, count = offered(inside.node, event)
        return node._replace(inside=inside._replace(node=deeper)), count
    return node, 0


def replied(node, activity, reply):
    """A node behind an answer to a call in it, or None where that call is not open in it."""
    inside = node.inside if isinstance(node, Live) else None
    if isinstance(inside, Await):
        is_asked = inside.activity == activity and inside.reply is None
        return node._replace(inside=inside._replace(reply=reply)) if is_asked else None
    if isinstance(inside, Fork):
        found = [replied(branch, activity, reply) for branch in inside.branches]
        is_asked = any(found)
        return node._replace(inside=Fork([new or old for new, old in zip(found, inside.branches)])) if is_asked else None
    if isinstance(inside, AROUND):
        deeper = replied(inside.node, activity, reply)
        return node._replace(inside=inside._replace(node=deeper)) if deeper else None
    return None


# --- The rules


class Catalog:
    """The loaded documents, and the version of each namespace and name that was loaded last."""

    def __init__(self):
        self.documents, self.latest = {}, {}

    def add(self, key, document):
        self.documents[key], self.latest[key[:2]] = document, key[2]

    def resolved(self, namespace, name, version):
        """The key with the version that `latest` stands for, where there is one."""
        return namespace, name, self.latest.get((namespace, name), version) if version == "latest" else version


class Instance:
    """An instance, and the rules that rewrite its tree. `around` has the loop variables and caught errors around a node. While a
    step is taken, `scene` is the one at its place, and `calls` counts the functions and sub-workflows around that."""

    def __init__(self, name, document, given, now, catalog):
        workflow = {"id": name, "input": given, "startedAt": {"epoch": {"milliseconds": now}}}
        self.catalog, self.scene, self.calls = catalog, Scene(document, workflow, None), 0
        self.root = Fresh(Task(None, [], document), given)
        self.number, self.sent, self.last = 0, None, []

    def waits(self):
        """The strands that wait for something, each with its innermost node."""
        found = [(name, innermost(node)) for name, node in strands(self.root)]
        return [(name, it) for name, it in found if isinstance(it, Live) and not isinstance(it.inside, Fork)]

    def timers(self):
        """The strands that wait for a moment, each with that."""
        return [(name, node.inside.until) for name, node in self.waits() if isinstance(node.inside, (Sleep, Later))]

    def open_calls(self):
        """The calls that have no answer yet, each with its request."""
        found = [node.inside for _, node in self.waits() if isinstance(node.inside, Await)]
        return [(it.activity, it.request) for it in found if it.reply is None]

    def listens(self):
        """The strands that wait for an event."""
        found = [(name, it.task, it.inside) for name, it in self.waits() if isinstance(it.inside, Hear)]
        return [name for name, task, inside in found if not is_satisfied(task, inside)]

    def enabled(self, now):
        """The strands that can take a step."""
        return [name for name, node in strands(self.root) if is_enabled(node, now)]

    def can_go(self, now):
        return bool(self.enabled(now))

    def next_strand(self, now):
        """The strand that takes the next step: the first behind the one that took the last step, or else the first of all."""
        enabled = self.enabled(now)
        return next((name for name in enabled if name > self.last), enabled[0])

    def step(self, strand, now):
        """Takes a step of a strand, and gives the event that goes out, where one does."""
        self.sent, self.last = None, strand
        self.root = self.stepped(self.root, strand, {}, now)
        return self.sent

    def offer(self, event):
        """Offers an event to each `listen` that it waits in, and counts those that take it."""
        self.root, count = offered(self.root, event)
        return count

    def answer(self, activity, reply):
        """Keeps the answer to a call where that is open."""
        self.root = replied(self.root, activity, reply) or self.root

    def stepped(self, node, strand, around, now):
        """The node after a step of a strand, which is named from here on. A step that raises ends its own task and no other."""
        inside = None if isinstance(node, Fresh) else node.inside
        if isinstance(inside, (Fun, Sub)) and isinstance(inside.node, (Fresh, Live)):
            return node._replace(inside=self.called(inside, strand, now))
        if isinstance(inside, AROUND) and isinstance(inside.node, (Fresh, Live)):
            deeper = self.stepped(inside.node, strand, {**around, **self.names_inside(node)}, now)
            return node._replace(inside=inside._replace(node=deeper))
        try:
            if isinstance(inside, Fork):
                return self.branched(node, strand, around, now)
            return self.rewritten(node, around, now)
        except Raised as raised:
            return Fault(self.standard(raised, node.task))

    def called(self, inside, strand, now):
        """A function or a sub-workflow after a step in it, which sees nothing of what is around the call."""
        self.calls += 1
        if isinstance(inside, Sub):
            outer, self.scene = self.scene, inside.scene
            deeper = self.stepped(inside.node, strand, {}, now)
            inside, self.scene = Sub(self.scene, deeper), outer
        else:
            inside = Fun(self.stepped(inside.node, strand, {}, now))
        self.calls -= 1
        return inside

    def branched(self, node, strand, around, now):
        """A fork after a step in one of its branches."""
        number, *below = strand
        branches = list(node.inside.branches)
        branches[number] = self.stepped(branches[number], below, around, now)
        return self.settled(node._replace(inside=Fork(branches)), branches[number], around)

    def settled(self, node, branch, around):
        """A fork behind a step of a branch. Where the branch has ended the fork may end too, and then no other branch is left."""
        if isinstance(branch, Live):
            return node
        if isinstance(branch, Fault) or branch.flow == "end":
            return branch
        if node.task.body["fork"].get("compete"):
            return self.completed(node, branch.output, around)
        if all(isinstance(it, Done) for it in node.inside.branches):
            return self.completed(node, [it.output for it in node.inside.branches], around)
        return node

    def rewritten(self, node, around, now):
        if isinstance(node, Fresh):
            return self.entered(node, around, now)
        inside = node.inside
        if isinstance(inside, Sleep):
            return self.completed(node, node.input, around)
        if isinstance(inside, Hear):
            return self.completed(node, [read(node.task, event) for _, event in inside.heard], around)
        if isinstance(inside, Await):
            return self.completed(node, answered(node.task.body["with"], inside.request, inside.reply), around)
        if isinstance(inside, Later):
            first = begun(node.task.place + ["try"], node.task.body["try"], node.input)
            return node._replace(inside=Try(inside.retries, 0, first))
        if isinstance(inside, (Fun, Sub)) and isinstance(inside.node, Done):
            return self.returned(node, around)
        if isinstance(inside.node, Done):
            return self.gone_on(node, around)
        if isinstance(inside, Try):
            return self.caught(node, around, now)
        # An error goes up by one node.
        return inside.node

    def names_inside(self, node):
        if isinstance(node.inside, Each):
            return loop_names(node.task, node.inside.items, node.inside.number)
        if isinstance(node.inside, Catch):
            return caught_name(node.task, node.inside.problem)
        return {}

    @staticmethod
    def standard(raised, task):
        detail = {} if raised.detail is None else {"detail": raised.detail}
        kind, where = raised.kind, judge.pointer(task.place)
        return {"type": STANDARD + kind, "status": raised.status, "title": kind, **detail, "instance": where}

    def sight(self, task, raw, around):
        """What `input.from` of a task sees. The document's own sees the workflow alone."""
        if not task.place:
            return {"workflow": self.scene.workflow}
        known = {"name": task.name, "reference": judge.pointer(task.place), "input": raw}
        return {**around, "workflow": self.scene.workflow, "context": self.scene.context, "task": known}

    def sight_within(self, node, around):
        return {**self.sight(node.task, node.raw, around), "input": node.input, "context": self.scene.context}

    def entered(self, node, around, now):
        """A task that begins: `input.from`, then `if`, then what its kind does."""
        task, raw = node
        body = task.body
        value = transformed(body.get("input", {}).get("from"), raw, self.sight(task, raw, around))
        live = Live(task, raw, value, None)
        sight = self.sight_within(live, around)
        if "if" in body and not is_true(body["if"], value, sight):
            return Done(raw, "continue")
        if "set" in body:
            return self.completed(live, filled(body["set"], value, sight), around)
        if "switch" in body:
            return self.completed(live, value, around, self.case_of(body["switch"], value, sight))
        if "raise" in body:
            return Fault(self.problem_of(body["raise"]["error"], live, sight))
        if "wait" in body:
            return live._replace(inside=Sleep(now + judge.duration(body["wait"])))
        if "listen" in body:
            return live._replace(inside=Hear(self.expected(live, sight), []))
        if "emit" in body:
            self.sent = self.event_of(body["emit"]["event"]["with"], live, sight)
            self.number += 1
            return self.completed(live, value, around)
        if body.get("call") == "http":
            request = request_of(body["with"], value, sight)
            self.number += 1
            return live._replace(inside=Await(f"{self.scene.workflow['id']}/{self.number - 1}", request, None))
        if "call" in body or "run" in body:
            if self.calls == MOST_CALLS:
                raise Raised("depth limit", "runtime")
            return live._replace(inside=self.function(live, sight) if "call" in body else self.workflow(live, sight))
        if "for" in body:
            items = value_of(body["for"]["in"], value, sight)
            if not isinstance(items, list):
                raise Raised("cannot loop")
            return self.iteration(live, items, 0, value, around)
        if "fork" in body:
            branches = tasks(task.place + ["fork", "branches"], body["fork"]["branches"])
            if len(strands(self.root)) - 1 + len(branches) > MOST_BRANCHES:
                raise Raised("strand limit", "runtime")
            return live._replace(inside=Fork([Fresh(branch, value) for branch in branches]))
        if "try" in body:
            return live._replace(inside=Try(0, 0, begun(task.place + ["try"], body["try"], value)))
        return live._replace(inside=Seq(0, begun(task.place + ["do"], body["do"], value)))

    def function(self, live, sight):
        """A function that begins, on what it is given or else on the task's own input."""
        name, body = live.task.body["call"], live.task.body
        given = made(body["with"], live.input, sight) if "with" in body else live.input
        return Fun(Fresh(Task(name, ["use", "functions", name], self.scene.document["use"]["functions"][name]), given))

    def workflow(self, live, sight):
        """A sub-workflow that begins, in a scene of its own and without a context."""
        asked = live.task.body["run"]["workflow"]
        given = made(asked["input"], live.input, sight) if "input" in asked else live.input
        key = self.catalog.resolved(asked["namespace"], asked["name"], asked.get("version", "latest"))
        if key not in self.catalog.documents:
            raise Raised("unknown workflow", "configuration")
        document = self.catalog.documents[key]
        scene = Scene(document, {**self.scene.workflow, "input": given}, None)
        return Sub(scene, Fresh(Task(None, [], document), given))

    def returned(self, node, around):
        """Behind a function or a sub-workflow. The end of a function's workflow is that of the caller's, which is the same."""
        output, flow = node.inside.node
        if isinstance(node.inside, Fun) and flow == "end":
            return node.inside.node
        return self.completed(node, output, around)

    @staticmethod
    def expected(live, sight):
        """The values of the names that a `listen` begins with."""
        bound = {}
        for asked in filters_of(live.task)[1]:
            for name, rule in sorted(asked.get("correlate", {}).items()):
                if "expect" in rule:
                    found = made(rule["expect"], live.input, sight)
                    if text_of(bound.setdefault(name, found)) != text_of(found):
                        raise Raised("cannot correlate")
        return bound

    def event_of(self, template, live, sight):
        """The event that an `emit` sends."""
        given = made(template, live.input, sight)
        event = {**given, "id": f"{self.scene.workflow['id']}/{self.number}", "specversion": "1.0"}
        if event_fault(event) is not None:
            raise Raised("bad event", "validation")
        return envelope(event)

    @staticmethod
    def case_of(cases, value, sight):
        """Where control goes by the case that is taken, if that says so."""
        listed = [case for entry in cases for case in entry.values()]
        taken = next((it for it in listed if "when" in it and is_true(it["when"], value, sight)), None)
        taken = taken or next((it for it in listed if "when" not in it), {})
        return taken.get("then")

    def problem_of(self, error, live, sight):
        if isinstance(error, str):
            error = self.scene.document["use"]["errors"][error]
            sight = {name: sight[name] for name in ("workflow", "context", "task", "input")}
        problem = {"instance": judge.pointer(live.task.place), **filled(error, live.input, sight)}
        if not all(isinstance(it, str) for name, it in problem.items() if name != "status"):
            raise Raised("cannot raise")
        return problem

    def completed(self, node, output, around, flow=None):
        """A task with its raw output: `output.as`, then `export.as`, then where control goes."""
        body = node.task.body
        sight = self.sight_within(node, around)
        output = transformed(body.get("output", {}).get("as"), within_limits(output), sight)
        exported = body.get("export", {}).get("as") if node.task.place else None
        if exported is not None:
            self.scene = self.scene._replace(context=transformed(exported, output, {**sight, "output": output}))
        return Done(output, flow or body.get("then", "continue") if node.task.place else "continue")

    def iteration(self, node, items, number, value, around):
        """An iteration of a loop, where there is an item for it and `while` is true of what the one before gave."""
        if number == len(items):
            return self.completed(node, value, around)
        body = node.task.body
        sight = {**self.sight_within(node, around), **loop_names(node.task, items, number)}
        if "while" in body and not is_true(body["while"], value, sight):
            return self.completed(node, value, around)
        return node._replace(inside=Each(items, number, 0, begun(node.task.place + ["do"], body["do"], value)))

    def gone_on(self, node, around):
        """Behind a task of a list: to the next, to one by its name, or out of the list or the workflow."""
        inside = node.inside
        output, flow = inside.node
        listed = list_inside(node.task, inside)
        if flow == "end" and node.task.place:
            return Done(output, "end")
        at = len(listed)
        if flow == "continue":
            at = inside.at + 1
        elif flow not in ("exit", "end"):
            at = [task.name for task in listed].index(flow)
        if at < len(listed):
            return node._replace(inside=inside._replace(at=at, node=Fresh(listed[at], output)))
        if isinstance(inside, Each):
            return self.iteration(node, inside.items, inside.number + 1, output, around)
        return self.completed(node, output, around)

    def caught(self, node, around, now):
        """An error directly inside a `try`: passed on, tried again, handed to `catch.do`, or passed over."""
        problem, catch = node.inside.node.problem, node.task.body["catch"]
        plain = self.sight(node.task, node.raw, around)
        sight = {**plain, **caught_name(node.task, problem)}
        if not matches(catch.get("errors", {}).get("with", {}), problem) or not self.allowed(catch, node, sight):
            return Fault(problem)
        retry = catch.get("retry")
        if isinstance(retry, str):
            retry = self.scene.document["use"]["retries"][retry]
            sight = {**{name: plain[name] for name in ("workflow", "context", "task")}, "error": problem}
        if retry is not None:
            count = retry.get("limit", {}).get("attempt", {}).get("count")
            if (count is None or node.inside.retries < count) and self.allowed(retry, node, sight):
                until = now + (judge.duration(retry["delay"]) if "delay" in retry else 0)
                return node._replace(inside=Later(node.inside.retries + 1, until))
        if "do" in catch:
            first = begun(node.task.place + ["catch", "do"], catch["do"], node.input)
            return node._replace(inside=Catch(problem, 0, first))
        return self.completed(node, node.input, around) if retry is None else Fault(problem)

    @staticmethod
    def allowed(rules, node, sight):
        """By `when` and then by `exceptWhen`, asked of the transformed input of the `try`."""
        if "when" in rules and not is_true(rules["when"], node.input, sight):
            return False
        return "exceptWhen" not in rules or not is_true(rules["exceptWhen"], node.input, sight)


# --- All instances, and the commands


class World:
    """What a list of labels makes."""

    def __init__(self):
        self.labels, self.places, self.catalog = ([], {}, Catalog())
        self.instances, self.queue, self.now = ({}, deque(), 0)
        self.outbox, self.takers, self.board = [], 0, Board([])

    def add(self, label):
        """Does what a label says, and gives its place."""
        kind = label["label"]
        if kind == "load":
            known = label["document"]["document"]
            key = (known["namespace"], known["name"], known["version"])
            self.catalog.add(key, label["document"])
            self.places[key] = len(self.labels)
        elif kind == "start":
            document = self.catalog.documents[tuple(label["document"].split("/"))]
            self.instances[label["id"]] = Instance(label["id"], document, label["input"], self.now, self.catalog)
            self.places[label["id"]] = len(self.labels)
            self.queue.append(label["id"])
        elif kind == "moment":
            self.now = label["moment"]
            self.wake()
        elif kind == "event":
            self.places[label["event"]["source"], label["event"]["id"]] = len(self.labels)
            self.takers = self.offer(label["event"])
        elif kind == "reply":
            self.places[label["activity"],] = len(self.labels)
            for it in self.instances.values():
                it.answer(label["activity"], label["reply"])
            self.wake()
        else:
            self.queue.remove(label["id"])
            sent = self.instances[label["id"]].step(label["strand"], self.now)
            if self.instances[label["id"]].can_go(self.now):
                self.queue.append(label["id"])
            if sent is not None:
                self.outbox.append(sent)
                self.offer(sent)
        self.labels.append(label)
        return len(self.labels) - 1

    def wake(self):
        """Puts each instance that can go on and does not stand there into the queue."""
        self.queue.extend(name for name, it in self.instances.items() if name not in self.queue and it.can_go(self.now))

    def offer(self, event):
        """Offers an event to all, and counts each `listen` that takes it."""
        takers = sum(it.offer(event) for it in self.instances.values())
        self.wake()
        return takers

    def status(self, name):
        it = self.instances[name]
        told = {"context": it.scene.context, "id": name, "status": "running" if it.can_go(self.now) else "waiting"}
        if isinstance(it.root, Done):
            told.update(status="completed", output=it.root.output)
        elif isinstance(it.root, Fault):
            told.update(status="faulted", error=it.root.problem)
        return told


class BadLine(Exception):
    """A line that spells no command."""


def words(line, count):
    """The words behind the command, of which the last is the rest of the line where there are several."""
    found = line.split(" ", count)[1:]
    if len(found) != count or (count == 1 and not line.startswith(("load ", "event ")) and " " in found[0]):
        raise BadLine("command")
    return found


def number(text, least, most):
    if not re.fullmatch("0|[1-9][0-9]*", text, re.A) or not least <= int(text) <= most:
        raise BadLine("number")
    return int(text)


def identifier(text):
    if not re.fullmatch("[0-9A-Za-z_.-]{1,64}", text, re.A):
        raise BadLine("word")
    return text


def json_of(text, most=64):
    fault, value = judge.read(text, most)
    if fault:
        raise BadLine(fault)
    return value


def load(world, line):
    document = json_of(words(line, 1)[0])
    faults = judge.faults(document)
    if faults:
        told = [{"kind": kind, "place": judge.pointer(at)} for at, kind in faults]
        return {"error": "refused", "faults": told}
    known = document["document"]
    key = (known["namespace"], known["name"], known["version"])
    if key in world.places:
        return {"error": "duplicate", "place": world.places[key]}
    return {"ok": "loaded", "place": world.add({"label": "load", "document": document})}


def start(world, line):
    name, *key, given = words(line, 5)
    identifier(name)
    given = json_of(given)
    if name in world.places:
        return {"error": "duplicate", "place": world.places[name]}
    key = world.catalog.resolved(*key)
    if key not in world.catalog.documents:
        return {"error": "unknown-document"}
    label = {"label": "start", "id": name, "document": "/".join(key), "input": given}
    return {"ok": "started", "place": world.add(label)}


def moment(world, line):
    now = number(words(line, 1)[0], 0, LAST_MOMENT)
    if now <= world.now:
        return {"error": "past", "now": world.now}
    return {"ok": "moment", "place": world.add({"label": "moment", "moment": now})}


def event(world, line):
    value = json_of(words(line, 1)[0])
    fault = event_fault(value)
    if fault is not None:
        return {"attribute": fault[0], "error": "bad-event", "kind": fault[1]}
    key = (value["source"], value["id"])
    if key in world.places:
        return {"error": "duplicate", "place": world.places[key]}
    place = world.add({"label": "event", "event": envelope(value)})
    return {"ok": "accepted", "place": place, "taken": world.takers}


def reply(world, line):
    """An answer to a call. It is an object round its content, which may nest as deep as any other value."""
    activity, given = words(line, 2)
    given = json_of(given, 65)
    if not is_reply(given):
        raise BadLine("reply")
    if (activity,) in world.places:
        return {"error": "duplicate", "place": world.places[activity,]}
    if all(activity != name for it in world.instances.values() for name, _ in it.open_calls()):
        return {"error": "stale"}
    return {"ok": "replied", "place": world.add({"label": "reply", "activity": activity, "reply": given})}


def settle(world, line):
    """Takes steps, and where no strand is enabled any more asks for all calls that are open then, as long as there are some."""
    most = world.board.steps if line == "settle" else number(words(line, 1)[0], 1, 1000000)
    steps = 0
    while True:
        while world.queue and steps < most:
            name = world.queue[0]
            world.add({"label": "step", "id": name, "strand": world.instances[name].next_strand(world.now)})
            steps += 1
        if world.queue:
            return {"ok": "budget", "steps": most}
        calls = [it for known in world.instances.values() for it in known.open_calls()]
        if not world.board.answers or not calls:
            return {"ok": "quiet", "steps": steps}
        for activity, request in calls:
            world.add({"label": "reply", "activity": activity, "reply": world.board.perform(request)})


def status(world, line):
    name = identifier(words(line, 1)[0])
    return world.status(name) if name in world.instances else {"error": "unknown-instance"}


def history(world, line):
    first = number(words(line, 1)[0], 0, 18446744073709551615)
    return {"labels": world.labels[first:first + 100]}


def pending(world, line):
    if line != "pending":
        raise BadLine("command")
    known = world.instances.items()
    timers = [{"instance": name, "strand": at, "until": until} for name, it in known for at, until in it.timers()]
    listens = [{"instance": name, "strand": at} for name, it in known for at in it.listens()]
    calls = [{"activity": activity, "request": request} for _, it in known for activity, request in it.open_calls()]
    return {"calls": calls, "listens": listens, "timers": timers}


def outbox(world, line):
    first = number(words(line, 1)[0], 0, 18446744073709551615)
    return {"events": world.outbox[first:first + 100]}


COMMANDS = {it.__name__: it for it in (load, start, event, reply, moment, settle, status, history, pending, outbox)}


def answer(world, line):
    if line == "quit":
        return {"ok": "quit"}
    try:
        if line.split(" ")[0] not in COMMANDS:
            raise BadLine("command")
        return COMMANDS[line.split(" ")[0]](world, line)
    except BadLine as bad:
        return {"error": "bad-line", "fault": str(bad)}


def replayed(labels):
    world = World()
    for label in labels:
        world.add(label)
    return world


def part(world, lines):
    """What is printed from one opening of the store to the next. Where a reply cannot be said, the program ends with 4."""
    if any(line.startswith(("! fail store ", "! fail next ")) for line in lines):
        raise NotModelled("such a call that fails")
    failing = [int(line[len("! fail say "):]) for line in lines if line.startswith("! fail say ")]
    said, is_open, failed, shown = 0, True, False, []
    world.board = Board(lines)
    try:
        for line in lines:
            shown.append(line if line.startswith(("#", "!")) else "> " + line)
            if not is_open or line.startswith(("#", "!")):
                continue
            told, failed = answer(world, line), said in failing
            is_open = line != "quit" and not failed
            said += 1
            if not failed:
                shown.append(text_of(told))
    finally:
        for line in shown:
            print(line)
            if line == "! asked":
                print(world.board.asked())
    if failed:
        print("! status 4")


def session(lines):
    labels = []
    while "! reopen" in lines:
        at = lines.index("! reopen")
        world = replayed(labels)
        part(world, lines[:at])
        print("! reopen")
        labels, lines = world.labels, lines[at + 1:]
    part(replayed(labels), lines)


def ended(world, lines):
    """Gives a session, and tells its statuses and, of one instance, the labels."""
    told = [text_of(answer(world, line)) for line in lines]
    statuses = [it for line, it in zip(lines, told) if line.startswith("status ")]
    is_one = sum(line.startswith("start ") for line in lines) == 1
    return statuses, text_of(world.labels[:100]) if is_one else None


def stops(name, *lines):
    """Stops a session behind each of its labels, and gives it once more."""
    whole = World()
    wanted = ended(whole, lines)
    wrong = sum(ended(replayed(whole.labels[:count]), lines) != wanted for count in range(len(whole.labels) + 1))
    print(name)
    print(f"{OPENING + ADDING * len(whole.labels)} calls, {wrong} wrong")


def explored(instance, now, outputs):
    """How many orders the steps of an instance have from here on, with the outputs that they come to, each once."""
    enabled = instance.enabled(now)
    if not enabled:
        output = text_of(instance.root.output) if isinstance(instance.root, Done) else "none"
        if output not in outputs:
            outputs.append(output)
        return 1
    count = 0
    for strand in enabled:
        after = copy.copy(instance)
        after.step(strand, now)
        count += explored(after, now, outputs)
    return count


def orders(row):
    """Takes the steps of a workflow of these tasks in every order."""
    name, tasks = row.split(" ", 1)
    document = {"document": {"dsl": "1.0.0", "namespace": "t", "name": "a", "version": "1.0.0"}, "do": json.loads(tasks)}
    outputs = []
    count = explored(Instance("i", document, None, 0, Catalog()), 0, outputs)
    print(f"{name} => {count} orders: {' '.join(outputs)}")


def main():
    if sys.argv[1:] == ["orders"]:
        for row in sys.stdin.read().splitlines():
            print(row) if row.startswith("#") else orders(row)
        return
    for block in sys.stdin.read().split("\n\n"):
        lines = [line for line in block.split("\n") if line]
        try:
            stops(*lines) if sys.argv[1:] == ["stops"] else session(lines)
        except NotModelled as why:
            print("! not modelled:", why)


if __name__ == "__main__":
    sys.setrecursionlimit(100000)
    main()
