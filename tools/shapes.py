"""What may stand at each place of a document, by tools/members.json, which `tools/make-members` makes from the program's own
table."""
import json
import os

with open(os.path.join(os.path.dirname(os.path.abspath(__file__)), "members.json"), encoding="utf-8") as file:
    TABLE = json.load(file)
TABLES, BESIDE, KEYWORDS, CALLS = TABLE["tables"], TABLE["beside"], TABLE["keywords"], TABLE["calls"]
DOCUMENT = {"Object": {"Of": ["Document", "Unknown"]}}

# What each table is of, in a sentence.
TITLES = {
    "Empty": "an object without members", "Document": "the document", "Head": "`document`", "Evaluate": "`evaluate`",
    "Use": "`use`", "Input": "`input`", "Output": "`output` or `export`", "Common": "a task", "FunctionCommon": "a task",
    "Flows": "a list of tasks", "HttpCall": "a `call: http` task", "FunctionCall": "a `call` task", "OtherCall": "a `call` task",
    "Do": "a `do` task", "Emit": "an `emit` task", "For": "a `for` task", "Fork": "a `fork` task", "Listen": "a `listen` task",
    "Raise": "a `raise` task", "Run": "a `run` task", "Set": "a `set` task", "Switch": "a `switch` task", "Try": "a `try` task",
    "Wait": "a `wait` task", "Http": "`with` of a `call: http`", "Address": "`endpoint`", "Emitted": "`emit`", "Event": "`event`",
    "Attributes": "`with` of an event that is emitted", "Loop": "`for`", "Branches": "`fork`", "Heard": "`listen`", "To": "`to`",
    "Filter": "a filter of events", "Correlation": "a correlation", "Raised": "`raise`", "Error": "an error", "Ran": "`run`",
    "Workflow": "`workflow` of a `run`", "Case": "a case of a `switch`", "Catch": "`catch`", "Errors": "`errors` of a `catch`",
    "Caught": "`with` of caught errors", "CaughtDetails": "`with` of caught errors", "Policy": "a retry policy",
    "Backoff": "`backoff`", "Limit": "`limit`", "Attempt": "`attempt`",
}


class Layout:
    """How the members of an object are judged: its table with the rows, what may stand beside them, and whether a function is
    around it."""

    def __init__(self, name, rows, rest, inside):
        self.name, self.rows, self.rest, self.inside = name, rows, rest, inside

    def shape(self, member):
        for row in self.rows:
            if row["name"] == member:
                return row["shape"]
        return BESIDE[self.rest]

    def names(self):
        """The members that may stand there, in order; of two rows of a name the first counts."""
        seen = {}
        for row in self.rows:
            seen.setdefault(row["name"], row["shape"])
        return sorted(name for name, shape in seen.items() if not is_refused(shape))

    def title(self):
        return TITLES[self.name]


def is_refused(shape):
    return isinstance(shape, dict) and "Refused" in shape


def keywords_in(node):
    """The keywords of a task that is an object; `do` beside `for` belongs to it."""
    names = node.names()
    return [name for name in names if name in KEYWORDS and not (name == "do" and "for" in names)]


def task_table(node):
    """The table of a task, or None where it has no keyword or several."""
    words = keywords_in(node)
    if len(words) != 1:
        return None
    if words[0] != "call":
        return KEYWORDS[words[0]]
    callee = node.get("call")
    return CALLS.get(callee.value, "FunctionCall") if callee.kind == "text" else "OtherCall"


def object_of(shape):
    """What an object at a place of this shape is, or None."""
    if not isinstance(shape, dict):
        return None
    if "Object" in shape:
        return shape["Object"]
    return shape["TextOr"][1] if "TextOr" in shape else None


def layout(shape, node, inside):
    """The layout of a node of this shape, or None where its members are not judged by a table."""
    if shape == "Template":
        return Layout("Empty", [], "Template", inside)
    what = object_of(shape)
    if what is None or node.kind != "object":
        return None
    if what in ("Task", "Function"):
        inside = inside or what == "Function"
        table = task_table(node)
        shared = "FunctionCommon" if inside else "Common"
        return Layout(table, TABLES[table] + TABLES[shared], "Unknown", inside) if table else None
    if what == "To":
        return Layout("To", TABLES["To"], "Unknown", inside)
    if what == "Caught":
        name = "Caught" if "detail" in node.names() else "CaughtDetails"
        return Layout(name, TABLES[name], "Unknown", inside)
    if "Single" in what and len(node.names()) != 1:
        return None
    table, rest = what.get("Of") or what["Single"]
    return Layout(table, TABLES[table], rest, inside)


def item_shape(shape):
    if shape == "Template":
        return shape
    return {"Object": shape["List"]} if isinstance(shape, dict) and "List" in shape else "Any"


class Step:
    """A place on the way down: the name or position that leads to it, the node, the node of its name, its shape, and whether a
    function is around it."""

    def __init__(self, part, node, key, shape, inside):
        self.part, self.node, self.key, self.shape, self.inside = part, node, key, shape, inside

    def layout(self):
        return layout(self.shape, self.node, self.inside)

    def below(self):
        """The steps to what is in it; of members of a name the last."""
        parts = range(len(self.node.value)) if self.node.kind == "list" else self.node.names()
        way = self.layout()
        return [self.child(part, way) for part in parts]

    def child(self, part, way=None):
        """The step to a position or to a name that is there; `way` is the layout, where it is at hand."""
        if self.node.kind == "list":
            return Step(part, self.node.value[part], None, item_shape(self.shape), self.inside)
        _, key, node = self.node.member(part)
        way = way or self.layout()
        shape, inside = (way.shape(part), way.inside) if way else ("Any", self.inside)
        return Step(part, node, key, shape, inside)

    def at(self, part):
        """The step to a part of a JSON Pointer, or None where there is none."""
        if self.node.kind == "list":
            return self.child(int(part)) if part.isdecimal() and int(part) < len(self.node.value) else None
        return self.child(part) if self.node.member(part) else None


def root(node):
    return Step(None, node, None, DOCUMENT, False)


def steps(node, place):
    """The steps from the document to a place, or None where it has no such place."""
    way = [root(node)]
    for part in place:
        step = way[-1].at(part)
        if step is None:
            return None
        way.append(step)
    return way


def all_steps(step, place=()):
    """Each place with its step, in the order of the text."""
    yield place, step
    for inner in step.below():
        yield from all_steps(inner, place + (inner.part,))
