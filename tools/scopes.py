"""The names that places of a document have: the variables of its expressions, and the tasks that a `then` may name."""

WORKFLOW = ["workflow"]
TASK = ["workflow", "context", "task"]


def get(value, *path):
    for part in path:
        if not isinstance(value, dict):
            return None
        value = value.get(part)
    return value


def named(items):
    """Each item of a list of named things that is one: its position, its name and what it is."""
    if not isinstance(items, list):
        return
    for index, item in enumerate(items):
        if isinstance(item, dict) and len(item) == 1:
            (name, value), = item.items()
            yield index, name, value


class Scopes:
    """The variables of each part of a document, by the places where they change."""

    def __init__(self, document):
        self.at = {(): WORKFLOW, ("input",): WORKFLOW, ("output",): WORKFLOW + ["context", "input"]}
        self.tasks(get(document, "do"), ("do",), [])
        use = ("use",)
        self.at[use + ("errors",)] = TASK + ["input"]
        self.at[use + ("retries",)] = TASK + ["error"]
        functions = get(document, "use", "functions")
        for name, task in (functions or {}).items() if isinstance(functions, dict) else ():
            self.task(task, use + ("functions", name), [])

    def tasks(self, items, at, around):
        for index, name, task in named(items):
            self.task(task, at + (str(index), name), around)

    def task(self, task, at, around):
        if not isinstance(task, dict):
            return
        base = TASK + around
        own = base + ["input"]
        self.at[at] = own
        self.at[at + ("input",)] = base
        self.at[at + ("export",)] = own + ["output"]
        self.at[at + ("while",)] = own
        if "for" in task:
            mine = [get(task, "for", "each") or "item", get(task, "for", "at") or "index"]
            self.at[at + ("while",)] = own + mine
            around = around + mine
        self.tasks(task.get("do"), at + ("do",), around)
        self.tasks(task.get("try"), at + ("try",), around)
        self.tasks(get(task, "fork", "branches"), at + ("fork", "branches"), around)
        if "catch" in task:
            error = [get(task, "catch", "as") or "error"]
            self.at[at + ("catch",)] = base + error
            self.tasks(get(task, "catch", "do"), at + ("catch", "do"), around + error)
        to = get(task, "listen", "to")
        for word in ("one", "any", "all"):
            found = get(to, word)
            place = at + ("listen", "to", word)
            many = [(place + (str(index),), value) for index, value in enumerate(found)] if isinstance(found, list) else []
            for here, value in many or [(place, found)]:
                self.at[here] = []
                correlate = get(value, "correlate")
                for name in correlate if isinstance(correlate, dict) else ():
                    self.at[here + ("correlate", name, "expect")] = own

    def variables(self, place):
        """The variables of a place, which is a list of names and positions as texts."""
        place = tuple(place)
        while place not in self.at:
            place = place[:-1]
        return list(dict.fromkeys(self.at[place]))


def targets(document, place):
    """The tasks that the `then` of a place may name, or None where it stands in no list."""
    value, lists = document, []
    for depth, part in enumerate(place):
        if isinstance(value, list):
            lists.append((depth, value))
        value = value[int(part)] if isinstance(value, list) else value[part]
    if len(place) > 4 and place[-4] == "switch":
        lists = lists[:-1]
    depth, items = lists[-1] if lists else (0, [])
    if not depth or place[depth - 1] not in ("do", "try") or len(place) - depth not in (3, 6):
        return None
    return [name for _, name, _ in named(items)]


def named_tasks(document):
    """The places of all tasks of lists by their names."""
    every = {}
    gather(document, every, "")
    return every


def gather(value, every, place):
    if isinstance(value, list):
        if place.endswith(("/do", "/try")):
            for index, name, _ in named(value):
                every.setdefault(name, []).append(f"{place}/{index}/{name}")
        for index, item in enumerate(value):
            gather(item, every, f"{place}/{index}")
    elif isinstance(value, dict):
        for name, item in value.items():
            gather(item, every, f"{place}/{name}")
