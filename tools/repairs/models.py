"""Models at random, small enough that every configuration can be tried."""
from syntax import COMPARISONS, Parser, QUANTIFIERS, Wrong
from meaning import Answers, Model

LEVELS = {"->": (1, 2, 1), "or": (2, 2, 3), "and": (3, 3, 4), "in": (5, 6, 9)}
LEVELS.update({"+": (6, 6, 7), "-": (6, 6, 7), "*": (7, 7, 8)})
OTHERS = {"=": "==", "and": "&&", "or": "||"}
VARIABLES = ("q", "r", "s")


class Writer:
    """Writes expressions about a model at random: pairs of a text and its level of binding."""

    def __init__(self, rng, model):
        self.rng, self.model = rng, model

    def fit(self, piece, least):
        text, level = piece
        return text if level >= least and self.rng.random() > 0.04 else f"({text})"

    def pair(self, op, left, right):
        level, one, two = LEVELS.get(op, (5, 6, 6))
        spelled = OTHERS[op] if op in OTHERS and self.rng.random() < 0.1 else op
        return f"{self.fit(left, one)} {spelled} {self.fit(right, two)}", level

    def negated(self, piece):
        text = self.fit(piece, 4)
        return (f"!{text}" if self.rng.random() < 0.2 else f"not {text}"), 4

    def paths(self, klass, scope):
        """What can be named here, with shapes; at most two names behind the first one."""
        model, named = self.model, [(name, ("object", of)) for name, of in scope.items()]
        own = model.attributes(klass) if klass else {}
        for name, shape in own.items():
            named.append((f"this.{name}" if self.rng.random() < 0.1 else name, shape))
        for name, shape in model.roots.items():
            if name not in own:
                named.append((name, model.shape_of(shape)))
        if klass:
            named.append(("this", ("object", klass)))
        ends = named
        for _ in range(2):
            ends = [
                (f"{text}.{name}", below)
                for text, shape in ends
                if shape[0] in ("object", "one", "ref")
                for name, below in model.attributes(shape[1]).items()
            ]
            named = named + ends
        return named

    def one_of(self, klass, scope, *kinds):
        """A path of one of these shapes; None where there is none."""
        fitting = [pair for pair in self.paths(klass, scope) if pair[1][0] in kinds]
        if not fitting:
            return None
        near = [pair for pair in fitting if pair[0].split(".")[0] in scope]
        return self.rng.choice(near if near and self.rng.random() < 0.7 else fitting)

    def number(self):
        n = self.rng.choice((0, 1, 1, 1, 2, 2, 2, 3, 3, 4, 5))
        return (str(n), 10) if self.rng.random() < 0.9 else (f"-{n}", 8)

    def over(self, klass, scope):
        """A list or a class, the class of its members, and a variable for them."""
        path = self.one_of(klass, scope, "many", "set")
        if path is None or self.rng.random() < 0.5:
            name = self.rng.choice(sorted(self.model.classes))
            path = (name, ("many", name))
        free = [name for name in VARIABLES if name not in scope]
        return path[0], path[1][1], free[0] if free else None

    def quantifier(self, kind, klass, scope, depth):
        path, member, name = self.over(klass, scope)
        if name is None:
            return None
        inner = {**scope, name: member}
        least = ""
        if kind in ("forall", "exists", "sum") and self.rng.random() < 0.35:
            condition = self.truth(klass, inner, depth - 1)
            least = f" where {condition[0]}"
        if kind == "sum":
            body = self.whole(klass, inner, depth - 1)[0]
        elif kind == "alldifferent":
            body = self.any_value(klass, inner)
        else:
            body = self.truth(klass, inner, depth - 1)[0]
            if kind != "count":
                more = self.rng.random() < 0.12
                body += ";" + (f" {self.truth(klass, inner, 0)[0]};" if more else "")
        if kind == "forall" and self.rng.random() < 0.1:
            kind = "foreach"
        return f"{kind} {name} in {path}{least} {{ {body} }}", 10

    def any_value(self, klass, inner):
        found = self.one_of(klass, inner, "span", "bool", "enum", "ref", "ref", "object", "one")
        if found[1][0] == "span" and self.rng.random() < 0.3:
            return self.whole(klass, inner, 1)[0]
        return found[0]

    def pack(self, klass, scope):
        path, member, name = self.over(klass, scope)
        if name is None:
            return None
        inner = {**scope, name: member}
        place = self.one_of(klass, inner, "ref", "one")
        if place is None:
            return None
        size, room = self.whole(klass, inner, self.rng.choice((0, 0, 1))), None
        rooms = [pair for pair in self.paths(None, {"x": place[1][1]}) if pair[1][0] == "span"]
        rooms = [pair[0] for pair in rooms if pair[0].startswith("x.")]
        if rooms and self.rng.random() < 0.8:
            room = place[0] + self.rng.choice(rooms)[1:]
        room = room or self.whole(klass, inner, 0)[0]
        return f"pack {name} in {path} {{ {place[0]}; {size[0]}; {room}; }}", 10

    def whole(self, klass, scope, depth):
        """An expression of whole numbers."""
        rng = self.rng
        kinds = ["leaf"] * 5 + ["number"]
        if depth > 0:
            kinds += ["+", "+", "-", "*", "*", "minus", "count", "count", "sum", "sum", "sum"]
        kind = rng.choice(kinds)
        if kind in ("count", "sum"):
            return self.quantifier(kind, klass, scope, depth) or self.number()
        if kind in ("+", "-"):
            left = self.whole(klass, scope, depth - 1)
            return self.pair(kind, left, self.whole(klass, scope, depth - 1))
        if kind == "*":
            sides = [self.number(), self.whole(klass, scope, depth - 1)]
            rng.shuffle(sides)
            return self.pair("*", *sides)
        if kind == "minus":
            return f"-{self.fit(self.whole(klass, scope, depth - 1), 8)}", 8
        leaf = self.one_of(klass, scope, "span") if kind == "leaf" else None
        return (leaf[0], 9) if leaf else self.number()

    def compared(self, klass, scope, depth):
        if self.one_of(klass, scope, "span") is None:
            piece = self.same(klass, scope) or self.member(klass, scope)
            if piece and self.rng.random() < 0.6:
                return piece
            counted = self.quantifier("count", klass, scope, 1)
            if counted:
                return self.pair(self.rng.choice(COMPARISONS), counted, self.number())
        op = self.rng.choice(("<=", "<=", ">=", ">=", "<", ">", "=", "!="))
        right = self.whole(klass, scope, 0) if self.rng.random() < 0.4 else self.number()
        left = self.whole(klass, scope, max(depth, self.rng.choice((0, 0, 1))))
        return self.pair(op, left, right) if self.rng.random() < 0.8 else self.pair(op, right, left)

    def same(self, klass, scope):
        """An equality of objects, or of values of an enumeration or of truth values."""
        op = self.rng.choice(("=", "!="))
        left = self.one_of(klass, scope, "ref", "ref", "enum", "bool", "object")
        if left is None:
            return None
        if left[1][0] == "bool":
            right = (self.rng.choice(("true", "false")), ("bool",))
        elif left[1][0] == "enum":
            value = self.rng.choice(self.model.enums[left[1][1]])
            right = (f"{left[1][1]}.{value}", None)
            other = self.one_of(klass, scope, "enum")
            right = other if other[1] == left[1] and self.rng.random() < 0.4 else right
        else:
            right = self.one_of(klass, scope, "ref", "ref", "one", "object")
        if right is None or right[0] == left[0]:
            return None
        return self.pair(op, (left[0], 9), (right[0], 9))

    def member(self, klass, scope):
        left = self.one_of(klass, scope, "ref", "ref", "one", "object")
        right = self.one_of(klass, scope, "many", "set")
        if left and self.rng.random() < 0.15:
            right = (self.rng.choice(sorted(self.model.classes)), None)
        return self.pair("in", (left[0], 9), (right[0], 9)) if left and right else None

    def truth(self, klass, scope, depth):
        """A condition."""
        rng = self.rng
        kinds = ["compared", "compared", "same", "same", "member", "leaf"]
        if depth > 1:
            kinds = ["compared", "compared", "same", "member"]
        if depth > 0:
            kinds += ["not", "and", "and", "or", "or", "->", "->", "exists", "exists", "pack"]
            kinds += ["forall"] * 4 + ["alldifferent", "pack", "compared"]
        if rng.random() < 0.01:
            return rng.choice(("true", "false")), 10
        kind, piece = rng.choice(kinds), None
        if kind in ("and", "or", "->"):
            left = self.truth(klass, scope, depth - 1)
            return self.pair(kind, left, self.truth(klass, scope, depth - 1))
        if kind == "not":
            return self.negated(self.truth(klass, scope, depth - 1))
        if kind == "same":
            piece = self.same(klass, scope)
        elif kind == "member":
            piece = self.member(klass, scope)
        elif kind == "pack":
            piece = self.pack(klass, scope)
        elif kind in QUANTIFIERS:
            piece = self.quantifier(kind, klass, scope, depth)
        elif kind == "leaf":
            leaf = self.one_of(klass, scope, "bool")
            piece = leaf and (leaf[0], 9)
        return piece or self.compared(klass, scope, max(depth - 1, 0))


class Draft:
    """A model that is being made: the texts of its items."""

    def __init__(self):
        self.enums, self.classes, self.roots, self.wheres, self.goals = [], {}, [], [], []

    def add(self, name, *attributes, parent=None, is_abstract=False):
        self.classes[name] = [parent, is_abstract, list(attributes), []]

    def text(self, order=None):
        items = [f"enum {name} {{ {', '.join(values)} }}" for name, values in self.enums]
        for name, (parent, is_abstract, attributes, wheres) in self.classes.items():
            words = ["abstract"] if is_abstract else []
            words += ["class", name] + (["extends", parent] if parent else []) + ["{"]
            words += [f"var {attribute} as {shape};" for attribute, shape in attributes]
            words += [f"where {where};" for where in wheres]
            items.append(" ".join(words + ["}"]))
        items += [f"var {name} as {shape};" for name, shape in self.roots]
        if len(self.wheres) > 1 and order is None:
            items.append(f"where {{ {'; '.join(self.wheres)}; }}")
        else:
            items += [f"where {where};" for where in self.wheres]
        items += [f"{kind} {goal};" for kind, goal in self.goals]
        if order:
            order.shuffle(items)
        return " ".join(items)


def machines(rng):
    """Machines on hosts with room."""
    draft, form = Draft(), rng.choice(("sum", "count", "pack", "none", "none"))
    cap = rng.randint(1, 4)
    host = [("cap", rng.choice((f"{cap}..{cap}", f"{cap}..{cap}", f"{cap - 1}..{cap}")))]
    draft.add("Host", *(host if form != "none" or rng.random() < 0.3 else []))
    hosts = rng.randint(2, 3)
    size = ("n", rng.choice(("1..1", "2..2", "1..2")))
    names = rng.choice((("Vm", "vms"), ("Job", "jobs")))
    if rng.random() < 0.3 and form in ("sum", "pack"):
        draft.add(names[0], ("n", "1..3"), ("host", "ref Host"), is_abstract=True)
        draft.add("Small", parent=names[0])
        draft.add("Large", parent=names[0])
        draft.classes["Small"][3].append("n = 1")
        draft.classes["Large"][3].append("n = 2" if rng.random() < 0.5 else "n >= 2")
        draft.roots += [("a", "Small[2]" if rng.random() < 0.6 else "Small"), ("b", "Large")]
    else:
        count = rng.randint(2, 4 if form in ("count", "none") else 3)
        draft.add(names[0], *([size] if form in ("sum", "pack") else []), ("host", "ref Host"))
        draft.roots.append((names[1], f"{names[0]}[{count}]"))
    draft.roots.insert(rng.randint(0, 1), ("hosts", f"Host[{hosts}]"))
    klass = names[0]
    if form == "sum":
        where = f"sum v in {klass} where v.host = this {{ v.n }} <= cap"
        draft.classes["Host"][3].append(where)
    elif form == "count":
        draft.classes["Host"][3].append(f"count v in {klass} {{ v.host = this }} <= cap")
    elif form == "pack":
        draft.wheres.append(f"pack v in {klass} {{ v.host; v.n; v.host.cap; }}")
    if rng.random() < 0.3:
        goal = f"count h in Host {{ exists v in {klass} {{ v.host = h; }} }}"
        draft.goals.append((rng.choice(("minimize", "minimize", "maximize")), goal))
    return draft


def sites(rng):
    """Jobs on what sites hold, two deep."""
    draft = Draft()
    deep = rng.random() < 0.65
    draft.add("Disk", *([("n", "1..2")] if rng.random() < 0.2 else []))
    if deep:
        draft.add("Host", ("d", "Disk" if rng.random() < 0.4 else "Disk[2]"))
        draft.add("Site", ("h", "Host" if rng.random() < 0.6 else "Host[2]"))
    else:
        draft.add("Site", ("d", "Disk[2]" if rng.random() < 0.7 else "Disk"))
    if rng.random() < 0.3:
        draft.classes["Site"][2].append(("main", "ref Disk"))
    if rng.random() < 0.5:
        draft.roots += [("home", "Site"), ("away", "Site")]
    else:
        draft.roots.append(("sites", "Site[2]"))
    job = [("on", "ref Disk"), ("alt", "ref Disk"), ("at", "ref Site"), ("two", "ref Disk[2]")]
    job += [("near", "ref Host")] if deep else []
    draft.add("Job", *rng.sample(job, rng.choice((1, 1, 2))))
    draft.roots.append(rng.choice((("jobs", "Job[2]"), ("job", "Job"), ("jobs", "Job[3]"))))
    if draft.roots[0][0] == "home" and not deep and ("d", "Disk[2]") in draft.classes["Site"][2]:
        if rng.random() < 0.4 and draft.classes["Job"][2][0][0] in ("on", "alt"):
            goal = f"count j in Job {{ j.{draft.classes['Job'][2][0][0]} in home.d }}"
            draft.goals.append(("maximize", goal))
    return draft


def groups(rng):
    """Groups of nodes, as sets, with a head among them."""
    draft = Draft()
    node = rng.choice(([("w", "0..1")], [("w", "1..2")], [], [("on", "bool")]))
    draft.add("Node", *node)
    count = rng.randint(2, 4 if not node else 3)
    size = rng.choice((1, 2, 2, 2, 3, 0))
    draft.add("Group", ("all", f"ref Node[{size}]"))
    if rng.random() < 0.5:
        draft.classes["Group"][2].append(("head", "ref Node"))
        draft.classes["Group"][3] += ["head in all"] if size and rng.random() < 0.7 else []
    if rng.random() < 0.3:
        draft.add("Big", parent="Node")
        draft.roots.append(("big", "Big"))
        count = max(count - 1, 1)
    draft.roots.append(("n", f"Node[{count}]"))
    draft.roots.append(rng.choice((("g", "Group"), ("g", "Group"), ("gs", "Group[2]"))))
    rng.shuffle(draft.roots)
    return draft


def slots(rng):
    """Tasks with slots that differ, or with tasks behind them."""
    draft, top = Draft(), rng.randint(1, 3)
    draft.add("Task", ("slot", f"0..{top}"))
    forms = ["t.slot"]
    if rng.random() < 0.5:
        draft.classes["Task"][2].append(("next", "ref Task"))
        draft.classes["Task"][3] += ["next != this"] if rng.random() < 0.5 else []
        forms.append("t.next")
    if rng.random() < 0.3:
        draft.add("Long", ("x", "bool"), parent="Task")
        draft.roots.append(("l", "Long"))
    draft.roots.append(("tasks", f"Task[{rng.randint(2, 3)}]"))
    over = rng.choice(("Task", "tasks"))
    if rng.random() < 0.7:
        draft.wheres.append(f"alldifferent t in {over} {{ {rng.choice(forms)} }}")
    return draft


def anything(rng):
    """Classes and variables of any shapes."""
    draft = Draft()
    if rng.random() < 0.7:
        values = rng.choice((("Win", "Unix"), ("Win", "Unix", "Mac"), ("A", "B")))
        draft.enums.append(("Os", values))
    names = rng.sample(("Host", "Disk", "Site", "Job", "Node", "Zone"), rng.randint(1, 4))
    attributes = ("a", "b", "c", "n", "on", "at", "os", "x", "y", "host", "best")

    def leaf():
        low = rng.choice((-2, -1, 0, 0, 0, 1))
        kinds = [f"{low}..{low + rng.choice((0, 1, 1, 2, 3))}"] * 3 + ["bool"] * 2
        kinds += ["Os"] * 3 if draft.enums else []
        return rng.choice(kinds + [f"ref {rng.choice(names)}"] * 5 + [
            f"ref {rng.choice(names)}[{rng.choice((0, 1, 1, 2, 2, 2, 3))}]"] * 2)

    done = []
    for name in names:
        parent = rng.choice(done) if done and rng.random() < 0.35 else None
        draft.add(name, parent=parent, is_abstract=rng.random() < 0.3)
        whole = [one for one in done if not draft.classes[one][1]]
        for attribute in rng.sample(attributes, rng.choice((0, 1, 1, 2, 2, 3))):
            shape = leaf()
            if whole and rng.random() < 0.35:
                shape = rng.choice(whole) + rng.choice(("", "", "[2]", "[1]", "[0]"))
            draft.classes[name][2].append((attribute, shape))
        done.append(name)
    whole = [one for one in done if not draft.classes[one][1]]
    others = ("v", "w", "k", "m", "z", "t") + attributes[:3]
    for name in rng.sample(others, rng.randint(1, 4)):
        shape = leaf() if rng.random() < 0.4 or not whole else rng.choice(whole)
        if shape in whole:
            shape += rng.choice(("", "", "[2]", "[2]", "[3]", "[1]"))
        draft.roots.append((name, shape))
    return draft


DRAFTS = (machines, machines, sites, sites, groups, slots) + (anything,) * 6
MOST_CONFIGURATIONS = 3000


def drafted(rng):
    """A draft and its model, of a fitting size, mostly with a reference."""
    make = rng.choice(DRAFTS)
    while True:
        draft = make(rng)
        try:
            model = Model(draft.text())
        except Wrong:
            continue
        refers = any(leaf.shape[0] in ("ref", "set") for leaf in model.leaves)
        least = 3 if rng.random() < 0.97 else 0
        if least <= model.size() <= MOST_CONFIGURATIONS and (refers or rng.random() < 0.06):
            return draft, model


def add_wheres(rng, draft, model, found):
    """Adds constraints at random that leave some of the configurations, and answers which."""
    writer, wanted = Writer(rng, model), rng.choice((1, 1, 1, 2, 2, 3))
    for _ in range(30):
        if wanted == 0 or not found:
            break
        filled = [name for name in draft.classes if model.extents[name]]
        klass = rng.choice(filled) if filled and rng.random() < 0.6 else None
        try:
            text = writer.truth(klass, {}, rng.choice((1, 2, 2, 3)))[0]
            function = model.function(Parser(text).expr(), klass, "bool")
        except Wrong:
            continue
        these = model.extents[klass] if klass else [None]
        left = [t for t in found if all(function(t, this) for this in these)]
        share = len(left) / len(found)
        if len(text) > 90 or share == 1 and rng.random() < 0.998:
            continue
        if share < 0.05 and (left or rng.random() < 0.985):
            continue
        (draft.classes[klass][3] if klass else draft.wheres).append(text)
        found, wanted = left, wanted - 1
    return found


def add_goals(rng, draft, model, found):
    """Adds objectives at random, mostly ones with several values."""
    writer, wanted = Writer(rng, model), rng.choice((0, 1, 1, 2, 2, 2))
    for _ in range(40):
        if len(draft.goals) >= wanted:
            break
        try:
            text = writer.whole(None, {}, rng.choice((0, 1, 1, 2)))[0]
            function = model.function(Parser(text).expr(), None, "int")
        except Wrong:
            continue
        several = len({function(t, None) for t in found[:200]}) > 1
        if len(text) <= 60 and (several or rng.random() < 0.002):
            draft.goals.append((rng.choice(("maximize", "minimize")), text))


def random_model(rng):
    """The text of a model, and its answers."""
    while True:
        draft, model = drafted(rng)
        found = [t for t in model.configurations() if model.satisfies(t)]
        if not found and rng.random() < 0.95:
            continue
        found = add_wheres(rng, draft, model, found)
        if not found and rng.random() < 0.7:
            continue
        add_goals(rng, draft, model, found)
        text = draft.text(rng if rng.random() < 0.1 else None)
        if ("where" not in text or not draft.goals) and rng.random() < 0.7:
            continue
        if len(text) > 300 or len(text) > 200 and rng.random() < 0.75:
            continue
        return text, Answers(Model(text))
