"""What models mean: objects, leaves and values, and every configuration tried."""
import itertools
import json

from syntax import Parser, Wrong


class Thing:
    """An object. `at` has for each attribute the leaf's number, the object, or the objects."""

    def __init__(self, path, klass, number):
        self.path, self.klass, self.number, self.at, self.inside = path, klass, number, {}, []


class Leaf:
    """A leaf: its shape, and the steps that lead to it in a configuration."""

    def __init__(self, path, shape, steps):
        self.path, self.shape, self.steps = path, shape, steps


def distinct(values):
    return len(set(values)) == len(values)


def packed(items):
    """Whether at each item's place no more than its room is taken."""
    return all(
        sum(size for place, size, _ in items if place is here) <= room for here, _, room in items
    )


class Model:
    """A model: its objects and leaves, and its constraints and objectives as functions.

    The constraints stand in the order of the text, as their places do.

    A configuration is one value per leaf: a number, a truth value, the number of a value of an
    enumeration, an object, or a list of objects.
    """

    def __init__(self, text):
        self.enums, self.classes, self.roots = {}, {}, {}
        self.goals, self.wheres = [], []
        parser = Parser(text)
        items = parser.items()
        self.places = parser.stated
        for item in items:
            self.declare(item)
        for klass in self.classes:
            self.attributes(klass)
        self.things, self.leaves, self.top, self.names = [], [], {}, {}
        for name, shape in self.roots.items():
            self.top[name] = self.place(shape, name, ((name, None),), [])
        self.extents = {
            name: [thing for thing in self.things if self.is_a(thing.klass, name)]
            for name in self.classes
        }
        for item in items:
            self.state(item)

    def declare(self, item):
        if item[0] != "where" and item[0] != "goal":
            name = item[1]
            if name in self.enums or name in self.classes or name in self.roots:
                raise Wrong(f"{name} twice")
        if item[0] == "enum":
            self.enums[item[1]] = item[2]
        elif item[0] == "class":
            self.classes[item[1]] = item
        elif item[0] == "var":
            self.roots[item[1]] = item[2]

    def shape_of(self, shape):
        """The shape, with what its name stands for."""
        if shape[0] == "named" and shape[1] in self.enums:
            return ("enum", shape[1])
        if shape[0] == "named":
            shape = ("one", shape[1])
        if shape[0] in ("one", "many", "ref", "set") and shape[1] not in self.classes:
            raise Wrong(f"{shape[1]} is no class")
        if shape[0] == "span" and shape[1] > shape[2]:
            raise Wrong("a range without a value")
        return shape

    def attributes(self, klass):
        """The attributes of a class: its parent's, and then its own."""
        _, _, _, parent, members = self.classes[klass]
        listed = dict(self.attributes(parent)) if parent else {}
        for member in members:
            if member[0] == "var":
                if member[1] in listed or member[1] in self.classes or member[1] in self.enums:
                    raise Wrong(f"{member[1]} twice")
                listed[member[1]] = self.shape_of(member[2])
        return listed

    def is_a(self, klass, other):
        while klass and klass != other:
            klass = self.classes[klass][3]
        return klass == other

    def place(self, shape, path, steps, holders):
        """Lists the objects and leaves of an attribute, and answers what stands for it."""
        shape = self.shape_of(shape)
        if shape[0] == "one":
            return self.place_thing(shape[1], path, steps, holders)
        if shape[0] == "many":
            return [
                self.place_thing(
                    shape[1], f"{path}[{k}]", steps[:-1] + ((steps[-1][0], k),), holders
                )
                for k in range(shape[2])
            ]
        self.leaves.append(Leaf(path, shape, steps))
        return len(self.leaves) - 1

    def place_thing(self, klass, path, steps, holders):
        if self.classes[klass][2]:
            raise Wrong(f"{klass} is abstract")
        if len(self.things) > 10000:
            raise Wrong("too many objects")
        thing = Thing(path, klass, len(self.things))
        self.things.append(thing)
        self.names[path] = thing
        thing.inside = holders + [thing]
        for name, shape in self.attributes(klass).items():
            thing.at[name] = self.place(
                shape, f"{path}.{name}", steps + ((name, None),), thing.inside
            )
        return thing

    def state(self, item):
        """Adds the constraints and the objective of an item."""
        if item[0] == "where":
            for expr in item[1]:
                self.wheres.append((self.function(expr, None, "bool"), [None]))
        elif item[0] == "class":
            for member in item[4]:
                for expr in member[1] if member[0] == "where" else []:
                    function = self.function(expr, item[1], "bool")
                    self.wheres.append((function, self.extents[item[1]]))
        elif item[0] == "goal":
            sign = -1 if item[1] == "maximize" else 1
            self.goals.append((sign, self.function(item[2], None, "int")))

    def function(self, expr, klass, wanted):
        """An expression as a function of the configuration and of the object `this`."""
        source, kind = self.code(expr, klass, {})
        if kind != (wanted,):
            raise Wrong(f"{kind} where {wanted} is needed")
        names = {"top": self.top, "extents": self.extents, "distinct": distinct, "packed": packed}
        return eval(f"lambda t, this: {source}", names)

    def within(self, base, shape, key):
        """The code and the type of an attribute, which `base` has under a name."""
        held = f"{base}[{key!r}]"
        if shape[0] in ("one", "many"):
            return held, ("object" if shape[0] == "one" else "list", shape[1])
        if shape[0] in ("ref", "set"):
            return f"t[{held}]", ("object" if shape[0] == "ref" else "list", shape[1])
        return f"t[{held}]", {"span": ("int",), "bool": ("bool",)}.get(shape[0], shape)

    def code(self, expr, klass, scope):
        """The code and the type of an expression."""
        return getattr(self, "code_" + expr[0])(expr, klass, scope)

    def code_as(self, expr, klass, scope, *wanted):
        source, kind = self.code(expr, klass, scope)
        if kind not in wanted:
            raise Wrong(f"{kind} where {wanted} is needed")
        return source

    def code_number(self, expr, klass, scope):
        return str(expr[1]), ("int",)

    def code_truth(self, expr, klass, scope):
        return str(expr[1]), ("bool",)

    def code_this(self, expr, klass, scope):
        if klass is None:
            raise Wrong("this outside a class")
        return "this", ("object", klass)

    def code_paren(self, expr, klass, scope):
        return self.code(expr[1], klass, scope)

    def code_minus(self, expr, klass, scope):
        return f"(-{self.code_as(expr[1], klass, scope, ('int',))})", ("int",)

    def code_not(self, expr, klass, scope):
        return f"(not {self.code_as(expr[1], klass, scope, ('bool',))})", ("bool",)

    def code_name(self, expr, klass, scope):
        name = expr[1]
        if name in scope:
            return "q_" + name, ("object", scope[name])
        if klass and name in self.attributes(klass):
            return self.within("this.at", self.attributes(klass)[name], name)
        if name in self.roots:
            return self.within("top", self.shape_of(self.roots[name]), name)
        raise Wrong(f"{name} means nothing")

    def code_dot(self, expr, klass, scope):
        head, name = expr[1], expr[2]
        if head[0] == "name" and self.is_enum(head[1], klass, scope):
            return str(self.enums[head[1]].index(name)), ("enum", head[1])
        source, kind = self.code(head, klass, scope)
        if kind[0] != "object" or name not in self.attributes(kind[1]):
            raise Wrong(f"no attribute {name} of {kind}")
        return self.within(f"{source}.at", self.attributes(kind[1])[name], name)

    def is_enum(self, name, klass, scope):
        hidden = name in scope or name in self.roots
        return name in self.enums and not hidden

    def members(self, path, klass, scope):
        """The code of a list or a class, and the class of its members."""
        if path[0] == "name" and path[1] in self.classes:
            return f"extents[{path[1]!r}]", path[1]
        source, kind = self.code(path, klass, scope)
        if kind[0] != "list":
            raise Wrong(f"{kind} is no list")
        return source, kind[1]

    def code_pair(self, expr, klass, scope):
        _, op, left, right = expr
        if op == "in":
            source, kind = self.code(left, klass, scope)
            if kind[0] != "object":
                raise Wrong(f"{kind} in")
            return f"({source} in {self.members(right, klass, scope)[0]})", ("bool",)
        if op in ("and", "or", "->"):
            one, two = (self.code_as(side, klass, scope, ("bool",)) for side in (left, right))
            one, op = (f"(not {one})", "or") if op == "->" else (one, op)
            return f"({one} {op} {two})", ("bool",)
        if op in ("=", "!="):
            one, first = self.code(left, klass, scope)
            two, second = self.code(right, klass, scope)
            both = first[0] == second[0] == "object"
            if not both and (first != second or first[0] == "list"):
                raise Wrong(f"{first} beside {second}")
            same = {"=": "is" if both else "==", "!=": "is not" if both else "!="}
            return f"({one} {same[op]} {two})", ("bool",)
        one, two = (self.code_as(side, klass, scope, ("int",)) for side in (left, right))
        if op == "*" and not (self.is_literal(left) or self.is_literal(right)):
            raise Wrong("a product of two variables")
        return f"({one} {op} {two})", ("int",) if op in "+-*" else ("bool",)

    def is_literal(self, expr):
        if expr[0] == "number":
            return True
        if expr[0] in ("minus", "paren"):
            return self.is_literal(expr[1])
        is_sum = expr[0] == "pair" and expr[1] in "+-*"
        return is_sum and self.is_literal(expr[2]) and self.is_literal(expr[3])

    def code_quantifier(self, expr, klass, scope):
        _, kind, name, over, least, bodies = expr
        taken = set(scope) | set(self.roots) | set(self.classes) | set(self.enums)
        if name in taken or klass and name in self.attributes(klass):
            raise Wrong(f"{name} shadows")
        source, member = self.members(over, klass, scope)
        inner = {**scope, name: member}
        codes = [self.code(body, klass, inner) for body in bodies]
        kinds = [code[1] for code in codes]
        needed = {"sum": ("int",), "forall": ("bool",), "exists": ("bool",), "count": ("bool",)}
        if kind in needed and any(one != needed[kind] for one in kinds):
            raise Wrong(f"{kinds} in {kind}")
        if kind == "alldifferent" and kinds[0][0] == "list":
            raise Wrong("alldifferent of lists")
        if kind == "pack" and (kinds[0][0] != "object" or kinds[1:] != [("int",)] * 2):
            raise Wrong(f"{kinds} in pack")
        each = f"for q_{name} in {source}"
        if least:
            each += f" if {self.code_as(least, klass, inner, ('bool',))}"
        body = f"({' and '.join(code[0] for code in codes)})"
        if kind in ("forall", "exists"):
            return f"{'all' if kind == 'forall' else 'any'}({body} {each})", ("bool",)
        if kind in ("sum", "count"):
            return f"sum({f'{body} {each}' if kind == 'sum' else f'1 {each} if {body}'})", ("int",)
        if kind == "alldifferent":
            return f"distinct([{body} {each}])", ("bool",)
        return f"packed([({', '.join(code[0] for code in codes)}) {each}])", ("bool",)

    def values(self, leaf):
        """The values that a leaf may have."""
        shape = leaf.shape
        if shape[0] == "span":
            return range(shape[1], shape[2] + 1)
        if shape[0] == "bool":
            return (False, True)
        if shape[0] == "enum":
            return range(len(self.enums[shape[1]]))
        if shape[0] == "ref":
            return self.extents[shape[1]]
        return list(itertools.combinations(self.extents[shape[1]], shape[2]))

    def size(self):
        """How many configurations there are whose sets have their sizes."""
        size = 1
        for leaf in self.leaves:
            size *= len(self.values(leaf))
        return size

    def configurations(self):
        return itertools.product(*(self.values(leaf) for leaf in self.leaves))

    def satisfies(self, t):
        return all(function(t, this) for function, these in self.wheres for this in these)

    def objectives(self, t):
        return [function(t, None) for _, function in self.goals]

    def tree(self, t):
        """A configuration as JSON."""
        return {name: self.tree_of(held, t) for name, held in self.top.items()}

    def tree_of(self, held, t):
        if isinstance(held, list):
            return [self.tree_of(one, t) for one in held]
        if isinstance(held, Thing):
            below = {name: self.tree_of(one, t) for name, one in held.at.items()}
            return {"class": held.klass, **below}
        shape, value = self.leaves[held].shape, t[held]
        if shape[0] == "enum":
            return self.enums[shape[1]][value]
        if shape[0] == "ref":
            return value.path
        return [one.path for one in value] if shape[0] == "set" else value

    def line(self, t):
        return json.dumps(self.tree(t), sort_keys=True, separators=(",", ":"))

    def named(self, value, klass):
        """The object of the class's extent that a JSON value names."""
        thing = self.names.get(value) if isinstance(value, str) else None
        return thing if thing and self.is_a(thing.klass, klass) else None

    def former(self, tree, leaf):
        """The former value of a leaf in a JSON value; None where it has none."""
        for name, index in leaf.steps:
            if not isinstance(tree, dict) or name not in tree:
                return None
            tree = tree[name]
            if index is not None:
                if not isinstance(tree, list) or index >= len(tree):
                    return None
                tree = tree[index]
        kind = leaf.shape[0]
        if kind == "span":
            low, high = leaf.shape[1:]
            return tree if type(tree) is int and low <= tree <= high else None
        if kind == "bool":
            return tree if type(tree) is bool else None
        if kind == "enum":
            listed = self.enums[leaf.shape[1]]
            return listed.index(tree) if isinstance(tree, str) and tree in listed else None
        if kind == "ref":
            return self.named(tree, leaf.shape[1])
        if not isinstance(tree, list) or len(tree) != leaf.shape[2]:
            return None
        things = [self.named(one, leaf.shape[1]) for one in tree]
        if None in things or not distinct(things):
            return None
        return tuple(sorted(things, key=lambda thing: thing.number))

    def is_allowed(self, t, failed):
        """Whether no reference names one of these objects, or what is in one."""
        for leaf, value in zip(self.leaves, t):
            if leaf.shape[0] in ("ref", "set"):
                for thing in [value] if leaf.shape[0] == "ref" else value:
                    if any(holder in failed for holder in thing.inside):
                        return False
        return True


def json_of(text):
    """The JSON value of a text. What isn't kept as a whole number is a float, as -0 is."""

    def refuse(word):
        raise ValueError(word)

    def whole(digits):
        return -0.0 if digits == "-0" else int(digits)

    return json.loads(text, parse_int=whole, parse_constant=refuse)


class Answers:
    """The configurations that satisfy a model, with their objectives."""

    def __init__(self, model):
        self.model = model
        self.found = [t for t in model.configurations() if model.satisfies(t)]
        self.scores = [model.objectives(t) for t in self.found]

    def best(self, former, failed):
        """The best configurations: their changes and objectives, and where they stand."""
        model = self.model
        hints = [model.former(former, leaf) for leaf in model.leaves]
        known = [(k, hint) for k, hint in enumerate(hints) if hint is not None]
        signs = [sign for sign, _ in model.goals]
        best, where = None, []
        for place, t in enumerate(self.found):
            if failed and not model.is_allowed(t, failed):
                continue
            changes = sum(1 for k, hint in known if t[k] != hint)
            score = [sign * value for sign, value in zip(signs, self.scores[place])]
            if best is None or [changes] + score < best:
                best, where = [changes] + score, []
            if [changes] + score == best:
                where.append(place)
        return best, where


def status_of_words(model, former, words):
    """The JSON value and the failed objects, or the status of a refusal."""
    try:
        tree = json_of(former)
    except ValueError:
        return None, None, "9 former not JSON"
    if not isinstance(tree, dict):
        return None, None, "9 former not an object"
    for k, word in enumerate(words):
        if word not in model.names:
            return None, None, f"9 former unknown object {k + 1}"
    return tree, [model.names[word] for word in words], None


def repaired(answers, former, words):
    """What a repair must print, the configurations that it may print, and its status."""
    model = answers.model
    tree, failed, refused = status_of_words(model, former, words)
    if refused:
        return [], [], refused
    best, where = answers.best(tree, failed)
    if best is None:
        return ["none exists"], [], "1"
    behind = [f"changes {best[0]}"]
    behind += [f"objective {value}" for value in answers.scores[where[0]]]
    return behind, [model.line(answers.found[place]) for place in where], "0"
