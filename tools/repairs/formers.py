"""Former configurations and failures at random, and cases of both."""
import json
import random
import re

from meaning import repaired
from models import random_model

# A JSON text is kept as a list of key and value pairs, a list behind "array", or the text itself.


def open_tree(tree):
    if isinstance(tree, dict):
        return [[key, open_tree(below)] for key, below in tree.items()]
    if isinstance(tree, list):
        return ("array", [open_tree(below) for below in tree])
    return json.dumps(tree)


def tree_text(tree, gap=""):
    if isinstance(tree, str):
        return tree
    if isinstance(tree, tuple):
        return f"[{f',{gap}'.join(tree_text(below, gap) for below in tree[1])}]"
    pairs = [f"{json.dumps(key)}:{gap}{tree_text(below, gap)}" for key, below in tree]
    return f"{{{f',{gap}'.join(pairs)}}}"


def objects_of(tree):
    """The objects of an opened tree."""
    if isinstance(tree, str):
        return []
    if isinstance(tree, tuple):
        return [one for below in tree[1] for one in objects_of(below)]
    return [tree] + [one for _, below in tree for one in objects_of(below)]


def holder_of(tree, steps):
    """The pair that holds a leaf; None where it isn't there any more."""
    pair = None
    for name, index in steps:
        found = [pair for pair in tree if pair[0] == name] if isinstance(tree, list) else []
        if not found:
            return None
        pair, tree = found[-1], found[-1][1]
        if index is not None:
            if not isinstance(tree, tuple) or index >= len(tree[1]):
                return None
            tree = tree[1][index]
    return pair


def spoilt_leaf(rng, model, leaf, text):
    """A text that is mostly no value of the leaf, mostly one like the text of a value."""
    shape, paths = leaf.shape, [thing.path for thing in model.things]
    gone = rng.choice(("gone", "", "hosts[9]", leaf.path, "class"))
    others = ["null", "true", "0", "1", '"1"', "[]", "{}", json.dumps(gone), "[[1]]", '{"a":1}']
    if shape[0] == "span":
        low, high = shape[1:]
        whole = text if re.fullmatch("-?[0-9]+", text) else str(low)
        values = [f"{whole}.0", f"{whole}e0", f"{high}.0", str(high + 1), str(low - 1)]
        values += [f'"{whole}"', "-0", "18446744073709551616", "0.5", f"{whole}.25", f"[{whole}]"]
    elif shape[0] == "bool":
        values = ["0", "1", "0", "1", f'"{text}"' if text in ("true", "false") else "null"]
    elif shape[0] == "enum":
        value = rng.choice(model.enums[shape[1]])
        values = [f'"{shape[1]}.{value}"', f'"{value.lower()}"', f'"{value} "', "0", "1"]
    elif shape[0] == "ref":
        path = rng.choice(paths or ["a"])
        values = [f'"{path} "', f'"{path}[0]"', f'"{path[:-1]}"', f'["{path}"]']
        values += [json.dumps(path.replace("[", "[0")), json.dumps(path.replace("[", ".[", 1))]
        values += [json.dumps(path), json.dumps(rng.choice(paths or ["a"]))]
    else:
        values = [spoilt_set(rng, model, leaf)] * 3 + [f'"{leaf.path}"']
    return rng.choice(values * 3 + others)


def spoilt_set(rng, model, leaf):
    """A list that is mostly no value of a set."""
    count = leaf.shape[2]
    extent = [thing.path for thing in model.extents[leaf.shape[1]]]
    listed = rng.sample(extent, min(count, len(extent)))
    forms = [listed[: count // 2], listed[:1] + listed[:-1], listed[:1] + listed[:-1]]
    forms += [listed + listed[:1], listed[1:] + ["gone"], extent, listed[::-1]]
    forms.append([thing.path for thing in model.things[:count]])
    return json.dumps(rng.choice(forms), separators=(",", ":"))


def spoil(rng, model, tree):
    """Spoils one thing in an opened tree."""
    kinds = ("leaf",) * 7 + ("set",) * 4
    kind = rng.choice(kinds + ("extra", "class", "again", "short", "long", "other"))
    holders = [(leaf, holder_of(tree, leaf.steps)) for leaf in model.leaves]
    holders = [(leaf, pair) for leaf, pair in holders if pair]
    inner = objects_of(tree)
    where = rng.choice(inner)
    arrays = [pair for one in inner for pair in one if isinstance(pair[1], tuple)]
    sets = [(leaf, pair) for leaf, pair in holders if leaf.shape[0] == "set"]
    if kind == "set" and sets:
        leaf, pair = rng.choice(sets)
        pair[1] = spoilt_set(rng, model, leaf)
    elif kind in ("leaf", "set") and holders:
        leaf, pair = rng.choice(holders)
        pair[1] = spoilt_leaf(rng, model, leaf, tree_text(pair[1]))
    elif kind == "extra":
        extra = rng.choice(('"x"', "[]", "7", '{"class":"C"}', "null"))
        where.insert(rng.randint(0, len(where)), [rng.choice(("extra", "", "this", "0")), extra])
    elif kind == "class":
        if where is not tree:
            where[:] = [pair for pair in where if pair[0] != "class"]
            where.append(["class", rng.choice(('"Gone"', "1", "null", '"Host"', "[]"))])
    elif kind == "again" and holders:
        leaf, pair = rng.choice(holders)
        holder = [one for one in inner if any(pair is other for other in one)][0]
        holder.insert(rng.randint(0, len(holder)), [pair[0], spoilt_leaf(rng, model, leaf, "")])
    elif kind == "short" and arrays:
        listed = rng.choice(arrays)[1][1]
        del listed[rng.randint(0, max(len(listed) - 1, 0)):]
    elif kind == "long" and arrays:
        listed = rng.choice(arrays)[1][1]
        listed.insert(rng.randint(0, len(listed)), rng.choice(("null", "{}", '"x"', "0")))
    elif where:
        pair = rng.choice(where)
        pair[1] = rng.choice(("null", "[]", "{}", '"x"', "1"))


def thin(rng, tree, share):
    """Takes keys away."""
    for one in objects_of(tree):
        one[:] = [pair for pair in one if rng.random() < share]


def random_former(rng, answers):
    """The text of a former configuration, its kind, and the configuration it came from."""
    model, kind = answers.model, rng.choice(FORMERS)
    values = [list(model.values(leaf)) for leaf in model.leaves]
    if kind == "empty" or not all(values):
        return "{}", "empty", None
    t = tuple(rng.choice(listed) for listed in values)
    if answers.found and (kind == "satisfying" or kind != "wild" and rng.random() < 0.7):
        t = rng.choice(answers.found)
    if kind in ("satisfying", "wild"):
        kind = "satisfying" if model.satisfies(t) else "not satisfying"
    tree = open_tree(model.tree(t))
    if kind == "partial":
        thin(rng, tree, rng.choice((0.5, 0.7, 0.85)))
    if kind == "spoilt":
        for _ in range(rng.choice((1, 1, 2, 3))):
            spoil(rng, model, tree)
    if rng.random() < 0.6:
        for one in objects_of(tree):
            one[:] = [pair for pair in one if pair[0] != "class"]
    if rng.random() < 0.3:
        for leaf in model.leaves:
            pair = holder_of(tree, leaf.steps) if leaf.shape[0] == "set" else None
            if pair and isinstance(pair[1], tuple):
                rng.shuffle(pair[1][1])
    if rng.random() < 0.2:
        for one in objects_of(tree):
            rng.shuffle(one)
    return tree_text(tree, " " if rng.random() < 0.05 else ""), kind, t


def referred(model, t):
    """The objects that references of a configuration name."""
    things = []
    for leaf, value in zip(model.leaves, t or ()):
        if leaf.shape[0] in ("ref", "set"):
            things += [value] if leaf.shape[0] == "ref" else list(value)
    return things


def random_failures(rng, model, t):
    """What failed, and its kind."""
    kind = rng.choice(FAILURES)
    if kind == "none" or not model.things:
        return [], "none"
    aimed = referred(model, t)
    one = rng.choice(aimed if aimed and rng.random() < 0.75 else model.things)
    if kind == "one":
        return [one], kind
    if kind == "several":
        count = min(rng.choice((2, 2, 3)), len(model.things))
        return [one] + rng.sample(model.things, count - 1), kind
    held = [thing for thing in aimed or model.things if len(thing.inside) > 1]
    held = held or [thing for thing in model.things if len(thing.inside) > 1]
    if kind == "inside" and held:
        one = rng.choice(held)
        both = [one, rng.choice(one.inside[:-1])]
        rng.shuffle(both)
        return both, kind
    if kind == "container" and held:
        deepest = max(held, key=lambda thing: len(thing.inside))
        one = deepest if rng.random() < 0.5 else rng.choice(held)
        return [one.inside[0] if rng.random() < 0.6 else rng.choice(one.inside[:-1])], kind
    targets = [leaf.shape[1] for leaf in model.leaves if leaf.shape[0] in ("ref", "set")]
    if kind == "all" and targets:
        things = list(model.extents[rng.choice(targets)])
        rng.shuffle(things)
        return things[:8], kind
    return [one], "one"


FORMERS = ("satisfying",) * 4 + ("wild",) * 3 + ("partial",) * 3 + ("spoilt",) * 7 + ("empty",)
FAILURES = ("none",) * 4 + ("one",) * 4 + ("several",) * 3 + ("inside",) * 4
FAILURES += ("container",) * 5 + ("all",) * 2


def random_cases(seed, count):
    """So many cases as texts, and how many there are of each kind."""
    rng, kinds, made = random.Random(seed), {}, 0
    while made < count:
        text, answers = random_model(rng)
        for _ in range(min(rng.choice((2, 3, 4, 5)), count - made)):
            former, of_former, t = random_former(rng, answers)
            if len(former) > 250:
                continue
            for _ in range(4):
                failed, of_failures = random_failures(rng, answers.model, t)
                words = [thing.path for thing in failed]
                behind, lines, status = repaired(answers, former, words)
                if lines or rng.random() < 0.15:
                    break
            case = [f"model {text}", f"former {former}"]
            case += [f"failed {' '.join(words)}"] if words else []
            whole = len(lines) == 1 and len(lines[0]) <= 130
            case += [f"prints {line}" for line in lines if whole]
            word = "shows" if lines and not whole else "prints"
            case += [f"{word} {line}" for line in behind] + [f"ends {status}"]
            made += 1
            of_answer = "answer " + (behind[0] if status == "1" or behind[0][8:] in "012" else
                                     "changes 3 or more")
            for kind in (f"former {of_former}", f"failed {of_failures}", of_answer,
                         "written whole" if whole else "written behind",
                         f"objectives {len(behind) - 1 if lines else 'untold'}"):
                kinds[kind] = kinds.get(kind, 0) + 1
            yield "\n".join(case) + "\n", kinds
