"""A packing's model in parts, each of which a rule may spell otherwise.

Without a rule the parts make the text of `tools/packing-models`. A template has words such as `$n`
in place of what differs: `$a` is the resource, `$n` how much of it, `$v` a machine, `$h` a host and
`$p` what stands before a host's attribute, `$k` and `$c` a size and its class, `$m` a machine's
variable, `$o` what stands before an attribute that is fixed, and `$all` what is stated. A rule
changes templates and adds lines, before any text is made, so that rules of different kinds join.
"""
from string import Template

RESOURCES = ("cpu", "mem")
EACH = None
WIDE = 99


def fill(template, **words):
    """A template's text."""
    return Template(template).substitute(words)


def words_of(number):
    """A number, and others that templates make of it."""
    tenths = -(-10 * number // 8)  # of which eight tenths, rounded down, are the number
    return {
        "n": number, "less": number - 1, "more": number + 1, "over": number + 2,
        "twice": 2 * number, "tenths": tenths,
    }


class Statement:
    """Where and how constraints are stated: the part of the model that gets them, the text round
    them, what stands between them where one text has them all, and of which object they are."""

    def __init__(self, part, text="where $all;", joint=EACH, owner="this"):
        self.part, self.text, self.joint, self.owner = part, text, joint, owner
        self.prefix = "" if owner == "this" else f"{owner}."

    def texts(self, constraints, **words):
        if not constraints:
            return []
        groups = constraints if self.joint is EACH else [self.joint.join(constraints)]
        return [fill(self.text, all=group, **words) for group in groups]


class Goal:
    """A goal's text, the objective that it has where the base has its best, and lines that it adds
    to parts of the model."""

    def __init__(self, text, worth=lambda best, draft: best, **parts):
        self.text, self.worth, self.parts = text, worth, parts


class Draft:
    """The parts of a model, and how its constraints are written."""

    def __init__(self, packing):
        self.packing = packing
        self.half, self.count = packing.hosts // 2, sum(kind[2] for kind in packing.kinds)
        self.most = 12 if packing.drawn else 8
        # Lines above the hosts, within them and behind them, within sites and machines, and behind.
        self.parts = {part: [] for part in ("top", "host", "hosts", "site", "vm", "behind")}
        self.host_heads = ["class Host"]
        self.sites = ["class Site { var hosts as Host[$half];$more }"]
        self.homes, self.machines_first = ["var home as Site;", "var away as Site;"], False
        self.vm_head, self.host_shape = "abstract class Vm", "ref Host"
        self.parents, self.classes, self.named = ["Vm"], True, bool(packing.drawn)
        # How much room a host has, how that is fixed, and how it is named.
        self.room_shape, self.room_equations, self.room = "$n..$n", [], "$p$a"
        self.room_place = Statement("host", "where { $all; }", "; ")
        # How large a machine is.
        self.size_shape, self.size = f"0..{self.most}", "$v.$a"
        self.own_ranges = False
        self.equations = {resource: ["$o$a = $n"] for resource in RESOURCES}
        self.size_place, self.fixed = Statement("class", "where { $all; }", "; "), "kinds"
        # What a host has to take, and how its rows are stated.
        self.host_cells = []
        self.variable, self.over = "v", ["Vm"]
        self.sum = "sum $v in $c where $v.host = $h { $size }"
        self.relations = ["$sum <= $room"]
        self.row_place = Statement("host")
        self.goal = None

    def add(self, part, *lines):
        self.parts[part] += lines

    def counted(self, line):
        """A line with the numbers of hosts and machines."""
        return fill(line, half=self.half, hosts=self.packing.hosts, count=self.count)

    def kinds(self):
        """The sizes: their names, how much they take of each resource, how many there are."""
        return [(f"{cpu}x{mem}", (cpu, mem), count) for cpu, mem, count in self.packing.kinds]

    def machines(self):
        """The machines' variables: their names, their sizes, and their numbers in arrays."""
        if not self.named:
            return [(f"vm{name}", (name, size), count) for name, size, count in self.kinds()]
        listed = self.packing.drawn
        if not listed:
            listed = [size for _, size, count in self.kinds() for _ in range(count)]
        return [(f"m{k + 1}", (f"{a}x{b}", (a, b)), 0) for k, (a, b) in enumerate(listed)]

    def class_of(self, name):
        return f"Vm{name}" if self.classes else "Vm"

    def equations_of(self, size, words):
        """What fixes a size."""
        made = []
        for resource, number in zip(RESOURCES, size):
            apart = number - size[0]
            other = f"cpu {'-' if apart < 0 else '+'} {abs(apart)}"
            more = {**words, **words_of(number), "a": resource, "other": other}
            made += [fill(one, **more) for one in self.equations[resource]]
        return made

    def fixed_sizes(self, variables):
        """The lines that fix the sizes of kinds, or of variables."""
        if variables:
            listed = [(name, *size) for name, size, _ in self.machines()]
        else:
            listed = [(f"vm{name}", name, size) for name, size, _ in self.kinds()]
        place, made = self.size_place, []
        for machine, name, size in listed:
            words = {"m": machine, "k": name, "c": self.class_of(name)}
            words["o"] = fill(place.prefix, **words)
            made.append((name, place.texts(self.equations_of(size, words), **words)))
        return made

    def class_lines(self):
        """The classes of machines."""
        if not self.classes:
            return []
        within = {name: [] for name, *_ in self.kinds()}
        if self.size_place.part == "class":
            within.update(self.fixed_sizes(False))
        made = [f"abstract class {one} extends Vm {{ }}" for one in self.parents if one != "Vm"]
        for k, (name, size, _) in enumerate(self.kinds()):
            lines = list(within[name])
            if self.own_ranges:
                lines = [f"var {a} as {n}..{n};" for a, n in zip(RESOURCES, size)]
            parent = self.parents[k % len(self.parents)]
            made.append(" ".join([f"class Vm{name} extends {parent} {{", *lines, "}"]))
        return made

    def machine_lines(self):
        return [
            f"var {name} as {self.class_of(kind)}{f'[{count}]' if count else ''};"
            for name, (kind, _), count in self.machines()
        ]

    def summed(self, k, host):
        """What all machines on a host take of a resource."""
        size = fill(self.size, v=self.variable, a=RESOURCES[k])
        groups = [(name, 0) for name in self.over]
        if self.over == ["kinds"]:
            groups = [(f"Vm{name}", of[k]) for name, of, _ in self.kinds()]
        return " + ".join(
            fill(self.sum, v=self.variable, c=name, h=host, size=size, n=number, a=RESOURCES[k])
            for name, number in groups
        )

    def room_words(self, k, prefix):
        """A host's room, and what belongs to it."""
        words = {"a": RESOURCES[k], "p": prefix}
        words.update(words_of(self.packing.room[k]))
        return {**words, "room": fill(self.room, **words)}

    def row_lines(self):
        """The lines that state what hosts take, for the part that gets them."""
        place, made = self.row_place, []
        for k, resource in enumerate(RESOURCES):
            words = {"h": place.owner, "v": self.variable, **self.room_words(k, place.prefix)}
            words["size"] = fill(self.size, v=self.variable, a=resource)
            words["sum"] = self.summed(k, place.owner)
            made += [fill(relation, **words) for relation in self.relations]
        return place.texts(made)

    def room_lines(self):
        """The lines that fix the rooms, for the part that gets them."""
        made = []
        for resource, number in zip(RESOURCES, self.packing.room):
            for one in self.room_equations:
                words = {"o": self.room_place.prefix, "a": resource, **words_of(number)}
                made.append(fill(one, **words))
        return self.room_place.texts(made)

    def all_parts(self):
        """The lines of each part, those of rows, rooms and sizes among them."""
        parts = {name: list(lines) for name, lines in self.parts.items()}
        parts[self.room_place.part] += self.room_lines()
        parts[self.row_place.part] += self.row_lines()
        if self.size_place.part != "class":
            made = self.fixed_sizes(self.fixed == "machines")
            parts[self.size_place.part] += [line for _, lines in made for line in lines]
        for name, lines in self.goal.parts.items():
            parts[name] += [self.counted(line) for line in lines]
        return parts

    def host_lines(self, within):
        """The hosts' class, or the classes that have what hosts have."""
        cells = []
        shapes = [f"var $a as {self.room_shape};"] if self.room_shape else []
        for shape in shapes + self.host_cells:
            for resource, number in zip(RESOURCES, self.packing.room):
                cells.append(fill(shape, a=resource, **words_of(number)))
        lines = [f"  {line}" for line in cells + within]
        return [line for head in self.host_heads for line in (f"{head} {{", *lines, "}")]

    def text(self):
        """The model."""
        parts = self.all_parts()
        more = "".join(f" {line}" for line in parts["site"])
        sizes = [f"var {a} as {self.size_shape};" for a in RESOURCES] if self.size_shape else []
        vm = [*sizes, f"var host as {self.host_shape};", *parts["vm"]]
        objects = [self.homes, self.machine_lines()]
        if self.machines_first:
            objects.reverse()
        lines = [
            *parts["top"], *self.host_lines(parts["host"]), *parts["hosts"],
            *(fill(site, half=self.half, more=more) for site in self.sites),
            " ".join([f"{self.vm_head} {{", *vm, "}"]),
            *self.class_lines(), *sum(objects, []), *parts["behind"],
            self.counted(self.goal.text),
        ]
        return "".join(f"{line}\n" for line in lines)
