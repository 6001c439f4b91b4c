"""What several families of placements share: sizes, draws, and lines of the three languages."""

SIZES = ("s", "m", "l")
# The kinds of machines with their processors, their memory, and how often one is drawn.
KINDS = (
    ("Web", 2, 4, 4),
    ("Cache", 2, 8, 2),
    ("Worker", 4, 6, 4),
    ("Store", 6, 16, 2),
    ("Batch", 8, 10, 1),
    ("Mail", 1, 3, 3),
)
MACHINES = {"s": 12, "m": 40, "l": 120}
HOSTS = {"s": 4, "m": 12, "l": 30}
MOST_DRAWS = 1000


class Placement:
    """What each family draws; those below say how it is told in each language."""

    def fast(self):
        """In ConfSolve, as `docs/FAST.md` teaches; as somebody writes it where that is the same."""
        return self.conf()

    def repaired(self):
        """In ConfSolve, where it is to be repaired: without counts, each of which is a value."""
        return self.fast()


def drawn_counts(rng, total, shares):
    """How many there are of each kind: one at least, and the others drawn by the shares."""
    counts = [1] * len(shares)
    for kind in rng.choices(range(len(shares)), weights=shares, k=total - len(shares)):
        counts[kind] += 1
    return counts


def drawn_until(draw, right):
    """Draws again and again, until what is drawn is right."""
    for _ in range(MOST_DRAWS):
        drawn = draw()
        if right(drawn):
            return drawn
    raise ValueError("nothing right was drawn")


def spread(values, counts):
    """Each value as often as its count says."""
    return [value for value, count in zip(values, counts) for _ in range(count)]


def room(total, hosts, percent):
    """The room of each host with which the total fills so many percent of all."""
    return round(100 * total / (hosts * percent))


def first_fit(items, rooms):
    """Whether items with several sizes are placed by first fit, the greatest one first."""
    left = [list(sizes) for sizes in rooms]
    for item in sorted(items, key=sum, reverse=True):
        for sizes in left:
            if all(size >= taken for size, taken in zip(sizes, item)):
                sizes[:] = [size - taken for size, taken in zip(sizes, item)]
                break
        else:
            return False
    return True


def machine_sizes(counts, resource):
    """The processors (1) or the memory (2) of each machine."""
    return spread([kind[resource] for kind in KINDS], counts)


def paths(name, count):
    """The paths of the objects in a top-level array."""
    return [f"{name}[{k}]" for k in range(count)]


def machine_paths(counts):
    return [path for kind, n in zip(KINDS, counts) for path in paths(kind[0].lower(), n)]


def machine_classes():
    """The classes of machines, in ConfSolve."""
    lines = ["abstract class Vm { var cpu as 1..8; var mem as 1..16; var host as ref Host; }"]
    for name, cpu, mem, _ in KINDS:
        lines.append(f"class {name} extends Vm {{ where {{ cpu = {cpu}; mem = {mem}; }} }}")
    return "\n".join(lines)


def arrays(kinds, counts, key=None):
    """The top-level arrays of objects, in ConfSolve; by a key of their kinds where one is given."""
    named = list(zip(kinds, counts))
    if key:
        named.sort(key=lambda it: key(it[0]))
    return "\n".join(f"var {kind[0].lower()} as {kind[0]}[{n}];" for kind, n in named)


def machine_arrays(counts, key=None):
    return arrays(KINDS, counts, key)


def small_first(kind):
    return kind[1:3]


def large_first(kind):
    return [-size for size in kind[1:3]]


def by_kinds(kinds, counts, resources, here):
    """In a host of ConfSolve: how many of each kind are elsewhere, and what the others load.

    A resource is the name of a room and the place of its size in a kind; with `here` a machine is
    on the host.
    """
    named = [(kind, f"{kind[0].lower()}_away", n) for kind, n in zip(kinds, counts)]
    lines = [
        f"  var {away} as 0..{n}; "
        f"where {away} = {n} - (count x in {kind[0]} {{ {here} }});\n"
        for kind, away, n in named
    ]
    for room, at in resources:
        load = " + ".join(f"{kind[at]} * ({n} - {away})" for kind, away, n in named)
        lines.append(
            f"  var {room}_load as 0..1000; where {room}_load = {load};\n"
            f"  where {room}_load <= {room}; where free -> {room}_load = 0;\n"
        )
    return "".join(lines)


def totals_by_kinds(kinds, counts, elsewhere, totals):
    """Below it: from how many hosts each kind is away, all loads, and the rooms in use."""
    lines = [
        f"where sum h in Host {{ h.{kind[0].lower()}_away }} = {elsewhere * n};\n"
        for kind, n in zip(kinds, counts)
    ]
    for room, total in totals:
        lines.append(
            f"where sum h in Host {{ h.{room}_load }} = {total};\n"
            f"where sum h in Host where not h.free {{ h.{room} }} >= {total};\n"
        )
    return "".join(lines)


def machine_lists(counts):
    """The sizes of all machines, in MiniZinc."""
    return (
        f"array[1..V] of int: cpu = {listed(machine_sizes(counts, 1))};\n"
        f"array[1..V] of int: mem = {listed(machine_sizes(counts, 2))};\n"
    )


def machine_facts(counts):
    """The machines with their sizes, for clingo."""
    sizes = zip(machine_sizes(counts, 1), machine_sizes(counts, 2))
    lines = [f"vm({k}). cpu({k},{c}). mem({k},{m}).\n" for k, (c, m) in enumerate(sizes, 1)]
    return "".join(lines) + "1 { at(V,H) : host(H) } 1 :- vm(V).\n"


def listed(values):
    """A list in MiniZinc."""
    return f"[{','.join(map(str, values))}]"


def facts(name, rows):
    """Facts for clingo, one a line."""
    return "".join(f"{name}({','.join(map(str, row))}).\n" for row in rows)


def includes(*names):
    return "".join(f'include "{name}.mzn";\n' for name in names)


def goal_lines(placement, search):
    """The last lines in MiniZinc: how to search, for what goal, and what to print."""
    return (
        f"solve :: {search} {placement.SENSE} {placement.GOAL};\n"
        f'output ["OBJ \\({placement.GOAL})\\n"];\n'
    )


def hosts_first(variables="host"):
    return f"int_search({variables}, first_fail, indomain_min)"
