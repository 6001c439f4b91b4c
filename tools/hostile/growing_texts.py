"""Models that look harmless, whose search took more than in proportion to their size. Here a size
is a number of objects, cells or constraints, and not of bytes."""
import json
import random

from texts import Text

SOLVE = "solve TEXT"
FIRST = "solve --budget 0 TEXT"
CORE = "core TEXT"
REPAIR = "reconfigure TEXT former.json"
SESSION = "session TEXT former.json events.txt"


class Grown(Text):
    """A model made from a number; `beside` are further files, each made from it, too."""

    def __init__(self, name, size, model, words=SOLVE, beside=None):
        super().__init__(name, size, words, lambda n: [model(n).encode()])
        self.made = beside or {}

    def write(self, file, size):
        super().write(file, size)
        for name, make in self.made.items():
            with open(name, "w") as out:
                out.write(make(size))


def numbered(count, unit):
    """Units made from the numbers from 0 on, one behind the other."""
    return "".join(unit(n) for n in range(count))


def cells(values, end):
    """Cells of these values in an array, and what is asked of them."""
    return lambda n: f"class C {{ var x as {values}; }} var c as C[{n}]; {end(n)}"


TOTAL = "sum i in C { i.x }"


def ascending(n, most):
    """Numbers up to the greatest, each less than the next one."""
    return (numbered(n, lambda k: f"var x{k} as 0..{most};")
            + numbered(n - 1, lambda k: f"where x{k} < x{k + 1};"))


def implications(n):
    """The first is true, each makes the next one true, and the last is false."""
    return (numbered(n, lambda k: f"var b{k} as bool;") + "where b0;"
            + numbered(n - 1, lambda k: f"where b{k} -> b{k + 1};") + f"where not b{n - 1};")


def followers(n):
    """Each refers to the next one, which is fixed, and is no more than that one."""
    return ("class M { var x as 0..9; var next as ref M; where x <= next.x; }"
            + numbered(n, lambda k: f"var m{k} as M;")
            + numbered(n, lambda k: f"where m{k}.next = m{min(k + 1, n - 1)};"))


def distances(n):
    """One more than the next one's, or 0."""
    return (f"class M {{ var d as 0..{n}; var next as ref M; where d = next.d + 1 or d = 0; }}"
            f"var m as M[{n}];")


def conjunction(n):
    """A conjunction of n parts, five for each object, that has to hold."""
    parts = numbered(5, lambda k: f"i.x + {k} <= i.y;")
    return (f"class C {{ var x as 0..9; var y as 0..9; }} var c as C[{n // 5}]; var q as bool;"
            f"where q; where q -> forall i in C {{ {parts} }};")


def rooms(n):
    """A hundred machines, each on a host with room for it."""
    return (f"class H {{ var room as 0..9; }} var h as H[{n}];"
            "class M { var host as ref H; where host.room >= 5; } var m as M[100];")


def triples(n):
    """Three numbers of each object that add up and fall."""
    return (f"class C {{ var x as 0..15; var y as 0..15; var z as 0..15;"
            f"where x + y + z = 15; where x > y; where y > z; }} var c as C[{n}];")


def placed(n):
    """Machines over a hundred hosts, and where they are."""
    return f"class H {{ }} class M {{ var host as ref H; }} var h as H[100]; var m as M[{n}];"


def places(n):
    return json.dumps({"m": [{"host": f"h[{k % 100}]"} for k in range(n)]})


def packed(n):
    """A third as many hosts as machines, three for each."""
    return (f"class H {{ }} class M {{ var host as ref H; }} var h as H[{n // 3 + 1}];"
            f"var m as M[{n}]; where pack v in M {{ v.host; 1; 3; }};")


def summed(n):
    """The same, by a sum for each host."""
    return (f"class H {{ where sum v in M where v.host = this {{ 1 }} <= 3; }}"
            f"class M {{ var host as ref H; }} var h as H[{n // 3 + 1}]; var m as M[{n}];")


def drawn(rng, count, total):
    """So many sizes from 1 to 16 that add up to a total."""
    sizes = [rng.choice((2, 2, 4, 4, 6, 8, 12)) for _ in range(count)]
    while sum(sizes) != total:
        step, k = (1 if sum(sizes) < total else -1), rng.randrange(count)
        sizes[k] = min(16, max(1, sizes[k] + step))
    return sizes


def full_zone(n):
    """Services and a third as many hosts in three zones, where each fact is a constraint of its
    own. Three of ten services stand in the first zone, and take one unit more than it has."""
    rng, hosts, inner = random.Random(n), 3 * n // 10, 3 * n // 10
    rooms = [(32 if k % 4 == 3 else 16, k * 3 // hosts) for k in range(hosts)]
    first = sum(room for room, zone in rooms if zone == 0)
    others = sum(room for room, zone in rooms) - first
    sizes = drawn(rng, inner, first + 1) + drawn(rng, n - inner, others * 9 // 10)
    return ("class Host { var cpu as 1..64; var mem as 1..256;"
            "where sum s in Service where s.host = this { s.cpu } <= cpu;"
            "where sum s in Service where s.host = this { s.mem } <= mem; }"
            + numbered(3, lambda z: f"class Z{z} extends Host {{ }}")
            + "class Service { var cpu as 1..64; var mem as 1..256; var host as ref Host; }"
            "class Inner extends Service { where host in Z0; }"
            + numbered(hosts, lambda k: f"var h{k} as Z{rooms[k][1]};"
                       f"where h{k}.cpu = {rooms[k][0]};where h{k}.mem = {4 * rooms[k][0]};")
            + numbered(n, lambda k: f"var s{k} as {'Inner' if k < inner else 'Service'};"
                       f"where s{k}.cpu = {sizes[k]};where s{k}.mem = {4 * sizes[k]};")
            + numbered(n // 4, lambda k: f"where s{4 * k}.host != s{4 * k + 1}.host;"))


def failures(n):
    """A hundred events: hosts that fail and come back."""
    return numbered(50, lambda k: f"fail h[{k}]\nrepair h[{k}]\n")


TEXTS = [
    Grown("goals `maximize b`", 12, lambda n: numbered(n, lambda k: f"var b{k} as 0..1;")
          + numbered(n, lambda k: f"maximize b{k};")),
    Grown("a sum that is bounded and the goal", 40, cells(
        "0..9", lambda n: f"where {TOTAL} <= {4 * n}; maximize {TOTAL};")),
    Grown("half of the Booleans on, counted", 200, cells(
        "bool", lambda n: f"where count i in C {{ i.x }} >= {n // 2};"
                          "minimize count i in C { i.x };")),
    Grown("the greatest sum of 0..9", 100, cells("0..9", lambda n: f"maximize {TOTAL};")),
    Grown("the least sum of 0..9", 10_000, cells("0..9", lambda n: f"minimize {TOTAL};")),
    Grown("a sum of a given value", 4_000, cells("0..9", lambda n: f"where {TOTAL} = {4 * n};")),
    Grown("a sum of a least value", 4_000, cells("0..9", lambda n: f"where {TOTAL} >= {4 * n};")),
    Grown("a conjunction of n parts", 45_000, conjunction),
    Grown("goals of one number", 1,
          lambda n: "var a as int; maximize a; maximize a; minimize a + a;"),
    Grown("`x != 2k`", 8_000, lambda n: f"var x as 0..{4 * n};"
          + numbered(n, lambda k: f"where x != {2 * k};"), FIRST),
    Grown("an order chain", 2_000, lambda n: ascending(n, n)),
    Grown("`x + y + z = 15; x > y > z`", 1_000, triples),
    Grown("`x + y = n; x - y = 1`, n even", 10_000, lambda n: f"var x as 0..{n}; var y as 0..{n};"
          f"where x + y = {n - n % 2}; where x - y = 1;"),
    Grown("`x + y <= n`, the greatest", 4_000, lambda n: f"var x as 0..{n}; var y as 0..{n};"
          f"where x + y <= {n}; maximize x + y;"),
    Grown("`alldifferent` of n over 2n values", 800, lambda n: f"class C {{ var x as 1..{2 * n}; }}"
          f"var c as C[{n}]; where alldifferent i in C {{ i.x }};"),
    Grown("`pack` over n / 3 hosts", 512, packed),
    Grown("a sum for each of n / 3 hosts", 512, summed),
    Grown("fixed references, `x <= next.x`", 1_000, followers),
    Grown("`d = next.d + 1 or d = 0`", 80, distances),
    Grown("100 machines, `host.room >= 5`", 1_000, rooms),
    Grown("over 10,000 free cells", 20_000, cells("0..9", lambda n: "")),
    Grown("a core of an order chain", 200, lambda n: ascending(n, n - 2), CORE),
    Grown("a core of implications", 1_000, implications, CORE),
    Grown("a core of a site, a zone too full", 40, full_zone, CORE),
    Grown("a repair in which nothing changes", 10_000, cells("0..9", lambda n: ""), REPAIR,
          {"former.json": lambda n: json.dumps({"c": [{"x": k % 10} for k in range(n)]})}),
    Grown("a repair of references to 100 hosts", 8_000, placed, REPAIR, {"former.json": places}),
    Grown("a session of 100 events", 1_000, placed, SESSION,
          {"former.json": places, "events.txt": failures}),
]
