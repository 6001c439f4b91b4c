"""Copies on different hosts, zones or controllers, and a site that bears a host's failure."""
import itertools
from dataclasses import dataclass

from .common import (
    KINDS, MACHINES, Placement, arrays, by_kinds, drawn_counts, drawn_until, facts, first_fit,
    goal_lines, hosts_first, includes, large_first, listed, machine_arrays, machine_classes,
    machine_facts, machine_lists, machine_sizes, room, small_first, spread, totals_by_kinds,
)

APPS = (("Shop", 2), ("Search", 4), ("Queue", 3))
ZONES = {"s": (3, 2, 4), "m": (4, 4, 16), "l": (6, 4, 32)}
SETS = {"s": (5, 5), "m": (12, 16), "l": (24, 32)}
SET_APPS = (("Small", 2), ("Middle", 3), ("Large", 5))
CONTROLLERS = {"s": (2, 3, 8), "m": (3, 4, 24), "l": (4, 6, 48)}
VOLUMES = (("Log", 2), ("Home", 5), ("Data", 9))
SITE_HOSTS = {"s": 3, "m": 6, "l": 15}
SITES = "var home as Site;\nvar away as Site;\n"


@dataclass
class Zones(Placement):
    """Three copies of each application, in different zones, on as few hosts as can be."""

    GOAL, SENSE = "used", "minimize"
    zones: int
    each: int
    memory: int
    counts: list

    def sizes(self):
        """The memory of each application's copies."""
        return spread([size for _, size in APPS], self.counts)

    def machines(self):
        named = [
            f"{name.lower()}[{k}]" for (name, _), n in zip(APPS, self.counts) for k in range(n)
        ]
        return [f"{app}.replicas[{k}]" for app in named for k in range(3)]

    def places(self):
        return [f"zone{z}.hosts[{k}]" for z in range(self.zones) for k in range(self.each)]

    def conf(self):
        return self.told(
            f"{self.named_zones()}\n{arrays(APPS, self.counts)}", "", "",
            "minimize count h in Host { exists r in Replica { r.host = h; } };",
        )

    def fast(self):
        """Large applications first, then zones; how many copies are outside of one, or of two."""
        rows, total = [], sum(self.sizes())
        for away in (1, 2):
            for zones in itertools.combinations(range(self.zones), away):
                out = " and ".join(f"h.zone != zone{z}" for z in zones)
                room = f"sum h in Host where h.used and {out} {{ h.mem }}"
                rows.append(f"where {room} >= {(3 - away) * total};")
        rows.append("minimize count h in Host { h.used };")
        return self.told(
            f"{arrays(APPS, self.counts, large_first)}\n{self.named_zones()}",
            "  var used as bool;\n", " where host.used;", "\n".join(rows),
        )

    def named_zones(self):
        """The zones, in ConfSolve."""
        return "\n".join(f"var zone{z} as Zone;" for z in range(self.zones))

    def told(self, variables, used, where, last):
        """In ConfSolve, with these variables, and what tells which host is used."""
        classes = "\n".join(
            f"class {name} extends App {{ where forall r in replicas {{ r.mem = {size}; }}; }}"
            for name, size in APPS
        )
        return f"""\
// Each application has three replicas, in different zones. As few hosts in use as can be.
class Zone {{
  var hosts as Host[{self.each}];
  where forall h in hosts {{ h.zone = this; }};
}}
class Host {{
{used}\
  var zone as ref Zone;
  var mem as {self.memory}..{self.memory};
  where sum r in Replica where r.host = this {{ r.mem }} <= mem;
}}
class Replica {{ var mem as 1..8; var host as ref Host;{where} }}
abstract class App {{
  var replicas as Replica[3];
  where alldifferent r in replicas {{ r.host.zone }};
}}
{classes}
{variables}
{last}
"""

    def mzn_body(self):
        sizes = [size for size in self.sizes() for _ in range(3)]
        zones = [z + 1 for z in range(self.zones) for _ in range(self.each)]
        return f"""\
{includes("bin_packing_capa", "nvalue", "all_different")}\
int: H = {len(zones)}; int: A = {len(sizes) // 3}; int: V = {len(sizes)};
array[1..V] of int: mem = {listed(sizes)};
array[1..H] of int: zone = {listed(zones)};
array[1..V] of var 1..H: host;
constraint bin_packing_capa([{self.memory} | h in 1..H], host, mem);
constraint forall(a in 1..A)(all_different(r in 3*(a-1)+1..3*a)(zone[host[r]]));
var 0..H: used; constraint nvalue(used, host);
"""

    def mzn(self):
        return self.mzn_body() + goal_lines(self, hosts_first())

    def lp(self):
        apps = enumerate(self.sizes())
        rows = [(3 * a + k + 1, a, size) for a, size in apps for k in range(3)]
        return f"""\
host(1..{self.zones * self.each}). zone(H,(H-1)/{self.each}) :- host(H).
{facts("rep", rows)}\
1 {{ at(R,H) : host(H) }} 1 :- rep(R,_,_).
:- host(H), #sum {{ M,R : at(R,H), rep(R,_,M) }} > {self.memory}.
inzone(R,Z) :- at(R,H), zone(H,Z).
:- inzone(R,Z), inzone(S,Z), rep(R,A,_), rep(S,A,_), R < S.
used(H) :- at(_,H).
#minimize {{ 1,H : used(H) }}.
"""


def draw_zones(rng, size, spare=0):
    """With `spare`, a fourth zone where there are three, and room on so many hosts less."""
    zones, each, apps = ZONES[size]
    zones, percent = (max(zones, 4), 74) if spare else (zones, 69)
    counts = drawn_counts(rng, apps, [1] * len(APPS))
    total = 3 * sum(n * one for n, (_, one) in zip(counts, APPS))
    return Zones(zones, each, room(total, zones * each - spare, percent), counts)


@dataclass
class Sets(Placement):
    """Each application on a set of three hosts; as few hosts as can be."""

    GOAL, SENSE = "obj", "minimize"
    hosts: int
    room: int
    counts: list

    def conf(self):
        last = "minimize count h in Host { exists a in App { h in a.hosts; } };"
        return self.told(arrays(SET_APPS, self.counts), "", last)

    def fast(self):
        """Applications are counted by kinds, the large ones first; and what all of them load."""
        kinds, counts = zip(*sorted(zip(SET_APPS, self.counts), key=lambda it: -it[0][1]))
        of_host = by_kinds(kinds, counts, (("room", 1),), "this in x.hosts")
        totals = (("room", 3 * sum(self.sizes())),)
        last = totals_by_kinds(kinds, counts, self.hosts - 3, totals)
        return self.told(
            arrays(kinds, counts), f"  var free as bool;\n{of_host}",
            f"{last}minimize count h in Host {{ not h.free }};",
        )

    def told(self, apps, of_host, last):
        """In ConfSolve, with the applications in this order, more of each host, and the goal."""
        classes = "\n".join(
            f"class {name} extends App {{ where size = {size}; }}" for name, size in SET_APPS
        )
        return f"""\
// Each application stands on three hosts. As few hosts in use as can be.
class Host {{
{of_host}\
  var room as {self.room}..{self.room};
  where sum a in App where this in a.hosts {{ a.size }} <= room;
}}
abstract class App {{ var size as 1..5; var hosts as ref Host[3]; }}
{classes}
var rack as Host[{self.hosts}];
{apps}
{last}
"""

    def sizes(self):
        return spread([size for _, size in SET_APPS], self.counts)

    def mzn(self):
        body = f"""\
int: H = {self.hosts}; int: A = {sum(self.counts)};
array[1..A] of int: size = {listed(self.sizes())};
array[1..A,1..H] of var bool: on;
array[1..H] of var bool: used;
constraint forall(a in 1..A)(sum(h in 1..H)(bool2int(on[a,h])) = 3);
constraint forall(h in 1..H)(sum(a in 1..A)(size[a]*bool2int(on[a,h])) <= {self.room});
constraint forall(h in 1..H)(used[h] = exists(a in 1..A)(on[a,h]));
var 0..H: obj = sum(h in 1..H)(bool2int(used[h]));
"""
        return body + goal_lines(self, "bool_search(array1d(on), input_order, indomain_max)")

    def lp(self):
        return f"""\
host(1..{self.hosts}).
{facts("app", enumerate(self.sizes()))}\
3 {{ on(A,H) : host(H) }} 3 :- app(A,_).
:- host(H), #sum {{ S,A : on(A,H), app(A,S) }} > {self.room}.
used(H) :- on(_,H).
#minimize {{ 1,H : used(H) }}.
"""


def draw_sets(rng, size):
    hosts, apps = SETS[size]
    counts = drawn_counts(rng, apps, [1] * len(SET_APPS))
    total = 3 * sum(n * one for n, (_, one) in zip(counts, SET_APPS))
    return Sets(hosts, room(total, hosts, 65), counts)


@dataclass
class Mirrors(Placement):
    """Volumes with a mirror behind another controller, on as few disks as can be."""

    GOAL, SENSE = "used", "minimize"
    controllers: int
    disks: int
    room: int
    counts: list

    def conf(self):
        return self.told(
            f"{self.behind()}\n{arrays(VOLUMES, self.counts)}", "", "",
            "minimize count d in Disk { exists v in Volume { v.main = d or v.mirror = d; } };",
        )

    def behind(self):
        """The controllers, in ConfSolve."""
        return "\n".join(f"var c{k} as Controller;" for k in range(self.controllers))

    def fast(self):
        """Large volumes first, then controllers; and a copy of each stands behind another one."""
        total = sum(self.sizes())
        rows = [
            f"where sum d in Disk where d.used and d.controller != c{k} {{ d.room }} >= {total};"
            for k in range(self.controllers)
        ]
        rows.append("minimize count d in Disk { d.used };")
        return self.told(
            f"{arrays(VOLUMES, self.counts, large_first)}\n{self.behind()}",
            "  var used as bool;\n", "  where main.used and mirror.used;\n", "\n".join(rows),
        )

    def told(self, variables, used, where, last):
        """In ConfSolve, with these variables, and what tells which disk is used."""
        classes = "\n".join(
            f"class {name} extends Volume {{ where size = {size}; }}" for name, size in VOLUMES
        )
        return f"""\
// Volumes with a mirror behind another controller. As few disks in use as can be.
class Controller {{
  var disks as Disk[{self.disks}];
  where forall d in disks {{ d.controller = this; }};
}}
class Disk {{
{used}\
  var controller as ref Controller;
  var room as {self.room}..{self.room};
  where (sum v in Volume where v.main = this {{ v.size }})
    + (sum v in Volume where v.mirror = this {{ v.size }}) <= room;
}}
abstract class Volume {{
  var size as 1..9;
  var main as ref Disk;
  var mirror as ref Disk;
  where main.controller != mirror.controller;
{where}\
}}
{classes}
{variables}
{last}
"""

    def sizes(self):
        return spread([size for _, size in VOLUMES], self.counts)

    def mzn(self):
        behind = [k + 1 for k in range(self.controllers) for _ in range(self.disks)]
        body = f"""\
{includes("bin_packing_capa", "nvalue")}\
int: D = {len(behind)}; int: V = {sum(self.counts)};
array[1..V] of int: size = {listed(self.sizes())};
array[1..D] of int: ctl = {listed(behind)};
array[1..V] of var 1..D: main; array[1..V] of var 1..D: mirror;
constraint bin_packing_capa([{self.room} | d in 1..D], main ++ mirror, size ++ size);
constraint forall(v in 1..V)(ctl[main[v]] != ctl[mirror[v]]);
var 0..D: used; constraint nvalue(used, main ++ mirror);
"""
        pairs = "[if s = 1 then main[v] else mirror[v] endif | v in 1..V, s in 1..2]"
        return body + goal_lines(self, hosts_first(pairs))

    def lp(self):
        return f"""\
disk(0..{self.controllers * self.disks - 1}). ctl(D,D/{self.disks}) :- disk(D).
{facts("vol", enumerate(self.sizes()))}\
1 {{ at(V,S,D) : disk(D) }} 1 :- vol(V,_), S = 0..1.
:- disk(D), #sum {{ X,V,S : at(V,S,D), vol(V,X) }} > {self.room}.
behind(V,S,C) :- at(V,S,D), ctl(D,C).
:- behind(V,0,C), behind(V,1,C).
used(D) :- at(_,_,D).
#minimize {{ 1,D : used(D) }}.
"""


def draw_mirrors(rng, size):
    controllers, disks, volumes = CONTROLLERS[size]
    counts = drawn_counts(rng, volumes, [1] * len(VOLUMES))
    total = 2 * sum(n * one for n, (_, one) in zip(counts, VOLUMES))
    return Mirrors(controllers, disks, room(total, controllers * disks, 70), counts)


@dataclass
class Spare(Placement):
    """Two sites of which each bears that a host fails; as many machines at home as can be."""

    GOAL, SENSE = "obj", "maximize"
    each: int
    cpu: int
    counts: list

    def conf(self):
        return self.told("", f"{SITES}{machine_arrays(self.counts)}\n")

    def fast(self):
        """Small machines first, the hosts, whose loads follow, last, and what a site bears."""
        most = (self.each - 1) * self.cpu
        return self.told(
            f"  where sum v in Vm where v.host in hosts {{ v.cpu }} <= {most};\n",
            f"{machine_arrays(self.counts, small_first)}\n{SITES}",
        )

    def told(self, total, variables):
        """In ConfSolve, with a total of each site, and these variables."""
        return f"""\
// Two sites. If any one host of a site fails, what it carries has to fit on the others there.
class Host {{
  var cpu as {self.cpu}..{self.cpu};
  var load as 0..{self.cpu};
  where load = sum v in Vm where v.host = this {{ v.cpu }};
}}
class Site {{
  var hosts as Host[{self.each}];
  where forall h in hosts {{ sum o in hosts where o != h {{ o.cpu - o.load }} >= h.load; }};
{total}\
}}
{machine_classes()}

{variables}
maximize count v in Vm {{ v.host in home.hosts }};
"""

    def mzn(self):
        site = f"s*{self.each}+1..(s+1)*{self.each}"
        body = f"""\
{includes("bin_packing_load")}\
int: H = {2 * self.each}; int: V = {sum(self.counts)};
{machine_lists(self.counts)}\
array[1..V] of var 1..H: host;
array[1..H] of var 0..{self.cpu}: load;
constraint bin_packing_load(load, host, cpu);
constraint forall(s in 0..1, h in {site})
  (sum(o in {site} where o != h)({self.cpu} - load[o]) >= load[h]);
var 0..V: obj = sum(v in 1..V)(bool2int(host[v] <= {self.each}));
"""
        return body + goal_lines(self, hosts_first())

    def lp(self):
        most = (self.each - 1) * self.cpu
        return f"""\
host(1..{2 * self.each}).
{machine_facts(self.counts)}\
site(H,(H-1)/{self.each}) :- host(H).
:- host(H), #sum {{ C,V : at(V,H), cpu(V,C) }} > {self.cpu}.
:- S = 0..1, #sum {{ C,V : at(V,H), cpu(V,C), site(H,S) }} > {most}.
#maximize {{ 1,V : at(V,H), site(H,0) }}.
"""


def draw_spare(rng, size):
    each = SITE_HOSTS[size]

    def draw():
        counts = drawn_counts(rng, MACHINES[size], [kind[3] for kind in KINDS])
        return Spare(each, room(sum(machine_sizes(counts, 1)), 2 * each - 2, 65), counts)

    def right(drawn):
        processors = [(size,) for size in machine_sizes(drawn.counts, 1)]
        return first_fit(processors, [(drawn.cpu,)] * (2 * each - 2))

    return drawn_until(draw, right)
