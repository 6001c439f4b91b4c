"""Choices beside a host, or without one: ports, flavours, versions, and jobs by a table."""
from dataclasses import dataclass

from .common import (
    HOSTS, MACHINES, Placement, arrays, drawn_counts, drawn_until, facts, goal_lines, hosts_first,
    includes, listed, room, spread,
)

PORT_HOSTS = {"s": (4, 5), "m": (8, 8), "l": (16, 8)}
SERVICES = (("Web", 8080, 4), ("Data", 5432, 2), ("Metrics", 9100, 5))
FLAVOURS = (
    ("tiny", 1, 2, 1), ("small", 2, 4, 2), ("medium", 4, 8, 4), ("fat", 2, 16, 5),
    ("large", 8, 16, 8),
)
# The kinds of machines with what they need, and how often one is drawn.
NEEDS = (
    ("Web", 2, 3, 4), ("Cache", 1, 12, 2), ("Worker", 3, 4, 3), ("Store", 5, 10, 2),
    ("Cron", 1, 1, 2),
)
COMPONENTS = {"s": 8, "m": 30, "l": 60}
VERSIONS = ("None", "V1", "V2", "V3")
JOBS = {"s": 5, "m": 8, "l": 16}


@dataclass
class Ports(Placement):
    """Services of which those on one host have different ports, on as few hosts as can be."""

    GOAL, SENSE = "used", "minimize"
    hosts: int
    slots: int
    counts: list

    def conf(self):
        return self.told("", arrays(SERVICES, self.counts), pairs("Service"))

    def fast(self):
        """How many of a kind a host bears, few ports first; only those of a kind can clash."""
        most = "".join(
            f"  where count s in {name} {{ s.host = this }} <= {n};\n" for name, _, n in SERVICES
        )
        apart = "\n".join(pairs(name) for name, *_ in SERVICES)
        return self.told(most, arrays(SERVICES, self.counts, lambda kind: kind[2]), apart)

    def told(self, of_host, services, apart):
        """In ConfSolve, with what else stands in hosts, these arrays, and who differs in ports."""
        classes = "\n".join(
            f"class {name} extends Service {{ "
            f"where {first} <= port and port <= {first + n - 1}; }}"
            for name, first, n in SERVICES
        )
        return f"""\
// Services on one host have different ports. As few hosts in use as can be.
class Host {{
  var slots as {self.slots}..{self.slots};
  where count s in Service {{ s.host = this }} <= slots;
{of_host}\
}}
abstract class Service {{ var port as 1024..10000; var host as ref Host; }}
{classes}
var hosts as Host[{self.hosts}];
{services}
{apart}
minimize count h in Host {{ exists s in Service {{ s.host = h; }} }};
"""

    def ranges(self):
        """The least and the greatest port of each service."""
        return spread([(first, first + n - 1) for _, first, n in SERVICES], self.counts)

    def mzn(self):
        low, high = zip(*self.ranges())
        body = f"""\
{includes("nvalue", "global_cardinality_low_up")}\
int: H = {self.hosts}; int: V = {len(low)};
array[1..V] of var 1..H: host;
array[1..V] of int: lo = {listed(low)}; array[1..V] of int: hi = {listed(high)};
array[1..V] of var 1024..10000: port;
constraint forall(v in 1..V)(port[v] >= lo[v] /\\ port[v] <= hi[v]);
constraint global_cardinality_low_up(
  host, [h | h in 1..H], [0 | h in 1..H], [{self.slots} | h in 1..H]);
constraint forall(a, b in 1..V where a < b)(host[a] = host[b] -> port[a] != port[b]);
var 0..H: used; constraint nvalue(used, host);
"""
        both = f"seq_search([{hosts_first()}, {hosts_first('port')}])"
        return body + goal_lines(self, both)

    def lp(self):
        rows = [(k, low, high) for k, (low, high) in enumerate(self.ranges())]
        return f"""\
host(1..{self.hosts}).
{facts("svc", rows)}\
1 {{ at(S,H) : host(H) }} 1 :- svc(S,_,_).
1 {{ port(S,P) : P = L..U }} 1 :- svc(S,L,U).
:- host(H), #count {{ S : at(S,H) }} > {self.slots}.
on(H,P,S) :- at(S,H), port(S,P).
:- host(H), P = 1024..10000, svc(_,L,U), P >= L, P <= U, #count {{ S : on(H,P,S) }} > 1.
used(H) :- at(_,H).
#minimize {{ 1,H : used(H) }}.
"""


def pairs(name):
    """Services of a class that stand on one host have different ports, in ConfSolve."""
    return f"""\
where forall a in {name} {{
  forall b in {name} where a != b {{ a.host = b.host -> a.port != b.port; }};
}};"""


def draw_ports(rng, size):
    """At most as many services of a kind as there are ports for them on all hosts."""
    hosts, slots = PORT_HOSTS[size]

    def draw():
        return drawn_counts(rng, MACHINES[size], [n for *_, n in SERVICES])

    def right(counts):
        return all(count <= hosts * n for count, (*_, n) in zip(counts, SERVICES))

    return Ports(hosts, slots, drawn_until(draw, right))


@dataclass
class Flavours(Placement):
    """Machines with a flavour that is large enough, as cheap as can be; hosts have room."""

    GOAL, SENSE = "obj", "minimize"
    hosts: int
    cpu: int
    mem: int
    counts: list

    def conf(self):
        classes = "\n".join(
            f"class {name} extends Vm {{ where flavour.cpu >= {cpu} and flavour.mem >= {mem}; }}"
            for name, cpu, mem, _ in NEEDS
        )
        flavours = "\n".join(
            f"var {name} as Flavour;\n"
            f"where {{ {name}.cpu = {cpu}; {name}.mem = {mem}; {name}.cost = {cost}; }}"
            for name, cpu, mem, cost in FLAVOURS
        )
        return f"""\
// Each machine has a flavour that is large enough for it, and flavours have prices.
class Flavour {{ var cpu as 1..8; var mem as 1..16; var cost as 1..10; }}
class Host {{
  var cpu as {self.cpu}..{self.cpu};
  var mem as {self.mem}..{self.mem};
  where sum v in Vm where v.host = this {{ v.flavour.cpu }} <= cpu;
  where sum v in Vm where v.host = this {{ v.flavour.mem }} <= mem;
}}
abstract class Vm {{ var flavour as ref Flavour; var host as ref Host; }}
{classes}
{flavours}
var hosts as Host[{self.hosts}];
{arrays(NEEDS, self.counts)}
minimize sum v in Vm {{ v.flavour.cost }};
"""

    def needs(self):
        return spread([(cpu, mem) for _, cpu, mem, _ in NEEDS], self.counts)

    def mzn(self):
        cpu, mem = zip(*self.needs())
        _, flavour_cpu, flavour_mem, cost = zip(*FLAVOURS)
        body = f"""\
int: H = {self.hosts}; int: V = {len(cpu)}; int: F = {len(FLAVOURS)};
array[1..F] of int: fcpu = {listed(flavour_cpu)};
array[1..F] of int: fmem = {listed(flavour_mem)};
array[1..F] of int: cost = {listed(cost)};
array[1..V] of int: ncpu = {listed(cpu)};
array[1..V] of int: nmem = {listed(mem)};
array[1..V] of var 1..H: host;
array[1..V] of var 1..F: fl;
constraint forall(v in 1..V)(fcpu[fl[v]] >= ncpu[v] /\\ fmem[fl[v]] >= nmem[v]);
constraint forall(h in 1..H)(sum(v in 1..V)(bool2int(host[v]=h)*fcpu[fl[v]]) <= {self.cpu});
constraint forall(h in 1..H)(sum(v in 1..V)(bool2int(host[v]=h)*fmem[fl[v]]) <= {self.mem});
var int: obj = sum(v in 1..V)(cost[fl[v]]);
"""
        orders = ", ".join(map(hosts_first, ("[cost[fl[v]] | v in 1..V]", "fl", "host")))
        return body + goal_lines(self, f"seq_search([{orders}])")

    def lp(self):
        needs = [(k, *need) for k, need in enumerate(self.needs())]
        return f"""\
host(1..{self.hosts}).
{facts("fl", FLAVOURS)}\
{facts("vm", needs)}\
1 {{ at(V,H) : host(H) }} 1 :- vm(V,_,_).
1 {{ has(V,F) : fl(F,C,M,_), C >= NC, M >= NM }} 1 :- vm(V,NC,NM).
on(V,H,C,M) :- at(V,H), has(V,F), fl(F,C,M,_).
:- host(H), #sum {{ C,V : on(V,H,C,_) }} > {self.cpu}.
:- host(H), #sum {{ M,V : on(V,H,_,M) }} > {self.mem}.
#minimize {{ P,V : has(V,F), fl(F,_,_,P) }}.
"""


def cheapest(need):
    """The processors and the memory of the cheapest flavour that is large enough."""
    return next((c, m) for _, c, m, _ in FLAVOURS if c >= need[1] and m >= need[2])


def draw_flavours(rng, size):
    counts = drawn_counts(rng, MACHINES[size], [need[3] for need in NEEDS])
    taken = [cheapest(need) for need in NEEDS]
    cpu, mem = (sum(n * one[k] for n, one in zip(counts, taken)) for k in (0, 1))
    hosts = HOSTS[size]
    return Flavours(hosts, max(16, room(cpu, hosts, 72)), max(32, room(mem, hosts, 76)), counts)


@dataclass
class Versions(Placement):
    """A version of each component, by what goes with what, as cheap as can be.

    A rule is two components with a version of each, and whether the second one is needed beside
    the first, or mustn't stand beside it.
    """

    GOAL, SENSE = "obj", "minimize"
    costs: list
    rules: list

    def conf(self):
        return self.told("var version as Version; var cost as 0..20;", lambda part, costs: "")

    def fast(self):
        """The cost first, and of each component the least one."""
        return self.told(
            "var cost as 0..20; var version as Version;",
            lambda part, costs: f"  {part}.cost >= {min(costs)};\n",
        )

    def told(self, attributes, more):
        """In ConfSolve, with the attributes so, and more of each component."""
        parts = "\n".join(f"var part{k} as Component;" for k in range(len(self.costs)))
        costs = "\n".join(
            "where {\n" + "".join(
                f"  part{k}.version = Version.{name} -> part{k}.cost = {cost};\n"
                for name, cost in zip(VERSIONS, costs)
            ) + more(f"part{k}", costs) + "}"
            for k, costs in enumerate(self.costs)
        )
        rules = "\n".join(
            f"where part{a}.version = Version.{VERSIONS[v]} -> "
            f"part{b}.version {'=' if needed else '!='} Version.{VERSIONS[w]};"
            for a, v, b, w, needed in self.rules
        )
        return f"""\
// Versions of components: which go together, and what each costs a month.
enum Version {{ {", ".join(VERSIONS)} }}
class Component {{ {attributes} }}
{parts}
{costs}
{rules}
minimize sum c in Component {{ c.cost }};
"""

    def mzn(self):
        rules = "".join(
            f"constraint ver[{a + 1}] = {v + 1} -> "
            f"ver[{b + 1}] {'=' if needed else '!='} {w + 1};\n"
            for a, v, b, w, needed in self.rules
        )
        body = f"""\
int: N = {len(self.costs)};
array[1..N,1..4] of int: cost = array2d(1..N,1..4,{listed(sum(self.costs, []))});
array[1..N] of var 1..4: ver;
{rules}\
var int: obj = sum(i in 1..N)(cost[i,ver[i]]);
"""
        search = "int_search([cost[i,ver[i]] | i in 1..N], max_regret, indomain_min)"
        return body + goal_lines(self, search)

    def lp(self):
        costs = [(k, v, c) for k, row in enumerate(self.costs) for v, c in enumerate(row)]
        rules = "".join(
            f":- ver({a},{v}), {'not ' if needed else ''}ver({b},{w}).\n"
            for a, v, b, w, needed in self.rules
        )
        return f"""\
part(0..{len(self.costs) - 1}). v(0..3).
{facts("cost", costs)}\
1 {{ ver(P,V) : v(V) }} 1 :- part(P).
{rules}\
#minimize {{ C,P : ver(P,V), cost(P,V,C) }}.
"""


def draw_versions(rng, size):
    """Three rules for each component, all kept by versions that are drawn first."""
    count = COMPONENTS[size]
    costs = [[rng.randint(2, 19) for _ in VERSIONS] for _ in range(count)]
    kept, rules = [rng.randrange(4) for _ in range(count)], []
    while len(rules) < 3 * count:
        (a, b), needed = rng.sample(range(count), 2), rng.random() < 0.2
        v, w = rng.randrange(4), rng.randrange(4)
        if kept[a] != v or (kept[b] == w) == needed:
            rules.append((a, v, b, w, needed))
    return Versions(costs, rules)


@dataclass
class Jobs(Placement):
    """Jobs on machines, each on one of its own, as cheap as can be by a table."""

    GOAL, SENSE = "obj", "minimize"
    costs: list

    def conf(self):
        return self.told("var by as ref Machine; var cost as 0..40;", lambda job, costs: "")

    def fast(self):
        """The cost first, and of each job the least one."""
        return self.told(
            "var cost as 0..40; var by as ref Machine;",
            lambda job, costs: f"  {job}.cost >= {min(costs)};\n",
        )

    def told(self, attributes, more):
        """In ConfSolve, with the attributes so, and more of each job."""
        numbers = range(len(self.costs))
        costs = "\n".join(
            "where {\n" + "".join(
                f"  job{k}.by = m{m} -> job{k}.cost = {cost};\n" for m, cost in enumerate(row)
            ) + more(f"job{k}", row) + "}"
            for k, row in enumerate(self.costs)
        )
        machines = "\n".join(f"var m{k} as Machine;" for k in numbers)
        jobs = "\n".join(f"var job{k} as Job;" for k in numbers)
        return f"""\
// Jobs on machines, each on one of its own, by a table of costs.
class Machine {{ }}
class Job {{ {attributes} }}
{machines}
{jobs}
{costs}
where alldifferent j in Job {{ j.by }};
minimize sum j in Job {{ j.cost }};
"""

    def mzn(self):
        body = f"""\
{includes("all_different")}\
int: N = {len(self.costs)};
array[1..N,1..N] of int: cost = array2d(1..N,1..N,{listed(sum(self.costs, []))});
array[1..N] of var 1..N: by;
constraint all_different(by);
var int: obj = sum(i in 1..N)(cost[i,by[i]]);
"""
        search = "int_search([cost[i,by[i]] | i in 1..N], max_regret, indomain_min)"
        return body + goal_lines(self, search)

    def lp(self):
        rows = [
            (j, m, cost) for j, row in enumerate(self.costs, 1) for m, cost in enumerate(row, 1)
        ]
        return f"""\
n(1..{len(self.costs)}).
{facts("cost", rows)}\
1 {{ by(J,M) : n(M) }} 1 :- n(J).
1 {{ by(J,M) : n(J) }} 1 :- n(M).
#minimize {{ C,J : by(J,M), cost(J,M,C) }}.
"""


def draw_jobs(rng, size):
    count = JOBS[size]
    return Jobs([[rng.randint(1, 40) for _ in range(count)] for _ in range(count)])
