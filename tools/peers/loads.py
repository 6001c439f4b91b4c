"""Machines of six kinds on hosts: the load spread evenly, and what hosts cost."""
from dataclasses import dataclass

from .common import (
    HOSTS, KINDS, MACHINES, Placement, arrays, by_kinds, drawn_counts, drawn_until, first_fit,
    goal_lines, hosts_first, includes, large_first, listed, machine_arrays, machine_classes,
    machine_facts, machine_lists, machine_paths, machine_sizes, paths, room, small_first,
    totals_by_kinds,
)

SHARES = [kind[3] for kind in KINDS]
HOST_KINDS = (("Large", 4, 9), ("Medium", 3, 6), ("Small", 2, 5))
HOST_COUNTS = {"s": (1, 1, 2), "m": (3, 4, 5), "l": (7, 10, 13)}


@dataclass
class Balance(Placement):
    """As small a greatest load of processors as can be; memory has to fit."""

    GOAL, SENSE = "most", "minimize"
    MOST = """\
var most as 0..64;
where forall h in Host { sum v in Vm where v.host = h { v.cpu } <= most; };
minimize most;
"""
    hosts: int
    memory: int
    counts: list

    def machines(self):
        return machine_paths(self.counts)

    def places(self):
        return paths("hosts", self.hosts)

    def conf(self):
        return f"""\
{self.classes()}
var hosts as Host[{self.hosts}];
{machine_arrays(self.counts)}

{self.MOST}"""

    def fast(self):
        """Large machines first, the greatest load last, and what all hosts together bear."""
        return f"""\
{self.classes()}
var hosts as Host[{self.hosts}];
{machine_arrays(self.counts, large_first)}

{self.MOST}where {self.hosts} * most >= sum v in Vm {{ v.cpu }};
"""

    def classes(self):
        return f"""\
// The load of processors spread evenly; memory has to fit.
class Host {{
  var mem as {self.memory}..{self.memory};
  where sum v in Vm where v.host = this {{ v.mem }} <= mem;
}}
{machine_classes()}
"""

    def mzn_body(self):
        return f"""\
{includes("bin_packing_capa", "bin_packing_load")}\
int: H = {self.hosts}; int: V = {sum(self.counts)};
{machine_lists(self.counts)}\
array[1..V] of var 1..H: host;
var 0..64: most;
array[1..H] of var 0..64: load;
constraint bin_packing_capa([{self.memory} | h in 1..H], host, mem);
constraint bin_packing_load(load, host, cpu);
constraint forall(h in 1..H)(load[h] <= most);
"""

    def mzn(self):
        return self.mzn_body() + goal_lines(self, hosts_first())

    def lp(self):
        return f"""\
host(1..{self.hosts}).
{machine_facts(self.counts)}\
:- host(H), #sum {{ M,V : at(V,H), mem(V,M) }} > {self.memory}.
1 {{ most(0..64) }} 1.
:- host(H), most(X), #sum {{ C,V : at(V,H), cpu(V,C) }} > X.
#minimize {{ X : most(X) }}.
"""


def draw_balance(rng, size, spare=0):
    """With `spare`, so that the machines fit on so many hosts less."""
    hosts, percent = HOSTS[size], 85 if spare else 79

    def draw():
        counts = drawn_counts(rng, MACHINES[size], SHARES)
        memory = room(sum(machine_sizes(counts, 2)), hosts - spare, percent)
        return Balance(hosts, memory, counts)

    def right(drawn):
        memory = [(size,) for size in machine_sizes(drawn.counts, 2)]
        return first_fit(memory, [(drawn.memory,)] * (hosts - spare))

    return drawn_until(draw, right)


@dataclass
class PricedHosts(Placement):
    """Machines on three kinds of hosts with prices; what costs is told by those below."""

    SENSE = "minimize"
    host_counts: tuple
    rooms: list
    counts: list

    def machines(self):
        return machine_paths(self.counts)

    def places(self):
        named = zip(HOST_KINDS, self.host_counts)
        return [path for kind, n in named for path in paths(kind[0].lower(), n)]

    def each(self):
        """The processors, the memory and the price of each host."""
        costs = [kind[2] for kind in HOST_KINDS]
        named = zip(self.host_counts, self.rooms, costs)
        return [(*rooms, cost) for n, rooms, cost in named for _ in range(n)]

    def hosts(self):
        """The kinds of hosts, each with how many there are."""
        return list(zip(HOST_KINDS, self.host_counts))

    def conf(self):
        return self.told(self.hosts(), machine_arrays(self.counts))

    def told(self, hosts, machines, of_host="", last=""):
        """In ConfSolve, with hosts and machines in this order, more of each host, and more."""
        classes = "\n".join(
            f"class {name} extends Host {{ "
            f"where {{ cpu = {cpu}; mem = {mem}; cost = {cost}; }} }}"
            for (name, _, cost), (cpu, mem) in zip(HOST_KINDS, self.rooms)
        )
        variables = "\n".join(f"var {k[0].lower()} as {k[0]}[{n}];" for k, n in hosts)
        return f"""\
// {self.TITLE}
abstract class Host {{
  var cpu as 1..400;
  var mem as 1..800;
  var cost as 1..20;
{of_host}\
  where sum v in Vm where v.host = this {{ v.cpu }} <= cpu;
  where sum v in Vm where v.host = this {{ v.mem }} <= mem;
}}
{classes}
{machine_classes()}

{variables}
{machines}

{last or f"minimize {self.CONF_GOAL};"}
"""

    def mzn_body(self):
        cpu, mem, cost = zip(*self.each())
        return f"""\
{includes("bin_packing_capa")}\
int: H = {len(cost)}; int: V = {sum(self.counts)};
{machine_lists(self.counts)}\
array[1..V] of var 1..H: host;
array[1..H] of int: hcpu = {listed(cpu)};
array[1..H] of int: hmem = {listed(mem)};
array[1..H] of int: cost = {listed(cost)};
constraint bin_packing_capa(hcpu, host, cpu);
constraint bin_packing_capa(hmem, host, mem);
var int: obj = {self.MZN_GOAL};
"""

    def mzn(self):
        return self.mzn_body() + goal_lines(self, hosts_first())

    def lp(self):
        each = list(enumerate(self.each(), 1))
        hosts = "".join(f"cap({h},{c},{m}). cost({h},{p}).\n" for h, (c, m, p) in each)
        return f"""\
host(1..{len(each)}).
{machine_facts(self.counts)}\
{hosts}\
:- cap(H,C,_), #sum {{ X,V : at(V,H), cpu(V,X) }} > C.
:- cap(H,_,M), #sum {{ X,V : at(V,H), mem(V,X) }} > M.
{self.LP_GOAL}
"""


class HostCost(PricedHosts):
    """Each machine pays the price of its host, so many small ones are to be on cheap hosts."""

    GOAL = "obj"
    TITLE = "Each machine pays the price of the host on which it stands."
    CONF_GOAL = "sum v in Vm { v.host.cost }"
    MZN_GOAL = "sum(v in 1..V)(cost[host[v]])"
    LP_GOAL = "#minimize { P,V : at(V,H), cost(H,P) }."

    def fast(self):
        """Cheap hosts first, and small machines."""
        hosts = sorted(self.hosts(), key=lambda it: it[0][2])
        return self.told(hosts, machine_arrays(self.counts, small_first))


class UseCost(PricedHosts):
    """A host in use is paid once."""

    GOAL = "obj"
    TITLE = "A host in use is paid once, and hosts have different prices."
    CONF_GOAL = "sum h in Host where exists v in Vm { v.host = h; } { h.cost }"
    MZN_GOAL = "sum(h in 1..H)(cost[h] * bool2int(exists(v in 1..V)(host[v] = h)))"
    LP_GOAL = "used(H) :- at(_,H).\n#minimize { P,H : used(H), cost(H,P) }."

    def repaired(self):
        """Cheap hosts first, by their rooms, and large machines."""
        hosts = sorted(self.hosts(), key=lambda it: it[0][2] / it[0][1])
        return self.told(hosts, machine_arrays(self.counts, large_first))

    def fast(self):
        """Machines alike are counted by kinds, on dear hosts first; and what all of them load."""
        hosts = sorted(self.hosts(), key=lambda it: -it[0][2])
        totals = [sum(machine_sizes(self.counts, at)) for at in (1, 2)]

        def share(kind):
            return -sum(kind[at] / total for at, total in zip((1, 2), totals))

        kinds, counts = zip(*sorted(zip(KINDS, self.counts), key=lambda it: share(it[0])))
        of_host = by_kinds(kinds, counts, (("cpu", 1), ("mem", 2)), "x.host = this")
        elsewhere = sum(self.host_counts) - 1
        last = totals_by_kinds(kinds, counts, elsewhere, zip(("cpu", "mem"), totals))
        return self.told(
            hosts, arrays(kinds, counts), f"  var free as bool;\n{of_host}",
            f"{last}minimize sum h in Host where not h.free {{ h.cost }};",
        )


def draw_priced(rng, size, priced, percent, spare):
    """Hosts whose rooms go by their kinds, filled to so many percent.

    With `spare`, those but for a large one are.
    """
    host_counts = HOST_COUNTS[size]
    parts = sum(n * kind[1] for n, kind in zip(host_counts, HOST_KINDS))
    parts -= spare * HOST_KINDS[0][1]

    def draw():
        counts = drawn_counts(rng, MACHINES[size], SHARES)
        totals = [sum(machine_sizes(counts, k)) for k in (1, 2)]
        rooms = [
            tuple(round(100 * total * part / (parts * percent)) for total in totals)
            for _, part, _ in HOST_KINDS
        ]
        return priced(host_counts, rooms, counts)

    def right(drawn):
        items = list(zip(machine_sizes(drawn.counts, 1), machine_sizes(drawn.counts, 2)))
        rooms = [(cpu, mem) for cpu, mem, _ in drawn.each()]
        return first_fit(items, rooms[spare:])

    return drawn_until(draw, right)


def draw_host_cost(rng, size):
    return draw_priced(rng, size, HostCost, 75, 0)


def draw_use_cost(rng, size, spare=0):
    return draw_priced(rng, size, UseCost, 72 if spare else 63, spare)
