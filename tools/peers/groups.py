"""Who stands with whom, and where: wishes, a home site, licences, and talk between racks."""
from dataclasses import dataclass

from .common import (
    HOSTS, MACHINES, Placement, drawn_counts, drawn_until, arrays, facts, first_fit, goal_lines,
    hosts_first, includes, listed, room, spread,
)

WISHES = {"s": (4, 12, 12), "m": (10, 30, 30), "l": (20, 60, 60)}
SLOTS = 4
# The kinds of services with their memory, and how often one is drawn.
PRODUCTS = (("Oracle", 6, 2), ("Mssql", 4, 2), ("Tomcat", 3, 4), ("Nginx", 2, 4))
# How their licences are counted, and in which order they are settled.
LICENCES = ("oracles", "mssqls")
SETTLED = ("Mssql", "Tomcat", "Oracle", "Nginx")
RACKS = {"s": (3, 2, 3, 12), "m": (4, 3, 4, 30), "l": (6, 4, 4, 60)}


@dataclass
class Wishes(Placement):
    """Wishes of pairs, with weights; some pairs have to be apart."""

    GOAL, SENSE = "obj", "maximize"
    hosts: int
    machines: int
    apart: list
    wishes: list

    def conf(self):
        machines, wishes = self.variables(("=", "!="), "kept")
        goal = "sum w in Wish where w.kept { w.weight }"
        return self.told("kept", f"{machines}\n{wishes}", goal)

    def fast(self):
        """What is lost, and before the machines: `false` is tried first."""
        machines, wishes = self.variables(("!=", "="), "lost")
        total = sum(weight for *_, weight in self.wishes)
        goal = f"{total} - sum w in Wish where w.lost {{ w.weight }}"
        return self.told("lost", f"{wishes}\n{machines}", goal)

    def variables(self, signs, flag):
        """Machines and wishes in ConfSolve, where the flag is true by one sign or the other."""
        machines = "\n".join(f"var vm{k} as Vm;" for k in range(self.machines))
        wishes = "\n".join(
            f"var wish{k} as Wish;\nwhere {{ wish{k}.weight = {weight}; "
            f"wish{k}.{flag} = (vm{a}.host {signs[0] if together else signs[1]} vm{b}.host); }}"
            for k, (a, b, together, weight) in enumerate(self.wishes)
        )
        return machines, wishes

    def told(self, flag, variables, goal):
        """In ConfSolve, with this flag of wishes, these variables, and this goal."""
        apart = "\n".join(f"where vm{a}.host != vm{b}.host;" for a, b in self.apart)
        return f"""\
// Wishes of pairs: together or apart, each with a weight. Some pairs have to be apart.
class Host {{
  var slots as {SLOTS}..{SLOTS};
  where count v in Vm {{ v.host = this }} <= slots;
}}
class Vm {{ var host as ref Host; }}
class Wish {{ var weight as 1..5; var {flag} as bool; }}
var hosts as Host[{self.hosts}];
{variables}
{apart}
maximize {goal};
"""

    def mzn(self):
        apart = "".join(f"constraint host[{a + 1}] != host[{b + 1}];\n" for a, b in self.apart)
        kept = " + ".join(
            f"{weight}*bool2int(host[{a + 1}] {'=' if together else '!='} host[{b + 1}])"
            for a, b, together, weight in self.wishes
        )
        body = f"""\
{includes("global_cardinality_low_up")}\
int: H = {self.hosts}; int: V = {self.machines};
array[1..V] of var 1..H: host;
constraint global_cardinality_low_up(
  host, [h | h in 1..H], [0 | h in 1..H], [{SLOTS} | h in 1..H]);
{apart}\
var int: obj = {kept};
"""
        return body + goal_lines(self, "int_search(host, dom_w_deg, indomain_min)")

    def lp(self):
        rows = [
            (k, a, b, "t" if together else "f", weight)
            for k, (a, b, together, weight) in enumerate(self.wishes)
        ]
        return f"""\
host(1..{self.hosts}). vm(0..{self.machines - 1}).
1 {{ at(V,H) : host(H) }} 1 :- vm(V).
:- host(H), #count {{ V : at(V,H) }} > {SLOTS}.
{facts("apart", self.apart)}\
{facts("wish", rows)}\
:- apart(A,B), at(A,H), at(B,H).
same(I) :- wish(I,A,B,_,_), at(A,H), at(B,H).
#maximize {{ W,I : wish(I,_,_,t,W), same(I); W,I : wish(I,_,_,f,W), not same(I) }}.
"""


def draw_wishes(rng, size):
    hosts, machines, count = WISHES[size]
    apart = [tuple(rng.sample(range(machines), 2)) for _ in range(machines // 4)]
    wishes = [
        (*rng.sample(range(machines), 2), rng.random() < 0.45, rng.randint(1, 5))
        for _ in range(count)
    ]
    return Wishes(hosts, machines, apart, wishes)


@dataclass
class Home(Placement):
    """Machines with sizes of their own at two sites, as many at home as can be."""

    GOAL, SENSE = "obj", "maximize"
    hosts: int
    rooms: tuple
    sizes: list

    def machines(self):
        return [f"vm{k}" for k in range(len(self.sizes))]

    def places(self):
        half = range(self.hosts // 2)
        return [f"{site}.hosts[{k}]" for site in ("home", "away") for k in half]

    def conf(self):
        return self.told(range(len(self.sizes)))

    def fast(self):
        """Small machines first, by the shares of a host that they take."""
        shares = [sum(size / room for size, room in zip(it, self.rooms)) for it in self.sizes]
        return self.told(sorted(range(len(self.sizes)), key=shares.__getitem__))

    def told(self, order):
        """In ConfSolve, with the machines in this order."""
        cpu, mem, disk = self.rooms
        machines = "\n".join(
            f"var vm{k} as Vm;\nwhere {{ vm{k}.cpu = {c}; vm{k}.mem = {m}; vm{k}.disk = {d}; }}"
            for k, (c, m, d) in ((k, self.sizes[k]) for k in order)
        )
        return f"""\
// Machines with sizes of their own, at two sites: as many at home as can be.
class Host {{
  var cpu as {cpu}..{cpu};
  var mem as {mem}..{mem};
  var disk as {disk}..{disk};
  where sum v in Vm where v.host = this {{ v.cpu }} <= cpu;
  where sum v in Vm where v.host = this {{ v.mem }} <= mem;
  where sum v in Vm where v.host = this {{ v.disk }} <= disk;
}}
class Site {{ var hosts as Host[{self.hosts // 2}]; }}
class Vm {{ var cpu as 1..8; var mem as 1..16; var disk as 1..80; var host as ref Host; }}
var home as Site;
var away as Site;
{machines}
maximize count v in Vm {{ v.host in home.hosts }};
"""

    def mzn_body(self):
        packed = "".join(
            f"constraint bin_packing_capa([{room} | h in 1..H], host, {listed(sizes)});\n"
            for room, sizes in zip(self.rooms, zip(*self.sizes))
        )
        return f"""\
{includes("bin_packing_capa")}\
int: H = {self.hosts}; int: V = {len(self.sizes)};
array[1..V] of var 1..H: host;
{packed}\
var 0..V: obj = sum(v in 1..V)(bool2int(host[v] <= {self.hosts // 2}));
"""

    def mzn(self):
        return self.mzn_body() + goal_lines(self, hosts_first())

    def lp(self):
        rows = [(k, *sizes) for k, sizes in enumerate(self.sizes, 1)]
        columns = ("C,_,_", "_,C,_", "_,_,C")
        packed = "".join(
            f":- host(H), #sum {{ C,V : at(V,H), vm(V,{column}) }} > {room}.\n"
            for column, room in zip(columns, self.rooms)
        )
        return f"""\
host(1..{self.hosts}). home(1..{self.hosts // 2}).
{facts("vm", rows)}\
1 {{ at(V,H) : host(H) }} 1 :- vm(V,_,_,_).
{packed}\
#maximize {{ 1,V : at(V,H), home(H) }}.
"""


def draw_home(rng, size, spare=0):
    """With `spare`, so that the machines fit on so many hosts less."""
    hosts, percent = HOSTS[size], 82 if spare else 75

    def draw():
        sizes = [
            (rng.choice((1, 2, 4, 8)), rng.choice((2, 4, 8, 16)), rng.choice((10, 20, 40, 80)))
            for _ in range(MACHINES[size])
        ]
        rooms = tuple(room(sum(column), hosts - spare, percent) for column in zip(*sizes))
        return Home(hosts, rooms, sizes)

    return drawn_until(draw, lambda one: first_fit(one.sizes, [one.rooms] * (hosts - spare)))


@dataclass
class Licences(Placement):
    """A host with a product on it needs a licence; as cheap as can be."""

    GOAL, SENSE = "obj", "minimize"
    hosts: int
    memory: int
    most: int
    counts: list

    def conf(self):
        return self.told("", arrays(PRODUCTS, self.counts), *map(on_hosts, PRODUCTS[:2]))

    def fast(self):
        """Licences counted first, at least what room asks for; Oracle behind what it can't bear."""
        counted = "".join(
            f"var {name} as 0..{self.hosts}; where {name} = {on_hosts(kind)};\n"
            f"where {self.memory // kind[1]} * {name} >= {count};\n"
            for name, kind, count in zip(LICENCES, PRODUCTS, self.counts)
        )
        services = arrays(PRODUCTS, self.counts, lambda kind: SETTLED.index(kind[0]))
        return self.told(counted, services, *LICENCES)

    def told(self, counted, services, oracle, mssql):
        """In ConfSolve, with what stands before hosts, these arrays, and licences so counted."""
        classes = "\n".join(
            f"class {name} extends Service {{ where mem = {size}; }}" for name, size, _ in PRODUCTS
        )
        return f"""\
// Licences: a host with a product on it needs one, however often it runs there. At most
// {self.most} hosts may run Oracle. An Oracle licence costs 8, one of Mssql 5.
class Host {{
  var mem as {self.memory}..{self.memory};
  where sum s in Service where s.host = this {{ s.mem }} <= mem;
}}
abstract class Service {{ var mem as 1..8; var host as ref Host; }}
{classes}
{counted}\
var hosts as Host[{self.hosts}];
{services}
where {oracle} <= {self.most};
where forall o in Oracle {{ forall t in Tomcat {{ o.host != t.host; }}; }};
minimize 8 * {oracle}
  + 5 * {mssql};
"""

    def mzn(self):
        oracle, mssql, tomcat, _ = self.counts
        both = oracle + mssql
        sizes = spread([size for _, size, _ in PRODUCTS], self.counts)
        body = f"""\
{includes("bin_packing_capa", "nvalue")}\
int: H = {self.hosts}; int: V = {len(sizes)};
array[1..V] of int: mem = {listed(sizes)};
array[1..V] of var 1..H: host;
constraint bin_packing_capa([{self.memory} | h in 1..H], host, mem);
var 0..H: no; var 0..H: nm;
constraint nvalue(no, host[1..{oracle}]);
constraint nvalue(nm, host[{oracle + 1}..{both}]);
constraint no <= {self.most};
constraint forall(o in 1..{oracle}, t in {both + 1}..{both + tomcat})(host[o] != host[t]);
var int: obj = 8*no + 5*nm;
"""
        return body + goal_lines(self, hosts_first())

    def lp(self):
        kinds = spread([(k, size) for k, (_, size, _) in enumerate(PRODUCTS)], self.counts)
        return f"""\
host(1..{self.hosts}).
{facts("svc", [(k, *kind) for k, kind in enumerate(kinds)])}\
1 {{ at(S,H) : host(H) }} 1 :- svc(S,_,_).
:- host(H), #sum {{ M,S : at(S,H), svc(S,_,M) }} > {self.memory}.
runs(H,K) :- at(S,H), svc(S,K,_).
:- #count {{ H : runs(H,0) }} > {self.most}.
:- runs(H,0), runs(H,2).
#minimize {{ 8,H,0 : runs(H,0); 5,H,1 : runs(H,1) }}.
"""


def on_hosts(kind):
    """On how many hosts a product runs, in ConfSolve."""
    name, letter = kind[0], kind[0][0].lower()
    return f"(count h in Host {{ exists {letter} in {name} {{ {letter}.host = h; }} }})"


def draw_licences(rng, size):
    hosts = HOSTS[size]
    counts = drawn_counts(rng, MACHINES[size], [share for *_, share in PRODUCTS])
    total = sum(n * kind[1] for n, kind in zip(counts, PRODUCTS))
    memory = room(total, hosts, 76)
    oracle = -(-counts[0] // (memory // PRODUCTS[0][1]))
    return Licences(hosts, memory, min(oracle + 2, hosts - 1), counts)


@dataclass
class Network(Placement):
    """Services that talk stand in one rack, where they can."""

    GOAL, SENSE = "obj", "minimize"
    racks: int
    each: int
    slots: int
    services: int
    links: list

    def conf(self):
        services, links = self.variables()
        return self.told(
            "var host as ref Host;", "", "", "", f"{services}\n{links}",
            "l.from.host.rack != l.to.host.rack",
        )

    def fast(self):
        """The rack of each service before its host, what a rack bears, and which links go far."""
        services, links = self.variables()
        return self.told(
            "var rack as ref Rack; var host as ref Host; where host.rack = rack;",
            f"  where count s in Service {{ s.rack = this }} <= {self.each * self.slots};\n",
            "var far as bool; ", " where far = (from.rack != to.rack);",
            f"{services}\n{links}", "l.far",
        )

    def variables(self):
        """Services and links, in ConfSolve."""
        services = "\n".join(f"var s{k} as Service;" for k in range(self.services))
        links = "\n".join(
            f"var link{k} as Link;\nwhere {{ link{k}.from = s{a}; link{k}.to = s{b}; }}"
            for k, (a, b) in enumerate(self.links)
        )
        return services, links

    def told(self, service, of_rack, flag, of_flag, variables, counted):
        """In ConfSolve, with what stands in services, racks and links, and what is counted."""
        racks = "\n".join(f"var rack{k} as Rack;" for k in range(self.racks))
        return f"""\
// Services that talk much stand in one rack where they can.
class Rack {{
  var hosts as Host[{self.each}];
  where forall h in hosts {{ h.rack = this; }};
{of_rack}\
}}
class Host {{
  var rack as ref Rack;
  var slots as {self.slots}..{self.slots};
  where count s in Service {{ s.host = this }} <= slots;
}}
class Service {{ {service} }}
class Link {{ {flag}var from as ref Service; var to as ref Service;{of_flag} }}
{racks}
{variables}
minimize count l in Link {{ {counted} }};
"""

    def mzn(self):
        racks = [k + 1 for k in range(self.racks) for _ in range(self.each)]
        ends = [[end + 1 for end in column] for column in zip(*self.links)]
        body = f"""\
{includes("global_cardinality_low_up")}\
int: H = {len(racks)}; int: V = {self.services}; int: L = {len(self.links)};
array[1..H] of int: rack = {listed(racks)};
array[1..V] of var 1..H: host;
array[1..L] of int: from = {listed(ends[0])};
array[1..L] of int: to = {listed(ends[1])};
constraint global_cardinality_low_up(
  host, [h | h in 1..H], [0 | h in 1..H], [{self.slots} | h in 1..H]);
var 0..L: obj = sum(l in 1..L)(bool2int(rack[host[from[l]]] != rack[host[to[l]]]));
"""
        return body + goal_lines(self, "int_search(host, dom_w_deg, indomain_min)")

    def lp(self):
        rows = [(k, *ends) for k, ends in enumerate(self.links)]
        return f"""\
host(0..{self.racks * self.each - 1}). rack(H,H/{self.each}) :- host(H).
svc(0..{self.services - 1}).
{facts("link", rows)}\
1 {{ at(S,H) : host(H) }} 1 :- svc(S).
:- host(H), #count {{ S : at(S,H) }} > {self.slots}.
in(S,R) :- at(S,H), rack(H,R).
same(L) :- link(L,A,B), in(A,R), in(B,R).
#minimize {{ 1,L : link(L,_,_), not same(L) }}.
"""


def draw_network(rng, size):
    racks, each, slots, services = RACKS[size]
    links = [tuple(rng.sample(range(services), 2)) for _ in range(services * 5 // 4)]
    return Network(racks, each, slots, services, links)
