"""Rules about goals: as many machines as can be at home, or as few hosts as can be in use."""
from draft import Goal
from object_rules import site_classes
from rules import Unfit, need_goal, rule

AT_HOME = "v.host in home.hosts"
COUNT = f"count v in Vm {{ {AT_HOME} }}"
AWAY = "count v in Vm { v.host in away.hosts }"
SOME = "exists v in Vm { v.host = h; }"
USED = f"count h in Host {{ {SOME} }}"
SOME_HERE = "exists v in Vm { v.host = this; }"


def times(factor):
    def worth(best, draft):
        return factor * best
    return worth


def plus(more):
    def worth(best, draft):
        return best + more
    return worth


def others(best, draft):
    """How many machines aren't at home."""
    return draft.count - best


def free(best, draft):
    """How many hosts aren't in use."""
    return draft.packing.hosts - best


PLAIN = {"home": Goal(f"maximize {COUNT};"), "used": Goal(f"minimize {USED};")}
HOME = {
    "away": Goal(f"minimize {AWAY};", others),
    "not-home": Goal(f"minimize count v in Vm {{ not {AT_HOME} }};", others),
    "not-away": Goal("maximize count v in Vm { not v.host in away.hosts };"),
    "negated": Goal(f"minimize -{COUNT};", times(-1)),
    "taken-of-all": Goal(f"minimize $count - {COUNT};", others),
    "added-constant": Goal(f"maximize {COUNT} + 100;", plus(100)),
    "doubled": Goal(f"maximize 2 * {COUNT};", times(2)),
    "tenfold": Goal(f"maximize 10 * {COUNT};", times(10)),
    "sum-of-ones": Goal(f"maximize sum v in Vm where {AT_HOME} {{ 1 }};"),
    "sum-of-tens": Goal(f"maximize sum v in Vm where {AT_HOME} {{ 10 }};", times(10)),
    "sum-of-negatives": Goal(f"minimize sum v in Vm where {AT_HOME} {{ -1 }};", times(-1)),
    "exists": Goal("maximize count v in Vm { exists h in home.hosts { v.host = h; } };"),
    "not-forall": Goal("maximize count v in Vm { not (forall h in home.hosts { v.host != h; }) };"),
    "or-false": Goal(f"maximize count v in Vm {{ {AT_HOME} or false }};"),
    "and-of-size": Goal(f"maximize count v in Vm {{ {AT_HOME} and v.cpu > 0 }};"),
    "less-away": Goal(
        f"maximize {COUNT} - {AWAY};", lambda best, draft: 2 * best - draft.count
    ),
    "weights": Goal(
        f"maximize 3 * {COUNT} - 2 * {AWAY};", lambda best, draft: 5 * best - 2 * draft.count
    ),
    "by-host": Goal("maximize sum h in home.hosts { count v in Vm { v.host = h } };"),
    "away-next": Goal(f"maximize {COUNT};\nminimize {AWAY};"),
    "variable": Goal("maximize n;", behind=["var n as 0..$count;", f"where n = {COUNT};"]),
    "variable-at-most": Goal("maximize n;", behind=["var n as 0..$count;", f"where n <= {COUNT};"]),
    "variable-wide": Goal("maximize n;", behind=["var n as 0..1000;", f"where n = {COUNT};"]),
    "variable-turned-round": Goal("maximize n;", behind=["var n as 0..99;", f"where {COUNT} = n;"]),
    "variable-doubled": Goal(
        "maximize n;", times(2), behind=["var n as 0..99;", f"where n = 2 * {COUNT};"]
    ),
    "variable-of-site": Goal(
        "maximize home.n;",
        site=["var n as 0..$count;", "where n = count v in Vm { v.host in hosts };"],
    ),
    "variable-of-hosts": Goal(
        "maximize sum h in home.hosts { h.n };",
        host=["var n as 0..$count;", "where n = count v in Vm { v.host = this };"],
    ),
    "flag": Goal(
        "maximize count v in Vm { v.near };", vm=["var near as bool;"],
        behind=[f"where forall v in Vm {{ v.near = ({AT_HOME}); }};"],
    ),
    "flag-if": Goal(
        "maximize count v in Vm { v.near };", vm=["var near as bool;"],
        behind=[f"where forall v in Vm {{ v.near -> {AT_HOME}; }};"],
    ),
    "cost-by-cases": Goal(
        "minimize sum v in Vm { v.cost };", others, vm=["var cost as 0..1;"],
        behind=[
            f"where forall v in Vm {{ {AT_HOME} -> v.cost = 0; }};",
            "where forall v in Vm { v.host in away.hosts -> v.cost = 1; };",
        ],
    ),
    "cost-of-host": Goal(
        "minimize sum v in Vm { v.host.cost };", others, host=["var cost as 0..1;"],
        behind=[
            "where forall h in home.hosts { h.cost = 0; };",
            "where forall h in away.hosts { h.cost = 1; };",
        ],
    ),
    "flag-of-host": Goal(
        "maximize count v in Vm { v.host.near };", host=["var near as bool;"],
        behind=[
            "where forall h in home.hosts { h.near; };",
            "where forall h in away.hosts { not h.near; };",
        ],
    ),
    "zone-of-host": Goal(
        "maximize count v in Vm { v.host.zone = Zone.Home };",
        top=["enum Zone { Home, Away }"], host=["var zone as Zone;"],
        behind=[
            "where forall h in home.hosts { h.zone = Zone.Home; };",
            "where forall h in away.hosts { h.zone = Zone.Away; };",
        ],
    ),
    "site-of-host": Goal(
        "maximize count v in Vm { v.host.site = home };", host=["var site as ref Site;"],
        site=["where forall h in hosts { h.site = this; };"],
    ),
}
USES = {
    "negated": Goal(f"maximize -{USED};", times(-1)),
    "taken-of-all": Goal(f"maximize $hosts - {USED};", free),
    "added-constant": Goal(f"minimize {USED} + 7;", plus(7)),
    "doubled": Goal(f"minimize 2 * {USED};", times(2)),
    "tenfold": Goal(f"minimize 10 * {USED};", times(10)),
    "sum-of-ones": Goal(f"minimize sum h in Host where {SOME} {{ 1 }};"),
    "sum-of-tens": Goal(f"minimize sum h in Host where {SOME} {{ 10 }};", times(10)),
    "sum-of-costs": Goal(
        f"minimize sum h in Host where {SOME} {{ h.cost }};", times(5), host=["var cost as 5..5;"]
    ),
    "sum-of-costs-by-constraint": Goal(
        f"minimize sum h in Host where {SOME} {{ h.cost }};", times(5),
        host=["var cost as 0..9;", "where cost = 5;"],
    ),
    "by-site": Goal(
        f"minimize count h in home.hosts {{ {SOME} }} + count h in away.hosts {{ {SOME} }};"
    ),
    "turned-round": Goal("minimize count h in Host { exists v in Vm { h = v.host; } };"),
    "filter": Goal("minimize count h in Host { exists v in Vm where v.host = h { true; } };"),
    "and-of-size": Goal("minimize count h in Host { exists v in Vm { v.host = h; v.cpu > 0; } };"),
    "not-forall": Goal("minimize count h in Host { not (forall v in Vm { v.host != h; }) };"),
    "count-positive": Goal("minimize count h in Host { count v in Vm { v.host = h } > 0 };"),
    "count-at-least": Goal("minimize count h in Host { count v in Vm { v.host = h } >= 1 };"),
    "count-unequal": Goal("minimize count h in Host { count v in Vm { v.host = h } != 0 };"),
    "count-not-none": Goal("minimize count h in Host { not count v in Vm { v.host = h } = 0 };"),
    "load-positive": Goal(
        "minimize count h in Host { sum v in Vm where v.host = h { v.cpu } > 0 };"
    ),
    "most-free": Goal("maximize count h in Host { forall v in Vm { v.host != h; } };", free),
    "most-free-not": Goal("maximize count h in Host { not exists v in Vm { v.host = h; } };", free),
    "most-free-count": Goal("maximize count h in Host { count v in Vm { v.host = h } = 0 };", free),
    "most-free-below": Goal("maximize count h in Host { count v in Vm { v.host = h } < 1 };", free),
    "variable": Goal("minimize n;", behind=["var n as 0..$hosts;", f"where n = {USED};"]),
    "variable-at-least": Goal("minimize n;", behind=["var n as 0..$hosts;", f"where n >= {USED};"]),
    "used-of-machines": Goal(
        "minimize count h in Host { h.used };", host=["var used as bool;"],
        vm=["where host.used;"],
    ),
    "variable-first": Goal(
        "minimize n;", top=["var n as 0..$hosts;"], behind=[f"where n = {USED};"]
    ),
}
# What ties a Boolean attribute of hosts to its use.
TIES = {
    "used-same": f"where used = ({SOME_HERE});",
    "used-same-turned-round": f"where ({SOME_HERE}) = used;",
    "used-if": f"where {SOME_HERE} -> used;",
    "used-forall-if": "where forall v in Vm { v.host = this -> used; };",
    "used-not-forall": "where not used -> (forall v in Vm { v.host != this; });",
    "used-not-count": "where not used -> count v in Vm { v.host = this } = 0;",
    "used-count": "where used = (count v in Vm { v.host = this } > 0);",
}
# What ties a number of 0 or 1 to the use of a host.
NUMBER_TIES = {
    "used-number": f"where {SOME_HERE} -> used = 1;",
    "used-number-same": f"where (used = 1) = ({SOME_HERE});",
    "used-number-forall": "where forall v in Vm { v.host = this -> used = 1; };",
    "used-number-bounds": "where count v in Vm { v.host = this } <= $count * used;",
    "used-number-bounds-wide": "where count v in Vm { v.host = this } <= 1000 * used;",
}


def add_ties():
    """Adds the goals that count what is tied to the use of hosts."""
    for name, line in TIES.items():
        text = "minimize count h in Host { h.used };"
        USES[name] = Goal(text, host=["var used as bool;", line])
    for name, line in NUMBER_TIES.items():
        text = "minimize sum h in Host { h.used };"
        USES[name] = Goal(text, host=["var used as 0..1;", line])


add_ties()
GOALS = {"home": HOME, "used": USES}


def goal_rule(name):
    def goals(draft):
        if name not in GOALS[draft.packing.goal]:
            raise Unfit
        draft.goal = GOALS[draft.packing.goal][name]
    return goals


for each in {**HOME, **USES}:
    rule(f"goals-{each}")(goal_rule(each))


def split_hosts(draft, within=("", "")):
    """Gives the hosts at home and those away a class each, with lines of its own."""
    draft.host_heads = ["abstract class Host"]
    for name, line in zip(("HomeHost", "AwayHost"), within):
        draft.add("hosts", " ".join(["class", name, "extends Host {", line, "}"]))
    site_classes(draft, "HomeHost", "AwayHost")


@rule("goals-class-of-host")
def class_of_host(draft):
    need_goal(draft, "home")
    split_hosts(draft)
    draft.goal = Goal("maximize count v in Vm { v.host in HomeHost };")


@rule("goals-cost-of-host-class")
def cost_of_host_class(draft):
    need_goal(draft, "home")
    split_hosts(draft, ("where cost = 0;", "where cost = 1;"))
    draft.add("host", "var cost as 0..1;")
    draft.goal = Goal("minimize sum v in Vm { v.host.cost };", others)


@rule("goals-zone-of-host-class")
def zone_of_host_class(draft):
    need_goal(draft, "home")
    draft.add("top", "enum Zone { Home, Away }")
    split_hosts(draft, ("where zone = Zone.Home;", "where zone = Zone.Away;"))
    draft.add("host", "var zone as Zone;")
    draft.goal = Goal("maximize count v in Vm { v.host.zone = Zone.Home };")


@rule("goals-first-or-others")
def first_or_others(draft):
    """The first host of a site has a variable of its own."""
    need_goal(draft, "home")
    count = draft.half - 1
    draft.sites = [f"class Site {{ var first as Host; var others as Host[{count}];$more }}"]
    within = "v.host = home.first or v.host in home.others"
    draft.goal = Goal(f"maximize count v in Vm {{ {within} }};")


@rule("goals-or-of-hosts")
def or_of_hosts(draft):
    """Each host of a site has a variable of its own."""
    need_goal(draft, "home")
    names = [f"host{k + 1}" for k in range(draft.half)]
    cells = " ".join(f"var {name} as Host;" for name in names)
    draft.sites = [f"class Site {{ {cells}$more }}"]
    within = " or ".join(f"v.host = home.{name}" for name in names)
    draft.goal = Goal(f"maximize count v in Vm {{ {within} }};")


@rule("goals-by-subclass")
def by_subclass(draft):
    """Two classes of machines, each of which is counted or sought by itself."""
    draft.parents = ["Store", "Web"]
    if draft.packing.goal == "home":
        counts = " + ".join(f"count w in {c} {{ w.host in home.hosts }}" for c in draft.parents)
        draft.goal = Goal(f"maximize {counts};")
    else:
        some = " or ".join(f"exists w in {c} {{ w.host = h; }}" for c in draft.parents)
        draft.goal = Goal(f"minimize count h in Host {{ {some} }};")


@rule("goals-by-kind")
def by_kind(draft):
    """Each size of machines is counted or sought by itself."""
    names = [f"Vm{name}" for name, *_ in draft.kinds()]
    if draft.packing.goal == "home":
        counts = " + ".join(f"count v in {name} {{ {AT_HOME} }}" for name in names)
        draft.goal = Goal(f"maximize {counts};")
    else:
        some = " or ".join(f"exists v in {name} {{ v.host = h; }}" for name in names)
        draft.goal = Goal(f"minimize count h in Host {{ {some} }};")


@rule("goals-nested-or")
def nested_or(draft):
    """Each size of machines is sought by itself, within brackets."""
    need_goal(draft, "used")
    some = "false"
    for name, *_ in draft.kinds():
        some = f"(exists v in Vm{name} {{ v.host = h; }} or {some})"
    draft.goal = Goal(f"minimize count h in Host {{ {some} }};")


@rule("goals-used-times-room")
def used_times_room(draft):
    """The room of a host counts only where it is in use."""
    need_goal(draft, "used")
    draft.add("host", "var used as 0..1;")
    draft.relations = ["$sum <= $n * ${p}used"]
    draft.goal = Goal("minimize sum h in Host { h.used };")
