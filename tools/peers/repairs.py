"""Repairs: an object of an answered placement fails, and as little as can be is changed."""
from dataclasses import dataclass

from .common import facts, hosts_first, listed

DERIVED = ("used",)


@dataclass
class Repair:
    """A placement, the hosts that its machines had, and the one that failed, all from 1.

    `most` is the former greatest load, where the placement has one: it's a value that may change.
    """

    WEIGHT = 10000
    placement: object
    former: list
    failed: int
    most: int = None

    @property
    def SENSE(self):
        return self.placement.SENSE

    def conf(self):
        return self.placement.conf()

    def failed_place(self):
        return self.placement.places()[self.failed - 1]

    def changes(self, least):
        """The changes in a weighted sum of them and the goal."""
        if self.SENSE == "maximize":
            return -(-least // self.WEIGHT)
        return least // self.WEIGHT

    def mzn(self):
        goal = self.placement.GOAL
        sign = "-" if self.SENSE == "maximize" else "+"
        changes = "sum(v in 1..V)(bool2int(moved[v]))"
        if self.most is not None:
            changes += f" + bool2int(most != {self.most})"
        search = f"seq_search([bool_search(moved, input_order, indomain_min), {hosts_first()}])"
        return f"""\
{self.placement.mzn_body()}\
array[1..V] of int: former = {listed(self.former)};
array[1..V] of var bool: moved = [host[v] != former[v] | v in 1..V];
constraint forall(v in 1..V)(host[v] != {self.failed});
var int: changes = {changes};
solve :: {search} minimize {self.WEIGHT}*changes {sign} {goal};
output ["OBJ \\(changes) \\({goal})\\n"];
"""

    def lp(self):
        most = "" if self.most is None else f"; 1@1,most : not most({self.most})"
        return f"""\
{self.placement.lp()}\
{facts("former", enumerate(self.former, 1))}\
:- at(_,{self.failed}).
#minimize {{ 1@1,V : at(V,H), not former(V,H){most} }}.
"""


def former_values(value):
    """A configuration without what only follows, which would count as changes."""
    if isinstance(value, dict):
        kept = {key: one for key, one in value.items() if key not in DERIVED}
        return {key: former_values(one) for key, one in kept.items()}
    return [former_values(one) for one in value] if isinstance(value, list) else value


def at_path(configuration, path):
    """What stands at a path such as `shop[0].replicas[1]`."""
    found = configuration
    for step in path.replace("[", ".").replace("]", "").split("."):
        found = found[int(step) if step.isdigit() else step]
    return found


def repair_of(rng, placement, configuration):
    """The repair of a configuration of which a host fails, one that carries something."""
    places = placement.places()
    hosts = [at_path(configuration, path)["host"] for path in placement.machines()]
    former = [places.index(host) + 1 for host in hosts]
    return Repair(placement, former, rng.choice(sorted(set(former))), configuration.get("most"))


def leaves(value, place=""):
    """All values that a repair may change, by their places; a set is one."""
    if isinstance(value, dict):
        inner = ((f"{place}.{key}", one) for key, one in value.items() if key != "class")
    elif isinstance(value, list) and value and isinstance(value[0], dict):
        inner = ((f"{place}[{k}]", one) for k, one in enumerate(value))
    else:
        return {place: sorted(value) if isinstance(value, list) else value}
    return {path: one for at, part in inner for path, one in leaves(part, at).items()}


def changed(before, after):
    """How many values differ between two configurations."""
    old, new = leaves(before), leaves(after)
    return sum(old[place] != new[place] for place in old)


def names(configuration, failed):
    """Whether a configuration names the object that failed, or one within it."""
    return any(
        one == failed or one.startswith((f"{failed}.", f"{failed}["))
        for value in leaves(configuration).values()
        for one in (value if isinstance(value, list) else [value])
        if isinstance(one, str)
    )
