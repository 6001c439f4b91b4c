"""Packings of machines on hosts, as models: what `tools/packing-models` prints.

What the kinds of packings are stands there.
"""
import random

SIZES = ((2, 7), (3, 3), (4, 6), (5, 2), (6, 4), (7, 8))
FILLS = {"home": 90, "used": 85}
GOALS = {
    "home": "maximize count v in Vm { v.host in home.hosts };",
    "used": "minimize count h in Host { exists v in Vm { v.host = h; } };",
}
TEXT = """\
class Host {{
  var cpu as {cpu}..{cpu};
  var mem as {mem}..{mem};
  where sum v in Vm where v.host = this {{ v.cpu }} <= cpu;
  where sum v in Vm where v.host = this {{ v.mem }} <= mem;
}}
class Site {{ var hosts as Host[{half}]; }}
abstract class Vm {{ var cpu as 0..{most}; var mem as 0..{most}; var host as ref Host; }}
{classes}
var home as Site;
var away as Site;
{machines}
{goal}
"""
PIGEONS = {
    "pigeons-count": "class Host { where count v in Vm { v.host = this } <= 1; }\n",
    "pigeons-pack": "class Host { }\nwhere pack v in Vm { v.host; 1; 1; };\n",
}


def ratio_up(above, below):
    return -(-above // below)


class Packing:
    """What is packed: the kinds of machines with their numbers, and the hosts with their room."""

    def __init__(self, hosts, machines, goal, seed, fill, drawn):
        self.hosts, self.goal, self.drawn, sizes = hosts, goal, [], SIZES
        if goal in PIGEONS:
            self.kinds, self.room = [(1, 1, hosts + 1)], (1, 1)
            return
        if seed:
            memories = random.Random(seed).sample(range(2, 9), 6)
            sizes = [(cpu, mem) for (cpu, _), mem in zip(SIZES, memories)]
        each, more = divmod(machines, len(sizes))
        listed = [(*size, each + (k < more)) for k, size in enumerate(sizes)]
        self.kinds = [kind for kind in listed if kind[2]]
        if drawn:
            rng = random.Random(seed)
            self.drawn = [(rng.randint(1, 12), rng.randint(1, 12)) for _ in range(machines)]
            self.kinds = [(*size, self.drawn.count(size)) for size in sorted(set(self.drawn))]
        self.room = tuple(ratio_up(100 * total, fill * hosts) for total in self.totals())

    def totals(self):
        """What all machines take, of each resource."""
        return [sum(kind[k] * kind[2] for kind in self.kinds) for k in (0, 1)]

    def comment(self):
        """What the model is and how full, over the text."""
        count = sum(kind[2] for kind in self.kinds)
        if self.goal in PIGEONS:
            return f"// {count} machines on {self.hosts} hosts that take one each: no solution.\n"
        (cpu, mem), half = self.totals(), self.hosts // 2
        return (
            f"// {count} machines on {self.hosts} hosts, {half} at home and {half} away.\n"
            f"// They take {cpu} of {self.hosts * self.room[0]} processors, and {mem} of "
            f"{self.hosts * self.room[1]} units of memory.\n"
        )

    def text(self):
        if self.goal in PIGEONS:
            return (
                f"{PIGEONS[self.goal]}class Vm {{ var host as ref Host; }}\n"
                f"var hosts as Host[{self.hosts}];\nvar vms as Vm[{self.hosts + 1}];\n"
            )
        named = [(f"{cpu}x{mem}", cpu, mem, count) for cpu, mem, count in self.kinds]
        machines = [f"var vm{name} as Vm{name}[{count}];" for name, *_, count in named]
        if self.drawn:
            machines = [f"var m{k + 1} as Vm{a}x{b};" for k, (a, b) in enumerate(self.drawn)]
        return TEXT.format(
            cpu=self.room[0],
            mem=self.room[1],
            half=self.hosts // 2,
            classes="\n".join(
                f"class Vm{name} extends Vm {{ where {{ cpu = {cpu}; mem = {mem}; }} }}"
                for name, cpu, mem, _ in named
            ),
            machines="\n".join(machines),
            most=12 if self.drawn else 8,
            goal=GOALS[self.goal],
        )
