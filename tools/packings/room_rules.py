"""Rules about how much room the hosts have, and how that is fixed."""
from draft import RESOURCES, WIDE, Statement
from rules import HOST_PLACES, keep, rule
from size_rules import EQUATIONS

EQUATION = ["$o$a = $n"]
RESERVE = ("host", "var reserve as 2..2;")
# Rooms that are fixed at the top level: their ranges, and constraints.
CONSTANTS = {
    "constant": ("$n..$n", ()),
    "constant-by-constraint": (f"0..{WIDE}", ("where most_$a = $n;",)),
}


def keep_fixed(name, equations, **values):
    """Keeps a rule by which constraints fix the rooms."""
    keep(f"rooms-{name}", room_shape=f"0..{WIDE}", room_equations=equations, **values)


keep_fixed("constraint", EQUATION)
keep_fixed("joined", EQUATION, room_place=Statement("host", "where $all;", " and "))
for each, text in EQUATIONS.items():
    keep_fixed(each, text.split("; "))
for each, place in HOST_PLACES.items():
    keep_fixed(each, EQUATION, room_place=place)
keep("rooms-this", room="this.$a")
keep("rooms-number", room_shape="", room="$n")
keep("rooms-bracketed-name", room="($p$a)")
keep("rooms-open", room_shape="0..$n")
keep("rooms-less-number", room_shape="$over..$over", room="$p$a - 2")
keep("rooms-number-added", room_shape="$over..$over", relations=["$sum + 2 <= $room"])
keep("rooms-less-reserve", [RESERVE], room_shape="$over..$over", room="$p$a - ${p}reserve")
keep(
    "rooms-reserve-added", [RESERVE], room_shape="$over..$over",
    relations=["$sum + ${p}reserve <= $room"],
)
keep(
    "rooms-eight-tenths", room_shape="$tenths..$tenths", relations=["10 * $sum <= 8 * $room"]
)
keep(
    "rooms-eight-tenths-within", room_shape="$tenths..$tenths", relations=["$sum <= 8 * $room"],
    sum="sum $v in $c where $v.host = $h { 10 * $size }",
)


def constants_rule(shape, more):
    """The rooms are variables of the top level."""
    def rooms(draft):
        for resource, number in zip(RESOURCES, draft.packing.room):
            for line in (f"var most_$a as {shape};", *more):
                draft.add("top", line.replace("$a", resource).replace("$n", str(number)))
        draft.room_shape, draft.room = "", "most_$a"
    return rooms


for each, given in CONSTANTS.items():
    rule(f"rooms-{each}")(constants_rule(*given))


def type_class(draft):
    """Adds a class of what has the rooms in the hosts' place."""
    cells = [f"var {a} as {n}..{n};" for a, n in zip(RESOURCES, draft.packing.room)]
    draft.add("top", " ".join(["class Type {", *cells, "}"]))
    draft.room_shape, draft.room = "", "${p}type.$a"


@rule("rooms-type-contained")
def type_contained(draft):
    type_class(draft)
    draft.add("host", "var type as Type;")


@rule("rooms-type-referred")
def type_referred(draft):
    type_class(draft)
    draft.add("top", "var big as Type;", "var small as Type;")
    draft.add("host", "var type as ref Type;", "where type = big;")


@rule("rooms-subclass")
def subclass(draft):
    draft.host_heads, draft.room_shape = ["abstract class Host"], f"0..{WIDE}"
    cpu, mem = draft.packing.room
    draft.add("hosts", f"class Big extends Host {{ where {{ cpu = {cpu}; mem = {mem}; }} }}")
    draft.sites = ["class Site { var hosts as Big[$half];$more }"]
