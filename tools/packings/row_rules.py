"""Rules about what hosts have to take: what is added up, how it is compared, where it is stated."""
from draft import RESOURCES, Statement, fill
from rules import HOST_PLACES, keep, need_arrays, rule

# How a sum and a room are compared.
RELATIONS = {
    "less": "$sum < $room + 1",
    "greater": "$room + 1 > $sum",
    "at-least": "$room >= $sum",
    "not-greater": "not ($sum > $room)",
    "not-less": "not $room < $sum",
    "moved-left": "$sum - $room <= 0",
    "moved-right": "0 <= $room - $sum",
    "moved-at-least": "$room - ($sum) >= 0",
    "moved-less": "$sum - $room < 1",
    "negated": "-($sum) >= -$room",
    "added-constants": "2 + $sum <= $room + 2",
    "added-zero": "$sum + 0 <= $room + 0",
    "room-twice": "$sum + $room <= 2 * $room",
    "doubled": "2 * $sum <= 2 * $room",
    "three-and-less": "3 * $sum <= 3 * $room + 2",
    "bracketed": "($sum) <= ($room)",
    "bracketed-row": "($sum <= $room)",
    "or-false": "$sum <= $room or false",
    "if-some": "exists v in Vm { v.host = $h; } -> $sum <= $room",
}
# What is added up, for each of the classes that the rows are over.
SUMS = {
    "filter-turned-round": "sum $v in $c where $h = $v.host { $size }",
    "filter-not-unequal": "sum $v in $c where not ($v.host != $h) { $size }",
    "filter-bracketed": "sum $v in $c where ($v.host = $h) { ($size) }",
    "filter-of-size": "sum $v in $c where $v.host = $h and $size > 0 { $size }",
    "filter-of-class": "sum $v in $c where $v.host in Host and $v.host = $h { $size }",
    "nested": "sum $v in $c { sum w in Vm where w = $v and w.host = $h { w.$a } }",
    "zero-within": "sum $v in $c where $v.host = $h { $size + 0 }",
}
# Filters of machines that have one thing more, and how that is fixed.
KNOWN_FILTERS = {
    "filter-known": ("$v.host = $h and $v.on", "on;"),
    "filter-known-first": ("$v.on and $v.host = $h", "on;"),
    "filter-known-true": ("$v.host = $h and $v.on = true", "on = true;"),
}
PLACES = {
    "joined": Statement("host", "where $all;", " and "),
    "joined-bracketed": Statement("host", "where ($all);", ") and ("),
    "in-braces": Statement("host", "where { $all; }", "; "),
    **HOST_PLACES,
}
# Rows with one thing more of each host, and how that is fixed.
GUARDS = {
    "if-known": ("${p}on -> $sum <= $room", "var on as bool;", "where on;"),
    "not-known-or": ("not ${p}on or $sum <= $room", "var on as bool;", "where on;"),
    "room-times-known": ("$sum <= $n * ${p}on", "var on as 0..1;", "where on = 1;"),
}
# Rows with one thing more of each host and resource.
LOADS = {
    "load": ("var load_$a as 0..99;", "${p}load_$a = $sum; ${p}load_$a <= $room"),
    "load-turned-round": ("var load_$a as 0..99;", "$sum = ${p}load_$a; ${p}load_$a <= $room"),
    "load-at-least": ("var load_$a as 0..99;", "${p}load_$a >= $sum; ${p}load_$a <= $room"),
    "load-of-range": ("var load_$a as 0..$n;", "${p}load_$a = $sum"),
    "load-and-row": ("var load_$a as 0..99;", "${p}load_$a = $sum; $sum <= $room"),
    "free-added": ("var free_$a as 0..$n;", "$sum + ${p}free_$a = $room"),
    "free-alone": ("var free_$a as 0..$n;", "${p}free_$a = $room - $sum"),
    "free-at-most": ("var free_$a as 0..$n;", "$sum + ${p}free_$a <= $room"),
    "bound": ("var bound_$a as 0..$n;", "$sum <= ${p}bound_$a"),
}
HALVES = ["Store", "Web"]

for each, text in RELATIONS.items():
    keep(f"rows-{each}", relations=[text])
for each, text in SUMS.items():
    keep(f"rows-{each}", sum=text)
for each, (text, fixed) in KNOWN_FILTERS.items():
    lines = ("vm", "var on as bool;", f"where {fixed}")
    keep(f"rows-{each}", [lines], sum=f"sum $v in $c where {text} {{ $size }}")
for each, place in PLACES.items():
    keep(f"rows-{each}", row_place=place)
for each, (text, *lines) in GUARDS.items():
    keep(f"rows-{each}", [("host", *lines)], relations=[text])
for each, (cell, text) in LOADS.items():
    keep(f"rows-{each}", host_cells=[cell], relations=text.split("; "))
keep("rows-of-machines", row_place=Statement("vm", owner="host"), variable="w")
keep(
    "rows-doubled-within", relations=["$sum <= 2 * $room"],
    sum="sum $v in $c where $v.host = $h { 2 * $size }",
)
keep(
    "rows-known-zero-within", [("vm", "var more as 0..0;")],
    sum="sum $v in $c where $v.host = $h { $size + $v.more }",
)
keep("rows-load-is-room", room_shape="0..$n", relations=["$room = $sum"])
keep("rows-by-kind", over=["kinds"])
keep("rows-by-kind-counted", over=["kinds"], sum="$n * count $v in $c { $v.host = $h }")
keep("rows-by-subclass", parents=HALVES, over=HALVES)
keep(
    "rows-by-filter", parents=HALVES, over=HALVES,
    sum="sum $v in Vm where $v.host = $h and $v in $c { $size }",
)
# The small machines and the large ones apart, by a filter that the sizes decide.
keep(
    "rows-by-size", over=["<= 4", "> 4"],
    sum="sum $v in Vm where $v.host = $h and $size $c { $size }",
)
keep(
    "rows-pack", row_place=Statement("behind", owner="v.host"),
    relations=["pack v in Vm { v.host; $size; $room; }"],
)


@rule("rows-by-array")
def by_array(draft):
    need_arrays(draft)
    draft.over = [name for name, *_ in draft.machines()]


@rule("rows-reference-set")
def reference_set(draft):
    """A reference set of all machines."""
    draft.add("top", f"class Group {{ var members as ref Vm[{draft.count}]; }}")
    draft.add("top", "var all as Group;")
    draft.over = ["all.members"]


@rule("rows-pack-and-sum")
def pack_and_sum(draft):
    for k, resource in enumerate(RESOURCES):
        size = fill(draft.size, v="v", a=resource)
        room = draft.room_words(k, "v.host.")["room"]
        draft.add("behind", f"where pack v in Vm {{ v.host; {size}; {room}; }};")


@rule("rows-total-too")
def total_too(draft):
    for resource in RESOURCES:
        size, room = fill(draft.size, v="v", a=resource), fill(draft.room, p="h.", a=resource)
        draft.add("behind", f"where sum v in Vm {{ {size} }} <= sum h in Host {{ {room} }};")
