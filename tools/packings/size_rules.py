"""Rules about how the sizes of machines are fixed."""
from draft import EACH, RESOURCES, WIDE, Statement
from rules import keep, need_arrays, rule

# What fixes an attribute: constraints, with a `;` between them.
EQUATIONS = {
    "turned-round": "$n = $o$a",
    "this": "this.$a = $n",
    "two-bounds": "$o$a >= $n; $o$a <= $n",
    "between": "$less < $o$a; $o$a < $more",
    "not-unequal": "not ($o$a != $n)",
    "not-beyond": "not ($o$a < $n or $o$a > $n)",
    "added-constants": "$o$a = 1 + $less",
    "taken-constants": "$o$a = $more - 1",
    "times-one": "$o$a = $n * 1",
    "moved": "$o$a - $n = 0",
    "moved-turned-round": "0 = $n - $o$a",
    "added-both-sides": "$o$a + 3 = $n + 3",
    "doubled": "2 * $o$a = $twice",
    "twice-itself": "$o$a + $o$a = $twice",
    "negated": "-$o$a = -$n",
    "bracketed": "($o$a = $n)",
    "bracketed-attribute": "($o$a) = $n",
    "or-false": "$o$a = $n or false",
    "if-true": "true -> $o$a = $n",
}
# What fixes the second of two attributes, where the first one is fixed as ever.
SECOND_EQUATIONS = {
    "one-turned-round": "$n = $o$a",
    "one-bracketed": "($o$a) = $n",
    "one-by-the-other": "$o$a = ${o}$other",
}
# Where that which fixes a size is stated, of each kind of machines, or of each machine.
KIND_PLACES = {
    "joined": Statement("class", "where $all;", " and "),
    "apart": Statement("class", "where $all;", EACH),
    "forall-class": Statement("behind", "where forall v in $c { $all; };", "; ", "v"),
    "forall-filter": Statement(
        "behind", "where forall v in Vm where v in $c { $all; };", "; ", "v"
    ),
    "forall-if": Statement("behind", "where forall v in Vm { v in $c -> $all; };", " and ", "v"),
    "if-class": Statement("vm", "where this in $c -> $all;", " and "),
    "not-class-or": Statement("vm", "where not this in $c or $all;", " and "),
}
MACHINE_PLACES = {
    "dots": Statement("behind", "where $all;", " and ", "$m"),
    "dots-apart": Statement("behind", "where $all;", EACH, "$m"),
    "dots-in-braces": Statement("behind", "where { $all; }", "; ", "$m"),
    "forall-if-machine": Statement(
        "behind", "where forall v in Vm { v = $m -> $all; };", " and ", "v"
    ),
}
# What says how large a machine of an enumerated size is.
ENUMERATED = {
    "enumeration": "where size = Size.T$k -> $all;",
    "enumeration-or": "where size != Size.T$k or $all;",
    "enumeration-same": "where (size = Size.T$k) = ($all);",
}
# Rows that name the sizes, which the machines don't have.
NUMBERED = {
    "factors-of-counts": "$n * count $v in $c { $v.host = $h }",
    "bracketed-counts": "$n * (count $v in $c { $v.host = $h })",
    "sums-of-numbers": "sum $v in $c where $v.host = $h { $n }",
}


def both(*equations):
    """The same equations for both resources."""
    return {resource: equations for resource in RESOURCES}


for each, text in EQUATIONS.items():
    keep(f"sizes-{each}", equations=both(*text.split("; ")))
for each, text in SECOND_EQUATIONS.items():
    keep(f"sizes-{each}", equations={"cpu": ["$o$a = $n"], "mem": [text]})
for each, place in KIND_PLACES.items():
    keep(f"sizes-{each}", size_place=place)
for each, place in MACHINE_PLACES.items():
    keep(
        f"sizes-{each}", size_place=place, fixed="machines", named=True, classes=False,
        vm_head="class Vm",
    )
for each, text in NUMBERED.items():
    keep(f"sizes-{each}", size_shape="", equations=both(), over=["kinds"], sum=text)
keep("sizes-own-ranges", size_shape="", equations=both(), over=["kinds"], own_ranges=True)
keep("sizes-dots-of-classes", size_place=MACHINE_PLACES["dots"], fixed="machines", named=True)


@rule("sizes-forall-array")
def forall_array(draft):
    need_arrays(draft)
    draft.size_place = Statement("behind", "where forall v in $m { $all; };", "; ", "v")


@rule("sizes-forall-parent")
def forall_parent(draft):
    """Each size for a class that its machines' class extends."""
    draft.size_place = Statement("behind", "where forall v in Of$k { $all; };", "; ", "v")
    draft.parents = [f"Of{name}" for name, *_ in draft.kinds()]


def constants_rule(shape, more):
    """Each number is a variable of the top level with one value."""
    def constants(draft):
        for number in sorted({n for *size, _ in draft.packing.kinds for n in size}):
            for line in (f"var K$n as {shape};", *more):
                draft.add("top", line.replace("$n", str(number)))
        draft.equations = both("$o$a = K$n")
    return constants


rule("sizes-constant")(constants_rule("$n..$n", ()))
rule("sizes-constant-by-constraint")(constants_rule(f"0..{WIDE}", ("where K$n = $n;",)))


def enumeration_rule(text):
    """The machines have a size of an enumeration, and a text says how much that is."""
    def sizes(draft):
        names = ", ".join(f"T{name}" for name, *_ in draft.kinds())
        draft.add("top", f"enum Size {{ {names} }}")
        draft.add("vm", "var size as Size;")
        for name, (cpu, mem), _ in draft.kinds():
            equations = f"cpu = {cpu} and mem = {mem}"
            draft.add("vm", text.replace("$k", name).replace("$all", equations))
        draft.equations = {"cpu": ["${o}size = Size.T$k"], "mem": []}
    return sizes


for each, text in ENUMERATED.items():
    rule(f"sizes-{each}")(enumeration_rule(text))


def add_flavours(draft):
    """Adds an object for each size, to which its machines refer."""
    draft.add("top", "abstract class Flavour { var cpu as 0..99; var mem as 0..99; }")
    for name, (cpu, mem), _ in draft.kinds():
        within = f"where {{ cpu = {cpu}; mem = {mem}; }}"
        draft.add("top", f"class F{name} extends Flavour {{ {within} }}")
        draft.add("top", f"var f{name} as F{name};")
    draft.add("vm", "var flavour as ref Flavour;")
    draft.equations = {"cpu": ["${o}flavour = f$k"], "mem": []}


@rule("sizes-flavour")
def flavour(draft):
    add_flavours(draft)
    draft.size_shape, draft.size = "", "$v.flavour.$a"


@rule("sizes-flavour-by-class")
def flavour_by_class(draft):
    flavour(draft)
    draft.equations["cpu"] = ["${o}flavour in F$k"]


@rule("sizes-flavour-copied")
def flavour_copied(draft):
    add_flavours(draft)
    draft.add("vm", "where cpu = flavour.cpu and mem = flavour.mem;")


keep(
    "sizes-flavour-contained",
    [("top", "class Flavour { var cpu as 0..99; var mem as 0..99; }"),
     ("vm", "var flavour as Flavour;")],
    size_shape="", size="$v.flavour.$a", equations=both("${o}flavour.$a = $n"),
)
