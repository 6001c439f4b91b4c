"""Awkward logs of 500 MB."""
from texts import LOG, Text, counted, filled

LEAST = "var x as 1..3; where x >= 2; minimize x;"
# Two variables: the constraint makes clauses of the first one, and a clause may have more literals.
WIDE = "var x as 1..3; var y as 0..1000000000; where x >= 2; minimize x;"
STEPS = 9_999  # 20,000 cells allow no more


def growing_model():
    """Constraints of which chains make one clause of up to STEPS literals: z[i] or not z[i + 1] or
    y[i], for each i."""
    made = [f"var z{n} as bool;" for n in range(STEPS + 1)]
    made += [f"var y{n} as bool;" for n in range(STEPS)]
    made += [f"where z{n} or not z{n + 1} or y{n};" for n in range(STEPS)]
    return "".join(made)


def growing(size):
    """The axiom of each of these constraints, and a chain that adds a literal to the one before."""
    held = 0
    lines = []
    for n in range(STEPS):
        lines.append(f"axiom {n} {n}:1 {n + 1}:0 {STEPS + 1 + n}:1\n")
        held += len(lines[-1])
    ends = ""
    for n in range(1, STEPS):
        ends += f" {STEPS + n}:1"
        before = STEPS + n - 2 if n > 1 else 0
        line = f"chain {before} {n}:{n} = 0:1 {n + 1}:0{ends} {STEPS + 1 + n}:1\n"
        held += len(line)
        if held > size:
            break
        lines.append(line)
        if n % 100 == 0:
            yield "".join(lines).encode()
            lines = []
    yield "".join(lines).encode()


ROW = ("class A { var x as 0..1; var y as 0..1; } var a as A[10000]; "
       "where sum b in A { b.x + b.y } <= 0;")

GOALS = 2_000
MANY = "".join(f"var v{n} as 0..1000000000;maximize v{n};" for n in range(GOALS))


def better(size):
    """Solutions of MANY, each better than the last, with their bounds."""
    held = 0
    for value in range(size):
        values = f" {value}" + " 0" * (GOALS - 1)
        lines = f"found{values}\nbound{values}\n".encode()
        held += len(lines)
        if held > size:
            return
        yield lines


BESIDE = {"least.conf": LEAST, "wide.conf": WIDE, "growing.conf": growing_model,
          "row.conf": ROW, "many.conf": MANY}


def log(name, pieces, model="least.conf", size=LOG):
    return Text(name, size, f"check {model} TEXT", pieces, BESIDE)


FIRST = "axiom 0 0:2..3\n"
RANGES = ",".join(str(n) for n in range(0, 10, 2))
MANY_RANGES = ",".join(str(n) for n in range(0, 200_000, 2))
MANY_LITERALS = " ".join(f"{n}:1" for n in range(1, 20_000))

LOGS = [
    log("the shortest lines: `use 0`", filled(FIRST, "use 0\n")),
    log("`decide 0 2`", filled("", "decide 0 2\n")),
    log("line feeds", filled("", "\n")),
    log("one line with no end", filled("", "a")),
    log("one line, spaces", filled("axiom 0", " ", "\n")),
    log("one line, a long number", filled("use ", "7", "\n")),
    log("one line, values", filled("found", " 2", "\n")),
    log("one line, ranges", counted("axiom 0 0:2..3 1:0", lambda n: f",{2 * n + 2}", "\n"),
        "wide.conf"),
    log("one line, steps of a chain", filled(FIRST + "chain 0", " 0:0", " = 0:2..3\n")),
    log("clauses: `axiom 0 0:2..3`", filled("", FIRST)),
    log("clauses of five ranges", filled("", f"axiom 0 0:2..3 1:{RANGES}\n"), "wide.conf"),
    log("clauses of 100,000 ranges", filled("", f"axiom 0 0:2..3 1:{MANY_RANGES}\n"), "wide.conf"),
    log("clauses: `bound 2`", filled("found 2\n", "bound 2\n")),
    log("clauses: `chain 0 = 0:2..3`", filled(FIRST, "chain 0 = 0:2..3\n")),
    log("chains that grow a clause", growing, "growing.conf", LOG),
    log("better solutions of 2,000 objectives", better, "many.conf", LOG // 100),
    log("axioms of a sum of 20,000 numbers", filled("", "axiom 0 0:0\n"), "row.conf", LOG // 500),
    log("steps over a clause of 20,000 literals", filled(
        f"axiom 0 0:0 {MANY_LITERALS}\nchain 0", " 0:0", f" = 0:0 {MANY_LITERALS}\n"), "row.conf",
        LOG // 500),
]
