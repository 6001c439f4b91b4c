"""Makes a text for cbc of a FlatZinc that MiniZinc made with its linear library."""
import re

ARRAY = re.compile(r"array \[.*?\] of (?:var )?\w+: (\w+).*?= \[(.*)\];")
VARIABLE = re.compile(r"var (bool|int|-?\d+\.\.-?\d+): *(\w+)[^=]*;")
CONSTRAINT = re.compile(r"constraint int_lin_(eq|le)\((\[.*?\]|\w+),(\[.*?\]|\w+),(-?\d+)\)")
GOAL = re.compile(r"solve .*\b(minimize|maximize) (\w+);")


class NotLinear(Exception):
    """A line that is no linear constraint of whole numbers."""


class Flat:
    """The variables, the constraints and the goal of a FlatZinc."""

    def __init__(self, text):
        self.arrays, self.bounds, self.rows, self.goal = {}, {}, [], None
        for line in text.splitlines():
            self.read(line)

    def read(self, line):
        if found := ARRAY.match(line):
            self.arrays[found[1]] = parts(found[2])
        elif found := VARIABLE.match(line):
            self.bounds[found[2]] = {"bool": "0..1", "int": ""}.get(found[1], found[1])
        elif found := CONSTRAINT.match(line):
            factors, terms = self.list(found[2]), self.list(found[3])
            self.rows.append((found[1], list(zip(map(int, factors), terms)), int(found[4])))
        elif found := GOAL.match(line):
            self.goal = (-1 if found[1] == "maximize" else 1, found[2])
        elif line.strip():
            raise NotLinear(line[:60])

    def list(self, text):
        """The elements of a list, or of the array with that name."""
        return parts(text[1:-1]) if text.startswith("[") else self.arrays[text]


def parts(text):
    return [part.strip() for part in text.split(",")] if text.strip() else []


def program(text):
    """A text for cbc that makes the goal, or its negative where it's to be great, small.

    A term stands on each line, as long lines aren't read; a term may be a number, too. Only
    variables that stand in some row have bounds there: else cbc takes them for those of others.
    """
    flat = Flat(text)
    used = {flat.goal[1]} | {term for _, terms, _ in flat.rows for _, term in terms}
    names = {name: f"x{k}" for k, name in enumerate(flat.bounds) if name in used}
    lines = ["minimize", f"goal: {flat.goal[0]} {names[flat.goal[1]]}", "subject to"]
    for number, (kind, terms, right) in enumerate(flat.rows):
        lines.append(f"c{number}:")
        for factor, term in terms:
            if term in names:
                lines.append(f" {factor:+d} {names[term]}")
            else:
                right -= factor * int(term)
        lines.append(f" {'=' if kind == 'eq' else '<='} {right}")
    lines.append("bounds")
    for name, short in names.items():
        low, _, high = flat.bounds[name].partition("..")
        lines.append(f"{low} <= {short} <= {high}" if low else f"{short} free")
    lines += ["general", *names.values(), "end"]
    return "\n".join(lines) + "\n"
