#!/usr/bin/env python3
"""What moves if these fail? examples/drill.py MODEL FAILED ..

Solves the model, lets the objects fail, and compares. It ends with the status of the program.
"""
import json
import os
import subprocess
import sys

PROGRAM = os.path.join(os.path.dirname(os.path.abspath(__file__)), os.pardir, "confsolve")
SAYS = {0: "best", 1: "none exists", 2: "undecided"}


def ask(*words, given=None):
    """The status, the configuration or None, the changes or None, and the objectives."""
    done = subprocess.run([PROGRAM, *words], input=given, capture_output=True, text=True)
    if done.returncode not in SAYS:
        print(done.stderr, end="", file=sys.stderr)
        sys.exit(done.returncode)
    plan, changes, objectives = None, None, []
    for line in done.stdout.splitlines():
        if line.startswith("{"):
            plan = json.loads(line)
        elif line.startswith("changes "):
            changes = int(line.split()[1])
        elif line.startswith("objective "):
            objectives.append(int(line.split()[1]))
    return done.returncode, plan, changes, objectives


def leaves(value, path=""):
    """Each leaf by its path; a set is one leaf, in any order."""
    if isinstance(value, dict):
        for key, part in value.items():
            if key != "class":
                yield from leaves(part, f"{path}.{key}" if path else key)
    elif isinstance(value, list) and value and isinstance(value[0], dict):
        for number, part in enumerate(value):
            yield from leaves(part, f"{path}[{number}]")
    else:
        yield path, sorted(value) if isinstance(value, list) else value


def main(model, failed):
    status, plan, _, objectives = ask("solve", "--", model)
    print("solve:", SAYS[status], objectives)
    if plan is None:
        return status
    former = json.dumps(plan)
    status, repaired, changes, objectives = ask(
        "reconfigure", "--", model, "/dev/stdin", *failed, given=former
    )
    print("repair:", SAYS[status], objectives)
    if repaired is None:
        return status
    old, new = dict(leaves(plan)), dict(leaves(repaired))
    moves = [path for path in sorted(new) if old[path] != new[path]]
    assert len(moves) == changes
    for path in moves:
        print(f"{path}: {old[path]} -> {new[path]}")
    return status


if __name__ == "__main__":
    sys.exit(main(sys.argv[1], sys.argv[2:]))
