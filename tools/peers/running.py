"""Runs programs with a limit of processor seconds, and reads what they found."""
import os
import re
import resource
import shutil
import signal
import subprocess
import threading
from dataclasses import dataclass, replace

from .linear import NotLinear, program
from .repairs import Repair

ALL_LINES = re.MULTILINE
FIRST_BUDGET, MOST_BUDGET = 1_000, 1_000_000
PEERS = ("minizinc", "clingo", "cbc", "plain")
# What MiniZinc writes where it sees that no placement satisfies a text.
NEVER = "constraint bool_eq(false,true);"


@dataclass
class Answer:
    """What a program found: a value, or that there is none, and whether that is proved.

    A value is a tuple: the objective, or the changes and the objective. `failure` says why a
    program gave no answer at all; `ended` says that the limit ended it.
    """

    seconds: float
    value: tuple = None
    proved: bool = False
    failure: str = ""
    ended: bool = False

    def none(self):
        return self.proved and self.value is None

    def key(self, maximized):
        """What is smaller where the value is better; nothing at all is the worst."""
        if self.value is None:
            return (1,)
        return 0, *self.value[:-1], -self.value[-1] if maximized else self.value[-1]

    def text(self):
        value = "" if self.value is None else " " + ", ".join(map(str, self.value))
        if self.failure:
            kind = "failed"
        elif self.none():
            kind = "none"
        else:
            kind = "best" if self.proved else "open"
        return f"{self.seconds:.2f} {kind}{value}"


@dataclass
class Run:
    """An ended process: its user seconds with those of its children, its status, its lines."""

    seconds: float
    status: int
    out: str
    err: str

    def numbers(self, pattern):
        """What stands behind each line that begins with the pattern, as tuples of numbers."""
        lines = re.findall(rf"^{pattern} *:? (-?\d+(?: -?\d+)*) *$", self.out, ALL_LINES)
        return [tuple(map(int, line.split())) for line in lines]


def first_line(pattern, text):
    """The first line that is so, or an empty text."""
    found = re.search(pattern, text, ALL_LINES)
    return found[0][:100] if found else ""


class Runner:
    """Runs one program at a time, with its output in a folder."""

    def __init__(self, folder, seconds):
        self.folder, self.limit = folder, seconds

    def run(self, words, more=0):
        """Runs a program until it ends, by itself or by the limit, or `more` seconds later."""
        limit = self.limit + more

        def limited():
            resource.setrlimit(resource.RLIMIT_CPU, (limit, limit + 1))
            resource.setrlimit(resource.RLIMIT_CORE, (0, 0))

        paths = [os.path.join(self.folder, name) for name in ("out", "err")]
        with open(paths[0], "wb") as out, open(paths[1], "wb") as err:
            process = subprocess.Popen(
                words, stdin=subprocess.DEVNULL, stdout=out, stderr=err,
                start_new_session=True, preexec_fn=limited,
            )
            # For one that waits; on a busy machine one may get little of the processor.
            end = (process.pid, signal.SIGKILL)
            clock = threading.Timer(60 + 30 * limit, os.killpg, end)
            clock.start()
            _, status, used = os.wait4(process.pid, 0)
            clock.cancel()
            clock.join()
        texts = []
        for path in paths:
            with open(path, encoding="utf-8", errors="replace") as file:
                texts.append(file.read())
            os.remove(path)
        process.returncode = os.waitstatus_to_exitcode(status)
        return Run(used.ru_utime, process.returncode, *texts)


class Confsolve:
    """The program that is measured."""

    NAME = "confsolve"

    def __init__(self, program, runner):
        self.program, self.runner = program, runner

    def longest(self, words, maximized):
        """Its best answer by all orders, with more decisions each time, while seconds are left."""
        orders = ["first", "small"] if words[0] == "solve" else ["former", "first", "small"]
        best, line, spent, budget = Answer(0), "", 0, FIRST_BUDGET
        while orders and budget <= MOST_BUDGET:
            for order in list(orders):
                left = int(self.runner.limit - spent)
                if left < 1:
                    return replace(best, seconds=spent), line
                more = ["--order", order, "--budget", str(budget)]
                own, found = self.answer([*words, *more], left - self.runner.limit)
                spent += own.seconds
                if own.proved or own.failure:
                    return replace(own, seconds=spent), found
                if own.key(maximized) < best.key(maximized):
                    best, line = own, found
                if own.ended:
                    orders.remove(order)
            budget *= 4
        return replace(best, seconds=spent), line

    def answer(self, words, more=0):
        """Its answer, and its configuration as a line, or an empty text; `more` is for the run."""
        run = self.runner.run([self.program, *words], more)
        first = run.out.split("\n", 1)[0]
        line = first if first.startswith("{") else ""
        goals = run.numbers("objective")
        if words[0] == "reconfigure":
            goals = [a + b for a, b in zip(run.numbers("changes"), goals)]
        value = goals[0] if line and goals else None
        failure = "" if run.status in (0, 1, 2) or run.status < 0 else f"status {run.status}"
        if run.status == 0 and value is None or run.status == 1 and "none exists" not in run.out:
            failure = "no answer in its output"
        failure += f": {run.err.strip()[:100]}" if failure and run.err else ""
        return Answer(run.seconds, value, run.status in (0, 1), failure, run.status < 0), line

    def verified(self, model, configuration):
        """What `verify` says of a configuration: whether it's satisfied, and its objective."""
        run = self.runner.run([self.program, "verify", model, configuration])
        goals = run.numbers("objective")
        return run.out.startswith("satisfied\n"), goals[0] if goals else None


class Plain:
    """confsolve on the model as somebody writes it, which has to mean the same."""

    NAME, ENDING = "plain", "-plain.conf"

    def __init__(self, confsolve):
        self.confsolve = confsolve

    def answer(self, model, placement):
        words = ["solve", model]
        if isinstance(placement, Repair):
            former = model[: -len(self.ENDING)] + "-former.json"
            words = ["reconfigure", model, former, placement.failed_place()]
        return self.confsolve.answer(words)[0]


class MiniZinc:
    """MiniZinc with its default solver, or with another one."""

    ENDING = ".mzn"

    def __init__(self, name, runner, solver=()):
        self.NAME, self.runner, self.solver = name, runner, solver

    def answer(self, model, placement):
        run = self.runner.run(["minizinc", *self.solver, "-a", model])
        found = run.numbers("OBJ")
        none = "=====UNSATISFIABLE=====" in run.out
        failure = first_line(r"^Error: .*", run.err)
        proved = none or "\n==========" in run.out
        return Answer(run.seconds, found[-1] if found else None, proved, failure)


class Clingo:
    """clingo, whose objectives are signed so that less is better."""

    NAME, ENDING = "clingo", ".lp"

    def __init__(self, runner):
        self.runner = runner

    def answer(self, model, placement):
        run = self.runner.run(["clingo", "--quiet=2,1", model])
        found = run.numbers("Optimization")
        value = found[-1] if found else None
        if value and placement.SENSE == "maximize":
            value = (*value[:-1], -value[-1])
        proved = "\nOPTIMUM FOUND" in run.out or "\nUNSATISFIABLE" in run.out
        return Answer(run.seconds, value, proved, first_line(r"^.*error: .*", run.err))


class Cbc:
    """cbc, where MiniZinc doesn't have it: on the constraints that its linear library makes."""

    NAME, ENDING = "cbc", ".mzn"

    def __init__(self, runner):
        self.runner = runner

    def answer(self, model, placement):
        """The seconds are those of MiniZinc and of cbc."""
        flat, linear = model[:-4] + "-linear.fzn", model[:-4] + "-cbc.lp"
        words = ["minizinc", "-c", "-G", "linear", "--no-output-ozn", "--fzn", flat, model]
        made = self.runner.run(words)
        if made.status:
            return Answer(made.seconds, failure=first_line(r"^Error: .*", made.err))
        with open(flat, encoding="ascii") as file:
            text = file.read()
        if NEVER in text:
            return Answer(made.seconds, proved=True)
        try:
            text = program(text)
        except NotLinear as line:
            return Answer(made.seconds, failure=f"not linear: {line}")
        with open(linear, "w", encoding="ascii") as file:
            file.write(text)
        words = ["cbc", linear, "-seconds", str(self.runner.limit), "-solve"]
        run = self.runner.run(words, more=2)
        return self.read(run, made.seconds + run.seconds, placement)

    def read(self, run, seconds, placement):
        none = re.search(r"^(Result - )?Problem (proven|is) infeasible", run.out, ALL_LINES)
        none = none is not None
        proved = none or "Result - Optimal solution found" in run.out
        found = re.findall(r"^Objective value: +(-?[0-9.]+)", run.out, ALL_LINES)
        value = None
        if found and not none:
            value = self.value(round(float(found[-1])), placement)
        failure = "" if "Result - " in run.out or none or run.status < 0 else run.out[-100:]
        return Answer(seconds, value, proved, failure)

    def value(self, least, placement):
        """The value of which cbc made this as small as it could."""
        sign = -1 if placement.SENSE == "maximize" else 1
        if not isinstance(placement, Repair):
            return (sign * least,)
        changes = placement.changes(least)
        return changes, sign * (least - placement.WEIGHT * changes)


def peers(confsolve, asked):
    """Those of the peers asked for that are installed, and a line for each that isn't."""
    runner = confsolve.runner
    minizinc = shutil.which("minizinc")
    solvers = runner.run(["minizinc", "--solvers"]).out if minizinc else ""
    linear = None
    if re.search(r"coin-?bc|\bcbc\b", solvers, re.IGNORECASE):
        linear = MiniZinc("cbc", runner, ("--solver", "cbc"))
    elif minizinc and shutil.which("cbc"):
        linear = Cbc(runner)
    there = {
        "minizinc": minizinc and MiniZinc("MiniZinc", runner),
        "clingo": shutil.which("clingo") and Clingo(runner),
        "cbc": linear,
        "plain": Plain(confsolve),
    }
    missing = [f"{it} isn't installed, and left out" for it in asked if not there[it]]
    return [there[it] for it in asked if there[it]], missing
