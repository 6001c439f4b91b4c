"""Sessions: texts of events, what must be answered to them, and whether a program answers so."""
import json

from formers import random_failures, random_former, referred
from meaning import json_of, status_of_words
from models import random_model

MOST_LINES, MOST_BYTES, MOST_FORMER = 100, 1048576, 16777216


def events_of(model, data):
    """The events of a text; a number where its line is the first one that isn't right."""
    events, at = [], 0
    while at < len(data):
        number, end = len(events) + 1, data.find(b"\n", at)
        if end < 0 or number > MOST_LINES:
            return number
        line = data[at:end].decode("latin-1")
        verb = [verb for verb in ("fail", "repair") if line.startswith(verb + " ")]
        if not verb or line[len(verb[0]) + 1:] not in model.names:
            return number
        events.append((verb[0], line[len(verb[0]) + 1:]))
        at = end + 1
    return events


def after(failed, model, event):
    """What stands as failed after an event."""
    thing = model.names[event[1]]
    others = [one for one in failed if one is not thing]
    return others + [thing] if event[0] == "fail" else others


def refused(model, former, data):
    """The status of a session that is refused for its files, of which None is missing."""
    for name, text, most in (("Former", former, MOST_FORMER), ("Events", data, MOST_BYTES)):
        if text is None:
            return "7 read fault"
        if len(text) > most:
            return f"5 limit {name}"
    status = status_of_words(model, former.decode("latin-1"), [])[2]
    if status:
        return status
    events = events_of(model, data)
    return f"14 events at line {events}" if isinstance(events, int) else None


def answered(answers, former, events, choose):
    """The printed lines and the status of a session that takes, of the places of the best
    configurations, the one that is chosen; None where none is."""
    model, tree, failed, lines, status = answers.model, json_of(former), [], [], "0"
    for event in events:
        failed = after(failed, model, event)
        best, where = answers.best(tree, failed)
        if best is None:
            lines, status = lines + ["none exists"], "1"
            continue
        place = choose(where)
        if place is None:
            return None
        lines += [model.line(answers.found[place]), f"changes {best[0]}"]
        lines += [f"objective {value}" for value in answers.scores[place]]
        tree = model.tree(answers.found[place])
    return lines, status


def the_only(where):
    """The place, where it is one."""
    return where[0] if len(where) == 1 else None


class Follower:
    """Follows what a program printed: each answer is held against all configurations.

    A line `undecided` may belong to the configuration before it, or be the next event's answer. So
    both readings are tried.
    """

    def __init__(self, answers, events, lines, budget):
        self.answers, self.model = answers, answers.model
        self.events, self.lines, self.kinds = events, lines, []
        self.undecided = f"undecided after {budget} decisions"

    def told(self, tree):
        """What is otherwise in all answers; '' where nothing is."""
        return self.from_event(0, 0, tree, [])

    def from_event(self, k, at, tree, failed):
        if k == len(self.events):
            return "" if at == len(self.lines) else f"more is printed: {self.lines[at]}"
        failed = after(failed, self.model, self.events[k])
        del self.kinds[k:]
        line = self.lines[at] if at < len(self.lines) else "nothing"
        if line == self.undecided:
            self.kinds.append("undecided, none found")
            return self.from_event(k + 1, at + 1, tree, failed)
        best, _ = self.answers.best(tree, failed)
        if line == "none exists":
            self.kinds.append("none exists")
            other = "" if best is None else f"event {k + 1}: there is one: {best}"
            return other or self.from_event(k + 1, at + 1, tree, failed)
        end = at + 2 + len(self.model.goals)
        score, other = self.score(self.lines[at:end], tree, failed)
        if other:
            return f"event {k + 1}: {other}"
        first = f"event {k + 1}: {score} is printed, {best} is best" if score != best else ""
        if not first:
            self.kinds.append(f"changes {min(best[0], 3)}{' or more' if best[0] > 2 else ''}")
            now = json.loads(self.lines[at])
            first = self.from_event(k + 1, end, now, failed)
        if not first or self.lines[end:end + 1] != [self.undecided]:
            return first
        del self.kinds[k:]
        self.kinds.append("undecided, one found")
        return self.from_event(k + 1, end + 1, tree, failed) and first

    def score(self, lines, tree, failed):
        """The changes and objectives of a printed configuration, and what is wrong with it."""
        model = self.model
        try:
            now = json.loads(lines[0]) if lines else None
        except ValueError:
            now = None
        if not isinstance(now, dict):
            return None, f"no answer: {lines[:1]}"
        t = tuple(model.former(now, leaf) for leaf in model.leaves)
        if None in t or model.line(t) != lines[0]:
            return None, f"no configuration, or not as it is spelled: {lines[0]}"
        if not model.satisfies(t):
            return None, f"it doesn't satisfy the model: {lines[0]}"
        if not model.is_allowed(t, failed):
            return None, f"it refers to what failed: {lines[0]}"
        hints = [model.former(tree, leaf) for leaf in model.leaves]
        changes = sum(1 for hint, value in zip(hints, t) if hint is not None and hint != value)
        values = model.objectives(t)
        behind = [f"changes {changes}"] + [f"objective {value}" for value in values]
        if lines[1:] != behind:
            return None, f"{lines[1:]} is printed where it is {behind}"
        return [changes] + [sign * value for (sign, _), value in zip(model.goals, values)], ""

    def status(self):
        """The status that goes with the answers."""
        if any(kind.startswith("undecided") for kind in self.kinds):
            return "2"
        return "1" if "none exists" in self.kinds else "0"


def random_event(rng, model, failed, t):
    """An event, mostly of what a configuration refers to, or of what stands failed."""
    verb = "repair" if rng.random() < (0.3 if failed else 0.06) else "fail"
    pool = failed if verb == "repair" else referred(model, t)
    pool = pool if pool and rng.random() < 0.8 else model.things
    thing = rng.choice(pool)
    if verb == "fail" and rng.random() < 0.1:
        several, _ = random_failures(rng, model, t)
        thing = several[-1] if several else thing
    return verb, (rng.choice(thing.inside) if rng.random() < 0.15 else thing).path


def random_events(rng, answers, former, count):
    """So many events, more of them such that something moves. Of what is best, one is taken."""
    model, tree, failed, events, t = answers.model, json_of(former), [], [], None
    for _ in range(count):
        for _ in range(6):
            event = random_event(rng, model, failed, t)
            then = after(failed, model, event)
            best, where = answers.best(tree, then)
            if best and best[0] > 0 or rng.random() < (0.35 if where else 0.06):
                break
        events.append(event)
        failed = then
        if where:
            t = answers.found[rng.choice(where)]
            tree = model.tree(t)
    return events


def text_of(events):
    return "".join(f"{verb} {path}\n" for verb, path in events).encode("ascii")


def random_session(rng, most=8):
    """The text of a model, its answers, a former configuration and events."""
    while True:
        text, answers = random_model(rng)
        former, _, _ = random_former(rng, answers)
        if answers.model.things and len(former) <= 250:
            break
    count = rng.choice([0] + list(range(1, most + 1)) * 6)
    return text, answers, former, random_events(rng, answers, former, count)


def spoilt_line(rng, model, line):
    """A line that is mostly no event, mostly one like an event."""
    verb, _, path = line.partition(" ")
    leaf = rng.choice(model.leaves).path if model.leaves else "a.b"
    gone = [f"{path}[0]", path[:-1], path[1:], path.replace("[", "[0"), leaf, "gone", "hosts[99]"]
    gone += [f".{path}", f"{path}.", f'"{path}"', path.swapcase(), f"{path},{path}", "this", ""]
    if rng.random() < 0.4:
        return f"{verb} {rng.choice(gone)}"
    lines = [f"{verb}  {path}", f" {line}", f"{line} ", f"{verb}\t{path}", f"{line}\r", "", "\r"]
    lines += [f"{verb.capitalize()} {path}", f"{verb.upper()} {path}", f"{verb}s {path}", verb]
    lines += [f"{verb[:-1]} {path}", f"{verb}{path}", path, f"{line} {path}", f"{line} # late"]
    lines += [f"# {line}", f"{verb}\u00a0{path}", f"{line}\0", f"{verb} {path}\u00ff", " ", "\0"]
    lines += [f"\u00ef\u00bb\u00bf{line}", f"{path} {verb}", f"break {path}", f"{verb}, {path}"]
    return rng.choice(lines)


FAULTS = ("line",) * 8 + ("unended", "behind", "many", "many too", "hundred")


def spoilt_text(rng, model, events):
    """A text with a fault, its kind, and the number of the first line that isn't right."""
    lines = [f"{verb} {path}" for verb, path in events]
    lines = lines or [f"fail {model.things[0].path}"]
    kind, end = rng.choice(FAULTS), "\n"
    if kind.startswith("many"):
        lines = [rng.choice(lines) for _ in range(rng.choice((101, 101, 102, 150)))]
        number, end = 101, rng.choice(("\n", ""))
        if kind == "many too":
            number = rng.choice((1, 50, 99, 100, 101))
            lines[number - 1] = spoilt_line(rng, model, lines[number - 1])
    elif kind == "unended":
        number, end = len(lines), ""
    elif kind == "behind":
        number, end = len(lines) + 1, "\n" + rng.choice((" ", "\r", "\0", "f", lines[0], "#"))
    else:
        if kind == "hundred":
            lines = [rng.choice(lines) for _ in range(MOST_LINES)]
        number = rng.randint(1, len(lines))
        lines[number - 1] = spoilt_line(rng, model, lines[number - 1])
        if rng.random() < 0.3 and number < len(lines):
            lines[-1] = spoilt_line(rng, model, lines[-1])
    return ("\n".join(lines) + end).encode("latin-1"), kind, number
