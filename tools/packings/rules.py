"""The rules that spell a part of a packing's model otherwise, by their names.

A rule is a function that changes a `Draft`; the first word of its name says which part it is about.
Most set templates and add lines, as `keep` says. One that a packing has no place for, such as one
about arrays where each machine has a name, raises `Unfit`.
"""
from copy import copy

from draft import EACH, Statement

RULES = {}
FORALL = "where forall h in Host { $all; };"
# Where that which holds for each host is stated, but for their class.
HOST_PLACES = {
    "forall": Statement("behind", FORALL, "; ", "h"),
    "forall-apart": Statement("behind", FORALL, EACH, "h"),
    "forall-joined": Statement("behind", FORALL, " and ", "h"),
    "forall-in-site": Statement("site", "where forall h in hosts { $all; };", "; ", "h"),
    "forall-array": Statement(
        "behind", "where forall h in home.hosts { $all; }; where forall h in away.hosts { $all; };",
        "; ", "h",
    ),
    "forall-other-class": Statement(
        "behind", f"class Rules {{ {FORALL} }}\nvar rules as Rules;", "; ", "h"
    ),
}


class Unfit(Exception):
    """A rule that says nothing of the packing."""


def keep(name, lines=(), **values):
    """Keeps a rule that sets values of a draft, and adds lines, each behind its part's name."""
    def change(draft):
        for key, value in values.items():
            setattr(draft, key, copy(value))
        for part, *more in lines:
            draft.add(part, *more)
    RULES[name] = change


def rule(name):
    """Keeps a function as the rule of a name."""
    def kept(function):
        RULES[name] = function
        return function
    return kept


def need_arrays(draft):
    if draft.packing.drawn:
        raise Unfit


def need_goal(draft, goal):
    if draft.packing.goal != goal:
        raise Unfit
