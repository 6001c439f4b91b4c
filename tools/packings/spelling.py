"""Spellings: the models of a packing that rules make, each of which means the same."""
from draft import Draft
from goal_rules import PLAIN
from rules import RULES, Unfit
import row_rules  # keeps its rules
import room_rules  # likewise

# Rules that users would join; all pairs would be too many.
JOINED = (
    "sizes-dots+sizes-turned-round",
    "sizes-dots+sizes-constant",
    "sizes-dots+sizes-enumeration",
    "sizes-dots+sizes-flavour",
    "sizes-forall-class+sizes-flavour",
    "sizes-forall-class+sizes-two-bounds",
    "sizes-dots+rows-forall",
    "sizes-dots+rows-forall+goals-variable",
    "sizes-dots+rooms-constraint+rows-moved-at-least",
    "sizes-turned-round+rooms-turned-round+rows-at-least",
    "sizes-forall-class+rooms-forall+rows-forall",
    "sizes-two-bounds+rooms-two-bounds+rows-less",
    "sizes-flavour+rooms-type-contained+rows-forall",
    "sizes-dots+sizes-flavour+rows-joined",
    "sizes-dots+sizes-enumeration+rows-pack",
    "sizes-constant+rooms-constant+rows-doubled",
    "sizes-enumeration+rows-load",
    "sizes-flavour-contained+rows-pack",
    "sizes-dots+rows-load+goals-variable",
    "sizes-factors-of-counts+rooms-number+rows-joined",
    "sizes-forall-class+rows-by-filter+goals-doubled",
    "rooms-forall+rows-forall-array+goals-tenfold",
    "rooms-number+rows-pack",
    "rooms-open+rows-forall",
    "rooms-open+objects-machines-first",
    "rows-joined+rows-at-least",
    "rows-forall+rows-less",
    "rows-forall+rows-if-known",
    "rows-forall+rows-by-subclass",
    "rows-forall-array+rows-moved-right",
    "rows-forall-apart+rows-reference-set",
    "rows-load+objects-machines-first",
    "rows-by-subclass+goals-by-subclass",
    "rows-if-known+goals-variable",
    "rows-forall+goals-used-if",
    "sizes-dots+goals-count-positive",
    "sizes-dots+goals-cost-of-host",
    "sizes-flavour+goals-sum-of-costs",
    "sizes-flavour+goals-zone-of-host",
    "objects-machines-first+goals-variable-of-hosts",
)
KINDS = ("sizes", "rooms", "rows", "objects", "goals")


class Spelling:
    """A packing's model as rules spell it."""

    def __init__(self, packing, base, words):
        self.draft, self.words = Draft(packing), words
        self.name = f"{base}-{'+'.join(words)}" if words else base
        self.draft.goal = PLAIN[packing.goal]
        for word in words:
            RULES[word](self.draft)
        self.text = self.draft.text()

    def kind(self):
        """What the rules are about: one part of the model, or several."""
        return self.words[0].split("-")[0] if len(self.words) == 1 else "joined"

    def worth(self, best):
        """The best objective, where the base has that one."""
        return self.draft.goal.worth(best, self.draft)

    def better(self, one, other):
        """Whether an objective is better than another."""
        return one > other if self.draft.goal.text.startswith("maximize") else one < other


def spelling_names():
    """All names of spellings: rules by their kinds, and what is joined."""
    order = [(KINDS.index(name.split("-")[0]), name) for name in RULES]
    return [name for _, name in sorted(order, key=lambda pair: pair[0])] + list(JOINED)


def spellings_of(packing, base):
    """All spellings of a packing that is named so."""
    for name in spelling_names():
        try:
            yield Spelling(packing, base, name.split("+"))
        except Unfit:
            pass
