"""What an awkward text is, and how one is written into a file piece by piece."""
import random

MODEL = 1_048_576  # bytes that a model may have, and a text of events
FORMER = 16_777_216  # bytes that a configuration's or a former text may have
LOG = 500_000_000  # bytes of a log; it may have 536,870,912
PIECE = 1 << 20


class Text:
    """An awkward text: its name, its greatest size in bytes, the words that it is run with, in
    which TEXT stands for its file, how its pieces are made for a size, and the files beside it."""

    def __init__(self, name, size, words, pieces, beside=None):
        self.name, self.size, self.words = name, size, words.split()
        self.pieces, self.beside = pieces, beside or {}

    def write(self, file, size):
        """Writes the text for a size; it has at most so many bytes."""
        with open(file, "wb") as out:
            for piece in self.pieces(size):
                out.write(piece)


def filled(head, unit, tail=""):
    """Pieces: a unit as often as there is room between a head and a tail."""
    head, unit, tail = (it.encode() if isinstance(it, str) else it for it in (head, unit, tail))

    def pieces(size):
        count = max(0, (size - len(head) - len(tail)) // len(unit))
        many = max(1, PIECE // len(unit))
        yield head
        while count > 0:
            now = min(count, many)
            yield unit * now
            count -= now
        yield tail

    return pieces


def counted(head, unit, tail="", most=None):
    """Pieces: units made from the numbers from 0 on, as many as there is room for, at most so many,
    between a head and a tail."""

    def pieces(size):
        left = size - len(head) - len(tail)
        now, held = [], 0
        yield head.encode()
        for number in range(most if most is not None else size):
            made = unit(number)
            left -= len(made)
            if left < 0:
                break
            now.append(made)
            held += len(made)
            if held > PIECE:
                yield "".join(now).encode()
                now, held = [], 0
        yield "".join(now).encode() + tail.encode()

    return pieces


def separated(head, unit, between, tail):
    """Pieces: a unit as often as there is room, with a text between two of them."""
    return filled(head, unit + between, unit + tail)


def random_bytes(size):
    """Random bytes, the same ones in each run."""
    made = random.Random(size)
    for at in range(0, size, PIECE):
        yield made.randbytes(min(PIECE, size - at))


LETTERS = "abcdefghijklmnopqrstuvwxyzABCDEFGHIJKLMNOPQRSTUVWXYZ_"
SIGNS = LETTERS + "0123456789"
KEYWORDS = {"as", "in", "or", "int", "ref", "sum", "and", "not", "var"}


def short_name(number):
    """The name of this number among short ones that differ and are no keywords."""
    made = LETTERS[number % len(LETTERS)]
    number //= len(LETTERS)
    while number:
        number -= 1
        made += SIGNS[number % len(SIGNS)]
        number //= len(SIGNS)
    return made + "__" if made in KEYWORDS else made
