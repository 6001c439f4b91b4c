"""Reads crates.txt: the crates of this repository, what each of them lists, and their rooms.

A line names a crate and the libraries that it lists, of the repository or of the toolchain. A line
that begins with `#` is a comment; every one but the first names the room of the crates behind it.
Blank lines stand anywhere.
"""
import os
import re

TOP = os.path.dirname(os.path.dirname(os.path.abspath(__file__)))
LISTS = f"{TOP}/crates.txt"


def crate_of(line):
    """The name of the crate that a line is about, and what it lists; else nothing."""
    found = re.match(r"([a-z]\w*)[^:#]*:([^#]*)", line)
    return (found[1], found[2].split()) if found else None


def text_lines():
    """The lines of crates.txt."""
    with open(LISTS, encoding="utf-8") as file:
        return file.read().splitlines()


def crate_lines():
    """The lines that are about a crate, by its name and in their order."""
    return {crate_of(line)[0]: line for line in text_lines() if crate_of(line)}


def lists():
    """What each crate lists of the repository, in the order of the lines."""
    found = dict(filter(None, map(crate_of, text_lines())))
    return {name: [it for it in listed if it in found] for name, listed in found.items()}


def below(program, listed):
    """The crates of a program, itself among them, in the order of the lists."""
    found, todo = set(), [program]
    while todo:
        name = todo.pop()
        if name in listed and name not in found:
            found.add(name)
            todo += listed[name]
    return [name for name in listed if name in found]


def rooms():
    """The rooms with their crates; what stands before the first comment but one has no room."""
    found = [("", [])]
    for at, line in enumerate(text_lines()):
        crate = crate_of(line)
        if line.startswith("#") and at > 0:
            found.append((line.strip("# "), []))
        elif crate:
            found[-1][1].append(crate[0])
    return [(room, names) for room, names in found if names]
