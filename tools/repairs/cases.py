"""Files of cases, as crates/test_case_files/src/cases.rt reads them, and runs of a program.

A text stands for bytes: each of its characters is one of them, from 0 to 255.
"""
import os
import re
import subprocess

SECONDS = 120  # a run may take
COUNTED = 100  # a longer text is given by the number of its bytes
ESCAPES = {"\\": "\\\\", "\n": "\\n", "\r": "\\r", "\t": "\\t"}


def escaped(text):
    """A text as it stands in a file of cases."""
    return "".join(
        ESCAPES.get(one, one if " " <= one < "\x7f" else f"\\x{ord(one):02x}") for one in text
    )


def unescaped(text):
    """The text that is meant by one in a file of cases."""
    names = {"n": "\n", "r": "\r", "t": "\t"}
    return re.sub(
        r"\\(x[0-9a-f]{2}|.)",
        lambda found: chr(int(found[1][1:], 16)) if found[1][1:] else names.get(*found[1] * 2),
        text,
    )


def given(text):
    """What a reader gives of a text: itself, or the number of its bytes where it is long."""
    count = len(text)
    if count <= COUNTED:
        return text
    return f"{count} of {ord(text[0])}" if len(set(text)) == 1 else f"{count} bytes"


def read(name):
    """The text of a file; `-` is standard input."""
    with open(0 if name == "-" else name, encoding="latin-1", newline="") as file:
        return file.read()


def asked_of(text):
    """The cases of a text: the line, what is asked, of what, what may come, what they are about."""
    case, about = None, ""
    for number, line in enumerate(text.split("\n"), 1):
        word, _, behind = line.partition(" ")
        meant = unescaped(behind)
        if word == "given":
            about = meant
        elif word == "more":
            about += meant
        elif word == "gives" and case:
            case[3].append(meant)
        elif word not in ("", "#"):
            if case:
                yield case
            case = number, word, meant, [], about
    if case:
        yield case


def write(folder, files):
    """Writes files of bytes into a folder, and removes those that are None."""
    for name, data in files.items():
        path = os.path.join(folder, name)
        if os.path.exists(path):
            os.remove(path)
        if data is not None:
            with open(path, "wb") as file:
                file.write(data)


def run(program, folder, words):
    """What a run prints, what it says on standard error, both as bytes, and its status."""
    how = {"cwd": folder, "stdin": subprocess.DEVNULL, "capture_output": True, "check": False}
    try:
        done = subprocess.run([program, *words], timeout=SECONDS, **how)
    except subprocess.TimeoutExpired:
        return b"", f"no end within {SECONDS} s".encode("ascii"), -1
    return done.stdout, done.stderr, done.returncode
