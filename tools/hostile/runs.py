"""Runs of the program that reach every command, and how a run is made to meet a refusal.

A run is its words, over files that `write_files` puts into the folder in which all runs go. The
library that refuses is made from `refusals.c` by the C compiler, into the same folder.
"""
import mmap
import os
import shutil
import struct
import subprocess
import sys

HERE = os.path.dirname(os.path.abspath(__file__))
TOP = os.path.dirname(os.path.dirname(HERE))
LIBRARY = "refusals.so"
COUNTS = "counts"
LOG = "run.log"
PRINTED = "printed"
SAID = "said"
KILLED = -1  # the status of a run that a signal ended

HOSTS = """class Host { var cap as 2..2; where count v in Vm { v.host = this } <= cap; }
class Vm { var host as ref Host; } var hosts as Host[2]; var vms as Vm[2];
"""
FORMER = """{"hosts":[{"cap":2},{"cap":2}],"vms":[{"host":"hosts[0]"},{"host":"hosts[1]"}]}"""
SET = """class N { var v as 0..9; } class P { var best as ref N[2]; } var a as N; var b as N;
var c as N; var p as P; where { a.v = 1; b.v = 5; c.v = 3; } maximize sum n in p.best { n.v };
"""
FACTS = """class H { var cpu as 0..9; where sum v in V where v.host = this { v.cpu } <= cpu; }
class V { var cpu as 0..9; var host as ref H; } var a as H; var b as V; var c as V;
where a.cpu = 4; where b.cpu = 3; where c.cpu = 2;
"""
LOAD = """class H { var cpu as 0..9; where cpu = 5;
  where sum v in V where v.host = this { v.cpu } <= cpu; }
class V { var cpu as 0..9; var host as ref H; } var hs as H[4]; var vs as V[5];
where forall v in V { v.cpu = 2; };
minimize count h in H { exists v in V { v.host = h; } };
"""
FILES = {
    "least.conf": "var x as 1..3; where x >= 2; minimize x;",
    "least.json": '{"x":3}',
    "low.json": '{"x":1}',
    "set.conf": SET,
    "hosts.conf": HOSTS,
    "hosts.json": FORMER,
    "hosts.txt": "fail hosts[0]\nfail hosts[1]\nrepair hosts[1]\n",
    "goals.conf": "var x as 0..3; var y as 0..3; where x + y <= 4; maximize x; maximize y;",
    "blame.conf": "var x as 0..3; where x >= 2; where x <= 3; where x < 1;",
    "facts.conf": FACTS,
    "load.conf": LOAD,
    "site.txt": "fail home.hosts[0]\nrepair home.hosts[0]\n",
    "torn.log": "axiom 0\n",
    "twice.conf": "class A { var x as 0..1; var x as bool; }",
}

# Each run: its name, its words, and what it reaches. LOG stands for the log that it writes.
RUNS = [
    ("solve", ["solve", "least.conf"]),
    ("solve --log", ["solve", "--log", LOG, "least.conf"]),
    ("solve, a set", ["solve", "set.conf", "--order=small", "--log", LOG]),
    ("solve, two objectives", ["solve", "--budget", "50", "--order", "small", "goals.conf"]),
    ("solve, undecided", ["solve", "--budget=1", "site.conf"]),
    ("solve, a site", ["solve", "--log", LOG, "site.conf"]),
    ("reconfigure", ["reconfigure", "hosts.conf", "hosts.json", "hosts[0]"]),
    ("reconfigure, a site", ["reconfigure", "--log", LOG, "site.conf", "site.json",
                             "home.hosts[0]"]),
    ("session", ["session", "hosts.conf", "hosts.json", "hosts.txt"]),
    ("check", ["check", "least.conf", "least.log"]),
    ("check of a repair", ["check", "hosts.conf", "hosts.log", "hosts.json", "hosts[0]"]),
    ("verify", ["verify", "least.conf", "least.json"]),
    ("verify, broken", ["verify", "least.conf", "low.json"]),
    ("solve, a packing", ["solve", "--log", LOG, "load.conf"]),
    ("session, a site", ["session", "site.conf", "site.json", "site.txt"]),
    ("check, a torn log", ["check", "least.conf", "torn.log"]),
    ("gen", ["gen", "3"]),
    ("solve, refused", ["solve", "twice.conf"]),
    ("core", ["core", "blame.conf"]),
    ("core, of facts", ["core", "facts.conf"]),
]


class Outcome:
    """How a run ended: its status, what it printed, what it said, and the log that it left."""

    def __init__(self, status, printed, said, log):
        self.status, self.printed, self.said, self.log = status, printed, said, log

    def is_same(self, other):
        """Whether it ended as another one, but for what stands on standard error."""
        mine = (self.status, self.printed, self.log)
        return mine == (other.status, other.printed, other.log)

    def is_front(self, other):
        """Whether it printed a front of what another one did, and left no log or a front of it."""
        log = self.log is None or (other.log or b"").startswith(self.log)
        return log and other.printed.startswith(self.printed)


def content(name):
    """The bytes of a file, or None where there is none."""
    try:
        with open(name, "rb") as file:
            return file.read()
    except FileNotFoundError:
        return None


class Desk:
    """A folder with the files, the program, and the library that refuses."""

    def __init__(self, program, folder):
        self.program = program
        os.chdir(folder)
        compiler = os.environ.get("CC", "gcc")
        source = os.path.join(HERE, "refusals.c")
        subprocess.run([compiler, "-O2", "-shared", "-fPIC", "-o", LIBRARY, source], check=True)
        with open(COUNTS, "wb") as file:
            file.write(bytes(16))
        with open(COUNTS, "r+b") as file:
            self.counts = mmap.mmap(file.fileno(), 16)
        self.write_files()

    def write_files(self):
        """The files of the runs, and the logs that `check` reads."""
        for name, text in FILES.items():
            with open(name, "w") as file:
                file.write(text)
        data = os.path.join(TOP, "crates", "command_tests", "data")
        for name in ("site.conf", "site.json"):
            shutil.copy(os.path.join(data, name), name)
        self.plain(["solve", "--log", "least.log", "least.conf"])
        self.plain(["reconfigure", "--log", "hosts.log", "hosts.conf", "hosts.json", "hosts[0]"])

    def plain(self, words):
        """A run that meets no refusal."""
        return self.run(words, {})

    def run(self, words, orders):
        """A run that meets what the orders say."""
        if os.path.exists(LOG):
            os.remove(LOG)
        settings = {"LD_PRELOAD": os.path.abspath(LIBRARY), "HOSTILE_COUNTS": COUNTS}
        settings.update({name: str(value) for name, value in orders.items()})
        kept = os.O_WRONLY | os.O_CREAT | os.O_TRUNC
        files = [(os.POSIX_SPAWN_OPEN, 1, PRINTED, kept, 0o600),
                 (os.POSIX_SPAWN_OPEN, 2, SAID, kept, 0o600)]
        self.counts[:] = bytes(16)
        run = os.posix_spawn(self.program, [self.program, *words], settings, file_actions=files)
        _, ended = os.waitpid(run, 0)
        status = os.WEXITSTATUS(ended) if os.WIFEXITED(ended) else KILLED
        return Outcome(status, content(PRINTED), content(SAID), content(LOG))

    def counted(self):
        """How many requests for memory the last run made, and how many calls of the desk."""
        return struct.unpack("qq", self.counts[:])

    def runs(self):
        """The runs that the program knows: without `core` where that is no command yet."""
        for name, words in RUNS:
            if self.plain(words).status == 6:
                print(f"{name}: no command of this program, left out", file=sys.stderr)
            else:
                yield name, words


def program_of(words, usage):
    """The file of a built program, named by the first word; else the usage, and the end."""
    if not words or not os.access(words[0], os.X_OK):
        sys.exit(usage)
    return os.path.realpath(words[0])
