"""Scripts beside copies of the programs, in a folder of their own, and what they should do there.

tools/test-script and tools/test-within read this file.
"""
import fcntl
import os
import shutil
import signal
import subprocess
import termios
import time

TOP = os.path.dirname(os.path.dirname(os.path.abspath(__file__)))
SIGNALS = (signal.SIGHUP, signal.SIGINT, signal.SIGTERM)
SECONDS = 20  # within which something has to begin or to end
LONG = "var a as int; maximize a; maximize a; minimize a + a;\n"  # it searches for a minute
NONE = "var x as 0..3; where x >= 2; where x < 1;\n"


class Scripts:
    """Copies of the scripts and of one program or all, and a folder in which they run."""

    def __init__(self, work, programs):
        names = ("confsolve", "confsolve-view", "confsolve-site")[: len(programs)]
        self.work, self.top, self.files = work, f"{work}/copy", f"{work}/files"
        self.temporary = f"{work}/temporary"
        self.tried = self.wrong = 0
        for folder in (self.top, self.files, self.temporary, f"{work}/home"):
            os.mkdir(folder)
        for name in names:
            shutil.copy(f"{TOP}/{name}", self.top)
        shutil.copytree(f"{TOP}/tools", f"{self.top}/tools")
        self.programs = []
        for name, program in zip(names, programs):
            crate = name.replace("-", "_")
            os.makedirs(f"{self.top}/crates/{crate}/out")
            self.programs.append(shutil.copy(program, f"{self.top}/crates/{crate}/out/{crate}"))
        for name, text in (("long.conf", LONG), ("none.conf", NONE), ("wrong.conf", "var\n")):
            with open(f"{self.files}/{name}", "w", encoding="utf-8") as file:
                file.write(text)
        os.mkfifo(f"{self.files}/waits.conf")  # nobody writes to it
        # On first use each script says which program it runs.
        for name in names:
            self.run([name])

    def environment(self, more):
        return {
            "PATH": os.environ["PATH"],
            "HOME": f"{self.work}/home",
            "TMPDIR": self.temporary,
            "LANG": "C.UTF-8",
            **more,
        }

    def begin(self, words, terminal=None, **more):
        """Begins a script, on a terminal of its own where one is given, and in a new group."""

        def take_terminal():
            for each in SIGNALS:
                signal.signal(each, signal.SIG_DFL)
            if terminal is not None:
                fcntl.ioctl(terminal, termios.TIOCSCTTY, 0)

        ends = dict.fromkeys(("stdin", "stdout", "stderr"), subprocess.PIPE)
        if terminal is not None:
            ends = {"stdin": terminal, "stdout": terminal, "stderr": terminal}
        return subprocess.Popen(
            [f"{self.top}/{words[0]}", *words[1:]],
            cwd=self.files,
            env=self.environment(more),
            start_new_session=True,
            preexec_fn=take_terminal,
            **ends,
        )

    def run(self, words, text="", **more):
        """What a script prints on each stream, and its status, with a text on standard input."""
        script = self.begin(words, **more)
        out, err = script.communicate(text.encode(), timeout=SECONDS)
        return out.decode(), err.decode(), script.returncode

    def at_work(self):
        """The processes that run one of the programs."""
        found = []
        for pid in filter(str.isdigit, os.listdir("/proc")):
            try:
                if os.readlink(f"/proc/{pid}/exe") in self.programs:
                    found.append(int(pid))
            except OSError:
                pass
        return found

    def expect(self, what, right, came):
        """Counts what was tried, and tells of what differs."""
        self.tried += 1
        if not right:
            self.wrong += 1
            print(f"{what}: {came}")

    def expect_end(self, what, script, ends):
        """Whether a script ends with a status and leaves nothing; hands back what it printed."""
        try:
            status = script.wait(SECONDS)
        except subprocess.TimeoutExpired:
            status = None
        script.kill()
        left, printed = self.at_work(), None
        try:
            printed, _ = script.communicate(timeout=0 if left else SECONDS)
        except subprocess.TimeoutExpired:
            left = left or ["some that holds its ends"]
        files = os.listdir(self.temporary)
        right = status == ends and not left and not files
        self.expect(what, right, f"status {status}, processes {left}, files {files}")
        for pid in self.at_work():
            os.kill(pid, signal.SIGKILL)
        return (printed or b"").decode()


def until(holds, seconds=SECONDS):
    """Whether it holds within some seconds."""
    end = time.time() + seconds
    while not holds():
        if time.time() > end:
            return False
        time.sleep(0.01)
    return True


def read_all(terminal):
    """What came to a terminal, until nobody has it any more."""
    text = b""
    try:
        while part := os.read(terminal, 4096):
            text += part
    except OSError:
        pass
    return text.decode()
