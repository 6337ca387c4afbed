"""The items of the suite: transcripts, Python cases and the scripts of interop. Each is one or more parts, which run in parallel."""
import glob
import importlib.util
import os
import shutil
import subprocess

from suite import cases, transcripts
from suite.program import TOP

INTEROP = os.path.join(TOP, "interop")


def head_of(path):
    """The lines of a file's head that say what it needs: `# needs: A B`, `# takes: SECONDS`, `# slow`."""
    needs, takes, is_slow = [], None, False
    with open(path, encoding="utf-8", errors="replace") as file:
        for line in file:
            if not line.startswith("#") and line.strip():
                break
            needs += line.removeprefix("# needs: ").split() if line.startswith("# needs: ") else []
            takes = float(line.removeprefix("# takes: ")) if line.startswith("# takes: ") else takes
            is_slow = is_slow or line.strip() == "# slow"
    return needs, takes, is_slow


def is_met(need):
    """Whether something that an item needs is there."""
    if need == "root":
        return os.geteuid() == 0
    if need == "loop":
        has_losetup = os.geteuid() == 0 and shutil.which("losetup")
        return bool(has_losetup) and subprocess.run(["losetup", "-f"], capture_output=True).returncode == 0
    if need == "libluks":
        return os.path.exists(os.path.join(TOP, "bin", "libluks.so.1"))
    if need.startswith("python-"):
        return importlib.util.find_spec(need.removeprefix("python-")) is not None
    return shutil.which(need) is not None


class Item:
    """An item: its name and file, and what it needs."""

    def __init__(self, name, path):
        self.name, self.path = name, path
        self.needs, self.takes, self.is_slow = head_of(path)
        self.passed = self.failed = 0
        self.said, self.seconds = [], 0.0

    def add(self, found, seconds):
        """Adds what a part came to, and the processor seconds that it took."""
        passed, failed, said = found
        self.passed, self.failed, self.seconds = self.passed + passed, self.failed + failed, self.seconds + seconds
        self.said += said

    def missing(self):
        return [it for it in self.needs if not is_met(it)]

    def told(self):
        """What `--list` says of it."""
        more = [f"needs {', '.join(self.needs)}"] if self.needs else []
        more += [f"some {self.takes:.0f} s"] if self.takes else []
        more += ["slow"] if self.is_slow else []
        return f"{self.name}  {'; '.join(more)}" if more else self.name


class Transcript(Item):
    is_nobody = True

    def parts(self):
        """What of it is run at once: each part's name, its weight, and the function with its arguments."""
        found = enumerate(transcripts.transcript(self.path))
        return [(piece.steps[0], piece.weight(), transcripts.run_piece, (self.path, number)) for number, piece in found]


class Case(Item):
    is_nobody = True

    def parts(self):
        return [(name, cases.weight(self.path, name), cases.run_test, (self.path, name)) for name in cases.tests(self.path)]


class Script(Item):
    """A script of interop, called with the program: it ends with status 0 if all is as owed."""
    is_nobody = False

    def parts(self):
        return [(self.name, 250 * (self.takes or 10), run_script, (self.path,))]


def run_script(program, path, place):
    """Runs a script: one test, whose last lines are said if it fails; otherwise those that say what of it was skipped."""
    ran = subprocess.run([path, program.path], cwd=place, stdin=subprocess.DEVNULL, stdout=subprocess.PIPE, stderr=subprocess.STDOUT, text=True,
                         errors="replace")
    if ran.returncode == 0:
        return 1, 0, [line for line in ran.stdout.splitlines() if line.startswith("skipped ")]
    return 0, 1, [f"  {line:.300}" for line in ran.stdout.splitlines()[-12:]]


def timed(program, function, arguments, place):
    """Runs a part; what it comes to, and the processor seconds that it and its programs took."""
    began = sum(os.times()[:4])
    found = function(program, *arguments, place)
    return found, sum(os.times()[:4]) - began


def named(path):
    return os.path.basename(path).rsplit(".", 1)[0]


def all_items():
    found = [Transcript(named(path), path) for path in sorted(glob.glob(os.path.join(transcripts.FOLDER, "*.steps")))]
    found += [Case(named(path), path) for path in sorted(glob.glob(os.path.join(cases.FOLDER, "*.py")))]
    for path in sorted(glob.glob(os.path.join(INTEROP, "*"))):
        if os.access(path, os.X_OK) and os.path.isfile(path) and "." not in os.path.basename(path):
            found.append(Script(f"interop/{os.path.basename(path)}", path))
    return found
