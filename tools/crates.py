"""The crates of this repository: what each stands on, its files, and the record of what is proved."""
import functools
import hashlib
import os
import subprocess
import sys

TOP = os.path.dirname(os.path.dirname(os.path.abspath(__file__)))
RT = os.environ.get("RT", "rt")
# the same, by which each sum is taken once
QUICK_RT = os.path.join(TOP, "tools", "rt")
# the folders of a crate that its proof goes by
PARTS = ("src", "specs", "proofs")


def lines():
    """Each crate with its line of crates.txt."""
    with open(os.path.join(TOP, "crates.txt")) as it:
        wanted = [line.split("#")[0].strip() for line in it]
    return {line.split()[0].rstrip(":"): line for line in wanted if ":" in line}


def uses():
    """Each crate with the libraries that its line names."""
    return {crate: line.partition(":")[2].split() for crate, line in lines().items()}


def libraries():
    """Each crate with the crates of this repository that its line names."""
    named = uses()
    return {crate: [low for low in lows if low in named] for crate, lows in named.items()}


def below(uses, top):
    """The crates that `top` stands on, the lowest first."""
    found = {}

    def reach(crate):
        for low in uses[crate]:
            if low not in found:
                reach(low)
                found[low] = None

    reach(top)
    return [*found]


def above(uses, lows):
    """These crates and all that stand on one of them."""
    return {it for it in uses if not set(lows).isdisjoint([it, *below(uses, it)])}


def folder(crate, top=TOP):
    return os.path.join(top, "crates", crate)


def out(crate, top=TOP):
    return os.path.join(folder(crate, top), "out")


def files(crate, parts=PARTS):
    """The files in these folders of a crate."""
    for part in parts:
        for at, folders, names in os.walk(os.path.join(folder(crate), part)):
            folders.sort()
            yield from (os.path.join(at, name) for name in sorted(names))


def read(*path):
    with open(os.path.join(*path), errors="replace") as it:
        return it.read()


def say(text):
    print(f"luks: {text}", file=sys.stderr, flush=True)


@functools.cache
def kit_folder():
    """The folder of the kit, which has the page that `rt doc` names at its top."""
    return os.path.dirname(subprocess.run([RT, "doc"], stdout=subprocess.PIPE, text=True, check=True).stdout.strip())


def seconds():
    """The processor seconds of each crate's proof from nothing, as `tools/times --keep` measured them."""
    try:
        with open(os.path.join(TOP, "tools", "proof-times")) as it:
            rows = [line.split() for line in it if not line.startswith("#")]
    except FileNotFoundError:
        rows = []
    return {crate: float(seconds) for seconds, crate in rows}


@functools.cache
def kit():
    return subprocess.run([RT, "version"], stdout=subprocess.PIPE, check=True).stdout


def own_sum(crate, parts=PARTS):
    """A sum of the files in these folders of a crate, and of its line of crates.txt."""
    total = hashlib.sha256(repr((kit(), lines()[crate])).encode())
    for file in files(crate, parts):
        with open(file, "rb") as it:
            total.update(repr((os.path.relpath(file, folder(crate)), it.read())).encode())
    return total.hexdigest()


class Record:
    """What is known to be proved: in each crate's out/ the sums of what was proved, beside rt's own stamp of what it made."""

    def __init__(self, uses):
        self.uses, self.own = uses, {}

    def sums(self, crate):
        for it in [*below(self.uses, crate), crate]:
            self.own.setdefault(it, own_sum(it))
        return "\n".join(self.own[it] for it in sorted([*below(self.uses, crate), crate]))

    def text(self, crate):
        with open(os.path.join(out(crate), "rlib", "stamp")) as it:
            return f"{self.sums(crate)}\n{it.read()}"

    def has(self, crate):
        try:
            with open(os.path.join(out(crate), "proved")) as it:
                return it.read() == self.text(crate)
        except FileNotFoundError:
            return False

    def add(self, crate):
        """The crate was proved, if its files are as they were when this record first saw them. A static library leaves none that is kept."""
        if own_sum(crate) == self.own[crate] and os.path.isfile(os.path.join(out(crate), "rlib", "stamp")):
            with open(os.path.join(out(crate), "proved"), "w") as it:
                it.write(self.text(crate))
