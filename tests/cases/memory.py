"""Refused memory: a command that is refused any ends with status 4, and no part of its work is left.

Either every byte is as it was, or all is written: what a command prints takes memory too, and if only that is refused, its work is done.
"""
from suite import devices
from suite.disks import Disk
from suite.program import put, whole

RANDOM, ITERATIONS = "--random=r", "--iterations=1000"
# a command, the small volume that `v` has, how many random bytes it takes, what `t` has, and which of the two it writes
COMMANDS = [
    (["label", "v", "x", RANDOM], "luks2", 128, None, "v"), (["repair", "v", RANDOM], "luks2", 128, None, "v"), (["uuid", "v", RANDOM], "luks2", 144, None, "v"),
    (["erase", "v", "--all", RANDOM], "luks2", 128, None, "v"), (["remove", "v", "--slot=0", "--passphrase=p", RANDOM], "luks2", 128, None, "v"),
    (["remove", "v", "--slot=0", "--by=1", "--passphrase=n", RANDOM], "luks2", 128, None, "v"), (["priority", "v", "prefer", "--slot=0", RANDOM], "luks2", 128, None, "v"),
    (["change", "v", "--slot=0", "--passphrase=p", "--new=n", RANDOM, ITERATIONS], "luks2", 2656, None, "v"),
    (["add", "v", "--slot=0", "--passphrase=p", "--new=n", RANDOM, ITERATIONS], "luks2", 2656, None, "v"),
    (["token", "v", "import", "k", RANDOM], "luks2", 128, None, "v"),
    (["format", "v", "--over", "--passphrase=p", RANDOM, ITERATIONS, "--key-bytes=32"], None, 128208, None, "v"),
    (["convert", "v", "t", RANDOM, "--quiet"], "luks1", 128, "empty", "t"), (["rebuild", "v", "t", RANDOM, "--quiet"], "damaged", 144, "empty", "t"),
    (["rebuild", "v", "t", RANDOM, "--quiet"], "wiped", 144, "empty", "t"), (["backup", "v", "t", "--over"], "luks2", 0, "empty", "t"),
    (["restore", "t", "v"], "luks2", 0, "backup", "v"), (["check", "v"], "wiped", 0, None, "v"), (["show", "v", "--json"], "luks2", 0, None, "v"),
]
WIPED = [(0, bytes(6)), (16384, bytes(6))]
# so many of the first allocations and of the last ones are refused one by one, and of those between each of this many
ENDS, STEP = 24, 4


def lay(run, words, name, random, target):
    put("p", b"one")
    put("n", b"two" if "--by=1" in words else b"three")
    put("k", b'{"keyslots":["0"],"type":"x"}')
    put("r", bytes(i % 251 for i in range(random)))
    length = 16777216 if name is None else 66048
    devices.lay("v", "two-hashes" if name == "wiped" else name, WIPED if name == "wiped" else (), length)
    if target == "empty":
        devices.lay("t", None, length=16777216)
    if target == "backup":
        devices.remove("t")
        run.plain("backup", "v", "t")
        devices.lay("v", None, [(0, whole("v")[:65536].translate(bytes(256))), (65536, b"data")])


def left(path):
    """What the file has, to be compared."""
    return Disk.of_file(path).front()


def test_refused_memory(run):
    for words, name, random, target, written in COMMANDS:
        trial = Trial(run, words, (name, random, target), written)
        low = trial.last_refused()
        all_written = []
        for number in sorted({*range(min(ENDS, low + 1)), *range(0, low, STEP), *range(max(low - ENDS, 0), low + 1)}):
            ran, found = trial.run_with(number)
            assert ran.status == 4 and ran.out in (b"no memory\n", b""), (words, number, ran.status, ran.out)
            assert found in (trial.old, trial.new), (words, number, "part of it is written")
            all_written += [number] * (found != trial.old)
        # all is written only if nothing but the last allocations is refused, which are for what is printed
        assert all_written == list(range(low - len(all_written) + 1, low + 1)) and len(all_written) <= 6, (words, all_written, low)


class Trial:
    """A command that is run with so many allocations, over volumes as they were; what is written of old, and if no memory is refused."""

    def __init__(self, run, words, volumes, written):
        self.run, self.words, self.volumes, self.written = run, words, volumes, written
        lay(run, words, *volumes)
        self.old = left(written)
        done = run.luks(*words, logs=False)
        assert done.status in (0, 1), (words, done.out, done.err)
        self.new = left(written)
        lay(run, words, *volumes)

    def run_with(self, memory):
        """The run, and what it left of what it writes."""
        ran = self.run.luks(*self.words, memory=memory, logs=False)
        found = left(self.written)
        if found != self.old:
            lay(self.run, self.words, *self.volumes)
        return ran, found

    def last_refused(self):
        """The most allocations with which it is still refused memory."""
        low, high = 0, 64
        while self.run_with(high)[0].status == 4:
            low, high = high, 2 * high
        while high - low > 1:
            middle = (low + high) // 2
            low, high = (middle, high) if self.run_with(middle)[0].status == 4 else (low, middle)
        return low


test_refused_memory.takes = 3000
