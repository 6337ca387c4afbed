"""What the scripts of this folder share: their command line, other programs that run to their end, and Run, which counts what is as owed.

Each script is called as `interop/NAME [PROGRAM [NUMBER..]]`, PROGRAM being bin/luks if it isn't given. Lines at its head tell tests/run what it needs
(`# needs:`), how many seconds it takes on one processor (`# takes:`), and that it runs only if it is asked for (`# slow`).
"""
import contextlib
import importlib.machinery
import importlib.util
import os
import shutil
import subprocess
import sys
import tempfile

NAME = os.path.basename(sys.argv[0])
TOP = os.path.dirname(os.path.dirname(os.path.abspath(__file__)))
INTEROP, ORACLE = os.path.join(TOP, "interop"), os.path.join(TOP, "testdata", "oracle")
sys.path.insert(0, ORACLE)

MIB = 1 << 20
# how cryptsetup makes a keyslot in little time: of each version of LUKS, and by Argon2
ITERATIONS = "--pbkdf-force-iterations 1000"
PBKDF2 = f"--pbkdf pbkdf2 {ITERATIONS}"
FAST = {1: ITERATIONS, 2: PBKDF2}
ARGON2 = "--pbkdf argon2id --pbkdf-force-iterations 4 --pbkdf-memory 32 --pbkdf-parallel 1"


# --- the command line

def words():
    return [word for word in sys.argv[1:] if not word.startswith("-")]


def program():
    """The path of the program."""
    path = os.path.abspath((words() or [os.path.join(TOP, "bin", "luks")])[0])
    if not os.access(path, os.X_OK):
        sys.exit(f"{NAME}: {path} isn't there; `make build` leaves it at bin/luks")
    return path


def numbers(*usual):
    """The numbers behind the program, and these for those that aren't given."""
    given = [int(word) for word in words()[1:]]
    return (*given, *usual[len(given):])


def module(name, folder=ORACLE):
    """A script whose name has no ending, as a module."""
    loader = importlib.machinery.SourceFileLoader(name, os.path.join(folder, name))
    made = importlib.util.module_from_spec(importlib.util.spec_from_loader(name, loader))
    loader.exec_module(made)
    return made


# --- other programs

def ran(words, folder=None, **more):
    """The command, run without standard input unless some is given; what it wrote is bytes, or text by `text=True`."""
    given = {} if "input" in more else {"stdin": subprocess.DEVNULL}
    return subprocess.run(words, cwd=folder, capture_output=True, **{"timeout": 600, **given, **more})


def status(words, folder=None):
    return ran(words, folder).returncode


def answered(words, folder=None):
    """The status and the output, in the form in which `reader` of testdata/oracle answers."""
    done = ran(words, folder)
    return done.returncode, done.stdout.decode("utf-8", "backslashreplace")


def said(words, folder=None, **more):
    """The status, the output and standard error, both as texts."""
    done = ran(words, folder, text=True, **more)
    return done.returncode, done.stdout, done.stderr


def cryptsetup(words, folder):
    """What cryptsetup writes; it has to end with status 0."""
    status, out, err = said(["cryptsetup", *words.split()], folder)
    if status:
        sys.exit(f"{NAME}: cryptsetup {words}: {out}{err}")
    return out


def volume_key(folder, name, passphrase, more=""):
    """The volume key, or by `--unbound` another keyslot's, that cryptsetup writes by the passphrase of this file."""
    cryptsetup(f"luksDump -q --volume-key-file dumped --key-file {passphrase} {more or '--dump-volume-key'} {name}", folder)
    key = whole(folder, "dumped")
    os.remove(os.path.join(folder, "dumped"))
    return key


def counted(call, words, folder):
    """How many such calls cryptsetup makes, which runs to its end."""
    done = ran(["strace", "-f", "-qq", "-e", f"trace={call}", "-e", "signal=none", "cryptsetup", "--batch-mode", *words.split()], folder, text=True,
               errors="replace")
    return sum(f"{call}(" in line for line in done.stderr.splitlines())


def stopped(signal, call, when, words, folder):
    """The status of cryptsetup, which gets the signal at its call of this kind and number, counted from 1."""
    inject = f"inject={call}:signal={signal}:when={when}"
    return status(["strace", "-f", "-qq", "-o", os.devnull, "-e", f"trace={call}", "-e", inject, "cryptsetup", "--batch-mode", *words.split()],
                  folder)


def killed(call, when, words, folder):
    """cryptsetup, killed at this call; it has to come that far."""
    status = stopped("KILL", call, when, words, folder)
    if status != -9:
        sys.exit(f"{NAME}: cryptsetup {words}: it ended with {status} before its {call} {when}")


def loop_over(path, *more):
    """The name of a loop device over the file or device; none if it can't be made."""
    if shutil.which("losetup") is None:
        return None
    status, out, _ = said(["losetup", "--show", "-f", *more, path])
    return out.strip() if status == 0 else None


# --- files, and what is compared

def put(folder, name, data):
    with open(os.path.join(folder, name), "wb") as out:
        out.write(data)
    return name


def whole(folder, name):
    with open(os.path.join(folder, name), "rb") as file:
        return file.read()


def room():
    """The folder in which the scripts make their own: TMPDIR, or one in memory."""
    return os.environ.get("TMPDIR") or ("/dev/shm" if os.access("/dev/shm", os.W_OK) else None)


def skipped(what, missing):
    """Says that a part of the script can't run here."""
    print(f"skipped {NAME}, {what}: {missing} isn't there", flush=True)


def has(command, what):
    """Whether this command is there; otherwise what is skipped is said."""
    if not shutil.which(command):
        skipped(what, command)
    return shutil.which(command) is not None


class Compared:
    """Counts what is compared, and what of it is equal."""
    compared = equal = 0

    def same(self, what, owed, told):
        self.compared += 1
        self.equal += owed == told
        if owed != told:
            print(f"DIFFERENT {what}: owed {owed!r:.2000}, told {told!r:.2000}", flush=True)
        return owed == told

    def ended(self, before="", unit="comparisons equal"):
        """Says the counts on the last line, and ends with status 0 if something was compared and all was equal."""
        print(f"{NAME}: {before}{self.equal} of {self.compared} {unit}")
        sys.exit(self.equal != self.compared or not self.compared)


class Run(Compared):
    """The program in a folder, beside cryptsetup. `passphrases` are files that hold their own names."""
    passphrases = ("one", "two", "three")

    def __init__(self, program, folder):
        self.program, self.folder = program, folder
        for name in self.passphrases:
            self.put(name, name.encode())

    def path(self, name):
        return os.path.join(self.folder, name)

    def put(self, name, data, length=None):
        """A file of these bytes, of this length if one is given."""
        put(self.folder, name, data)
        if length is not None:
            os.truncate(self.path(name), length)
        return name

    def whole(self, name):
        return whole(self.folder, name)

    def ran(self, *words, **more):
        return ran(words, self.folder, **more)

    def luks(self, *words):
        """The program's status, output and standard error."""
        return said([self.program, *words], self.folder)

    def answered(self, *words):
        """The program's status and output, bytes that are no text among it."""
        return answered([self.program, *words], self.folder)

    def cryptsetup(self, words):
        return cryptsetup(words, self.folder)

    def opens_there(self, file, *volume, slot=None):
        """Whether cryptsetup opens the volume, or this keyslot of it, by the passphrase of this file."""
        named = [] if slot is None else ["--key-slot", str(slot)]
        return status(["cryptsetup", "open", "-q", "--test-passphrase", *named, "--key-file", file, *volume], self.folder) == 0

    def volume_key(self, name, passphrase):
        return volume_key(self.folder, name, passphrase)


@contextlib.contextmanager
def started(kind=Run, *more):
    """A Run of this kind, in a folder that is taken away at the end."""
    with tempfile.TemporaryDirectory(dir=room()) as folder:
        yield kind(program(), folder, *more)


def of_oracle(*commands):
    """Runs these scripts of testdata/oracle with their words; each has to end with status 0."""
    told = Compared()
    for name, *more in commands:
        done = ran([os.path.join(ORACLE, name), *more], text=True, timeout=None)
        print(f"{name}: {done.stdout[-200:].strip() if done.returncode == 0 else done.stdout + done.stderr}", flush=True)
        told.same(name, 0, done.returncode)
    told.ended(unit="as owed")
