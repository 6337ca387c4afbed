"""The program under test: it runs in the working folder, under the shim, and what it printed and called is given back.

A server forks the program before its `main` for each run (see `serve` in shim.c), so that a run takes neither an exec nor the linker's work.
"""
import contextlib
import os
import select
import shutil
import signal
import struct
import subprocess
import sys

TESTS = os.path.dirname(os.path.dirname(os.path.abspath(__file__)))
TOP = os.path.dirname(TESTS)
SHIM_SOURCE = os.path.join(TESTS, "shim.c")
VOLUME, TARGET, WATCH = DEVICES = 1, 2, 3
SECONDS = 300


def compiled_shim(folder):
    """The shim's library in this folder; it is compiled again only if its source changed."""
    made = os.path.join(folder, "shim.so")
    if os.path.exists(made) and os.stat(made).st_mtime_ns > os.stat(SHIM_SOURCE).st_mtime_ns:
        return made
    compiler = next(filter(None, map(shutil.which, ("gcc", "cc", "clang"))), None)
    if compiler is None:
        sys.exit("tests/run: no C compiler: gcc, cc or clang compiles tests/shim.c")
    os.makedirs(folder, exist_ok=True)
    part = f"{made}.{os.getpid()}"
    subprocess.run([compiler, "-O2", "-Wall", "-Wextra", "-shared", "-fPIC", "-o", part, SHIM_SOURCE, "-ldl"], check=True)
    os.replace(part, made)
    return made


def environment(settings):
    """The shim's settings, NAME=value for each that is given."""
    return [f"SHIM_{name.upper()}={value}" for name, value in settings.items() if value is not None]


class Ran:
    """What a run printed, its status, and its calls. `calls` has those of each device: ("r", at, length), ("w", at, length), ("f",)."""

    def __init__(self, status, out, err, log):
        self.status, self.out, self.err, self.log = status, out, err, log
        self.calls, self.failures = {it: [] for it in DEVICES}, dict.fromkeys(DEVICES, 0)
        self.unread = {it: [] for it in DEVICES}      # the reads that failed
        self.taken, self.opened, self.lacked_memory = 0, [], False
        for line in log.splitlines():
            kind, _, rest = line.partition(" ")
            if kind in ("r", "w"):
                device, at, length = map(int, rest.split(" "))
                self.calls[device].append((kind, at, length))
            elif kind == "f":
                self.calls[int(rest)].append(("f",))
            elif kind == "x":
                device = int(rest[0])
                self.failures[device] += 1
                if self.calls[device] and self.calls[device][-1][0] == "r":
                    self.unread[device].append(self.calls[device][-1][1:])
            elif kind == "m":
                self.lacked_memory = True
            elif kind == "R":
                self.taken += int(rest)
            elif kind == "open":
                self.opened.append(rest)


class Server:
    """The program under the shim, waiting in a folder for what to run."""

    def __init__(self, program, shim):
        self.folder = os.getcwd()
        theirs, self.to = os.pipe()
        self.told, mine = os.pipe()
        self.process = subprocess.Popen([program], pass_fds=(theirs, mine), stdin=subprocess.DEVNULL, start_new_session=True,
                                        env={"PATH": "/usr/bin", "LD_PRELOAD": shim, "SHIM_SERVE": f"{theirs} {mine}"})
        os.close(theirs)
        os.close(mine)

    def ask(self, texts):
        """Runs the program with these settings and words; its status."""
        request = b"".join(os.fsencode(text) + b"\0" for text in texts)
        os.write(self.to, struct.pack("=I", len(request)) + request)
        if not select.select([self.told], [], [], SECONDS)[0]:
            raise TimeoutError(f"the program runs for {SECONDS} s: {texts!r}")
        answer = os.read(self.told, 4)
        if len(answer) < 4:
            raise ChildProcessError(f"the shim's server has ended: {texts!r}")
        return os.waitstatus_to_exitcode(struct.unpack("=i", answer)[0])

    def end(self):
        """Ends the server, and the run that hangs, if one does."""
        with contextlib.suppress(ProcessLookupError):
            os.killpg(self.process.pid, signal.SIGKILL)
        os.close(self.to)
        os.close(self.told)
        self.process.wait()


def whole(path):
    with open(path, "rb") as file:
        return file.read()


def put(path, data):
    with open(path, "wb") as file:
        file.write(data)


class Program:
    """The program at this path. `count` is how often it ran."""

    def __init__(self, path, shim):
        self.path, self.shim, self.count, self.server = path, shim, 0, None

    def run(self, words, given=None, logs=True, **settings):
        """Runs it with these words in the working folder; `given` is its standard input, `settings` the shim's (see shim.c), in small letters."""
        self.count += 1
        if self.server is None or self.server.folder != os.getcwd():
            self.end()
            self.server = Server(self.path, self.shim)
        if given is not None:
            put("@in", given)
        elif os.path.exists("@in"):
            os.unlink("@in")
        streams = [OwnStream("out", "stdout"), OwnStream("err", "stderr")]
        for stream in streams:
            stream.choose(settings)
        logged = ["SHIM_LOG=@log"] if logs else []
        try:
            status = self.server.ask([*logged, *environment(settings), "luks", *words])
        except OSError:
            self.end()
            raise
        return Ran(status, *(stream.taken() for stream in streams), whole("@log").decode("utf-8", "replace") if logs else "")

    def plain(self, words, given=b"", **more):
        """Runs it without the shim: what subprocess.run gives back."""
        self.count += 1
        return subprocess.run([self.path, *words], input=given, capture_output=True, timeout=SECONDS, **more)

    def end(self):
        if self.server:
            self.server.end()
        self.server = None


class OwnStream:
    """Where a standard stream goes: to a file of the suite's, or to one that a test has put there under the stream's name."""

    def __init__(self, setting, name):
        self.setting, self.name, self.before = setting, name, None

    def choose(self, settings):
        if os.path.isfile(self.name):
            self.before = os.stat(self.name).st_size
            settings[self.setting] = self.name

    def taken(self):
        """What was written to it; a test's own file is left as it was."""
        if self.before is None:
            return whole("@" + self.setting)
        data = whole(self.name)
        os.truncate(self.name, self.before)
        return data[self.before:]
