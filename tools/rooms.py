"""Runs rt on several crates at once, each in a room: a folder with hard links of the crate and of those beneath it.

rt locks its crate and every crate beneath it, so that of several runs in one tree only one works. In its room each works by itself: rt
writes nothing into a crate that is proved, and the crate's own out/ is moved into the room, and back.
"""
import contextlib
import fcntl
import os
import queue
import shutil
import signal
import subprocess
import sys
import tempfile
import threading
import time

import crates

GIB = 1 << 30
# what a check takes at most, with a second processor's share, but for few, which take up to 8
MEMORY_OF_A_CHECK = 5 * GIB


class Stopped(Exception):
    """The run was ended before this task."""


def taken(file, is_stopped):
    """Waits until the lock of the file is ours."""
    while not is_stopped():
        with contextlib.suppress(BlockingIOError):
            return fcntl.flock(file, fcntl.LOCK_EX | fcntl.LOCK_NB)
        time.sleep(0.2)
    raise Stopped


@contextlib.contextmanager
def held(crate, is_stopped):
    """Keeps other runs of rt out of the crate's folder, by rt's own lock."""
    it = os.open(crates.folder(crate), os.O_RDONLY)
    try:
        taken(it, is_stopped)
        yield
    finally:
        os.close(it)


@contextlib.contextmanager
def room(uses, crate):
    """A folder with the crate, its out/ and the crates beneath it; its path."""
    with empty_room(uses, crate) as top:
        linked(crates.folder(crate), crates.folder(crate, top), "out")
        with moved(crates.out(crate), crates.out(crate, top)):
            yield top


@contextlib.contextmanager
def room_of_copies(uses, crate):
    """The same, but the crate may be changed in it: its files and its out/ are copies."""
    with empty_room(uses, crate) as top:
        shutil.copytree(crates.folder(crate), crates.folder(crate, top))
        yield top


@contextlib.contextmanager
def empty_room(uses, crate):
    top, lows = tempfile.mkdtemp(prefix=".room-", dir=crates.TOP), crates.below(uses, crate)
    try:
        for low in lows:
            linked(crates.folder(low), crates.folder(low, top), "incremental")
        shutil.copy(os.path.join(crates.TOP, "HANDLES"), top)
        with open(os.path.join(top, "crates.txt"), "w") as it:
            it.writelines(f"{crates.lines()[name]}\n" for name in [*lows, crate])
        yield top
    finally:
        removed(top)


def linked(there, here, left_out):
    shutil.copytree(there, here, copy_function=os.link, ignore=shutil.ignore_patterns(left_out))


@contextlib.contextmanager
def moved(there, here):
    """The folder `there`, where there is one, stands at `here` meanwhile."""
    with contextlib.suppress(FileNotFoundError):
        os.rename(there, here)
    try:
        yield
    finally:
        with contextlib.suppress(FileNotFoundError):
            os.rename(here, there)


def removed(top):
    """Removes a room; what rt began may write into it for a moment after rt was ended."""
    for _ in range(20):
        shutil.rmtree(top, ignore_errors=True)
        if not os.path.exists(top):
            return
        time.sleep(0.1)


def places():
    """How many checks the machine holds at once."""
    with open("/proc/meminfo") as it:
        free = next(int(line.split()[1]) << 10 for line in it if line.startswith("MemAvailable"))
    return max(1, min(len(os.sched_getaffinity(0)), free // MEMORY_OF_A_CHECK))


def give_way(process, nice):
    """Lowers the priority of a run, and of its session, where the system shares the processors by sessions."""
    with contextlib.suppress(OSError):
        os.setpriority(os.PRIO_PROCESS, process, nice)
        with open(f"/proc/{process}/autogroup", "w") as it:
            it.write(str(nice))


class Task:
    """A command of rt on a crate, as `lib` or `test`, with its further words."""

    def __init__(self, verb, crate, words=()):
        self.verb, self.crate, self.words = verb, crate, words
        self.status, self.text = 1, ""

    def name(self):
        return self.crate if self.verb == "lib" else f"{self.crate} ({self.verb})"


def input_of(task, folder):
    """What a task reads on standard input: a program its file `stdin`, where it has one."""
    path = os.path.join(folder, "stdin")
    return path if task.verb == "run" and os.path.isfile(path) else os.devnull


class Runs:
    """Tasks under way, each in a room. Those that end are put into `ended`."""

    def __init__(self, uses, record):
        self.uses, self.record, self.ended = uses, record, queue.Queue()
        self.lock, self.stopped, self.processes, self.threads = threading.Lock(), False, [], []

    def start(self, task, jobs, nice):
        thread = threading.Thread(target=self.work, args=(task, jobs, nice))
        self.threads.append(thread)
        thread.start()

    def work(self, task, jobs, nice):
        try:
            with held(task.crate, lambda: self.stopped):
                self.run_in_room(task, ["--jobs", str(jobs), *task.words], nice)
        except (Stopped, OSError) as error:
            task.status, task.text = 1, f"{task.text}{error}\n"
        finally:
            self.ended.put(task)

    def run_in_room(self, task, words, nice):
        proves = task.verb == "lib"
        self.record.sums(task.crate)
        if proves and self.record.has(task.crate):
            task.status = 0
            return
        with room(self.uses, task.crate) as top:
            self.run(task, [crates.QUICK_RT, task.verb, *words], crates.folder(task.crate, top), nice)
        if proves and task.status == 0:
            self.record.add(task.crate)

    def run(self, task, words, folder, nice):
        with self.lock:
            if self.stopped:
                raise Stopped
            with open(input_of(task, folder), "rb") as given:
                process = subprocess.Popen(words, cwd=folder, stdin=given, stdout=subprocess.PIPE, stderr=subprocess.STDOUT, text=True,
                                           errors="replace", start_new_session=True)
            self.processes.append(process)
        give_way(process.pid, nice)
        task.text = process.communicate()[0]
        task.status = process.returncode

    def stop(self):
        """Ends what runs, and waits until every room is removed."""
        with self.lock:
            self.stopped = True
            for process in self.processes:
                if process.poll() is None:
                    os.killpg(process.pid, signal.SIGTERM)
        for thread in self.threads:
            thread.join()


def size(crate):
    """What a proof's time goes by: the bytes of the code, and of what is said of it a tenth."""
    code = crates.folder(crate) + "/src/"
    return sum(os.path.getsize(it) * (10 if it.startswith(code) else 1) for it in crates.files(crate))


def lengths(names):
    """The seconds of each crate's proof: as they were measured, and of a crate that wasn't there then by its size."""
    table = crates.seconds()
    rate = sum(table.values()) / max(1, sum(size(it) for it in table if it in crates.lines()))
    return {it: table.get(it) or size(it) * (rate or 0.001) for it in names}


def chains(uses, names, seconds):
    """Of each crate the seconds of the longest chain of crates that wait for one another, from it upwards."""
    found = {}
    for crate in sorted(names, key=lambda it: -len(crates.below(uses, it))):
        found[crate] = seconds[crate] + max((found[it] for it in names if crate in uses[it]), default=0)
    return found


class Plan:
    """The tasks that are left and those that run: the longest chain first, each where what it stands on is proved."""

    def __init__(self, uses, tasks):
        names = {it.crate for it in tasks}
        self.uses, self.seconds, self.running, self.began = uses, lengths(names), [], {}
        self.longest = chains(uses, names, self.seconds)
        self.left = sorted(tasks, key=lambda it: -self.longest[it.crate])
        self.total, self.places = len(tasks), places()

    def waits(self, task):
        """Whether a crate beneath is unproved, or a folder in use: a room takes its crate's out/ away from the rooms of those above."""
        proofs = [it.crate for it in self.left if it.verb == "lib"] + [it.crate for it in self.running]
        lows = [*crates.below(self.uses, task.crate), *[task.crate] * (task.verb != "lib")]
        return not set(lows).isdisjoint(proofs) or any(task.crate in crates.below(self.uses, it.crate) for it in self.running)

    def begun(self):
        """The tasks that start now, each with its jobs and its niceness. Each has one job, since one that is cut into several loads its libraries in
        each; where fewer run than there are places, they share what is free."""
        ready = []
        for task in list(self.left):
            if len(self.running) < self.places and not self.waits(task):
                self.left.remove(task)
                self.running.append(task)
                self.began[task.crate] = time.monotonic()
                ready.append(task)
        share = max(1, self.places // max(1, len(self.running)))
        return [(task, share, self.niceness(task)) for task in ready]

    def niceness(self, task):
        """How far a task gives way to the others: 0 for the longest chain of all that run or are left, and more for shorter ones."""
        most = max(self.longest[it.crate] for it in [*self.left, *self.running])
        return round(15 * (1 - self.longest[task.crate] / most))

    def minutes(self):
        """About how long it takes until all is done, by the table of times: each crate on one processor, once what it stands on is done."""
        now, ends = time.monotonic(), {}
        for it in self.running:
            ends[it.crate] = max(now, self.began[it.crate] + self.seconds[it.crate])
        free = sorted([*ends.values(), *[now] * (self.places - len(ends))])
        for it in self.left:
            start = max([free.pop(0), *[ends.get(low, now) for low in crates.below(self.uses, it.crate)]])
            ends[it.crate] = start + self.seconds[it.crate]
            free = sorted([*free, ends[it.crate]])
        return (max(ends.values(), default=now) - now) / 60

    def told(self):
        names = ", ".join(it.name() for it in self.running)
        done = self.total - len(self.left) - len(self.running)
        return f"at work on {names}; {done} of {self.total} are done, {len(self.left)} wait; some {self.minutes():.0f} minutes are left"


def all_done(uses, tasks, record):
    """Runs the tasks side by side, and says on standard error which. Whether all ended well; at the first that doesn't the others end."""
    plan, runs = Plan(uses, tasks), Runs(uses, record)
    try:
        while plan.left or plan.running:
            for task, jobs, nice in plan.begun():
                runs.start(task, jobs, nice)
            crates.say(plan.told())
            task = runs.ended.get()
            plan.running.remove(task)
            if task.status != 0:
                sys.stderr.write(task.text)
                crates.say(f"{task.name()} failed")
                return False
        return True
    finally:
        runs.stop()


def all_proved(uses, wanted):
    """Proves these crates, of which each stands with all beneath it, as far as they aren't; whether all are."""
    record = crates.Record(uses)
    left = [it for it in uses if it in wanted and not record.has(it)]
    if len(left) != len(wanted):
        crates.say(f"{len(wanted) - len(left)} of {len(wanted)} crates are proved already")
    if not all_done(uses, [Task("lib", it) for it in left], record):
        return False
    crates.say(f"{len(wanted)} of {len(wanted)} crates are proved")
    return True


def ended_by_signals(main):
    """Runs `main` so that Ctrl-C, a closed terminal and `kill` end it in order, and ends with its status."""
    def end(number, _):
        signal.signal(number, signal.SIG_IGN)
        crates.say(f"ended by {signal.Signals(number).name}")
        sys.exit(128 + number)

    for it in (signal.SIGINT, signal.SIGTERM, signal.SIGHUP):
        signal.signal(it, end)
    sys.exit(main())
