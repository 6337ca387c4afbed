"""Steps that run a command again and again: each call of a device fails in turn, memory is refused, standard output takes less."""
import hashlib
import os

from suite import failing
from suite.commands import DEVICES, run_command
from suite.disks import front_of
from suite.making import unescaped
from suite.program import put

MOST_RUNS = 100000
NOT_LAST = "isn't the last"


def begin(session):
    session.probes, session.opened = [], {}


class Before:
    """The volumes before a run, to be put back."""

    def __init__(self, session):
        self.session = session
        self.disks = [(disk, disk.extents(), disk.kept) if disk else None for disk in (session.volume, session.target)]

    def put_back(self):
        session, old = self.session, [it and it[0] for it in self.disks]
        for it in self.disks:
            if it:
                disk, extents, kept = it
                disk.restore(extents)
                disk.kept = kept
        for disk in (session.volume, session.target):
            if disk and disk not in old:
                disk.remove()
        session.volume, session.target = old


def fronts(session):
    return front_of(session.volume), front_of(session.target)


def probe(session, _, rest):
    """What is asked after each run of the next `each`: of the volume, or behind `target` of the target."""
    session.probes.append(rest)


def holds(session, question):
    """Whether `check` accepts the device (`accepted`; a target as a detached header), or the keyslot of this number opens by now (`N PASSPHRASE`): of
    any cipher and hash, and by Argon2 with up to 2 MiB."""
    is_target = question.startswith("target ")
    disk = session.target if is_target else session.volume
    key = hashlib.sha256(repr(disk.extents()).encode()).digest(), question
    if key not in session.opened:
        asked = question.removeprefix("target ")
        if asked == "accepted":
            words = ["check", disk.path, *["--detached"] * is_target]
        else:
            slot, passphrase = asked.split(" ", 1)
            put("@probe", unescaped(passphrase))
            words = ["open", disk.path, "--passphrase", "@probe", "--slot", slot, "--older", "--memory", "2"]
        session.opened[key] = session.program.run(words).status in (0, 3)
    return session.opened[key]


class Group:
    """Runs one after another that told the same: what, which probes opened behind them, and whether all left the volumes as they were."""

    def __init__(self, told, opened, kept):
        self.told, self.opened, self.kept = told, opened, kept

    def text(self):
        probes = "".join(f", {question}" for question in self.opened)
        return self.told.text() + (b" kept" if self.kept else b"") + probes.encode() + b"\n"


def each(session, line, rest):
    """While each call of the device fails in turn, and then while none does."""
    session.says(line)
    device, left, text = rest.split(" ", 2)
    text = text.removeprefix("$ ")
    trouble, before, old, groups = failing.take_trouble(session), Before(session), fronts(session), []
    for call in range(MOST_RUNS):
        told = run_command(session, text, {**trouble, "fail": [(device, f"call {call} {left}")]})
        failures = session.asked.failures[DEVICES[device]]
        kept, opened = fronts(session) == old, [it for it in session.probes if holds(session, it)]
        if groups and groups[-1].told.key() == told.key() and groups[-1].opened == opened:
            groups[-1].kept = groups[-1].kept and kept
        else:
            groups.append(Group(told, opened, kept))
        before.put_back()
        if not failures:
            break
    for group in groups:
        session.emit(group.text())
    session.probes = []


# --- torn: what a failing call leaves, byte for byte

def content(session, device):
    disk = session.volume if device == "volume" else session.target
    return disk.read(0, disk.kept)


def left_behind(old, at, new, left):
    """What is left of a failing write of these bytes."""
    part = {"old": b"", "new": new, "half": new[:len(new) // 2], "ones": b"\xff" * len(new)}[left]
    return replaced(old, at, part)


def replaced(old, at, part):
    part = part[:max(len(old) - at, 0)]
    return old[:at] + part + old[at + len(part):]


def written(calls, data):
    """Each call's place and bytes, of those that were written one behind the other; of another call none."""
    done = 0
    for call in calls:
        length = call[2] if call[0] == "w" else 0
        yield call[1] if length else 0, data[done:done + length]
        done += length


def torn(session, line, rest):
    session.says(line)
    device, left, text = rest.split(" ", 2)
    text = text.removeprefix("$ ")
    before, owed = Before(session), content(session, device)
    run_command(session, text, bytes="@bytes")
    calls, done, after = session.asked.calls[DEVICES[device]], Before(session), content(session, device)
    with open("@bytes", "rb") as file:
        parts = list(written(calls, file.read()))
    before.put_back()
    for number, (at, new) in enumerate(parts):
        run_command(session, text, {"fail": [(device, f"call {number} {left}")]})
        wrong = wrong_of(session, device, number, left_behind(owed, at, new, left))
        if wrong == NOT_LAST and calls[number][0] == "r" and content(session, device) == after:
            wrong = "is passed over"
        before.put_back()
        if wrong:
            session.emit(f"call {number} {wrong}\n")
        owed = replaced(owed, at, new)
    if after != owed:
        session.emit("other bytes are left if none fails\n")
    done.put_back()


def wrong_of(session, device, number, owed):
    """What isn't as it has to be if the call of this number failed."""
    if len(session.asked.calls[DEVICES[device]]) != number + 1:
        return NOT_LAST
    if sum(session.asked.failures.values()) != 1:
        return "isn't the only failure"
    return None if content(session, device) == owed else "leaves other bytes"


# --- full outputs and refused memory

def rooms(session, line, rest):
    """While standard output takes each number of bytes less than is printed."""
    session.says(line)
    text = rest.removeprefix("$ ")
    before, whole = Before(session), run_command(session, text)
    done, left = Before(session), fronts(session)
    for room in range(len(whole.out) + 1):
        before.put_back()
        told = run_command(session, text, {"room": [("out", room)]})
        is_same = fronts(session) == left
        if told.status != (4 if room < len(whole.out) else whole.status) or not is_same:
            session.emit(f"{room} bytes: = {told.status}, the same is left: {str(is_same).lower()}\n")
    done.put_back()
    session.emit(whole.text() + b"\n")


# what a run may say that is refused memory, beside what the run says that isn't
OF_MEMORY = (b": no memory to read it\n", b": memory was refused: end other programs, or try it on a machine with more\n",
             b"memory for the command line was refused\n")


class Refused:
    """The runs that were refused memory: what they said, and what those left that didn't leave the volumes as they were."""

    def __init__(self, old):
        self.old, self.said, self.left, self.answered, self.any = old, set(), [], [], False

    def add(self, told, left):
        self.left += [left] if left != self.old else []
        if not told.is_refused_memory():
            # what was refused wasn't needed for the answer
            self.answered.append((told.out, told.status))
            return
        self.any = True
        self.said.update(line for line in told.err.splitlines(True) if line.endswith(b"\n") and not line.endswith(OF_MEMORY))

    def text(self, told, after):
        """What is printed of them: that they left the volumes as they were, or as the run that is refused none; and what no run should say."""
        text = b"".join(b"! " + line for line in sorted(self.said - set(told.err.splitlines(True))))
        text += b"".join(b"answered %d %s" % (status, out) for out, status in self.answered if (out, status) != (told.out, told.status))
        return b"no memory\n" + text + b"= 4" + (b" kept" if all(left == after for left in self.left) else b"") + b"\n"


def memory(session, line, rest):
    """With no memory, and then one allocation more at a time, until none is refused; `memory 0` is with none alone."""
    session.says(line)
    most, text = rest.split(" ", 1)
    text = text.removeprefix("$ ")
    trouble, before, old = failing.take_trouble(session), Before(session), fronts(session)
    refused = Refused(old)
    for number in range(MOST_RUNS):
        told, after = run_command(session, text, trouble, memory=number), fronts(session)
        if not session.asked.lacked_memory:
            break
        refused.add(told, after)
        before.put_back()
        if int(most) == 0:
            break
    if refused.any:
        session.emit(refused.text(told, after))
    if not session.asked.lacked_memory:
        session.emit(Group(told, [], after == old).text())


STEPS = {"probe": probe, "each": each, "torn": torn, "rooms": rooms, "memory": memory}
