"""Steps that look at what is left of the volumes, and at the calls of the last command."""
import hashlib
import os
import re

from suite.disks import front_of
from suite.making import unescaped
from suite.commands import DEVICES


def begin(session):
    session.remembered = None


def yes(holds):
    return "yes" if holds else "no"


def sha256(data):
    return hashlib.sha256(data).hexdigest()


def spelled(call):
    return f"w{call[1]}+{call[2]}" if call[0] == "w" else call[0]


def kept_part(session, start, stop):
    return session.volume.part(int(start), int(stop))


def to_next_zero(session, at):
    """The bytes from there to the next zero."""
    return session.volume.part(int(at), session.volume.kept).split(b"\0")[0]


def sum_of(session, line, rest):
    session.answer(line, sha256(kept_part(session, *rest.split(" "))))


def target_sum(session, line, rest):
    session.answer(line, sha256(session.target.part(*map(int, rest.split(" ")))))


def bytes_of(session, line, rest):
    session.answer(line, kept_part(session, *rest.split(" ")).hex())


def all_of(session, line, rest):
    digits, start, stop = rest.split(" ")
    session.answer(line, yes(set(kept_part(session, start, stop)) <= {int(digits, 16)}))


def longest(session, line, rest):
    digits, start, stop = rest.split(" ")
    runs = re.findall(b"(?:" + re.escape(bytes.fromhex(digits)) + b")+", kept_part(session, start, stop))
    session.answer(line, max(map(len, runs), default=0))


def ended(session, line, rest):
    part = kept_part(session, *rest.split(" "))
    session.answer(line, yes(not part[part.find(b"\0"):].strip(b"\0") if b"\0" in part else True))


def length(session, line, at):
    session.answer(line, len(to_next_zero(session, at)))


def holds(session, line, rest):
    at, text = rest.split(" ", 1)
    session.answer(line, yes(text.encode() in to_next_zero(session, at)))


def keep(session, *_):
    session.remembered = front_of(session.volume)


def kept(session, line, _):
    session.answer(line, yes(session.remembered == front_of(session.volume)))


def left(session, line, _):
    session.answer(line, session.left)


def untouched(session, line, _):
    disk = session.target
    session.answer(line, yes(not disk or not os.path.exists(disk.path) or not disk.part(0, disk.kept).strip(b"\x55")))


def list_calls(session, line, found):
    session.told.append((line, f"{line}:{''.join(' ' + spelled(call) for call in found)}\n".encode()))


def calls(session, line, device):
    list_calls(session, line, session.asked.calls[DEVICES[device]])


def ranges(session, line, device):
    """The writes and flushes; neighbouring writes are one."""
    found = []
    for call in session.asked.calls[DEVICES[device]]:
        last = found[-1] if found else ("f",)
        if call[0] == "w" == last[0] and last[1] + last[2] == call[1]:
            found[-1] = "w", last[1], last[2] + call[2]
        elif call[0] != "r":
            found.append(call)
    list_calls(session, line, found)


def at_least(session, line, rest):
    device, number = rest.split(" ")
    session.answer(line, yes(int(number) <= len(session.asked.calls[DEVICES[device]])))


def beyond(session, line, device):
    """How many writes, or reads, reached beyond what is kept of the disk."""
    kind = "w" if line.startswith("beyond") else "r"
    disk = session.volume if device == "volume" else session.target
    found = [(call[1], call[1] + call[2]) for call in session.asked.calls[DEVICES[device]] if call[0] == kind]
    session.answer(line, sum(end > disk.kept and not disk.back[0] <= at <= end <= disk.back[1] for at, end in found))


STEPS = {"sum": sum_of, "target-sum": target_sum, "bytes": bytes_of, "all": all_of, "longest": longest, "ended": ended, "length": length,
         "holds": holds, "keep": keep, "kept": kept, "left": left, "untouched": untouched, "calls": calls, "ranges": ranges,
         "at-least": at_least, "beyond": beyond, "reads-beyond": beyond}
