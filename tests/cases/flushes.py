"""Flushes: each is an fsync of the file, and one that fails ends the command with nothing written behind it."""
import os

from suite import devices
from suite.program import put

RANDOM = "--random=r"
# of each: the words, and the device that it writes
COMMANDS = [
    (["label", "v", "x", RANDOM], 1), (["change", "v", "--slot=0", "--passphrase=p", "--new=n", RANDOM, "--iterations=1000"], 1), (["erase", "v", "--all", RANDOM], 1),
    (["backup", "v", "t", "--over"], 2), (["restore", "t", "v"], 1), (["convert", "1", "t", RANDOM, "--over"], 2), (["rebuild", "d", "t", RANDOM, "--over"], 2),
    (["format", "v", "--over", "--version=1", "--passphrase=p", RANDOM, "--iterations=1000"], 1),
]


def lay_all(run, words):
    """The volume of each name, and as many random bytes as the command takes."""
    count = {"label": 128, "change": 2656, "erase": 128, "convert": 128, "rebuild": 144, "format": 256080}.get(words[0], 0)
    put("r", bytes(i % 251 for i in range(count)))
    put("p", b"one")
    put("n", b"three")
    devices.lay("v", length=2097152 if words[0] == "format" else 66048)
    if words[0] == "restore":
        devices.remove("t")
        run.luks("backup", "v", "t")
    else:
        devices.lay("t", None, length=16777216)
    devices.lay("1", "luks1")
    devices.lay("d", "damaged")


def names(words):
    """The volume's name and the target's, as the shim has them."""
    return {"backup": "v:t:r", "restore": "v:t:r", "convert": "1:t:r", "rebuild": "d:t:r"}.get(words[0], "v:-:r")


def test_each_flush_is_a_sync_of_the_file(run):
    for words, device in COMMANDS:
        lay_all(run, words)
        ran = run.luks(*words, devices=names(words), system=1)
        log = ran.log.splitlines()
        flushes = [i for i, line in enumerate(log) if line in (f"f {device}", f"o {device}")]
        assert ran.status == 0 and len(flushes) > 1 and "fdatasync" not in log, (words, ran.err)
        assert all(log[i - 1] == "fsync" for i in flushes), words
        writes = [i for i, line in enumerate(log) if line.startswith(f"w {device} ")]
        assert writes and writes[-1] < flushes[-1], (words, "what is written last is flushed")


def test_nothing_is_written_once_a_flush_failed(run):
    for words, device in COMMANDS:
        lay_all(run, words)
        count = sum(call == ("f",) for call in run.luks(*words, devices=names(words)).calls[device])
        for number in range(count):
            lay_all(run, words)
            ran = run.luks(*words, devices=names(words), fail=f"{('volume', 'target')[device - 1]} flush {number} new")
            calls = ran.calls[device]
            failed = [i for i, call in enumerate(calls) if call == ("f",)][number]
            assert (ran.status, ran.out) == (4, b"device fault\n"), (words, number, ran.out, ran.err)
            assert not any(call[0] == "w" for call in calls[failed:]), (words, number)


def test_the_flush_that_opens_a_volume(run):
    """What an earlier program left unsettled is flushed before anything is read; if that fails nothing is."""
    for words, device in COMMANDS:
        if device == 1:
            lay_all(run, words)
            ran = run.luks(*words, devices=names(words), opening=1, fail="volume call 0 old")
            assert ran.status == 4 and ran.calls[1] == [("f",)], (words, ran.calls[1][:3], ran.err)
            assert os.path.getsize("v") in (66048, 2097152)
