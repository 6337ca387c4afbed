"""Locks: which calls a command makes to open a volume, whose lock it waits for, and what it says if it has none."""
import errno
import fcntl
import os
import threading
import time

from suite import devices

READS, WRITES = ["check", "v"], ["label", "v", "x", "--random", "/dev/urandom"]
FOLDER, NAMED = "/run/cryptsetup", "/run/cryptsetup/L_7:3"
NOT_HELD = "luks: v: no lock is held in /run/cryptsetup, so cryptsetup isn't kept out\n"
NO_LOCKS = "luks: v: no lock is held, since its file system knows none\n"
EDITING = "luks: v: another program is editing it\n"
MAYBE_EDITED = "luks: v: another program is editing it, so the answer may be of an unfinished edit\n"
# the calls on the file that stands for a block device, if it is there and its lock is had
NAME_CALLS = [f"mkdir {FOLDER}", f"lstat {FOLDER}", f"lstat {NAMED}", f"open > {NAMED}"]
STILL_THERE = ["fstat ", f"lstat {NAMED}"]


def opening(ran):
    """The calls that open the volume, up to the flush of one that is to be written, or up to the first read."""
    log = ran.log.splitlines()
    start = next(i for i, line in enumerate(log) if line in ("open < v", "open > v")) - 1
    end = next((i for i, line in enumerate(log) if line == "o 1" or line.startswith("r 1 ")), len(log))
    found = log[start:end]
    return found[:-1] if found[-1] == "fstat " else found


def block(number="7:3"):
    """The settings by which `v` looks like this block device."""
    return {"block": f"v:{number}", "root": devices.system(number), "system": 1}


def outcome(ran):
    """What came of it: its status, and what standard error says of the lock."""
    said = ran.err.decode()
    return ran.status, [line for line in (EDITING, MAYBE_EDITED, NO_LOCKS, NOT_HELD) if line in said]


def test_regular_file_is_locked_once_open(run):
    devices.lay("v")
    ran = run.luks(*READS, system=1, devices="v:-:-")
    assert (opening(ran), outcome(ran)) == (["stat v", "open < v", "fstat ", "flock shared"], (0, [])), ran.log
    ran = run.luks(*WRITES, system=1, devices="v:-:-")
    assert (opening(ran), outcome(ran)) == (["stat v", "open > v", "fstat ", "flock exclusive", "fsync"], (0, [])), ran.log


def test_a_lock_is_asked_for_again_after_a_pause(run):
    devices.lay("v")
    ran = run.luks(*WRITES, system=1, devices="v:-:-", clock=1, locks="taken unknown")
    calls = ["stat v", "open > v", "fstat ", "flock exclusive", "sleep 50", "flock exclusive", "fsync"]
    assert (opening(ran), outcome(ran)) == (calls, (0, [NO_LOCKS])), ran.log


def test_what_is_no_volume_is_not_opened(run):
    for make in (os.mkdir, os.mkfifo):
        make("v")
        for words in (READS, WRITES):
            ran = run.luks(*words, system=1)
            assert ran.status == 4 and b"v: neither a regular file nor a block device\n" in ran.err, ran.err
            assert "stat v" in ran.log and "open < v" not in ran.log and "open > v" not in ran.log, ran.log
        os.rmdir("v") if os.path.isdir("v") else os.unlink("v")


def test_a_read_only_block_device_is_not_locked(run):
    devices.lay("v")
    settings = block()
    devices.put_text("@system/sys/dev/block/7:3/ro", "1\n")
    ran = run.luks(*WRITES, devices="v:-:-", **settings)
    assert ran.status == 4 and b"v: its file system or its device is read-only\n" in ran.err, ran.err
    assert opening(ran) == ["stat v", "open > v", "fstat ", "open < /sys/dev/block/7:3/ro"], ran.log
    assert not os.path.exists("@system/run/cryptsetup")


def test_the_file_of_a_block_device_is_made(run):
    devices.lay("v")
    ran = run.luks(*WRITES, devices="v:-:-", **block())
    calls = ["stat v", "open > v", "fstat ", "open < /sys/dev/block/7:3/ro", "flock exclusive", *NAME_CALLS, "flock exclusive", *STILL_THERE, "fsync"]
    assert (opening(ran), outcome(ran)) == (calls, (0, [])), ran.log
    assert [oct(os.stat("@system" + name).st_mode % 0o1000) for name in (FOLDER, NAMED)] == ["0o700", "0o600"]


def test_another_file_gets_the_name_meanwhile(run):
    """Once the lock is held the name is another file's: the lock is asked for again, of that one."""
    devices.lay("v")
    settings = block()
    os.makedirs("@system" + FOLDER)
    devices.put_text("@system" + NAMED, "")
    devices.put_text("other", "")
    ran = run.luks(*READS, devices="v:-:-", clock=1, exchange=f"flock 1 {NAMED} other", **settings)
    once = ["flock shared", *NAME_CALLS, "flock shared", *STILL_THERE]
    assert (opening(ran), outcome(ran)) == (["stat v", "open < v", "fstat ", *once, "sleep 50", *once], (0, [])), ran.log


def test_another_program_has_the_name_for_a_while(run):
    devices.lay("v")
    settings = block()
    os.makedirs("@system" + FOLDER)
    devices.put_text("@system" + NAMED, "")
    ran = run.luks(*WRITES, devices="v:-:-", clock=1, locks="asked taken asked", **settings)
    once = ["flock exclusive", *NAME_CALLS, "flock exclusive"]
    calls = ["stat v", "open > v", "fstat ", "open < /sys/dev/block/7:3/ro", *once, "sleep 50", *once, *STILL_THERE, "fsync"]
    assert (opening(ran), outcome(ran)) == (calls, (0, [])), ran.log


def test_a_lock_is_waited_for_60_times(run):
    devices.lay("v")
    with open("v", "rb") as other:
        fcntl.flock(other, fcntl.LOCK_EX)
        for words, share, owed in ((WRITES, "exclusive", (4, [EDITING])), (READS, "shared", (0, [MAYBE_EDITED]))):
            ran = run.luks(*words, system=1, clock=1)
            assert (ran.log.count(f"flock {share}\n"), ran.log.count("sleep 50\n"), outcome(ran)) == (60, 59, owed), ran.err
    assert outcome(run.luks(*WRITES)) == (0, []), "the lock was let go"


def test_readers_share_a_lock(run):
    devices.lay("v")
    with open("v", "rb") as other:
        fcntl.flock(other, fcntl.LOCK_SH)
        assert outcome(run.luks(*READS, clock=1)) == (0, [])
        assert outcome(run.luks(*WRITES, clock=1)) == (4, [EDITING])


def test_the_pause_takes_time(run):
    """By the system's clock: a program that holds the lock for a fifth of a second is waited for, with few tries."""
    devices.lay("v")
    other = open("v", "rb")
    fcntl.flock(other, fcntl.LOCK_EX)
    threading.Timer(0.2, other.close).start()
    before = time.monotonic()
    ran = run.luks(*WRITES, system=1)
    tries = ran.log.count("flock exclusive\n")
    assert outcome(ran) == (0, []) and time.monotonic() - before >= 0.19 and 2 <= tries <= 6, (tries, ran.err)


def test_names_by_the_numbers_of_a_block_device(run):
    """The last is 12345678 and 9abcdef0 in hexadecimal digits: each has more than 20 bits."""
    devices.lay("v")
    for number in ("7:0", "3:257", "253:3", "305419896:2596069104"):
        assert outcome(run.luks(*WRITES, devices="v:-:-", **block(number))) == (0, [])
        assert os.listdir("@system" + FOLDER) == [f"L_{number}"]
        devices.remove("@system")


def test_the_name_keeps_others_out(run):
    devices.lay("v")
    settings = block()
    run.luks(*READS, **settings)
    for how, reads in ((fcntl.LOCK_EX, [MAYBE_EDITED]), (fcntl.LOCK_SH, [])):
        with open("@system" + NAMED, "rb") as other:
            fcntl.flock(other, how)
            assert outcome(run.luks(*READS, clock=1, **settings)) == (0, reads)
            assert outcome(run.luks(*WRITES, clock=1, **settings)) == (4, [EDITING])
    assert outcome(run.luks(*WRITES, **settings)) == (0, [])


def test_no_symbolic_link_is_followed(run):
    devices.lay("v")
    settings = block()
    devices.put_text("aim", "aim")
    os.makedirs("@system" + FOLDER)
    os.symlink(os.path.abspath("aim"), "@system" + NAMED)
    assert outcome(run.luks(*WRITES, **settings)) == (0, [NOT_HELD])
    os.rename("@system" + FOLDER, "real")
    os.unlink("real/L_7:3")
    os.symlink(os.path.abspath("real"), "@system" + FOLDER)
    assert outcome(run.luks(*WRITES, **settings)) == (0, [NOT_HELD])
    with open("aim", encoding="utf-8") as aim:
        assert aim.read() == "aim" and os.listdir("real") == []


def test_which_lock_is_not_held_is_said(run):
    devices.lay("v")
    settings = block()
    for deny, locks, owed in ((None, "unknown asked", [NO_LOCKS]), (errno.EACCES, "asked", [NOT_HELD]), (errno.EACCES, "unknown", [NO_LOCKS, NOT_HELD])):
        ran = run.luks(*READS, clock=1, locks=locks, deny=f"{NAMED}:{deny}" if deny else None, **settings)
        assert outcome(ran) == (0, owed), ran.err
    assert outcome(run.luks(*READS, locks="asked taken", clock=1, **settings)) == (0, [MAYBE_EDITED])
