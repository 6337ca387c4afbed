"""Another program writes the volume without a lock while an edit reads it: what the edit read is compared before its first write."""
from suite import devices
from suite.program import whole

TOLD = b"luks: v: another program wrote it meanwhile, nothing was written\n"
UUID = "11111111-2222-4333-8444-555555555555"
# of each version: the edit, the bytes that are compared, and a byte whose change before it is read is no reason to refuse the volume
EDITS = {"luks1": (["uuid", "v", UUID, "--random", "/dev/urandom"], 592, 206), "luks2": (["label", "v", "disk", "--random", "/dev/urandom"], 32768, 16600)}


def reads(run, name):
    """How many reads the edit makes before it compares, and how many in all before its first write."""
    devices.lay("v", name)
    calls = [call for call in run.luks(*EDITS[name][0], devices="v:-:-").calls[1] if call[0] != "f"]
    before = [call[1:] for call in calls[:next(i for i, call in enumerate(calls) if call[0] == "w")]]
    again = next(i for i, (at, _) in enumerate(before) if i > 0 and at == 0)
    return again, len(before)


def test_what_was_read_is_compared_whole(run):
    """Each byte that counts is read once, and once more before the first write."""
    for name, (_, length, _) in EDITS.items():
        devices.lay("v", name)
        calls = run.luks(*EDITS[name][0], devices="v:-:-").calls[1]
        seen = [0] * length
        for call in calls[:next(i for i, call in enumerate(calls) if call[0] == "w")]:
            for at in range(call[1], min(call[1] + call[2], length)):
                seen[at] += 1
        assert seen == [2] * length, (name, sorted(set(seen)))


def test_a_changed_byte_stops_the_edit(run):
    for name, (words, length, _) in EDITS.items():
        again, _ = reads(run, name)
        for at in (0, length // 2, length - 1):
            devices.lay("v", name)
            want = bytearray(whole("v"))
            ran = run.luks(*words, devices="v:-:-", meddle=f"{again} {at}")
            want[at] = ord("c")
            assert (ran.status, ran.out, TOLD in ran.err, whole("v") == want) == (4, b"device fault\n", True, True), (name, at, ran.err)
            assert all(call[0] == "r" for call in ran.calls[1]), (name, at)


def test_a_byte_that_was_not_read_does_not(run):
    """One behind what is compared, and one that was changed before it was read."""
    for name, (words, length, harmless) in EDITS.items():
        again, _ = reads(run, name)
        for number, at in ((again, length), (again, length + 1000), (0, harmless)):
            devices.lay("v", name)
            ran = run.luks(*words, devices="v:-:-", meddle=f"{number} {at}")
            assert (ran.status, ran.out) == (0, b"done\n"), (name, number, at, ran.err)
            assert run.luks("check", "v").status in (0, 3)
            assert at < length or whole("v")[at] == ord("c")
