"""`backup --rescue` of disks of which one read fails: what is lost is told, and is one sector of the file; all else is the volume's."""
from suite import devices
from suite.program import put, whole

SECTOR, END = 512, 65536
# each volume: bytes behind the stripes of its keyslots, so that no sector of their areas holds zeros alone, and the areas
VOLUMES = {"luks1": ([], [(4096, 2560)]), "luks2": ([(35328, b"\x5a" * 1536), (39424, b"\x5a" * 1536)], [(32768, 4096), (36864, 4096)])}


def rescued(run, name, number=None):
    """What `backup --rescue` tells, and the file, with the read of this number failing."""
    devices.lay("v", name, VOLUMES[name][0])
    before = whole("v")
    devices.remove("t")
    ran = run.luks("backup", "v", "t", "--rescue", devices="v:t:-", fail=None if number is None else f"volume call {number} old")
    assert whole("v") == before
    return ran


def lacking(made, whole_backup):
    """The sectors in which the file differs, each of which has to be zeros."""
    found = [at for at in range(0, END, SECTOR) if made[at:at + SECTOR] != whole_backup[at:at + SECTOR]]
    assert len(made) == END and not any(made[at:at + SECTOR].strip(b"\0") for at in found), found
    return found


def test_each_failed_read(run):
    """One of the header's ends it; of the key areas each sector is read once, and is lost alone."""
    for name, (_, areas) in VOLUMES.items():
        calls = rescued(run, name).calls[1]
        backup = whole("t")
        lost, of_header = [], 0
        for number in range(len(calls)):
            ran = rescued(run, name, number)
            if ran.out == b"device fault\n":
                of_header += 1
                continue
            sectors = lacking(whole("t"), backup)
            at = sectors[0] if sectors else None
            slot = next((n for n, (start, length) in enumerate(areas) if at is not None and start <= at < start + length), None)
            assert len(sectors) == 1 and slot is not None, (name, number, ran.out, sectors)
            assert (ran.out, ran.status) == (f"keyslot {slot} damaged\nrescued\n".encode(), 1) and f"bytes {at} to {at + 511} couldn't be read".encode() in ran.err, ran.out
            lost.append(at)
        assert lost == [at for start, length in areas for at in range(start, start + length, SECTOR)] and of_header > 0, (name, lost, of_header)


def test_what_opens_by_the_file(run):
    put("one", b"one")
    put("two", b"two")
    # the read of the second sector of keyslot 0's area
    calls = rescued(run, "luks2").calls[1]
    ran = rescued(run, "luks2", calls.index(("r", 33280, 512)))
    assert ran.out == b"keyslot 0 damaged\nrescued\n", ran.out
    assert run.luks("open", "t", "--slot=0", "--passphrase=one").out == b"slot 0 does not open\n"
    assert run.luks("open", "t", "--slot=1", "--passphrase=two").out == b"slot 1 opens\n"
