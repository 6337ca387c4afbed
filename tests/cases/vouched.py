"""What the checksum of a copy of a LUKS2 header vouches for, of volumes of which both copies are damaged; and what a terminal shows of the search."""
import itertools
import os
import pty
import re

from suite import devices
from suite.program import put, whole

import vouching

SIZE, AREA = 16384, 4096
# by wipefs: no header counts, whatever else is damaged
WIPED = [(0, bytes(6)), (SIZE, bytes(6))]
# the other copy's checksum is of nothing, so that one copy's alone can vouch
NO_CHECKSUM = {"first": [(SIZE + 448, b"\xff" * 64)], "second": [(448, b"\xff" * 64)]}
# what is damaged, runs of equal bytes that are written there (place, byte, count), and whether the first copy's checksum and the second's still vouch
DAMAGES = [
    ("both magics, as by wipefs", [], (True, True)),
    ("a bit of the first seqid", [(23, 3, 1)], (False, True)),
    ("a bit of the first size", [(14, 0x41, 1)], (False, True)),
    ("a bit of the first label", [(24, 1, 1)], (False, True)),
    ("a bit of the first uuid", [(168, 0x31, 1)], (False, True)),
    ("a byte of the first checksum", [(448, 0, 2)], (False, True)),
    ("a byte behind the first checksum", [(480, 1, 1)], (True, True)),
    ("a byte of the second subsystem", [(16592, 1, 1)], (True, False)),
    ("the second binary header", [(16384, 0xff, 4096)], (True, False)),
    ("a sector of the first area, another of the second", [(4096, 0, 1), (21000, 0x58, 1)], (True, True)),
    ("these, and the first binary header", [(0, 0, 4096), (4096, 0, 1), (21000, 0x58, 1)], (False, True)),
    ("two bytes of one sector, one in each area", [(4200, 0x58, 1), (20490, 0x58, 1)], (True, True)),
    ("these, and seventeen of another sector in each area", [(4200, 0x58, 1), (20490, 0x58, 1), (4700, 0x58, 17), (21600, 0x58, 17)], (True, True)),
    ("one byte of both areas", [(4200, 0x58, 1), (20584, 0x58, 1)], (False, False)),
    ("a sector of both areas", [(4608, 0xff, 512), (20992, 0xee, 512)], (False, False)),
    ("what stands behind both texts", [(8192, 0xff, 8192), (24576, 0xee, 8192)], (True, True)),
    ("this, and the first text", [(4096, 0xff, 12288), (24576, 0xee, 8192)], (True, True)),
    ("a partition table over the first copy", [(0, 0, 17408)], (False, False)),
    ("the first area, whole", [(4096, 0xff, 12288)], (True, True)),
    ("more sectors than are tried, on both sides of a border", [(4096, 0xff, 5120), (25600, 0xff, 7168)], (True, True)),
    ("more sectors than are tried, and two borders", [(4096, 0xff, 512), (20992, 0xff, 512), (8192, 0xff, 4096), (28672, 0xff, 4096)], (False, False)),
]


def vouches(run, damage):
    """Whether the first copy's checksum vouches for the metadata of the damaged volume, and whether the second's does: each is asked alone."""
    found = []
    for copy, more in NO_CHECKSUM.items():
        devices.lay("v", "two-hashes", [*damage, *WIPED, *more])
        ran = run.luks("check", "v", logs=False)
        assert ran.status == 1, ran.out
        found.append(f"luks: vouched by the checksum of the {copy} copy\n".encode() in ran.err)
    return tuple(found)


def test_damages(run):
    for what, runs, owed in DAMAGES:
        assert vouches(run, [(at, bytes([byte]) * count) for at, byte, count in runs]) == owed, what


def test_three_sectors_of_each_copy(run):
    """Every three of the first eight sectors of one copy's metadata, and three others of the other copy's."""
    for three in itertools.combinations(range(8), 3):
        others = (three[2] + 1, 23, 15)
        for places in ((three, others), (others, three)):
            damage = [(at + AREA + 100 + 512 * k, b"\xaa") for at, sectors in zip((0, SIZE), places) for k in sectors]
            assert vouches(run, damage) == (True, True), places


def test_from_where_on_the_search_is_cut(run):
    """Up to 16 bytes of a sector that differ are tried each on its own, and 2^16 compositions are too many; 17 are one piece, as a whole sector is."""
    for count, owed in ((0, False), (10, False), (16, True), (17, False), (10 * 512, False), (11 * 512, True)):
        # the first copy's checksum is of nothing that can be composed, and the second copy has none
        volume = devices.lay("v", "two-hashes", [*WIPED, (448, b"\xff"), (SIZE, bytes(4096)), (AREA, b"\xaa" * count)])
        areas = volume.read(AREA, SIZE), volume.read(SIZE + AREA, 2 * SIZE)
        assert vouching.is_cut_short(*areas, vouching.WHOLE[False]) == owed, count
        ran = run.luks("check", "v", logs=False)
        assert (b"not all was tried that the checksum of the first copy may vouch for" in ran.err) == owed, (count, ran.err)


def test_what_a_terminal_shows_of_the_search(run):
    """How many compositions of how many were tried, of sectors and then of pieces, in a line that is taken away at the end."""
    # ten sectors differ, and the checksum is of none of their compositions
    devices.lay("v", "two-hashes", [*WIPED, (448, b"\xff"), (SIZE, bytes(4096)), (AREA, b"\xaa" * (10 * 512)), (SIZE + AREA + 10, b"\1")])
    put("r", bytes(144))
    devices.lay("t", None)
    words = ["rebuild", "v", "t", "--random=r"]
    assert b"compositions" not in run.luks(*words, clock=1).err
    ours, theirs = pty.openpty()
    os.set_blocking(ours, False)
    run.luks(*words, clock=1, err=os.ttyname(theirs))
    shown = b""
    try:
        while part := os.read(ours, 65536):
            shown += part
    except BlockingIOError:
        pass
    os.close(theirs)
    os.close(ours)
    lines = re.findall(rb"\rluks: (\d+) of (\d+) compositions, \d+ a second    ", shown)
    tried = [(str(64 * n).encode(), b"1024") for n in range(1, 17)]
    assert lines == tried + tried, shown[:400]
    assert b"compositions, " not in shown[shown.rindex(b"\r" + b" " * 60 + b"\r"):] and not whole("t").strip(b"\0")


test_three_sectors_of_each_copy.takes = 3000


def test_each_failed_read(run):
    """Of a volume of which no header counts: the device's fault is told, or that a checksum vouches for the metadata isn't said, and which bytes failed."""
    devices.lay("v", "two-hashes", WIPED)
    calls = run.luks("check", "v", devices="v:-:-").calls[1]
    told = set()
    for number in range(len(calls)):
        ran = run.luks("check", "v", devices="v:-:-", fail=f"volume call {number} old")
        assert b"couldn't be read\n" in ran.err and (ran.status, ran.out) in ((4, b"device fault\n"), (1, b"refused NotLuks\n")), (number, ran.out, ran.err)
        told.add(ran.status)
    assert told == {1, 4} and len(calls) > 3, (told, calls)
