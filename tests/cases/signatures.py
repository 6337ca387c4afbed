"""What else a disk is used for: `check` names it by each signature of testdata/oracle/uses.py, and only if each of its bytes is there."""
import re

from suite import devices
from suite.program import put

import uses

# the least bytes of a disk of which more is said than that it is too short
LEAST = 592
# bytes of uberblocks at places of both labels that ZFS has at the start, in both orders
ZFS = [(131072, "little"), (131072, "big"), (132096, "little"), (135168, "big"), (261120, "little"), (393216, "big"), (393216, "little"), (523264, "big")]
SIGNATURES = [(name, stands.place, text) for name, stands in uses.ROWS if hasattr(stands, "place") for text in stands.texts]
SIGNATURES += [("ZFS", place, uses.UBERBLOCK.to_bytes(8, order)) for place, order in ZFS]
END = (510, b"\x55\xaa")
# disks of 4608 bytes, zeros except for these, and what they show: the first of several signatures; a partition if an entry has a type and sectors; a table
# without one if it names the disk
DISKS = [
    ([], None),
    ([(440, b"\1\2\3\4"), END], "MBR"),
    ([(443, b"\1"), END], "MBR"),
    ([(440, b"\1"), (446, b"\x80"), (494, b"\x80"), END], "MBR"),
    ([(440, b"\1"), (446, b"\1"), END], None),
    ([(440, b"\1"), (494, b"\x81"), END], None),
    ([(439, b"\1"), (444, b"\1"), END], None),
    ([(440, b"\1"), (510, b"\x55\xab")], None),
    ([(82, b"FAT32   "), (440, b"\1"), END], "FAT"),
    ([(440, b"\1"), END, (512, b"LABELONE")], "LVM2"),
    ([(450, b"\x83"), (458, b"\1"), END], "MBR"),
    ([(466, b"\1"), (475, b"\1"), END], "MBR"),
    ([(482, b"\xff"), (492, b"\1"), END], "MBR"),
    ([(498, b"\7"), (509, b"\1"), END], "MBR"),
    ([END], None),
    ([(450, b"\x83"), END], None),
    ([(458, b"\1\2\3\4"), END], None),
    ([(450, b"\x83"), (454, b"\0\x08"), END], None),
    ([(450, b"\x83"), (474, b"\1"), END], None),
    ([(449, b"\x83"), (458, b"\1"), END], None),
    ([(450, b"\x83"), (462, b"\1"), END], None),
    ([(450, b"\x83"), (458, b"\1"), (510, b"\x55\xab")], None),
    ([(450, b"\x83"), (458, b"\1"), (510, b"\x54\xaa")], None),
    ([(450, b"\xee"), (458, b"\1"), END, (512, b"EFI PART")], "GPT"),
    ([(450, b"\xee"), (458, b"\1"), END, (4096, b"EFI PART")], "GPT"),
    ([(3, b"-FVE-FS-"), (82, b"FAT32   "), END], "BitLocker"),
    ([(54, b"FAT16   "), (450, b"\6"), (458, b"\1"), END], "FAT"),
    ([(3, b"NTFS    "), (450, b"\7"), (458, b"\1"), END], "NTFS"),
    ([(3, b"EXFAT   "), (450, b"\7"), (458, b"\1"), END], "exFAT"),
    ([(450, b"\x83"), (458, b"\1"), END, (1080, b"\x53\xef")], "ext"),
    ([(0, b"XFSB"), (4096, uses.MD)], "md"),
    ([(512, b"LABELONE"), (1080, b"\x53\xef"), (4086, b"SWAPSPACE2")], "LVM2"),
    ([(1080, b"\x53\xef"), (4086, b"SWAPSPACE2")], "swap"),
]


def shown(run, length, *parts):
    """The use that `check` names of a disk of these bytes; nothing if it names none."""
    devices.lay("v", None, parts, length)
    ran = run.luks("check", "v", logs=False)
    found = re.search(rb"v: what stands there is (.*)\n", ran.err)
    assert ran.status == 1, ran.out
    return found[1].decode() if found else None


def test_each_signature_at_its_place(run):
    """On a disk that ends with it, and on none that lacks its last byte or has it a byte further on."""
    assert len(SIGNATURES) == 168
    for name, at, text in SIGNATURES:
        end = max(at + len(text), LEAST)
        assert shown(run, end, (at, text)) == name, (name, at)
        assert shown(run, end, (at, text[:-1])) is None or text[-1] == 0, (name, at, "the last byte is another")
        assert at + len(text) <= LEAST or shown(run, end - 1, (at, text[:-1])) is None, (name, at, "the last byte isn't there")
        assert shown(run, end + 1, (at + 1, text)) is None, (name, at, "a byte further on")


def test_each_byte_of_each_signature(run):
    for name, at, text in SIGNATURES:
        for i in range(len(text)):
            other = bytearray(text)
            other[i] ^= 0x20
            found = shown(run, max(at + len(text), LEAST), (at, bytes(other)))
            assert found is None, (name, at, i, found)


def test_partitions_and_several_signatures(run):
    for parts, owed in DISKS:
        found = shown(run, 4608, *parts)
        assert found == owed, (parts, found)


def test_each_failed_read(run):
    """`format` looks for another use before it writes: a read that fails ends it with the device's fault, and nothing is written."""
    for name, content in (("p", b"one"), ("r", bytes(i % 251 for i in range(128080)))):
        put(name, content)
    words = ["format", "v", "--passphrase=p", "--random=r", "--iterations=1000", "--key-bytes=32", "--version=1", "--quiet"]
    devices.lay("v", None, length=2097152)
    calls = run.luks(*words, devices="v:-:r").calls[1]
    reads = next(i for i, call in enumerate(calls) if call[0] == "w")
    assert reads >= 2, calls[:4]
    for number in sorted({*range(8), *range(0, reads, 16), *range(reads - 8, reads)}):
        disk = devices.lay("v", None, length=2097152)
        ran = run.luks(*words, devices="v:-:r", fail=f"volume call {number} old")
        assert (ran.status, ran.out) == (4, b"device fault\n") and (b"luks: v: reading failed\n" in ran.err or number > 8), (number, ran.out, ran.err)
        assert not any(part.strip(b"\0") for _, part in disk.extents()[1]), number
