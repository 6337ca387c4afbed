"""Finding in Python: where LUKS volumes begin on a disk, by what is left of them, each with the signs that tell it.

A start is a multiple of 512 with one of these signs: the magic and version 1 or 2 there, or what cryptsetup writes in the place of
that of LUKS1 while it reencrypts the volume, and version 1 (`header`); a sound second copy at a listed distance that
names this distance as its size and its place (`copy`); metadata of a first or of a second copy that is whole (`metadata`). A volume is what
follows its start to the end of the disk.

A JSON area doesn't say whether it is a first copy's or a second one's: so each would tell two starts. Where the magic of one of them stands 4096
bytes before it, it tells the start of that one alone, and where neither does, both: but none of which another volume says by its own sound copy
that the area is its other one.
"""
import reader
import rebuilding1
import underway
from reader import Fault

SECTOR = 512
SIZES = [0x4000 << k for k in range(9)]


def begins_header(disk, start):
    """A header that counts, or that of a LUKS1 volume which cryptsetup is reencrypting."""
    return disk[start:start + 8] in (b"LUKS\xba\xbe\x00\x01", b"LUKS\xba\xbe\x00\x02", b"LUKS\xde\xad\x00\x01")


def begins_luks1(disk, start):
    """A LUKS1 header without its magic or its version, of which one is made with nothing given."""
    if not 1 <= int.from_bytes(disk[start + 108:start + 112], "big") <= 128 or disk[start:start + 1] == b"{" or disk[start:start + 6] == reader.SECOND_MAGIC:
        return False
    return rebuilding1.faults(disk[start:], {}) == []


def sound_of(disk, start, size, at):
    """Whether a volume that begins there has a sound copy of this size at this place."""
    return start >= 0 and (reader.sound(disk[start:], at) or {}).get("size") == size


def explained(disk, start, size, at):
    """Whether a sound copy of another volume says that this copy is that volume's other one."""
    return sound_of(disk, start - size, size, 0) if at == 0 else sound_of(disk, start + size, size, size)


def whole_metadata(disk, start, size, at):
    """Whether the copy of this size at this place of the volume lies inside, and its JSON area has no fault, by the rules of what is under way where something
    is."""
    if start + at + size > len(disk):
        return False
    try:
        underway.wider({"size": size, "json": disk[start + at + 4096:start + at + size]})
    except Fault:
        return False
    return True


def signs_of(disk, start):
    """The signs of a volume that begins at the start: pairs of their place on the disk and their name."""
    found = [(start, "header")] if begins_header(disk, start) or begins_luks1(disk, start) else []
    for size in SIZES:
        copy = start + size
        if disk[copy:copy + 4] == b"SKUL" and reader.sound(disk[start:], size):
            found.append((copy, "copy"))
        for at, other in ((0, reader.SECOND_MAGIC), (size, reader.FIRST_MAGIC)):
            text = start + at + 4096
            if disk[text:text + 1] == b"{" and disk[text - 4096:text - 4090] != other and whole_metadata(disk, start, size, at):
                if not explained(disk, start, size, at):
                    found.append((text, "metadata"))
    return sorted(found)


def starts(disk, names=("header", "copy", "metadata")):
    """Each start with the first of its signs of these names, in the order of these signs' places; those of one place by their start."""
    told = []
    for start in range(0, len(disk), SECTOR):
        signs = [sign for sign in signs_of(disk, start) if sign[1] in names]
        if signs:
            told.append((signs[0][0], start, signs[0][1]))
    return [(start, name) for _, start, name in sorted(told)]


def same_uuids(disk, places):
    """The pairs of volumes with one uuid, of those that begin at these places, in this order, and are accepted: each with the first that has its
    uuid, of the first 64 uuids."""
    first, pairs = {}, []
    for start in places:
        volume = disk[start:]
        if reader.check(volume)[0] == 1:
            continue
        chosen = reader.select(volume)
        uuid = volume[168:208] if chosen == 1 else chosen[0]["uuid"]
        if uuid in first:
            pairs.append((first[uuid], start))
        elif len(first) < 64:
            first[uuid] = start
    return pairs
