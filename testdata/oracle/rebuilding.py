"""Rebuilding in Python: the detached LUKS2 header that is made out of metadata that a checksum vouches for or that is still whole, byte for byte of both
volumes and the random bytes."""
import uuid as uuids

import images
import reader
import vouching
from reader import Fault

SIZES = [0x4000 << k for k in range(9)]
NEEDED = 144
GREATEST = 2 ** 64 - 1


def rebuilt(source, second, given, target, random, named=None, thorough=False):
    """The line that the program prints, and the target that is left; the second copy or a size may be named."""
    try:
        parts = parts_of(source, second, given, len(target), random, named, thorough)
    except Fault as fault:
        return f"refused {fault}", target
    out = bytearray(target)
    for at, part in parts:
        out[at:at + len(part)] = part
    return "done", bytes(out)


def places(second, named=None):
    """The places of copies in their order: first copies by size, second copies by size."""
    sizes = [size for size in SIZES if named in (None, size)]
    firsts = [] if second else [(size, 0) for size in sizes]
    return firsts + [(size, size) for size in sizes]


def candidate(source, second, named=None, thorough=False):
    """Where the metadata is taken from, its JSON area and its value, and what its header keeps: sequence number, label and subsystem."""
    return newest_vouched(source, second, named, thorough) or first_whole(source, second, named)


def newest_vouched(source, second, named, thorough):
    """The metadata of the highest sequence number that a checksum vouches for; of several with one number, the first."""
    best, newest = None, -1
    most = vouching.share(source, places(False), thorough)
    for size, at in places(second, named):
        found = vouching.vouched(source, size, at, most)
        if found is None:
            continue
        head, area, value = found
        number = int.from_bytes(head[16:24], "big")
        if newest < number:
            newest = number
            best = size, at, area, value, {"seqid": min(number + 1, GREATEST), "label": head[24:72], "subsystem": head[208:256]}
    return best


def first_whole(source, second, named):
    for size, at in places(second, named):
        if at + size > len(source):
            continue
        area = source[at + 4096:at + size]
        try:
            return size, at, area, reader.metadata({"size": size, "json": area}), {"seqid": 1, "label": b"", "subsystem": b""}
        except Fault:
            pass
    raise Fault("NoMetadata")


def counts(source):
    try:
        reader.select(source)
    except Fault:
        return False
    return True


def parts_of(source, second, given, length, random, named=None, thorough=False):
    """What is written to a target of this length, in order: the key areas, the second copy, the first."""
    if not second and named is None and counts(source):
        raise Fault("Counts")
    size, at, area, value, kept = candidate(source, second, named, thorough)
    slots = [(n, reader.slot_area2(slot)) for n, slot in reader.by_number(value["keyslots"])]
    reader.fit([("Head1", (0, size)), ("Head2", (size, size))] + [(f"Slot({n})", place) for n, place in slots], len(source))
    if length < 2 * size + int(value["config"]["keyslots_size"]):
        raise Fault("TooSmall")
    if given is not None and not reader.UUID.fullmatch(given):
        raise Fault("Uuid")
    if len(random) != NEEDED:
        raise Fault("RandomLength")
    text, own = area.rstrip(b"\0"), uuid_of(source, size, at, given, random)
    keys = [(start, source[start:start + count]) for _, (start, count) in slots]
    return keys + [(place, images.copy(text, place, size, uuid=own, salt=salt, **kept)) for place, salt in ((size, random[64:128]), (0, random[:64]))]


def uuid_of(source, size, at, given, random):
    if given is not None:
        return given
    for place in (at, size - at):
        try:
            return reader.checked_uuid(source[place + 168:place + 208])
        except Fault:
            pass
    return str(uuids.UUID(bytes=random[128:144], version=4)).encode()
