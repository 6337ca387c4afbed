"""What the checksum of a copy vouches for, in Python: one JSON area, cut where its text ends, or a composition of the sectors or, where few bytes of a sector differ, the bytes of both, that meets the checksum of one binary header."""
import hashlib
import itertools

import reader
from reader import Fault

SECTOR, HEAD, FEW = 512, 4096, 16
# so many bytes of areas are hashed at most for all copies together, or where the search is to be thorough
WHOLE = {False: 32 << 20, True: 1 << 40}
MAGIC = {True: b"LUKS\xba\xbe", False: b"SKUL\xba\xbe"}


def mended(source, at):
    """The binary header with the magic of its place."""
    return MAGIC[at == 0] + source[at + 6:at + HEAD]


def stands(head, size, at):
    text = head[72:104].split(b"\0")[0]
    return head[6:8] == b"\0\x02" and int.from_bytes(head[8:16], "big") == size and int.from_bytes(head[256:264], "big") == at and text == b"sha256"


def sectors(first, second):
    """Both areas by their sectors, and the numbers of those that differ."""
    count = len(first) // SECTOR
    one, two = ([area[k * SECTOR:(k + 1) * SECTOR] for k in range(count)] for area in (first, second))
    return one, two, [k for k in range(count) if one[k] != two[k]]


def pieces(first, second):
    """Where a composition has all of one area or all of the other: each byte that differs, or the whole sector where more than 16 do."""
    found = []
    for k in sectors(first, second)[2]:
        places = [p for p in range(k * SECTOR, (k + 1) * SECTOR) if first[p] != second[p]]
        found += [(p, 1) for p in places] if len(places) <= FEW else [(k * SECTOR, SECTOR)]
    return found


def fit(first, count, most):
    """So many compositions, and the two areas that are cut, have no more bytes together."""
    return (2 + count) * len(first) <= most


def is_cut_short(first, second, most):
    """Not all compositions of pieces are tried."""
    return not fit(first, 2 ** len(sectors(first, second)[2]) + 2 ** len(pieces(first, second)), most)


def cut(area):
    """The area with zeros for everything after its text."""
    return area.split(b"\0")[0].ljust(len(area), b"\0")


def of_sectors(first, second, most):
    """The compositions of sectors that are tried, in their order."""
    one, two, differing = sectors(first, second)
    if fit(first, 2 ** len(differing), most):
        for choice in itertools.product((one, two), repeat=len(differing)):
            area = list(one)
            for k, chosen in zip(differing, choice):
                area[k] = chosen[k]
            yield b"".join(area)
    else:
        near = (most // len(first) - 2) // 2
        for front, rest in ((first, second), (second, first)):
            for k in [0, *(k + 1 for k in differing)][:near]:
                yield front[:k * SECTOR] + rest[k * SECTOR:]


def of_pieces(first, second):
    """All compositions of pieces, by the digits of their number, the lowest first."""
    found = pieces(first, second)
    for number in range(2 ** len(found)):
        area = bytearray(first)
        for k, (at, count) in enumerate(found):
            if number >> k & 1:
                area[at:at + count] = second[at:at + count]
        yield bytes(area)


def tried(first, second, most):
    """What is tried, in its order: nothing where two areas have more bytes than may be hashed."""
    if 2 * len(first) > most:
        return
    yield cut(first)
    yield cut(second)
    yield from of_sectors(first, second, most)
    if not is_cut_short(first, second, most):
        yield from of_pieces(first, second)


def standing(source, size, at):
    """Both copies lie in the source, and the binary header of this one stands."""
    return 2 * size <= len(source) and stands(mended(source, at), size, at)


def share(source, places, thorough):
    """How many bytes of areas may be hashed for each copy that stands."""
    count = sum(standing(source, size, at) for size, at in places)
    return WHOLE[thorough] // count if count else 0


def vouched(source, size, at, most):
    """The binary header, the JSON area and the metadata that the copy at this place vouches for by so many hashed bytes; nothing where it vouches for none."""
    if not standing(source, size, at):
        return None
    head = mended(source, at)
    fed = hashlib.sha256(head[:448] + bytes(64) + head[512:])
    for area in tried(source[HEAD:size], source[size + HEAD:2 * size], most):
        whole = fed.copy()
        whole.update(area)
        if whole.digest() == head[448:480]:
            try:
                return head, area, reader.metadata({"size": size, "json": area})
            except Fault:
                return None
    return None
