"""Rebuilding a LUKS1 header in Python: the detached header that is made of what still stands of one and of what is given, with the key areas that are kept; and the combinations of what isn't given by which a passphrase opens a keyslot."""
import itertools
import struct

import reader
from reader import DISABLED, ENABLED, Fault

CIPHERS = (b"aes", b"twofish", b"serpent", b"cast5", b"cast6")
HASHES = (b"sha1", b"sha256", b"sha512", b"ripemd160")
TEXTS = (("cipher", "cipher-name"), ("mode", "cipher-mode"), ("hash", "hash-spec"), ("uuid", "uuid"))
LEAST = 16896

# What is tried of a field, behind what stands, where nothing is given.
TRIED = (("cipher", (b"aes",)), ("mode", (b"xts-plain64",)), ("hash", (b"sha256", b"sha1", b"sha512")), ("key_bytes", (64, 32, 16)))


def rebuilt(source, given, target):
    """The line that the program prints, and the target that is left; `given` has of `cipher`, `mode`, `hash`, `key_bytes`, `payload` and `uuid` what is given."""
    try:
        header, areas = made(source, given, len(target))
    except Fault as fault:
        return f"refused {fault}", target
    out = bytearray(target)
    for at in (0, 16384):
        out[at:at + 512] = bytes(512)
    for start, length in areas:
        out[start:start + length] = source[start:start + length]
    out[:592] = header
    return "done", bytes(out)


def made(source, given, total):
    """The 592 bytes, and the areas of the kept keyslots in use."""
    if not given and reader.check(source, True)[1].startswith("accepted luks1 "):
        raise Fault("Counts")
    for fault in faults(source, given):
        raise Fault(fault)
    return laid(source, given, total)


def laid(source, given, total):
    """The header, if nothing refuses it before it is made."""
    d, kept = fields(source, given)
    used = [reader.slot_area1(d, n) for n in kept if d["slots"][n][0] == ENABLED]
    d["slots"] = [d["slots"][n] if n in kept else mended(d, kept, n, len(source)) for n in range(8)]
    if total < LEAST:
        raise Fault("TooSmall")
    try:
        reader.fit([("Head1", (0, 592))] + [(f"Slot({n})", reader.slot_area1(d, n)) for n in range(8)], total)
    except Fault as fault:
        raise fault if str(fault).startswith("Overlap") else Fault("TooSmall")
    head = struct.pack(">6sH32s32s32sII20s32sI40s", b"LUKS\xba\xbe", 1, d["cipher"], d["mode"], d["hash"], d["payload"], d["key_bytes"], d["digest"], d["salt"], d["iterations"], d["uuid"])
    return head + b"".join(struct.pack(">II32sII", *slot) for slot in d["slots"]), used


def taken(source, given):
    """The fields of the header, with what is given in place of what stands."""
    d = reader.luks1_fields(source)
    for field, _ in TEXTS:
        d[field] = given.get(field, reader.text_field(d[field]))
    d["key_bytes"], d["payload"] = given.get("key_bytes", d["key_bytes"]), given.get("payload", d["payload"])
    return d


def faults(source, given):
    """The faults that show before a header is made, in their order."""
    if len(source) >= 592 and source[:6] == b"LUKS\xde\xad":
        return ["Reencrypting"]
    if len(source) < 592 or not has_signs(source):
        return ["NoHeader"]
    return field_faults(source, given)


def field_faults(source, given):
    """Those of them that the fields before the keyslots have."""
    d = taken(source, given)
    texts = [f"Text({name})" for field, name in TEXTS if not usable(field, d[field])]
    return texts + ["KeyBytes"] * (not 1 <= d["key_bytes"] <= 128) + ["Iterations(Digest)"] * (d["iterations"] == 0)


def fields(source, given):
    """The fields of the header that is made, and the numbers of the keyslots that are kept."""
    d = taken(source, given)
    return d, kept_slots(d, len(source))


def usable(field, text):
    return reader.UUID.fullmatch(text) if field == "uuid" else text and all(0x20 <= byte <= 0x7E for byte in text)


# ---- the trial

def combinations(source, given):
    """What is given, completed by each combination, in the order in which they are tried."""
    d = taken(source, {})
    tried = [[None] + [value for value in values if field not in given and value != d[field]] for field, values in TRIED]
    for chosen in itertools.product(*tried):
        yield {**given, **{field: value for (field, _), value in zip(TRIED, chosen) if value is not None}}


def opening(source, given, passphrase):
    """The first combination by which a keyslot opens, and the first keyslot that it opens; or none."""
    if faults(source, {}) in (["Reencrypting"], ["NoHeader"]):
        raise Fault(faults(source, {})[0])
    every = [faults(source, them) for them in combinations(source, given)]
    for fault in every[0]:
        if all(fault in those for those in every):
            raise Fault(fault)
    for them, those in zip(combinations(source, given), every):
        slot = None if those else opened_slot(source, them, passphrase)
        if slot is not None:
            return them, slot
    return None


def opened_slot(source, given, passphrase):
    d, kept = fields(source, given)
    for n in kept:
        try:
            if reader.opened(reader.plan1(source, d, n), passphrase) is not None:
                return n
        except Fault:
            continue
    return None


def has_signs(source):
    d = reader.luks1_fields(source)
    entry = any(state in (ENABLED, DISABLED) and stripes > 0 and 592 <= sector * 512 < len(source) for state, _, _, sector, stripes in d["slots"])
    signs = [reader.text_field(d["cipher"]) in CIPHERS, reader.text_field(d["hash"]) in HASHES, 1000 <= d["iterations"] <= 1 << 31, entry]
    return source[:6] == b"LUKS\xba\xbe" or sum(signs) >= 2


def meet(a, b):
    return max(a[0], b[0]) < min(a[0] + a[1], b[0] + b[1])


def usual(d, n):
    return 8 + n * -(-d["key_bytes"] * 4000 // 4096) * 8, 4000


def kept_slots(d, total):
    """The numbers of the keyslots that are kept: in the order of preference each sound one that meets none of those before it that are kept."""
    def sound(n):
        state, turns, _, _, stripes = d["slots"][n]
        start, length = reader.slot_area1(d, n)
        return state in (ENABLED, DISABLED) and stripes > 0 and (state == DISABLED or turns > 0) and start >= 592 and start + length <= total

    def order(n):
        state, _, _, sector, stripes = d["slots"][n]
        return state != ENABLED, (sector, stripes) != usual(d, n), n

    kept = []
    for n in sorted(filter(sound, range(8)), key=order):
        if not any(meet(reader.slot_area1(d, m), reader.slot_area1(d, n)) for m in kept):
            kept.append(n)
    return sorted(kept)


def mended(d, kept, n, total):
    """A disabled keyslot, in the pattern of the first two neighbours that are kept, else at its usual place."""
    sector, stripes = in_pattern(d, kept, n, total) or usual(d, n)
    return DISABLED, 0, bytes(32), sector, stripes


def in_pattern(d, kept, n, total):
    for a in kept:
        (_, _, _, sector, stripes), (_, _, _, later, others) = d["slots"][a], d["slots"][a + 1] if a + 1 in kept else (0, 0, b"", 0, 0)
        if stripes == others and sector < later:
            place = sector + (n - a) * (later - sector)
            area = place * 512, reader.round_up(d["key_bytes"] * stripes, 512)
            free = 592 <= area[0] and area[0] + area[1] <= total and not any(meet(reader.slot_area1(d, m), area) for m in kept)
            return (place, stripes) if place < 1 << 32 and free else None
    return None
