"""Converting in Python: the detached LUKS2 header that is made of a LUKS1 volume, byte for byte of both volumes and the random bytes."""
import images
import makers
import reader
from equations import round_up
from reader import ENABLED, Fault

REGION_START, REGION_END = 32768, 16777216
NEEDED = 128


def converted(source, detached, target, random):
    """The line that the program prints, and the target that is left."""
    try:
        parts = parts_of(source, detached, len(target), random)
    except Fault as fault:
        return f"refused {fault}", target
    out = bytearray(target)
    for at, part in parts:
        out[at:at + len(part)] = part
    return "done", bytes(out)


def parts_of(source, detached, length, random):
    """What is written to a target of this length, in order: the key areas, the second copy, the first."""
    reader.checked(source, detached)
    if reader.select(source) != 1:
        raise Fault("NotLuks1")
    if length < REGION_END:
        raise Fault("TooSmall")
    d = reader.common1(source, range(8))
    slots, areas, at = {}, [], REGION_START
    for n, (active, iterations, salt, _, stripes) in enumerate(d["slots"]):
        if active != ENABLED:
            continue
        start, used = reader.slot_area1(d, n)
        size = round_up(d["key_bytes"] * stripes, 4096)
        slots[str(n)] = keyslot(d, iterations, salt, stripes, at, size)
        areas.append((at, source[start:start + used].ljust(size, b"\0")))
        at += size
    if at > REGION_END:
        raise Fault("NoRoom")
    if len(random) != NEEDED:
        raise Fault("RandomLength")
    text, named = makers.compact(metadata(d, slots, at)), d["uuid"]
    return areas + [(16384, images.copy(text, 16384, uuid=named, salt=random[64:])), (0, images.copy(text, 0, uuid=named, salt=random[:64]))]


def cipher(d):
    return (d["cipher"] + b"-" + d["mode"]).decode()


def keyslot(d, iterations, salt, stripes, offset, size):
    name = d["hash"].decode()
    return {"type": "luks2", "key_size": d["key_bytes"],
            "af": {"type": "luks1", "stripes": stripes, "hash": name},
            "area": {"type": "raw", "offset": str(offset), "size": str(size), "encryption": cipher(d), "key_size": d["key_bytes"]},
            "kdf": {"type": "pbkdf2", "hash": name, "iterations": iterations, "salt": images.b64(salt)}}


def metadata(d, slots, end):
    payload = d["payload"] * 512
    value = images.metadata(slots, d["hash"].decode(), d["iterations"], d["digest"], d["salt"], payload)
    value["segments"]["0"]["encryption"] = cipher(d)
    value["config"]["keyslots_size"] = str(region_size(payload, end))
    return value


def region_size(payload, end):
    """The bytes of the keyslots' region, whose areas end at `end`: cryptsetup takes no header whose region reaches behind the place of the payload,
    though the payload is on another device."""
    if payload < end or payload >= REGION_END:
        return REGION_END - REGION_START
    return (payload - REGION_START) // 4096 * 4096
