"""Formatting in Python: the volume that is left, byte for byte, of the old one, a passphrase and the random bytes."""
import hashlib
import re
import uuid

import images
import makers
from equations import CBC, XTS, argon2, pbkdf2, round_up, sealed_area
from images import ENABLED, Entry, Luks1
from reader import Fault

# the ciphers, with the lengths of their keys
KEY_LENGTHS = {XTS: (32, 64), "aes-xts-plain": (32, 64), **{cipher: (16, 24, 32) for cipher in CBC}}
LEAST_LENGTH = {1: 2097152, 2: 16777216}
OWN_SECTOR = {1: 4096, 2: 32768}
SECTOR_SIZES = {1: (512,), 2: (512, 1024, 2048, 4096)}
# below which sector the payload begins
MOST_SECTORS = {1: 1 << 32, 2: (1 << 64) // 512}
UUID = re.compile(rb"[0-9A-Fa-f]{8}(-[0-9A-Fa-f]{4}){3}-[0-9A-Fa-f]{12}")


def needed(version, key_bytes=64):
    """How many random bytes a volume takes: uuid, key, salt of the digest, of LUKS2 those of the copies, salt of keyslot 0, all stripes but the last."""
    return 16 + key_bytes + 32 + (128 if version == 2 else 0) + 32 + 3999 * key_bytes


NEEDED = {version: needed(version) for version in (1, 2)}


def offsets(key_bytes):
    """The first sectors of the key areas of LUKS1: each at a multiple of 4096 bytes, one right after the other."""
    return [8 + n * round_up(4000 * key_bytes, 4096) // 512 for n in range(8)]


def least_sector(version, key_bytes=64):
    """The first sector behind the key areas, where a payload on the volume itself may begin."""
    return 16777216 // 512 if version == 2 else offsets(key_bytes)[7] + round_up(4000 * key_bytes, 512) // 512


LEAST_SECTOR = {version: least_sector(version) for version in (1, 2)}


class Drawn:
    """Random bytes, drawn from the front."""

    def __init__(self, random):
        self.left = random

    def take(self, count):
        drawn, self.left = self.left[:count], self.left[count:]
        assert len(drawn) == count
        return drawn

    def rest(self):
        return self.take(len(self.left))


def uuid_text(random):
    """A uuid of version 4 of 16 random bytes, in lower case."""
    return str(uuid.UUID(bytes=random, version=4)).encode()


def formatted(version, volume, *rest, **more):
    """The line that the program prints, and the volume left."""
    out = bytearray(volume)
    try:
        for at, part in parts(version, volume, *rest, **more):
            out[at:at + len(part)] = part
    except Fault as fault:
        return f"refused {fault}", volume
    return "done slot 0", bytes(out)


def parts(version, volume, detached, hash_name, iterations, passphrase, random, costs=None, memory=0, given=None):
    """What is written of the key area and the header, in order, or the first refusal. Keyslot 0 of LUKS2 derives by Argon2 where its costs are given, the `kdf` of a keyslot
    but for the salt, with so many KiB allowed. Of `given` are the volume `key`, the payload's `sector`, the `uuid`, the `label`, the `subsystem`, the
    `cipher`, `key_bytes`, the `sector_size`, and whether `older` ciphers are accepted."""
    given = {"cipher": XTS, "key_bytes": 64, "sector_size": 512, "older": False} | (given or {})
    judged_given(version, volume, detached, given)
    drawn = judged(version, given["key_bytes"], iterations, random, costs, memory)
    if version == 1:
        return parts1(drawn, detached, hash_name, iterations, passphrase, given)
    return parts2(drawn, detached, hash_name, iterations, passphrase, costs, given)


def judged_given(version, volume, detached, given):
    sector, size, key_bytes = given.get("sector"), given["sector_size"], given["key_bytes"]
    if sector is not None and (sector >= MOST_SECTORS[version] or not detached and sector < least_sector(version, key_bytes)):
        raise Fault("Payload")
    if len(volume) < LEAST_LENGTH[version] or not detached and len(volume) < 512 * (sector or 0):
        raise Fault("TooSmall")
    if size not in SECTOR_SIZES[version]:
        raise Fault("SectorSize")
    if not detached and (len(volume) // 512 - (OWN_SECTOR[version] if sector is None else sector)) * 512 % size:
        raise Fault("Uneven")
    if "uuid" in given and not UUID.fullmatch(given["uuid"]):
        raise Fault("Uuid")
    for text in (given[name] for name in ("label", "subsystem") if name in given):
        if version == 1 or len(text) > 47 or any(not 0x20 <= c <= 0x7E for c in text):
            raise Fault("BadLabel")
    if given["cipher"] in CBC and not given["older"]:
        raise Fault("Cipher")
    if key_bytes not in KEY_LENGTHS[given["cipher"]] or "key" in given and len(given["key"]) != key_bytes:
        raise Fault("KeyLength")


def judged(version, key_bytes, iterations, random, costs, memory):
    if iterations < 1000:
        raise Fault("Iterations")
    if costs and not 8 * costs["cpus"] <= costs["memory"] <= memory:
        raise Fault("Argon2")
    if len(random) != needed(version, key_bytes):
        raise Fault("RandomLength")
    return Drawn(random)


def parts1(drawn, detached, hash_name, iterations, passphrase, given):
    """What is written of LUKS1, in order: key area, header."""
    key_bytes, cipher = given["key_bytes"], given["cipher"]
    uuid_bytes, key, digest_salt, slot_salt = (drawn.take(count) for count in (16, key_bytes, 32, 32))
    key = given.get("key", key)
    name, _, mode = cipher.encode().partition(b"-")
    head = Luks1(cipher_name=name, cipher_mode=mode, hash_spec=hash_name.encode(), payload_offset=given.get("sector", 0 if detached else 4096), key_bytes=key_bytes,
                 digest=pbkdf2(hash_name, key, digest_salt, iterations, 20), digest_salt=digest_salt, digest_iterations=iterations,
                 uuid=given.get("uuid", uuid_text(uuid_bytes)), slots=[Entry(offset=offset) for offset in offsets(key_bytes)])
    head.slots[0] = Entry(ENABLED, iterations, slot_salt, 8, 4000)
    area = sealed_area(hash_name, pbkdf2(hash_name, passphrase, slot_salt, iterations, key_bytes), key, drawn.rest(), cipher)
    return [(4096, area), (0, head.header())]


def parts2(drawn, detached, hash_name, iterations, passphrase, costs, given):
    """What is written of LUKS2, in order: key area, second copy, first copy."""
    key_bytes, cipher = given["key_bytes"], given["cipher"]
    uuid_bytes, key, digest_salt, first, second, slot_salt = (drawn.take(count) for count in (16, key_bytes, 32, 64, 64, 32))
    key = given.get("key", key)
    digest = pbkdf2(hash_name, key, digest_salt, iterations, hashlib.new(hash_name).digest_size)
    value = makers.formatted(hash_name, iterations, 512 * given.get("sector", 0 if detached else 32768), digest_salt, digest, slot_salt)
    keyslot, segment = value["keyslots"]["0"], value["segments"]["0"]
    keyslot |= {"key_size": key_bytes}
    keyslot["area"] |= {"encryption": cipher, "key_size": key_bytes, "size": str(round_up(4000 * key_bytes, 4096))}
    segment |= {"encryption": cipher, "sector_size": given["sector_size"]}
    if costs:
        value["keyslots"]["0"]["kdf"] = costs | {"salt": value["keyslots"]["0"]["kdf"]["salt"]}
    text = makers.compact(value)
    derived = argon2(costs, passphrase, slot_salt, key_bytes) if costs else pbkdf2(hash_name, passphrase, slot_salt, iterations, key_bytes)
    area = sealed_area(hash_name, derived, key, drawn.rest(), cipher)
    fields = {"uuid": given.get("uuid", uuid_text(uuid_bytes)), "label": given.get("label", b""), "subsystem": given.get("subsystem", b"")}
    return [(32768, area), (16384, images.copy(text, 16384, salt=second, **fields)), (0, images.copy(text, 0, salt=first, **fields))]
