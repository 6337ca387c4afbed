"""Volumes that tests speak of, as bytes: put together from docs/PROFILE.md alone."""
import base64
import hashlib
import json
import struct
from dataclasses import dataclass, field

from equations import HASHES, pbkdf2, round_up, sealed_area

UUID = b"00000000-0000-4000-8000-000000000000"
ENABLED, DISABLED = 0x00AC71F3, 0x0000DEAD
FIRST_MAGIC, SECOND_MAGIC = b"LUKS\xba\xbe", b"SKUL\xba\xbe"
OFFSETS = (8, 512, 1016, 1520, 2024, 2528, 3032, 3536)


@dataclass
class Entry:
    active: int = DISABLED
    iterations: int = 0
    salt: bytes = bytes(32)
    offset: int = 0
    stripes: int = 4000


@dataclass
class Luks1:
    """The fields of a LUKS1 header; what stands here by default is the sample image's."""
    cipher_name: bytes = b"aes"
    cipher_mode: bytes = b"xts-plain64"
    hash_spec: bytes = b"sha256"
    payload_offset: int = 4096
    key_bytes: int = 64
    digest: bytes = bytes(20)
    digest_salt: bytes = bytes(32)
    digest_iterations: int = 1000
    uuid: bytes = UUID
    version: int = 1
    slots: list = field(default_factory=lambda: [Entry(offset=offset) for offset in OFFSETS])

    def header(self):
        head = FIRST_MAGIC + struct.pack(">H32s32s32sII20s32sI40s", self.version, self.cipher_name, self.cipher_mode, self.hash_spec,
                                         self.payload_offset, self.key_bytes, self.digest, self.digest_salt, self.digest_iterations, self.uuid)
        for slot in self.slots:
            head += struct.pack(">II32sII", slot.active, slot.iterations, slot.salt, slot.offset, slot.stripes)
        assert len(head) == 592
        return head

    def seal(self, n, passphrase, key, random):
        """The sealed area of slot n, by this header's hash."""
        slot = self.slots[n]
        name = self.hash_spec.decode()
        slot_key = pbkdf2(name, passphrase, slot.salt, slot.iterations, self.key_bytes)
        return sealed_area(name, slot_key, key, random)


def volume(length, *parts):
    """Zeros, with each (place, bytes) put in."""
    out = bytearray(length)
    for at, part in parts:
        out[at:at + len(part)] = part
    assert len(out) == length
    return bytes(out)


def copy(text, at=0, size=16384, seqid=1, label=b"", subsystem=b"", uuid=UUID, salt=bytes(64), version=2, hdr_offset=None, algorithm=b"sha256"):
    """One sound copy of a LUKS2 header for the place `at`, its JSON area among it."""
    magic = FIRST_MAGIC if at == 0 else SECOND_MAGIC
    binary = magic + struct.pack(">HQQ48s32s64s40s48sQ184x64s3584x", version, size, seqid, label, algorithm, salt, uuid, subsystem,
                                 at if hdr_offset is None else hdr_offset, bytes(64))
    assert len(binary) == 4096 and len(text) <= size - 4096
    whole = binary + text.ljust(size - 4096, b"\0")
    return whole[:448] + hashlib.sha256(whole).digest() + whole[480:]


def copies(text, size=16384, **fields):
    return [(0, copy(text, 0, size, **fields)), (size, copy(text, size, size, **fields))]


def b64(data):
    return base64.b64encode(data).decode()


def compact(value):
    """The text of a value with sorted members and no spaces."""
    return json.dumps(value, separators=(",", ":"), sort_keys=True).encode()


def keyslot(hash_name="sha256", iterations=1000, salt=bytes(32), offset=32768, key_size=64, area_key_size=64, stripes=4000, af_hash=None):
    size = round_up(key_size * stripes, 4096)
    return {"af": {"hash": af_hash or hash_name, "stripes": stripes, "type": "luks1"},
            "area": {"encryption": "aes-xts-plain64", "key_size": area_key_size, "offset": str(offset), "size": str(size), "type": "raw"},
            "kdf": {"hash": hash_name, "iterations": iterations, "salt": b64(salt), "type": "pbkdf2"},
            "key_size": key_size, "type": "luks2"}


def metadata(slots, hash_name="sha256", iterations=1000, digest=bytes(32), digest_salt=bytes(32), offset=16777216):
    """The metadata of one volume key, its digest and one segment."""
    return {"config": {"json_size": "12288", "keyslots_size": "16744448"},
            "digests": {"0": {"digest": b64(digest), "hash": hash_name, "iterations": iterations, "keyslots": list(slots), "salt": b64(digest_salt),
                              "segments": ["0"], "type": "pbkdf2"}},
            "keyslots": slots,
            "segments": {"0": {"encryption": "aes-xts-plain64", "iv_tweak": "0", "offset": str(offset), "sector_size": 512, "size": "dynamic", "type": "crypt"}},
            "tokens": {}}


# The metadata of something that is under way.

OPAL_SIZE = 33554432


def opal(kind):
    """A volume on a range of 32 MiB of a disk that encrypts itself, behind a header of 16 MiB."""
    value = metadata({"0": keyslot(key_size=32 if kind == "hw-opal" else 96)})
    own = {"type": kind, "offset": "16777216", "size": str(OPAL_SIZE), "opal_segment_number": 1, "opal_key_size": 32, "opal_segment_size": str(OPAL_SIZE)}
    value["segments"]["0"] = own | ({"iv_tweak": "0", "encryption": "aes-xts-plain64", "sector_size": 512} if kind == "hw-opal-crypt" else {})
    value["config"]["requirements"] = {"mandatory": ["opal"]}
    return value


def reencryption(area=None):
    """A volume whose key becomes another: one part is of the new key, one in hand, the rest of the old one."""
    crypt = {"type": "crypt", "encryption": "aes-xts-plain64", "sector_size": 512}
    value = metadata({"0": keyslot(), "1": keyslot(offset=290816)})
    value["keyslots"]["2"] = {"type": "reencrypt", "key_size": 1, "mode": "reencrypt", "direction": "forward", "priority": 0,
                              "area": {"offset": "548864", "size": "16228352", **(area or {"type": "checksum", "hash": "sha256", "sector_size": 4096})}}
    value["segments"] = {"0": crypt | {"offset": "16777216", "size": "1048576", "iv_tweak": "0"},
                         "1": crypt | {"offset": "17825792", "size": "1048576", "iv_tweak": "2048", "flags": ["in-reencryption"]},
                         "2": crypt | {"offset": "18874368", "size": "dynamic", "iv_tweak": "4096"},
                         "3": crypt | {"offset": "16777216", "size": "dynamic", "iv_tweak": "0", "flags": ["backup-previous"]},
                         "4": crypt | {"offset": "16777216", "size": "dynamic", "iv_tweak": "0", "flags": ["backup-final"]}}
    digest = value["digests"]["0"]
    value["digests"] = {"0": digest | {"keyslots": ["0"], "segments": ["1", "2", "3"]}, "1": digest | {"keyslots": ["1"], "segments": ["0", "1", "4"]},
                        "2": digest | {"keyslots": ["2"], "segments": []}}
    value["config"]["requirements"] = {"mandatory": ["online-reencrypt-v2"]}
    return value


# The volumes by name.

SAMPLE_LENGTH = 2097664
LUKS2_LENGTH = 16777728


def sample():
    """LUKS1, all slots disabled."""
    return volume(SAMPLE_LENGTH, (0, Luks1().header()))


def binary():
    """LUKS2, two sound copies whose metadata is an empty object."""
    return volume(32768, *copies(b"{}"))


def zeros():
    """LUKS2, one keyslot and one segment, whose salts and digest are zeros and whose key area is empty."""
    return volume(LUKS2_LENGTH, *copies(compact(metadata({"0": keyslot()}))))


def pattern(length):
    """Bytes in place of random ones: byte i is i mod 251."""
    return bytes(i % 251 for i in range(length))


def counting(length):
    """A volume key: 00 01 02 .."""
    return bytes(i % 256 for i in range(length))


def example():
    """LUKS1 of one stripe a keyslot, whose keyslot 0 opens by the passphrase `secret`."""
    key = counting(64)
    head = Luks1(payload_offset=16, digest_salt=bytes([0x22] * 32), slots=[Entry(offset=8 + n, stripes=1) for n in range(8)])
    head.digest = pbkdf2("sha256", key, head.digest_salt, head.digest_iterations, 20)
    head.slots[0] = Entry(ENABLED, 1000, bytes([0x11] * 32), 8, 1)
    return volume(17 * 512, (0, head.header()), (8 * 512, head.seal(0, b"secret", key, b"")))


def opening1(hash_name="sha256", key_bytes=64, passphrase=b"one"):
    """LUKS1, slot 0 opens: its header, its key area and the volume."""
    head = Luks1(hash_spec=hash_name.encode(), key_bytes=key_bytes, digest_salt=b"\x22" * 32)
    key = counting(key_bytes)
    head.digest = pbkdf2(hash_name, key, head.digest_salt, head.digest_iterations, 20)
    head.slots[0] = Entry(ENABLED, 1000, b"\x11" * 32, OFFSETS[0], 4000)
    area = head.seal(0, passphrase, key, pattern(3999 * key_bytes))
    return head, area, volume(SAMPLE_LENGTH, (0, head.header()), (4096, area))


def two_hashes(stripes=4000):
    """LUKS2 of the digest and keyslot 0 by sha256, keyslot 1 by sha512: both open, by `one` and by `two`."""
    key = counting(64)
    slots, parts = {}, []
    for n, hash_name, passphrase in ((0, "sha256", b"one"), (1, "sha512", b"two")):
        salt, offset = bytes([0x11 + n]) * 32, 32768 + 258048 * n
        slots[str(n)] = keyslot(hash_name, 1000, salt, offset, stripes=stripes)
        slot_key = pbkdf2(hash_name, passphrase, salt, 1000, 64)
        parts.append((offset, sealed_area(hash_name, slot_key, key, pattern((stripes - 1) * 64))))
    value = metadata(slots, "sha256", 1000, pbkdf2("sha256", key, b"\x22" * 32, 1000, 32), b"\x22" * 32)
    return volume(LUKS2_LENGTH, *copies(compact(value)), *parts)


def opening2(hash_name="sha256", key_size=64, area_key_size=64, stripes=4000, af_hash=None, digest_length=None, passphrase=b"one"):
    """LUKS2, keyslot 0 opens: its metadata, its key area and the volume."""
    key = counting(key_size)
    slot = keyslot(hash_name, 1000, b"\x11" * 32, 32768, key_size, area_key_size, stripes, af_hash)
    length = digest_length or hashlib.new(hash_name).digest_size
    value = metadata({"0": slot}, hash_name, 1000, pbkdf2(hash_name, key, b"\x22" * 32, 1000, length), b"\x22" * 32)
    slot_key = pbkdf2(hash_name, passphrase, b"\x11" * 32, 1000, area_key_size)
    area = sealed_area(af_hash or hash_name, slot_key, key, pattern((stripes - 1) * key_size))
    return value, area, volume(LUKS2_LENGTH, *copies(compact(value)), (32768, area))


def small1(hash_name="sha256"):
    """LUKS1 of 40 stripes a slot: slot n lies at sector 8 + 8 n, the payload at 128; slot 0 opens by `one`."""
    volume_key = counting(64)
    head = Luks1(hash_spec=hash_name.encode(), payload_offset=128, digest_salt=b"\x22" * 32)
    head.digest = pbkdf2(hash_name, volume_key, head.digest_salt, 1000, 20)
    head.slots = [Entry(offset=8 + 8 * n, stripes=40) for n in range(8)]
    head.slots[0] = Entry(ENABLED, 1000, b"\x11" * 32, 8, 40)
    return volume(66048, (0, head.header()), (4096, head.seal(0, b"one", volume_key, pattern(39 * 64))))


def small2(hash_name="sha256"):
    """LUKS2 of 40 stripes and areas of 4096 bytes, with a region of eight of them and data from 65536 on; keyslot 0 opens by `one`."""
    volume_key = counting(64)
    slot = keyslot(hash_name, 1000, b"\x11" * 32, 32768, 64, 64, 40)
    digest = pbkdf2(hash_name, volume_key, b"\x22" * 32, 1000, hashlib.new(hash_name).digest_size)
    value = metadata({"0": slot}, hash_name, 1000, digest, b"\x22" * 32, offset=65536)
    value["config"]["keyslots_size"] = "32768"
    area = sealed_area(hash_name, pbkdf2(hash_name, b"one", b"\x11" * 32, 1000, 64), volume_key, pattern(39 * 64))
    return volume(66048, *copies(compact(value)), (32768, area))


def small_of_two(second="sha512"):
    """small2 with keyslot 1 by the second hash, in the next area, which opens by `two`; the digest and keyslot 0 are by sha256."""
    volume_key = counting(64)
    slots, parts = {}, []
    for n, (name, passphrase) in enumerate((("sha256", b"one"), (second, b"two"))):
        slots[str(n)] = keyslot(name, 1000, b"\x11" * 32, 32768 + 4096 * n, 64, 64, 40)
        slot_key = pbkdf2(name, passphrase, b"\x11" * 32, 1000, 64)
        parts.append((32768 + 4096 * n, sealed_area(name, slot_key, volume_key, pattern(39 * 64))))
    value = metadata(slots, "sha256", 1000, pbkdf2("sha256", volume_key, b"\x22" * 32, 1000, 32), b"\x22" * 32, offset=65536)
    value["config"]["keyslots_size"] = "32768"
    return volume(66048, *copies(compact(value)), *parts)
