"""The volumes, key areas and metadata that steps name, by the equations of testdata/oracle and by texts that cryptsetup wrote."""
import functools
import glob
import os
import struct
import sys

from suite.program import TOP

ORACLE = os.path.join(TOP, "testdata", "oracle")
CRYPTSETUP = os.path.join(TOP, "testdata", "cryptsetup")
if ORACLE not in sys.path:
    sys.path.insert(0, ORACLE)
import images
from equations import argon2, pbkdf2, sealed_area, xts_units

KEY = images.counting(64)
SALT1, SALT2 = b"\x11" * 32, b"\x22" * 32
UUID = images.UUID
SMALL, LARGE = 66048, 20972032
ARGON2 = {"argon2id": {"type": "argon2id", "cpus": 2, "memory": 1025, "time": 4}, "argon2i": {"type": "argon2i", "cpus": 1, "memory": 64, "time": 4}}


@functools.cache
def cryptsetup_texts():
    """The metadata that cryptsetup wrote, by their names."""
    found = {}
    for path in glob.glob(os.path.join(CRYPTSETUP, "*.json")):
        with open(path, "rb") as file:
            found[os.path.basename(path).removesuffix(".json")] = file.read()
    return found


# --- key areas

@functools.cache
def sealed(passphrase, hash_name="sha256", filling=2496):
    """The key area that this passphrase opens: 40 stripes, or 4000 by a filling of 255936 bytes."""
    return sealed_area(hash_name, pbkdf2(hash_name, passphrase, SALT1, 1000, 64), KEY, images.pattern(filling))


@functools.cache
def area(name):
    """The key area of this name that `one` opens: `whole`, or one stripe."""
    if name == "whole":
        return sealed(b"one", "sha256", 255936)
    derived = argon2(ARGON2[name], b"one", SALT1, 64) if name in ARGON2 else pbkdf2(name, b"one", SALT1, 1000, 64)
    return xts_units(derived, KEY.ljust(512, b"\0"), True)[:64]


# --- metadata

def three():
    """Three keyslots of one stripe, and no segment."""
    slots = {str(n): images.keyslot(salt=SALT1, offset=32768 + 4096 * n, stripes=1) for n in range(3)}
    value = images.metadata(slots, digest=pbkdf2("sha256", KEY, SALT2, 1000, 32), digest_salt=SALT2)
    value["config"]["keyslots_size"] = "12288"
    value["segments"], value["digests"]["0"]["segments"] = {}, []
    return images.compact(value)


def full():
    """Each number is taken by a keyslot and by a segment."""
    slots = {str(n): images.keyslot(salt=bytes(3), offset=131072 + 258048 * n) for n in range(32)}
    value = images.metadata(slots, digest=bytes(20), digest_salt=bytes(3))
    value["config"] = {"json_size": "61440", "keyslots_size": "16646144"}
    value["segments"] = {str(n): {"type": "linear", "offset": "16777216", "size": "0"} for n in range(32)}
    value["digests"]["0"]["segments"] = []
    return images.compact(value)


MADE = {"zeros": lambda: images.compact(images.metadata({"0": images.keyslot()})), "three": three, "full": full,
        "roomy": lambda: three().replace(b'"keyslots_size":"12288"', b'"keyslots_size":"16384"', 1)}


def text(name):
    """The metadata of this name."""
    return MADE[name]() if name in MADE else cryptsetup_texts()[name]


def head(size, seqid, label, subsystem, uuid, at):
    """The first fields of a copy of a LUKS2 header, without its checksum."""
    magic = b"LUKS\xba\xbe" if at == 0 else b"SKUL\xba\xbe"
    return magic + struct.pack(">HQQ48s32s64s40s48sQ184x", 2, size, seqid, label, b"sha256", b"", uuid, subsystem, at)


# --- volumes: what stands where

def opening_luks1():
    """LUKS1 whose keyslot 0 has one stripe and opens by `one`."""
    entries = [images.Entry(offset=offset) for offset in images.OFFSETS]
    entries[0] = images.Entry(images.ENABLED, 1000, SALT1, images.OFFSETS[0], 1)
    header = images.Luks1(digest=pbkdf2("sha256", KEY, SALT2, 1000, 20), digest_salt=SALT2, slots=entries)
    return [(0, header.header()), (4096, area("sha256"))]


def small1(hash_name="sha256"):
    header = images.Luks1(hash_spec=hash_name.encode(), payload_offset=128, digest_salt=SALT2,
                          slots=[images.Entry(offset=8 + 8 * n, stripes=40) for n in range(8)])
    header.digest = pbkdf2(hash_name, KEY, SALT2, 1000, 20)
    header.slots[0] = images.Entry(images.ENABLED, 1000, SALT1, 8, 40)
    return [(0, header.header()), (4096, sealed(b"one", hash_name))]


def small2(*hashes):
    """LUKS2 whose keyslots have these hashes; the first opens by `one`, the second by `two`."""
    slots = {str(n): images.keyslot(name, salt=SALT1, offset=32768 + 4096 * n, stripes=40) for n, name in enumerate(hashes)}
    value = images.metadata(slots, hash_name="sha256", digest=pbkdf2("sha256", KEY, SALT2, 1000, 32), digest_salt=SALT2, offset=65536)
    value["config"]["keyslots_size"] = "32768"
    areas = [(32768 + 4096 * n, sealed(word, name)) for n, (word, name) in enumerate(zip((b"one", b"two"), hashes))]
    return [*images.copies(images.compact(value)), *areas]


@functools.cache
def small(name):
    """The parts of the small volume of this name."""
    if name == "luks1":
        return small1()
    parts = small2("sha256", "sha256" if name == "luks2" else "sha512")
    return [*parts, (104, b"\x01"), (16488, b"\x01")] if name == "damaged" else parts


def large(used):
    """LUKS1 with seven key areas of 5000 sectors, of which so many are in use, and one of a stripe."""
    header = images.Luks1(payload_offset=0xA000, digest_salt=SALT2, slots=[images.Entry(offset=8 + 5000 * n, stripes=40000) for n in range(7)])
    header.digest = pbkdf2("sha256", KEY, SALT2, 1000, 20)
    header.slots.append(images.Entry(offset=35008, stripes=1))
    for n in range(used):
        header.slots[n].active, header.slots[n].iterations = images.ENABLED, 1000
    header.slots[0].salt, header.slots[0].iterations = SALT1, 1000
    return [(0, header.header()), (4096, sealed(b"one"))]
