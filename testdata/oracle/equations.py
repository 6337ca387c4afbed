"""The equations of docs/PROFILE.md in Python, over hashlib and the AES of OpenSSL's libcrypto; no code is shared with the program."""
import ctypes
import ctypes.util
import hashlib
import struct

import argon2_keys

SECTOR = 512

# The hashes of FIPS 180-4 that open.
HASHES = ("sha1", "sha256", "sha512")

# Those that open where ciphers and hashes of older disks are accepted. hashlib has Whirlpool once OpenSSL's legacy provider is loaded.
OLDER_HASHES = ("sha224", "sha384", "ripemd160", "whirlpool", "blake2b-512")
LIBCRYPTO = ctypes.CDLL(ctypes.util.find_library("crypto"))
for provider in (b"default", b"legacy"):
    LIBCRYPTO.OSSL_PROVIDER_load(None, provider)
for function, answer in (("EVP_CIPHER_CTX_new", ctypes.c_void_p), ("EVP_CIPHER_CTX_free", None), ("EVP_get_cipherbyname", ctypes.c_void_p)):
    getattr(LIBCRYPTO, function).restype = answer

XTS = "aes-xts-plain64"
# The ciphers of such disks, with the number's bytes in the initial vector, and whether it is encrypted under the key's SHA-256.
CBC = {"aes-cbc-plain": (4, False), "aes-cbc-plain64": (8, False), "aes-cbc-essiv:sha256": (8, True)}


def pbkdf2(hash_name, passphrase, salt, iterations, length):
    return hashlib.pbkdf2_hmac(hash_name, passphrase, salt, iterations, length) if length else b""


def argon2(kdf, passphrase, salt, length):
    """The key that libargon2 derives by the costs of such a keyslot."""
    variant = {"argon2i": 1, "argon2id": 2}[kdf["type"]]
    return argon2_keys.library(variant, kdf["cpus"], kdf["memory"], kdf["time"], passphrase, salt, length)


def xor(a, b):
    return (int.from_bytes(a, "big") ^ int.from_bytes(b, "big")).to_bytes(len(a), "big")


def diffuse(hash_name, data):
    size = hashlib.new(hash_name).digest_size
    out = b""
    for number, at in enumerate(range(0, len(data), size)):
        block = data[at:at + size]
        out += hashlib.new(hash_name, struct.pack(">I", number) + block).digest()[:len(block)]
    return out


def stripes_of(material, length):
    return [material[at:at + length] for at in range(0, len(material), length)]


def fold(hash_name, stripes, length):
    running = bytes(length)
    for stripe in stripes:
        running = diffuse(hash_name, xor(running, stripe))
    return running


def split(hash_name, key, random):
    """All stripes, joined: the random ones and the last, which makes them merge to the key."""
    return random + xor(fold(hash_name, stripes_of(random, len(key)), len(key)), key)


def merge(hash_name, material, length):
    stripes = stripes_of(material, length)
    return xor(fold(hash_name, stripes[:-1], length), stripes[-1])


def aes(mode, key, data, seals, vector=None):
    """Whole blocks by AES in `ecb` or `cbc`."""
    context, out, count = ctypes.c_void_p(LIBCRYPTO.EVP_CIPHER_CTX_new()), ctypes.create_string_buffer(len(data)), ctypes.c_int()
    cipher = ctypes.c_void_p(LIBCRYPTO.EVP_get_cipherbyname(f"aes-{8 * len(key)}-{mode}".encode()))
    done = (LIBCRYPTO.EVP_CipherInit_ex(context, cipher, None, key, vector, int(seals)) == 1
            and LIBCRYPTO.EVP_CIPHER_CTX_set_padding(context, 0) == 1
            and LIBCRYPTO.EVP_CipherUpdate(context, out, ctypes.byref(count), data, len(data)) == 1)
    LIBCRYPTO.EVP_CIPHER_CTX_free(context)
    if not done or count.value != len(data):
        raise ValueError("libcrypto doesn't encrypt this")
    return out.raw


def tweaks(key, unit, count):
    """The tweaks of `count` blocks of a unit, joined."""
    tweak = int.from_bytes(aes("ecb", key, unit.to_bytes(16, "little"), True), "little")
    out = []
    for _ in range(count):
        out.append(tweak.to_bytes(16, "little"))
        tweak <<= 1
        if tweak >> 128:
            tweak = (tweak & (1 << 128) - 1) ^ 0x87
    return b"".join(out)


def xts(key, unit, data, seals):
    half = len(key) // 2
    mask = tweaks(key[half:], unit, len(data) // 16)
    return xor(aes("ecb", key[:half], xor(data, mask), seals), mask) if data else b""


def xts_units(key, data, seals):
    return b"".join(xts(key, unit, data[at:at + SECTOR], seals) for unit, at in enumerate(range(0, len(data), SECTOR)))


def cbc(cipher, key, unit, data, seals):
    """A sector by one of the ciphers of older disks (NIST SP 800-38A, 6.2; its initial vector as dm-crypt's names say)."""
    size, is_hashed = CBC[cipher]
    vector = (unit % 256**size).to_bytes(16, "little")
    if is_hashed:
        vector = aes("ecb", hashlib.sha256(key).digest(), vector, True)
    return aes("cbc", key, data, seals, vector)


def units(cipher, key, data, seals):
    """The sectors of a key area by this cipher."""
    if cipher not in CBC:
        return xts_units(key, data, seals)
    return b"".join(cbc(cipher, key, unit, data[at:at + SECTOR], seals) for unit, at in enumerate(range(0, len(data), SECTOR)))


def round_up(n, to):
    return -(-n // to) * to


def sealed_area(hash_name, slot_key, key, random, cipher=XTS):
    """The sectors of a key area that holds `key`: its stripes, zeros to the sector's end, encrypted."""
    material = split(hash_name, key, random)
    return units(cipher, slot_key, material.ljust(round_up(len(material), SECTOR), b"\0"), True)


def opened_area(hash_name, slot_key, area, length, stripes, cipher=XTS):
    """The candidate for the key that a key area holds."""
    used = length * stripes
    return merge(hash_name, units(cipher, slot_key, area[:round_up(used, SECTOR)], False)[:used], length)
