"""Tags of Argon2, made by other means.

They are those of libargon2 (Debian's package libargon2-1) by ctypes. It refuses salts of fewer than 8 bytes: those tags are of the
model below, written from RFC 9106, sections 3.2 to 3.6, over hashlib's BLAKE2b, which `vectors` compares with libargon2 on all others.
"""
import ctypes
import hashlib
import struct

MASK = 2**64 - 1


def variable_hash(message, length):
    """H' (3.3)."""
    message = struct.pack("<I", length) + message
    if length <= 64:
        return hashlib.blake2b(message, digest_size=length).digest()
    whole, turn = b"", hashlib.blake2b(message).digest()
    while length - len(whole) > 64:
        whole += turn[:32]
        left = length - len(whole)
        turn = hashlib.blake2b(turn, digest_size=min(64, left)).digest()
    return whole + turn


def rotated(word, count):
    return (word >> count | word << 64 - count) & MASK


def multiplied(x, y):
    return x + y + 2 * (x & 0xFFFFFFFF) * (y & 0xFFFFFFFF) & MASK


def permute(words, places):
    """P (3.6) on the sixteen words at these places."""
    for quarter in ((0, 4, 8, 12), (1, 5, 9, 13), (2, 6, 10, 14), (3, 7, 11, 15),
                    (0, 5, 10, 15), (1, 6, 11, 12), (2, 7, 8, 13), (3, 4, 9, 14)):
        a, b, c, d = (places[k] for k in quarter)
        for turns in ((32, 24), (16, 63)):
            words[a] = multiplied(words[a], words[b])
            words[d] = rotated(words[d] ^ words[a], turns[0])
            words[c] = multiplied(words[c], words[d])
            words[b] = rotated(words[b] ^ words[c], turns[1])


def compressed(x, y):
    """G (3.5)."""
    r = [a ^ b for a, b in zip(x, y)]
    z = list(r)
    for row in range(8):
        permute(z, [16 * row + k for k in range(16)])
    for column in range(8):
        permute(z, [16 * row + 2 * column + k for row in range(8) for k in (0, 1)])
    return [a ^ b for a, b in zip(r, z)]


def words_of(block):
    return list(struct.unpack("<128Q", block))


def model(variant, lanes, memory, time, password, salt, length, secret=b"", associated=b""):
    """The tag (3.2), with a memory that is overwritten as the RFC says."""
    fields = [lanes, length, memory, time, 0x13, variant]
    told = b"".join(struct.pack("<I", n) for n in fields)
    for text in (password, salt, secret, associated):
        told += struct.pack("<I", len(text)) + text
    first = hashlib.blake2b(told).digest()
    blocks = 4 * lanes * (memory // (4 * lanes))
    row = blocks // lanes
    segment = row // 4
    b = [[None] * row for _ in range(lanes)]
    for lane in range(lanes):
        for column in (0, 1):
            b[lane][column] = words_of(variable_hash(first + struct.pack("<II", column, lane), 1024))
    zero = [0] * 128
    for turn in range(time):
        for part in range(4):
            for lane in range(lanes):
                free = variant == 1 or variant == 2 and turn == 0 and part < 2
                for i in range(segment):
                    column = part * segment + i
                    if turn == 0 and column < 2:
                        continue
                    previous = b[lane][(column - 1) % row]
                    if free:
                        given = [turn, lane, part, blocks, time, variant, i // 128 + 1] + [0] * 121
                        pair = compressed(zero, compressed(zero, given))[i % 128]
                    else:
                        pair = previous[0]
                    low, high = pair & 0xFFFFFFFF, pair >> 32
                    other = lane if turn == 0 and part == 0 else high % lanes
                    ready = part * segment if turn == 0 else row - segment
                    if other == lane:
                        count = ready + i - 1
                    else:
                        count = ready - (1 if i == 0 else 0)
                    start = 0 if turn == 0 else (part + 1) * segment % row
                    back = count * (low * low >> 32) >> 32
                    place = (start + count - 1 - back) % row
                    made = compressed(previous, b[other][place])
                    if turn > 0:
                        made = [x ^ y for x, y in zip(made, b[lane][column])]
                    b[lane][column] = made
    last = zero
    for lane in range(lanes):
        last = [x ^ y for x, y in zip(last, b[lane][-1])]
    return variable_hash(struct.pack("<128Q", *last), length)


class Context(ctypes.Structure):
    _fields_ = [
        ("out", ctypes.c_void_p), ("outlen", ctypes.c_uint32),
        ("password", ctypes.c_char_p), ("password_len", ctypes.c_uint32),
        ("salt", ctypes.c_char_p), ("salt_len", ctypes.c_uint32),
        ("secret", ctypes.c_char_p), ("secret_len", ctypes.c_uint32),
        ("data", ctypes.c_char_p), ("data_len", ctypes.c_uint32),
        ("time", ctypes.c_uint32), ("memory", ctypes.c_uint32), ("lanes", ctypes.c_uint32), ("threads", ctypes.c_uint32),
        ("version", ctypes.c_uint32), ("take", ctypes.c_void_p), ("give", ctypes.c_void_p), ("flags", ctypes.c_uint32),
    ]


def library(variant, lanes, memory, time, password, salt, length, secret=b"", associated=b""):
    """The tag of libargon2, by one thread."""
    out = ctypes.create_string_buffer(length)
    context = Context(ctypes.addressof(out), length, password, len(password), salt, len(salt), secret, len(secret),
                      associated, len(associated),
                      time, memory, lanes, 1, 0x13, None, None, 0)
    status = ctypes.CDLL("libargon2.so.1").argon2_ctx(ctypes.byref(context), variant)
    if status != 0:
        raise ValueError(f"libargon2 answers {status}")
    return out.raw
