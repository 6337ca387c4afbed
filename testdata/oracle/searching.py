"""The last ways of rebuilding, in Python: what of a damaged header a passphrase finds. Each search changes few bytes of what stands, or puts metadata
together of its fragments, and takes what a keyslot then opens by: a key that meets a digest that stood there, or one that differs from it in few bits.
What is tried in which order, and what counts as a derivation, is the program's; no contract says it."""
import base64
import functools

import images
import reader
import rebuilding
import rebuilding1
from reader import ENABLED, Fault

# A digest that was damaged is taken for the key's where it differs in no more bits.
FEW_BITS = 8
# No trial derives by more iterations, nor by more KiB times passes, nor merges more stripes.
MOST_TURNS, MOST_STRIPES = 1 << 26, 1 << 16
# Two copies are composed byte by byte where they differ in no more bytes.
FEW_BYTES = 16
# An object of the metadata that is taken for a fragment has no more bytes, and its braces nest no deeper; it begins before this place, and of each kind so
# many are tried.
LONGEST, DEEPEST, FRONT, MOST_FRAGMENTS = 4096, 2, 9 * 1040384 + 4096, 64
# The bytes of a JSON area of the shortest header, which fragments make.
AREA = 12288
# No longer text is searched bit by bit.
MOST_TEXT = 1 << 16


class Spent(Exception):
    """As many derivations were made as may be, and not all was tried."""


class Tally:
    """Counts derivations before they are made."""

    def __init__(self, most=None):
        self.done, self.most = 0, most

    def count(self):
        if self.done == self.most:
            raise Spent
        self.done += 1


class Headed:
    """A volume with other first bytes, which isn't put together."""

    def __init__(self, head, source):
        self.head, self.source = head, source

    def __len__(self):
        return len(self.source)

    def __getitem__(self, place):
        start, stop, _ = place.indices(len(self.source))
        if start >= len(self.head):
            return self.source[start:stop]
        return self.head[start:stop] + self.source[len(self.head):stop]


def turned(data, bit):
    out = bytearray(data)
    out[bit // 8] ^= 1 << bit % 8
    return bytes(out)


def by_bit(bit, where=""):
    return f"with bit {bit % 8} of byte {bit // 8}{where} turned"


def flipped(a, b):
    """The number of bits in which they differ."""
    return (int.from_bytes(a, "big") ^ int.from_bytes(b, "big")).bit_count()


@functools.lru_cache(maxsize=64)
def candidate(area, cipher, cipher_key, length, stripes, hashes, salt, cost, passphrase):
    """What the stripes hold; it doesn't hang on the digest."""
    cost = dict(cost) if isinstance(cost, tuple) else cost
    plan = (area, cipher, cipher_key, length, stripes, hashes, (salt, cost), (b"", 1, b""))
    return reader.candidate(plan, passphrase)[0]


def key_of(plan, passphrase):
    area, cipher, cipher_key, length, stripes, hashes, (salt, cost), _ = plan
    cost = tuple(sorted(cost.items())) if isinstance(cost, dict) else cost
    return candidate(area, cipher, cipher_key, length, stripes, tuple(hashes), salt, cost, passphrase)


def given_digest(plan, key):
    """What the key gives in place of the digest."""
    salt, iterations, stored = plan[-1]
    return reader.pbkdf2(plan[5][2], key, salt, iterations, len(stored))


def is_dear(stripes, cost, digest_iterations):
    """A trial would take too long."""
    turns = cost["time"] * cost["memory"] if isinstance(cost, dict) else cost
    return max(turns, digest_iterations) > MOST_TURNS or stripes > MOST_STRIPES


def differs(plan, passphrase):
    """The digest that the key gives, and in how many bits the one that stands differs from it."""
    digest = given_digest(plan, key_of(plan, passphrase))
    return digest, flipped(digest, plan[-1][2])


def by_digest(bits):
    return f"with {bits} bit{'s' if bits != 1 else ''} of the digest turned"


# ---- LUKS1

def field_bits(start, length):
    """The bits of a field, from its last byte to its first: a number is turned in its low bits before it becomes dear."""
    return [8 * at + bit for at in reversed(range(start, start + length)) for bit in range(8)]


# The fields in the order in which their bits are turned, each for all keyslots: those that may become dear come last.
FIELDS = (lambda n: (108, 4), lambda n: (132, 32), lambda n: (208 + 48 * n, 4), lambda n: (216 + 48 * n, 40), lambda n: (164, 4), lambda n: (212 + 48 * n, 4))


def tried_1(source, head, given, n, passphrase, tally):
    """The digest that keyslot n gives by the header that is made of these 592 bytes, and in how many bits the one that stands differs; nothing where it
    isn't kept in use, or would take too long, or is refused once it was counted."""
    volume = Headed(head, source)
    if rebuilding1.field_faults(volume, given):
        return None
    d, kept = rebuilding1.fields(volume, given)
    state, iterations, _, _, stripes = d["slots"][n]
    if n not in kept or state != ENABLED or is_dear(stripes, iterations, d["iterations"]):
        return None
    tally.count()
    try:
        return differs(reader.plan1(volume, d, n), passphrase)
    except Fault:
        return None


def standing_1(source, head, given, n, passphrase, tally):
    """The header by which keyslot n opens as it stands, or with another digest near to its own, and what of it isn't as it stands."""
    found = tried_1(source, head, given, n, passphrase, tally)
    if found is None or found[1] > FEW_BITS:
        return None
    digest, bits = found
    if bits == 0:
        return head, n, "by what stands"
    return head[:112] + digest + head[132:], n, by_digest(bits)


def search1(source, given, passphrase, tally=None):
    """The first header and keyslot that open, and what was changed for it; or none."""
    tally, head = tally or Tally(), source[:592]
    for n in range(8):
        found = standing_1(source, head, given, n, passphrase, tally)
        if found is not None:
            return found
    for field in FIELDS:
        for n in range(8):
            for bit in field_bits(*field(n)):
                found = tried_1(source, turned(head, bit), given, n, passphrase, tally)
                if found is not None and found[1] == 0:
                    return turned(head, bit), n, by_bit(bit)
    return None


def most_1(source):
    """How many derivations are made at most: of a keyslot in use one as it stands, and one for each bit of the fields that are searched; of one whose word is a
    bit from that one."""
    off = [(int.from_bytes(source[208 + 48 * n:212 + 48 * n], "big") ^ ENABLED).bit_count() for n in range(8)]
    return 705 * off.count(0) + off.count(1)


def rebuilt1(source, given, passphrase, target, tally=None):
    """What the program answers, and the target that is left."""
    try:
        for fault in rebuilding1.faults(source, given):
            if fault in ("Reencrypting", "NoHeader"):
                raise Fault(fault)
        found = search1(source, given, passphrase, tally)
        if found is None:
            return "no slot opens", target
        head, n, how = found
        header, areas = rebuilding1.laid(Headed(head, source), given, len(target))
    except Fault as fault:
        return f"refused {fault}", target
    out = bytearray(target)
    for at in (0, 16384):
        out[at:at + 512] = bytes(512)
    for start, length in areas:
        out[start:start + length] = source[start:start + length]
    out[:592] = header
    return f"done: keyslot {n} opens {how}", bytes(out)


# ---- LUKS2: of a JSON area its text is kept, behind which zeros stand

def begun(source):
    """The copies whose JSON area begins with a brace, by their size, the first one before the second: size, place, and the area's text."""
    for size in rebuilding.SIZES:
        for at in (0, size):
            if at + size <= len(source) and source[at + 4096:at + 4097] == b"{":
                yield size, at, source[at + 4096:at + size].split(b"\0")[0]


@functools.lru_cache(maxsize=1 << 15)
def parsed(text):
    """The value of a JSON area with this text; none where it isn't such JSON."""
    try:
        return reader.read_json(text + b"\0")
    except Fault:
        return None


def value_of(size, text):
    """The metadata of a copy of this size with this text; none where it has a fault."""
    value = parsed(text) if len(text) < size - 4096 else None
    try:
        if value is None or value["config"]["json_size"] != str(size - 4096):
            return None
        reader.judge({"size": size}, value)
    except (Fault, KeyError, TypeError):
        return None
    return value


def digest_of(value, n):
    return next(it for it in value["digests"].values() if str(n) in it["keyslots"])


def says_of(value, n):
    """All that the metadata says of opening a keyslot; none where there is no such keyslot."""
    if value is None or str(n) not in value["keyslots"]:
        return None
    slot, digest = value["keyslots"][str(n)], digest_of(value, n)
    kdf, area = slot["kdf"], slot["area"]
    costs = ("hash", "iterations") if kdf["type"] == "pbkdf2" else ("time", "memory", "cpus")
    return ([kdf[name] for name in ("type", "salt", *costs)], reader.slot_area2(slot), area["encryption"], area["key_size"], slot["key_size"],
            slot["af"]["stripes"], slot["af"]["hash"], [digest[name] for name in ("hash", "iterations", "salt", "digest")])


def numbers(value):
    return [n for n, _ in reader.by_number(value["keyslots"])] if value else []


def tried_2(source, value, n, passphrase, allowed, tally):
    """The digest that keyslot n gives, and in how many bits the one that stands differs; nothing where it lies outside, or would take too long, or is refused
    once it was counted. Argon2 may take so many KiB."""
    slot, digest = value["keyslots"][str(n)], digest_of(value, n)
    start, length = reader.slot_area2(slot)
    kdf = slot["kdf"]
    if start + length > len(source) or is_dear(slot["af"]["stripes"], kdf["iterations"] if kdf["type"] == "pbkdf2" else kdf, digest["iterations"]):
        return None
    tally.count()
    try:
        return differs(reader.plan2(source, value, n, *allowed), passphrase)
    except Fault:
        return None


def opens(source, value, n, passphrase, allowed, tally):
    found = tried_2(source, value, n, passphrase, allowed, tally)
    return found is not None and found[1] == 0


def standing_2(source, size, text, passphrase, allowed, tally):
    """The text by which a keyslot opens as it stands, or with another digest near to its own, in the first place where the digest's text stands."""
    value = value_of(size, text)
    for n in numbers(value):
        found = tried_2(source, value, n, passphrase, allowed, tally)
        if found is None or found[1] > FEW_BITS:
            continue
        digest, bits = found
        if bits == 0:
            return text, n, "by what stands"
        old, new = digest_of(value, n)["digest"].encode(), base64.b64encode(digest)
        # the digest is derived again, for its bytes
        tally.count()
        at = text.find(old)
        while at >= 0:
            # there may be another text
            changed = text[:at] + new + text[at + len(old):]
            made = value_of(size, changed)
            if n in numbers(made) and digest_of(made, n)["digest"].encode() == new and opens(source, made, n, passphrase, allowed, tally):
                return changed, n, by_digest(bits)
            at = text.find(old, at + 1)
    return None


def mixed(one, two):
    """Compositions of the bytes of two texts that differ in few, by the digits of their number, the lowest first."""
    length = max(len(one), len(two))
    one, two = one.ljust(length, b"\0"), two.ljust(length, b"\0")
    places = [p for p in range(length) if one[p] != two[p]]
    for number in range(2 ** len(places) if len(places) <= FEW_BYTES else 0):
        text = bytearray(one)
        for k, p in enumerate(places):
            if number >> k & 1:
                text[p] = two[p]
        yield bytes(text).rstrip(b"\0")


def anew(source, standing, value, passphrase, allowed, tally):
    """The first keyslot that opens by this metadata, of those that it tells otherwise than what stands."""
    for n in numbers(value):
        if says_of(value, n) != says_of(standing, n) and opens(source, value, n, passphrase, allowed, tally):
            return n
    return None


def by_mixing(source, size, one, two, passphrase, allowed, tally):
    """The first composition of both texts by which a keyslot opens that doesn't by the first one."""
    standing = value_of(size, one)
    for text in mixed(one, two):
        n = anew(source, standing, value_of(size, text), passphrase, allowed, tally)
        if n is not None:
            return text, n, "by bytes of both copies"
    return None


def by_bits(source, size, text, passphrase, allowed, tally):
    """The text with one bit turned, by which a keyslot opens that doesn't by what stands."""
    standing = value_of(size, text)
    for bit in range(8 * len(text) if len(text) <= MOST_TEXT else 0):
        n = anew(source, standing, value_of(size, turned(text, bit)), passphrase, allowed, tally)
        if n is not None:
            return turned(text, bit), n, by_bit(bit, " of the JSON area")
    return None


def search2(source, passphrase, allowed=(0, False), tally=None, given=None):
    """The first JSON area and keyslot that open: the size and place of the copy, the area, the keyslot, and what was changed for it; or none. Argon2 may take
    so many KiB, and ciphers and hashes of older disks are accepted where that is said. A segment may be given: its offset, cipher and sector size."""
    found = first_2(source, (passphrase, allowed, tally or Tally()), given)
    if found is None:
        return None
    size, at, text, n, how = found
    return size, at, text.ljust(size - 4096, b"\0"), n, how


def first_2(source, trying, given):
    copies = list(begun(source))
    for size, at, text in copies:
        found = standing_2(source, size, text, *trying)
        if found is not None:
            return size, at, *found
    for size, at, text in copies:
        for two in [it for many, place, it in copies if at == 0 and (many, place) == (size, size)]:
            found = by_mixing(source, size, text, two, *trying)
            if found is not None:
                return size, at, *found
    for size, at, text in copies:
        found = by_bits(source, size, text, *trying)
        if found is not None:
            return size, at, *found
    return search_fragments(source, given, *trying) if len(source) >= 4096 + AREA else None


def most_2(source):
    """How many derivations are made at most: so many for each place where the first 32768 bytes tell what a keyslot is derived by, and for one at least."""
    return 4096 * max(1, source[:1 << 15].count(b'"kdf"'))


def rebuilt2(source, passphrase, target, random, uuid=None, allowed=(0, False), tally=None, given=None):
    """What the program answers, and the target that is left."""
    found = search2(source, passphrase, allowed, tally, given)
    if found is None:
        return "no slot opens", target
    size, at, area, n, how = found
    try:
        left = made_2(source, size, at, area, len(target), random, uuid)
    except Fault as fault:
        return f"refused {fault}", target
    out = bytearray(target)
    for place, part in left:
        out[place:place + len(part)] = part
    return f"done: keyslot {n} opens {how}", bytes(out)


def made_2(source, size, at, area, length, random, uuid):
    """What is written to a target of this length, in order, of this JSON area."""
    value = reader.metadata({"size": size, "json": area})
    slots = [(n, reader.slot_area2(slot)) for n, slot in reader.by_number(value["keyslots"])]
    reader.fit([("Head1", (0, size)), ("Head2", (size, size))] + [(f"Slot({n})", place) for n, place in slots], len(source))
    if length < 2 * size + int(value["config"]["keyslots_size"]):
        raise Fault("TooSmall")
    if uuid is not None and not reader.UUID.fullmatch(uuid):
        raise Fault("Uuid")
    if len(random) != rebuilding.NEEDED:
        raise Fault("RandomLength")
    text, own = area.rstrip(b"\0"), rebuilding.uuid_of(source, size, at, uuid, random)
    cleared = [(place, bytes(512)) for place in (0, size)]
    keys = [(start, source[start:start + count]) for _, (start, count) in slots]
    return cleared + keys + [(place, images.copy(text, place, size, uuid=own, salt=salt)) for place, salt in ((size, random[64:128]), (0, random[:64]))]


# ---- fragments

def object_length(data, start):
    """How many bytes the object has that begins at this brace: its braces are balanced, nest at most 2 deep and end within 4096 bytes; strings aren't looked at."""
    level = 0
    for at in range(start, min(start + LONGEST, len(data))):
        if data[at] == 0x7B:
            if level == DEEPEST:
                return None
            level += 1
        elif data[at] == 0x7D:
            level -= 1
            if level == 0:
                return at + 1 - start
    return None


def fragments(data):
    """The keyslots, digests and segments that are whole in the bytes: where each begins, what it is, the number before it as a member's name, or
    none, and its text."""
    start = data.find(b"{")
    while start >= 0:
        length = object_length(data, start)
        if length is not None:
            text = data[start:start + length]
            kind = kind_of(text)
            if kind is not None:
                yield start, kind, name_before(data, start), text
        start = data.find(b"{", start + 1)


def listed(disk):
    """The fragments of a disk, one after the other: where each begins, what it is, and the number before it. What begins inside of one isn't looked at."""
    behind = 0
    for start, kind, number, text in fragments(disk):
        if start >= behind:
            behind = start + len(text)
            yield start, kind, number


# Metadata that is accepted, of which one object is exchanged.
SOME = {"keyslot": b'{"type":"luks2","key_size":64,"af":{"type":"luks1","stripes":4000,"hash":"sha256"},"area":{"type":"raw","offset":"32768","size":"258048",'
        b'"encryption":"aes-xts-plain64","key_size":64},"kdf":{"type":"pbkdf2","hash":"sha256","iterations":1000,"salt":"AAAA"}}',
        "digest": b'{"type":"pbkdf2","hash":"sha256","iterations":1000,"salt":"AAAA","digest":"AAAAAAAAAAAAAAAAAAAAAAAAAAAA"}',
        "segment": b'{"type":"crypt","offset":"16777216","size":"dynamic","iv_tweak":"0","encryption":"aes-xts-plain64","sector_size":512}'}


def made_text(region, n, m, keyslot, digest, segment):
    """The text of metadata of keyslot n, digest m, which names it, and segment 0. What the digest's text names itself doesn't count: of two members of one name
    the last does."""
    return (b'{"config":{"json_size":"12288","keyslots_size":"%d"},"digests":{"%d":%s,"keyslots":["%d"],"segments":["0"]}},"keyslots":{"%d":%s},"segments":{"0":%s},'
            b'"tokens":{}}' % (region, m, digest[:-1], n, n, keyslot, segment))


def kind_of(text):
    """What the object is: metadata that is accepted except for it is accepted with it in its place."""
    if len(text) < 32 or not all(0x20 <= byte <= 0x7E for byte in text):
        return None
    for kind in SOME:
        if value_of(4096 + AREA, made_text((1 << 64) - 1, 0, 0, *{**SOME, kind: text}.values())) is not None:
            return kind
    return None


def name_before(data, start):
    """The number before an object as its member's name: `"0":{`."""
    head = data[max(start - 5, 0):start]
    if head[-2:] != b'":' or b'"' not in head[:-2]:
        return None
    name = head[:-2].rsplit(b'"', 1)[1].decode("latin-1")
    return int(name) if reader.NAME.match(name) else None


def found_fragments(source):
    """The first of each kind in the first bytes of the source, of segments those that encrypt: where each begins, its number, if it has one, and its
    text. What stands again with the same number, as in both copies, counts once."""
    them = {kind: [] for kind in SOME}
    for start, kind, number, text in fragments(source[:FRONT + LONGEST]):
        counts = start < FRONT and (kind != "segment" or reader.read_value(text)["type"] == "crypt")
        again = any(it[1:] == (number, text) for it in them[kind])
        if counts and not again and len(them[kind]) < MOST_FRAGMENTS:
            them[kind].append((start, number, text))
    return them


def region_of(keyslot):
    """How many bytes the region of key areas needs for this keyslot, in whole blocks of 4096."""
    start, length = reader.slot_area2(reader.read_value(keyslot))
    return max(images.round_up(start + length - 2 * (4096 + AREA), 4096), 0)


def chosen_segment(segments, digest):
    """That with the number which the digest names first, else the first."""
    named = reader.read_value(digest).get("segments")
    first = named[0] if isinstance(named, list) and named else None
    return next((it for it in segments if it[1] is not None and str(it[1]) == first), segments[0])


def given_text(offset, cipher, sector_size):
    """The text of the segment that is given."""
    return (b'{"type":"crypt","offset":"%d","iv_tweak":"0","size":"dynamic","encryption":"%s","sector_size":%d}' % (offset, cipher, sector_size))


def search_fragments(source, given, passphrase, allowed, tally):
    """Each keyslot with each digest, and the digest's segment, or the one that is given: what is found is the compact text of the metadata that they make."""
    them, size = found_fragments(source), 4096 + AREA
    for at, n, keyslot in them["keyslot"]:
        for place, m, digest in them["digest"] if given or them["segment"] else []:
            where, _, segment = (None, None, given_text(*given)) if given else chosen_segment(them["segment"], digest)
            value = value_of(size, made_text(region_of(keyslot), n or 0, m or 0, keyslot, digest, segment))
            if value is not None and opens(source, value, n or 0, passphrase, allowed, tally):
                how = f"{at} and {place}, and the segment that is given" if given else f"{at}, {place} and {where}"
                return size, 0, images.compact(value), n or 0, f"by fragments at {how}"
    return None
