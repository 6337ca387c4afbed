"""Hostile volumes: made of a number, or with a header that is cut or changed; the commands that are tried on each, and what reader.py, underway.py and edits.py
answer. tests/suite/hostile.py asks the program the same. The volume of a number has its twin in the crate luks_test_devices,
which draws the same numbers in the same order and writes the same bytes.
"""
import hashlib
import struct

import edits
import images
import reader
import underway
from equations import HASHES, SECTOR, pbkdf2, round_up, sealed_area

MASK = (1 << 64) - 1
# more random bytes than an edit takes; byte i is i mod 256
RANDOM = images.counting(8192)
NEW, WRONG = b"new", b"wrong"
# members that are in no list, each after a member that is; every kind of value
UNNAMED = (',"x":null', ',"y":true', ',"z":[1,-2,"a",[]]', ',"a":18446744073709551615', ',"b":-9223372036854775808', ',"c":"\\u0000\\n\\u00e9é"',
           ',"d":{"e":{"f":[{}]}}', ',"g":false', ',"h":""', ',"é":"\\/\\"\\\\"')
GAPS = ("", " ", "\n\t")
# what a drawn keyslot has that opening refuses
ARGON2I, ARGON2ID, CIPHER, HASH, KEY_SIZE = range(5)


class Dice:
    """SplitMix64, begun with a number."""

    def __init__(self, number):
        self.state = number

    def draw(self):
        self.state = self.state + 0x9E3779B97F4A7C15 & MASK
        z = self.state
        z = (z ^ z >> 30) * 0xBF58476D1CE4E5B9 & MASK
        z = (z ^ z >> 27) * 0x94D049BB133111EB & MASK
        return z ^ z >> 31

    def below(self, count):
        return self.draw() % count

    def pick(self, items):
        return items[self.below(len(items))]

    def bytes(self, count):
        return bytes(self.draw() & 0xFF for _ in range(count))

    def unnamed(self):
        return self.pick(UNNAMED) if self.below(6) == 0 else ""


class Key:
    """A volume key and its digest."""

    def __init__(self, dice):
        self.hash = dice.pick(HASHES)
        self.key = dice.bytes(1 + dice.below(128))
        self.salt = dice.bytes(1 + dice.below(64))
        self.iterations = 1 + dice.below(20)
        self.digest = pbkdf2(self.hash, self.key, self.salt, self.iterations, 20 + dice.below(45))
        self.names = []

    def text(self, n, segments, dice):
        return (f'"{n}":{{"type":"pbkdf2","keyslots":[{quoted(self.names)}],"segments":[{quoted(segments)}],"hash":"{self.hash}","iterations":{self.iterations},'
                f'"salt":"{images.b64(self.salt)}","digest":"{images.b64(self.digest)}"{dice.unnamed()}}}')


def quoted(names):
    return ",".join(f'"{name}"' for name in names)


def header_size(number):
    """Mostly 16384; of 200 numbers each other listed size has three at least."""
    return 16384 << 1 + number // 8 % 8 if number % 8 == 7 else 16384


def passphrase(n):
    return f"key {n}".encode()


def shuffled(dice):
    """The numbers 0 to 31 in any order."""
    order = list(range(32))
    for i in range(31, 0, -1):
        j = dice.below(i + 1)
        order[i], order[j] = order[j], order[i]
    return order


class Generated:
    """The volume of a number."""

    def __init__(self, number):
        dice = self.dice = Dice(number)
        self.size = header_size(number)
        self.slots = shuffled(dice)[:1 + dice.below(31)]
        self.keys = [Key(dice) for _ in range(1 + dice.below(3))]
        self.end, self.parts = 2 * self.size, []
        keyslots = [self.keyslot(i, n) for i, n in enumerate(self.slots)]
        self.end += dice.pick((0, 8192, 16384, 65536))
        text = self.text(keyslots)
        self.length = self.end + dice.pick((8192, 8193, 12288))
        volume = bytearray(images.volume(self.length, *self.copies(text), *self.parts))
        damaged = dice.below(4)
        if self.older is None and damaged < 2:
            volume[damaged * self.size + 4096] = 0
        self.volume = bytes(volume)

    def keyslot(self, i, n):
        """The text of a keyslot of the number n, the i-th one; its area is put where the last one ends, or behind a hole."""
        dice = self.dice
        which = dice.below(len(self.keys))
        key = self.keys[which]
        key.names.append(n)
        hash_name, stripes, cipher_key, iterations = dice.pick(HASHES), 1 + dice.below(40), dice.pick((32, 64)), 1 + dice.below(20)
        salt = dice.bytes(1 + dice.below(128 if len(self.slots) <= 8 else 16))
        priority, hole, slack, kind = dice.below(4), dice.pick((0, 0, 512, 3001)), dice.pick((0, 0, 1, 4096)), dice.below(24)
        if i == 0:
            kind = 23
        at, size = self.end + hole, round_up(len(key.key) * stripes, SECTOR) + slack
        self.end = at + size
        area = sealed_area(hash_name, pbkdf2(hash_name, passphrase(n), salt, iterations, cipher_key), key.key, dice.bytes((stripes - 1) * len(key.key)))
        self.parts.append((at, area))
        cipher = "serpent-xts-plain64" if kind == CIPHER else "aes-xts-plain" if kind == 5 else "aes-xts-plain64"
        if kind in (ARGON2I, ARGON2ID):
            kdf = f'"type":"{"argon2i" if kind == ARGON2I else "argon2id"}","time":{iterations},"memory":4294967295,"cpus":4'
        else:
            kdf = f'"type":"pbkdf2","hash":"{"ripemd160" if kind == HASH else hash_name}","iterations":{iterations}'
        prior = f',"priority":{priority}' if priority < 3 else ""
        return (f'"{n}":{{"type":"luks2","key_size":{len(key.key)},"af":{{"type":"luks1","stripes":{stripes},"hash":"{hash_name}"{dice.unnamed()}}},'
                f'"area":{{"type":"raw","offset":"{at}","size":"{size}","encryption":"{cipher}","key_size":{48 if kind == KEY_SIZE else cipher_key}{dice.unnamed()}}},'
                f'"kdf":{{{kdf},"salt":"{images.b64(salt)}"{dice.unnamed()}}}{prior}{dice.unnamed()}}}')

    def segments(self):
        """The names and the texts of the segments: none, one to the end, or a linear one behind it."""
        kind = self.dice.below(3)
        crypt = f'"type":"crypt","offset":"{self.end}","iv_tweak":"0","encryption":"aes-xts-plain64","sector_size":512'
        if kind == 0:
            return [], ""
        if kind == 1:
            return [0], f'"0":{{{crypt},"size":"dynamic"{self.dice.unnamed()}}}'
        return [3], f'"3":{{{crypt},"size":"4096"{self.dice.unnamed()}}},"0":{{"type":"linear","offset":"{self.end + 4096}","size":"dynamic"{self.dice.unnamed()}}}'

    def token(self, n):
        dice = self.dice
        names = [dice.pick(self.slots)] if dice.below(2) else []
        return f'"{n}":{{"type":"t","keyslots":[{quoted(names)}]{dice.unnamed()}}}'

    def config(self):
        dice = self.dice
        kind = dice.below(16)
        more = {0: ',"requirements":{"mandatory":["online-reencrypt"]}', 1: ',"requirements":null', 2: ',"flags":["allow-discards"]'}.get(kind, "")
        return f'{{"json_size":"{self.size - 4096}","keyslots_size":"{self.end - 2 * self.size}"{more}{dice.unnamed()}}}'

    def text(self, keyslots):
        dice = self.dice
        gap = dice.pick(GAPS)
        tokens = ",".join(self.token(n) for n in reversed(range(dice.below(33))))
        names, segments = self.segments()
        digests = ",".join(key.text(n, names if n == 0 else [], dice) for n, key in enumerate(self.keys))
        text = (f'{{{gap}"tokens":{{{tokens}}},{gap}"keyslots":{{{",".join(keyslots)}}},{gap}"segments":{{{segments}}},{gap}"digests":{{{digests}}},{gap}'
                f'"config":{gap}{self.config()}{dice.unnamed()}').encode()
        return text + b',"pad":"' + b"p" * self.padding(len(text) + 10 + len(gap)) + b'"}' + gap.encode()

    def padding(self, length):
        """How many bytes fill a text of this length: none, or nearly so many that the area is full."""
        kind, less = self.dice.below(6), self.dice.below(400)
        return max(16384 - 4096 - 1 - less - length, 0) if kind == 0 else 0

    def copies(self, text):
        """Both copies: in step, or one of them older and with no metadata."""
        dice = self.dice
        seqid, kind = MASK if dice.below(16) == 0 else 1 + dice.below(1000), dice.below(8)
        label = dice.pick((b"", b"disk", b"a\\b", b"l" * 48))
        fields = {"label": label, "subsystem": b"s" * dice.below(49)}
        older = self.older = kind if kind < 2 and seqid != MASK else None
        return [(place, images.copy(b"{}" if older == i else text, place, self.size, seqid=seqid if older in (None, i) else seqid + 1, **fields))
                for i, place in enumerate((0, self.size))]


def questions(made):
    """The commands that are tried on a volume made of a number, each on what the one before leaves."""
    first, other = made.slots[0], made.dice.pick(made.slots)
    return [("check",), ("check", "--detached"), *(("open", passphrase(slot), slot) for slot in (first, other)), ("open", passphrase(first), None),
            ("open", WRONG, None), ("add", passphrase(first), first), ("label", f"found_by_{first}".encode())]


# --- two volumes whose headers are cut and changed

def first1():
    """The LUKS1 volume: slot 0 has one stripe and opens by `one`; where each area ends."""
    head = images.Luks1(digest_salt=b"\x22" * 32)
    key = images.counting(64)
    head.digest = pbkdf2("sha256", key, head.digest_salt, 1000, 20)
    head.slots[0] = images.Entry(images.ENABLED, 1000, b"\x11" * 32, images.OFFSETS[0], 1)
    ends = [592] + [512 * slot.offset + round_up(64 * slot.stripes, SECTOR) for slot in head.slots] + [4096 * 512]
    return images.volume(images.SAMPLE_LENGTH, (0, head.header()), (4096, head.seal(0, b"one", key, b""))), ends


LENGTH2 = 49152 + 1024


def first2():
    """The LUKS2 volume: three keyslots of one stripe that open by `one`, room for a fourth, a token and a segment; where each area ends."""
    key, salt = images.counting(64), b"\x11" * 32
    slots = {str(n): images.keyslot(salt=salt, offset=32768 + 4096 * n, stripes=1) for n in range(3)}
    value = images.metadata(slots, digest=pbkdf2("sha256", key, b"\x22" * 32, 1000, 32), digest_salt=b"\x22" * 32, offset=49152)
    value["config"]["keyslots_size"] = "16384"
    value["tokens"] = {"5": {"keyslots": ["2"], "type": "t"}}
    text = images.compact(value)
    area = sealed_area("sha256", pbkdf2("sha256", b"one", salt, 1000, 64), key, b"")
    # the rest of each key area's sector is zeros: nothing reads it
    parts = [(32768 + 4096 * n, area[:64]) for n in range(3)]
    return images.volume(LENGTH2, *images.copies(text), *parts), text


FIELDS2 = (6, 8, 16, 24, 72, 104, 168, 208, 256, 264, 448, 512, 4096)


def cuts1(ends):
    return [*range(593), *around(ends[1:], images.SAMPLE_LENGTH)]


def cuts2(text):
    ends = [place + end for place in (0, 16384) for end in (*FIELDS2, 4096 + len(text), 16384)] + [36864, 40960, 45056, 49152, LENGTH2]
    return around(ends, LENGTH2)


def around(ends, length):
    return [at for end in ends for at in (end - 1, end, end + 1) if at <= length]


OPEN = ("open", b"one", 0)
HEADER = (("check",), ("check", "--detached"), ("show",))
BITS = (1, 2, 128)


def flipped(volume, at, bits):
    return volume[:at] + bytes([volume[at] ^ bits]) + volume[at + 1:]


def renewed(volume, at):
    """The volume with a new checksum of the copy at the place."""
    whole = volume[at:at + 16384]
    digest = hashlib.sha256(whole[:448] + bytes(64) + whole[512:]).digest()
    return volume[:at + 448] + digest + bytes(32) + volume[at + 512:]


# a changed byte of these makes an opening derive for minutes: the first byte of the iterations of the digest and of slot 0
LONG1 = (164, 212)


def cut_at(volume, length):
    """The volume, cut to this length."""
    cut = volume[:length]
    for words in (*HEADER, OPEN):
        yield cut, words


def changed_at(volume, at):
    """A byte changed in three ways."""
    for bits in BITS:
        changed = flipped(volume, at, bits)
        for words in HEADER + ((OPEN,) if bits == 1 and at not in LONG1 else ()):
            yield changed, words


def damaged_at(volume, at):
    """A byte changed, with the checksum that was."""
    yield flipped(volume, at, 1), ("check",)


def rewritten_at(volume, at, header=HEADER):
    """A byte changed in both copies at once in three ways, with new checksums."""
    for bits in BITS:
        changed = renewed(renewed(flipped(flipped(volume, at, bits), 16384 + at, bits), 0), 16384)
        for words in header + ((OPEN,) if bits == 1 else ()):
            yield changed, words


def under_way_at(volume, at):
    return rewritten_at(volume, at, (("check",), ("show",)))


def first_under_way():
    """The LUKS2 volume whose key becomes another: keyslots 0 and 1 of one stripe give the old key and the new one, and open by `one`."""
    key, salt = images.counting(64), b"\x11" * 32
    value = images.reencryption()
    for n in range(2):
        value["keyslots"][str(n)] = images.keyslot(salt=salt, offset=32768 + 4096 * n, stripes=1)
        value["digests"][str(n)] |= {"digest": images.b64(pbkdf2("sha256", key, bytes([0x22 + n]) * 32, 1000, 32)), "salt": images.b64(bytes([0x22 + n]) * 32)}
    value["keyslots"]["2"]["area"] |= {"offset": "40960", "size": "8192"}
    value["config"]["keyslots_size"] = "16384"
    value["tokens"] = {"5": {"keyslots": ["1"], "type": "t"}}
    text = images.compact(value)
    area = sealed_area("sha256", pbkdf2("sha256", b"one", salt, 1000, 64), key, b"")
    return images.volume(LENGTH2, *images.copies(text), *((32768 + 4096 * n, area[:64]) for n in range(2))), text


def text_bytes(text):
    """The places of the first copy's text, and of the zero behind it."""
    return range(4096, 4096 + len(text) + 1)


# of each kind the volume with what says its places, these places, and the volumes and commands that belong to one
KINDS = {
    "cuts luks1": (first1, cuts1, cut_at),
    "cuts luks2": (first2, cuts2, cut_at),
    "changes luks1": (first1, lambda _: range(592), changed_at),
    "damage luks2": (first2, lambda _: range(32768), damaged_at),
    "changes luks2": (first2, lambda text: [*range(512), *text_bytes(text)], rewritten_at),
    "changes under-way": (first_under_way, text_bytes, under_way_at),
}


def runs(kind, first=0, step=1):
    """The volumes and commands of a kind: at each place, or at one of so many, begun with the place of this number."""
    make, places, at = KINDS[kind]
    volume, more = make()
    for place in places(more)[first::step]:
        for changed, words in at(volume, place):
            yield place, changed, words


# --- the answers

GROUP = 4
EDITS = ("add", "label")


def answer(volume, words):
    """What the models answer to a command, and the volume that is left."""
    command, *more = words
    if command in EDITS:
        return edited(volume, edits.Add(more[1], more[0], NEW) if command == "add" else edits.Label(more[0]))
    if command == "check":
        return reader.check(volume, bool(more)), volume
    return underway.show(volume) if command == "show" else underway.open_volume(volume, *more)[:2], volume


def edited(volume, edit):
    """The answer to an edit by the program, which asks first how many random bytes are needed, and the volume that is left."""
    count = edits.needed(volume, False, edit, over=False)
    line, left = (count, volume) if isinstance(count, str) else edits.apply(volume, False, edit, RANDOM[:count], over=False)
    return (int(line.startswith("refused")), line + "\n"), left


def answers(step, answer=answer):
    """Each place and command that a step of a transcript asks about, with the text that is answered; `answer` is as the function above.

    `numbers N` takes four volumes made of the numbers from N on, with the sum of each volume, and of what each edit leaves; the other steps name a
    kind, and which of its places are taken.
    """
    word, name, *part = step.split(" ")
    if word != "numbers":
        for place, volume, words in runs(f"{word} {name}", *map(int, part)):
            yield (place, words), text_of(*answer(volume, words)[0])
        return
    for number in range(int(name), int(name) + GROUP):
        made = Generated(number)
        volume = made.volume
        yield (number,), text_of(0, f"{number}\n") + sum_of(volume)
        for words in questions(made):
            told, volume = answer(volume, words)
            yield (number, words), text_of(*told) + (sum_of(volume) if words[0] in EDITS else "")


def text_of(status, line):
    return f"{status} {line}"


def sum_of(volume):
    return hashlib.sha256(volume).hexdigest() + "\n"


def answers_sum(step, answer=answer):
    """The sum of all answers to a step."""
    return hashlib.sha256("".join(text for _, text in answers(step, answer)).encode()).hexdigest()
