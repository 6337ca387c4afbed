"""Edits of a volume in Python: the first refusal, or the volume that is left, byte for byte, of the old one and the random bytes.

An edit's `memory` is how many KiB Argon2 may take, its `older` whether ciphers and hashes of older disks are accepted; its `kdf` is what a new keyslot is to derive by, the members of the metadata that say so, and none where
that is as of the keyslot that opens. Add, Change and Remove that name no keyslot are those of the first one that the passphrase opens, as `open` tries them (`named`). An edit is a list of writes, each followed by a flush, so
that what a failing call leaves can be told too (`left`).
"""
from dataclasses import dataclass, replace

import images
import makers
import reader
import uses
from equations import argon2, pbkdf2, sealed_area
from formatting import UUID, Drawn, uuid_text
from images import DISABLED, ENABLED, Entry
from reader import Fault

LARGEST_SEQID = (1 << 64) - 1


class Key(bytes):
    """A key, in the place of the passphrase that opens a keyslot."""


@dataclass(frozen=True)
class Add:
    """The edit by the keyslot `by`; without one, by the keyslot that the passphrase opens, or by a key that is the volume's."""
    by: int
    old: bytes
    new: bytes
    to: int = None
    iterations: int = 1000
    memory: int = 0
    kdf: dict = None
    older: bool = False


@dataclass(frozen=True)
class Change:
    slot: int
    old: bytes
    new: bytes
    iterations: int = 1000
    memory: int = 0
    kdf: dict = None
    older: bool = False


@dataclass(frozen=True)
class Remove:
    """Of the keyslot `slot`, whose passphrase it is, or by a key that is the volume's; where `by` is given, those of the keyslot `by`, another one."""
    slot: int
    passphrase: bytes
    by: int = None
    memory: int = 0
    older: bool = False


@dataclass(frozen=True)
class Erase:
    """Every keyslot is removed, and no passphrase is asked for."""


@dataclass(frozen=True)
class Repair:
    pass


@dataclass(frozen=True)
class Label:
    """The label, and the subsystem where it is given."""
    text: bytes
    subsystem: bytes = None


@dataclass(frozen=True)
class Uuid:
    """The uuid's text; where there is none, one of version 4 is made of random bytes."""
    text: bytes = None


@dataclass(frozen=True)
class Priority:
    """A keyslot gets a priority: `ignore`, `normal` or `prefer`."""
    slot: int
    priority: str


@dataclass(frozen=True)
class AddToken:
    """The token that the text says, by the number `to`, or the least that is free."""
    text: bytes
    to: int = None


@dataclass(frozen=True)
class RemoveToken:
    number: int


# the edits that change the header alone, and that LUKS1 hasn't
REWRITES = (Label, Priority, AddToken, RemoveToken)
# the place of the uuid in a header, in 40 bytes; and how many random bytes make a new one
UUID_PLACE, UUID_RANDOM = 168, 16


def opened_by(edit):
    """The keyslot that the edit's passphrase, or key, has to open, none of a key that is the volume's, and that; none for an edit of the header alone."""
    if isinstance(edit, Add):
        return edit.by, edit.old
    if isinstance(edit, Change):
        return edit.slot, edit.old
    if isinstance(edit, Remove):
        own = None if isinstance(edit.passphrase, Key) else edit.slot
        return own if edit.by is None else edit.by, edit.passphrase
    return None


def by_passphrase(edit):
    """The name of the member that says which keyslot the passphrase opens, where the edit names none, and it is to be found; else none."""
    if opened_by(edit) is None or isinstance(opened_by(edit)[1], Key) or opened_by(edit)[0] is not None:
        return None
    return "by" if isinstance(edit, Add) else "slot"


def uuid_need(edit):
    """How many random bytes are the uuid's own, behind those of the copies' salts."""
    return UUID_RANDOM if edit == Uuid() else 0


def uuid_field(edit, random):
    """The 40 bytes of the uuid that the edit sets."""
    return (uuid_text(random) if edit.text is None else edit.text).ljust(40, b"\0")


def refuse_uuid(edit):
    """The text of a uuid: hexadecimal digits in either letter case, in the groups of RFC 9562, 4."""
    if isinstance(edit, Uuid) and edit.text is not None and not UUID.fullmatch(edit.text):
        raise Fault("BadUuid")


def kdf_of(edit):
    """What a new keyslot is to derive by: what is chosen, by the volume key PBKDF2 otherwise, else none."""
    return {"type": "pbkdf2", "iterations": edit.iterations} if edit.kdf is None and opened_by(edit)[0] is None else edit.kdf


def other_key(length, key):
    """The fault of a key that isn't the one of so many bytes."""
    return Fault("WrongKey" if len(key) == length else "KeyLength")


class Volume1:
    """A LUKS1 volume that `check` accepts."""
    most = 8

    def __init__(self, volume):
        self.volume = volume
        self.d = reader.common1(volume, range(8))
        self.entries = [Entry(*fields) for fields in self.d["slots"]]
        self.used = [n for n in range(8) if self.entries[n].active == ENABLED]

    def plan(self, n, edit):
        return reader.plan1(self.volume, self.d, n, edit.older)

    def takes_a_free_slot(self, edit):
        return isinstance(edit, (Add, Change))

    def need(self, edit):
        if not isinstance(edit, (Add, Change)):
            return uuid_need(edit)
        return 32 + (self.entries[place_of(self, edit)].stripes - 1) * self.d["key_bytes"]

    def has_room(self, edit):
        return True

    def is_last(self, n):
        return self.used == [n]

    def refuse_rewrite(self, edit):
        """LUKS1 has only the uuid of these."""
        if isinstance(edit, REWRITES):
            raise Fault("BadLabel")
        refuse_uuid(edit)

    def refuse_header(self, edit):
        pass

    def area(self, n):
        start, length = reader.slot_area1(self.d, n)
        return start, length

    def entry(self, n, entry):
        return 208 + 48 * n, images.struct.pack(">II32sII", entry.active, entry.iterations, entry.salt, entry.offset, entry.stripes)

    def volume_key(self, key, edit):
        """The key, where it is the volume's."""
        fault = reader.refusal(b"-".join((self.d["cipher"], self.d["mode"])).decode(), [self.d["hash"].decode()], self.d["key_bytes"], edit.older)
        if fault:
            raise Fault(fault)
        if reader.match_key(self.volume, key, 0, edit.older)[0] != 0:
            raise other_key(self.d["key_bytes"], key)
        return key

    def judge_need(self, edit):
        pass

    def is_beyond(self, edit):
        """LUKS1 has no Argon2."""
        return edit.kdf is not None and edit.kdf["type"] != "pbkdf2"

    def writes(self, edit, key, random):
        if isinstance(edit, Remove):
            return self.disabling(edit.slot)
        if isinstance(edit, Erase):
            # those that aren't in use too: their areas may hold what a removal left that broke off
            return [write for n in range(8) for write in self.disabling(n)]
        if isinstance(edit, Uuid):
            return [(UUID_PLACE, uuid_field(edit, random))]
        if not isinstance(edit, (Add, Change)):
            return []
        to, drawn, name = place_of(self, edit), Drawn(random), self.d["hash"].decode()
        salt = drawn.take(32)
        slot_key, cipher = pbkdf2(name, edit.new, salt, iterations_of(edit), self.d["key_bytes"]), b"-".join((self.d["cipher"], self.d["mode"])).decode()
        area = sealed_area(name, slot_key, key, drawn.rest(), cipher)
        new = replace(self.entries[to], active=ENABLED, iterations=iterations_of(edit), salt=salt)
        return [(self.area(to)[0], area), self.entry(to, new)] + (self.disabling(edit.slot) if isinstance(edit, Change) else [])

    def disabling(self, n):
        start, length = self.area(n)
        return [self.entry(n, replace(self.entries[n], active=DISABLED, iterations=0, salt=bytes(32))), (start, bytes(length))]


class Volume2:
    """A LUKS2 volume that `check` accepts."""
    most = 32

    def __init__(self, volume, chosen, detached):
        self.volume, self.detached = volume, detached
        self.copy, self.state = chosen
        self.value = reader.metadata(self.copy)
        self.used = sorted(map(int, self.value["keyslots"]))

    def plan(self, n, edit):
        return reader.plan2(self.volume, self.value, n, edit.memory, edit.older)

    def keyslot(self, n):
        return self.value["keyslots"][str(n)]

    def key_digest(self, key, older):
        """The name of the digest that the key meets: of several the first that has a segment, else the first."""
        digests = self.value["digests"]
        judged = {name: reader.match_key(self.volume, key, int(name), older)[1].strip() for name in digests}
        met = [name for name, line in judged.items() if line == "key matches"]
        if met:
            return min(met, key=lambda name: (not digests[name]["segments"], int(name)))
        if "refused Hash" in judged.values():
            raise Fault("Hash")
        raise Fault("WrongKey" if "key does not match" in judged.values() else "KeyLength")

    def like(self, edit):
        """The keyslot like which a new one is made, and the name of the digest of its key: by the volume key the first one of its digest with a key of that
        length, or where the digest has none, that of a new volume."""
        slot, secret = opened_by(edit)
        if slot is not None:
            return self.keyslot(slot), makers.digest_name(self.value, slot)
        name = self.key_digest(secret, edit.older)
        fitting = [n for n in sorted(map(int, self.value["digests"][name]["keyslots"])) if self.keyslot(n)["key_size"] == len(secret)]
        return self.keyslot(fitting[0]) if fitting else images.keyslot(key_size=len(secret)), name

    def volume_key(self, key, edit):
        """The key, where it is the volume's, and a keyslot may be made by it."""
        like, name = self.like(edit)
        fault = reader.refusal(like["area"]["encryption"], [like["af"]["hash"], self.value["digests"][name]["hash"]], like["area"]["key_size"], edit.older)
        if fault:
            raise Fault(fault)
        return key

    def judge_need(self, edit):
        """What a keyslot that is added by the volume key takes is said by the digest that this meets."""
        if isinstance(edit, Add) and edit.by is None:
            self.volume_key(edit.old, edit)

    def has_requirements(self):
        config = self.value["config"]
        return "requirements" in config and config["requirements"] not in (None, {}, [], {"mandatory": []})

    def takes_a_free_slot(self, edit):
        return isinstance(edit, Add)

    def need(self, edit):
        if not isinstance(edit, (Add, Change)):
            return 128 + uuid_need(edit)
        slot, _ = self.like(edit)
        return 128 + 32 + (slot["af"]["stripes"] - 1) * slot["key_size"]

    def areas(self):
        """All areas of the volume."""
        size = self.copy["size"]
        found = [(0, size), (size, size)] + [reader.slot_area2(slot) for slot in self.value["keyslots"].values()]
        for segment in [] if self.detached else self.value["segments"].values():
            start = int(segment["offset"])
            found.append(reader.to_end(start, len(self.volume)) if segment["size"] == "dynamic" else (start, int(segment["size"])))
        return found

    def gap(self, edit):
        """The place of the new area, or none: only where an area or the region begins, or one ends, can the least one be."""
        size = makers.area_size(self.like(edit)[0])
        least, most = reader.region(self.copy, self.value)
        areas = [area for area in self.areas() if area[1] > 0]
        for at in sorted(images.round_up(place, 4096) for place in [least] + [start + length for start, length in areas]):
            if at >= least and at + size <= min(most, len(self.volume)) and all(at + size <= start or start + length <= at for start, length in areas):
                return at
        return None

    def has_room(self, edit):
        return not isinstance(edit, (Add, Change)) or self.gap(edit) is not None

    def is_last(self, n):
        return makers.digest_of(self.value, n)["keyslots"] == [str(n)]

    def refuse_rewrite(self, edit):
        """The texts of a label, and the rules of tokens: of a new one those of the metadata that it would be part of."""
        if isinstance(edit, Label) and not all(takes_text(text) for text in (edit.text, edit.subsystem or b"")):
            raise Fault("BadLabel")
        refuse_uuid(edit)
        tokens = self.value["tokens"]
        if isinstance(edit, RemoveToken) and str(edit.number) not in tokens:
            raise Fault("NoSuchToken")
        if not isinstance(edit, AddToken):
            return
        if edit.to is not None and str(edit.to) in tokens:
            raise Fault("TokenTaken")
        if self.token_number(edit) is None:
            raise Fault("NoFreeToken")
        token = reader.read_value(edit.text)
        if reader.levels(token) > 29 or isinstance(token, dict) and token.get("type") == "":
            raise Fault("UnreadableToken")
        reader.judge(self.copy, self.made(edit, None))

    def token_number(self, edit):
        """That of a new token, or none."""
        return next((n for n in range(32) if str(n) not in self.value["tokens"] and edit.to in (None, n)), None)

    def refuse_header(self, edit):
        if self.copy["seqid"] == LARGEST_SEQID:
            raise Fault("SeqExhausted")
        if makers.area_text(self.made(edit, bytes(32)), self.copy["size"] - 4096) is None:
            raise Fault("MetadataFull")

    def made(self, edit, salt):
        """The new metadata."""
        if isinstance(edit, Remove):
            return makers.without_slot(self.value, edit.slot)
        if isinstance(edit, Erase):
            return makers.without_slots(self.value)
        if isinstance(edit, Priority):
            return makers.with_priority(self.value, edit.slot, edit.priority)
        if isinstance(edit, RemoveToken):
            return makers.without_token(self.value, edit.number)
        if isinstance(edit, AddToken):
            return makers.with_token(self.value, self.token_number(edit), reader.read_value(edit.text))
        if not isinstance(edit, (Add, Change)):
            return self.value
        like, name = self.like(edit)
        rest = (edit.iterations, salt, self.gap(edit), makers.area_size(like), kdf_of(edit))
        return makers.with_slot(self.value, place_of(self, edit), like, name, *rest) if isinstance(edit, Add) else makers.changed_slot(self.value, edit.slot, *rest)

    def is_beyond(self, edit):
        """More memory than is allowed, or less than 8 KiB for each lane (RFC 9106, 3.1)."""
        kdf = edit.kdf or {}
        return "memory" in kdf and not 8 * kdf["cpus"] <= kdf["memory"] <= edit.memory

    def copies(self, edit, value, salts, random):
        """Both copies of the new header, the one that wasn't chosen first; the random bytes are a new uuid's."""
        at, size = self.copy["at"], self.copy["size"]
        label, uuid, subsystem = (self.volume[at + place:at + place + length] for place, length in ((24, 48), (168, 40), (208, 48)))
        if isinstance(edit, Label):
            label, subsystem = edit.text, subsystem if edit.subsystem is None else edit.subsystem
        if isinstance(edit, Uuid):
            uuid = uuid_field(edit, random)
        fields = {"seqid": self.copy["seqid"] + 1, "label": label, "uuid": uuid, "subsystem": subsystem}
        written = {place: images.copy(makers.compact(value), place, size, salt=salt, **fields) for place, salt in zip((0, size), salts)}
        return [(place, written[place]) for place in sorted(written, key=lambda place: place == at)]

    def writes(self, edit, key, random):
        drawn = Drawn(random)
        salts, areas = (drawn.take(64), drawn.take(64)), []
        salt = drawn.take(32) if isinstance(edit, (Add, Change)) else None
        if salt:
            old, _ = self.like(edit)
            kdf = makers.derivation(old, edit.iterations, salt, kdf_of(edit))
            slot_key = derived(kdf, edit, salt, old["area"]["key_size"])
            areas.append((self.gap(edit), sealed_area(old["af"]["hash"], slot_key, key, drawn.rest(), old["area"]["encryption"])))
        lost = [edit.slot] if isinstance(edit, (Change, Remove)) else self.used if isinstance(edit, Erase) else []
        wiped = [(start, bytes(length)) for start, length in (reader.slot_area2(self.keyslot(n)) for n in lost)]
        return areas + self.copies(edit, self.made(edit, salt), salts, drawn.rest()) + wiped


def takes_text(text):
    """A label or a subsystem."""
    return len(text) <= 47 and all(0x20 <= byte <= 0x7E for byte in text)


def iterations_of(edit):
    """Those of a new keyslot by PBKDF2."""
    return edit.iterations if edit.kdf is None else edit.kdf["iterations"]


def has_few_turns(edit):
    """Fewer than 1000 iterations, of a new keyslot by Argon2 no pass."""
    return edit.kdf["time"] < 1 if edit.kdf and "time" in edit.kdf else iterations_of(edit) < 1000


def derived(kdf, edit, salt, length):
    """The key that the new passphrase gives."""
    return pbkdf2(kdf["hash"], edit.new, salt, kdf["iterations"], length) if kdf["type"] == "pbkdf2" else argon2(kdf, edit.new, salt, length)


def refuse_use(volume):
    """The refusal of a volume whose header is read, and whose disk has another use."""
    if reader.show(volume)[0] == 0 and uses.standing(volume):
        raise Fault(f"OtherUse({uses.standing(volume)})")


def accepted(volume, detached, over=True):
    """The volume that `check` accepts, or the refusal of a volume that no edit takes. `over`: another use of the disk is written over, as by the library's
    calls and by the program's with `--over`."""
    if not over:
        refuse_use(volume)
    status, line = reader.check(volume, detached)
    if status == 1:
        raise Fault(line.removeprefix("refused ").strip())
    chosen = reader.select(volume)
    if chosen == 1:
        return Volume1(volume)
    v = Volume2(volume, chosen, detached)
    if v.has_requirements():
        raise Fault("Requirements")
    return v


def named(volume, detached, edit, over=True):
    """The edit with the keyslot that its passphrase opens, where it names none: what refuses every edit refuses it first."""
    member = by_passphrase(edit)
    if member is None:
        return edit
    accepted(volume, detached, over)
    plan, _, order = reader.openable(volume, edit.memory, edit.older)
    for n in order:
        try:
            key = reader.opened(plan(n), opened_by(edit)[1])
        except Fault:
            continue
        if key is not None:
            return replace(edit, **{member: n})
    raise Fault("Locked")


def find(v, edit):
    """The keyslots that the edit names are there: the one that it opens or, of LUKS2, whose priority it sets and, of a removal, the one that goes, which is
    named once."""
    wanted = {opened_by(edit)[0]} - {None} if opened_by(edit) else set()
    if isinstance(edit, Remove) or (isinstance(edit, Priority) and isinstance(v, Volume2)):
        wanted.add(edit.slot)
    if not wanted <= set(v.used):
        raise Fault("NoSuchSlot")
    if isinstance(edit, Remove) and edit.by == edit.slot:
        raise Fault("SameSlot")


def leaves_argon2(volume, edit):
    """Whether the edit removes the last keyslot of PBKDF2 of the LUKS2 volume, which has others: by another one's secret, or by the volume key."""
    if not isinstance(edit, Remove) or opened_by(edit)[0] == edit.slot:
        return False
    keyslots = reader.metadata(reader.select(volume)[0])["keyslots"]
    return len(keyslots) > 1 and [int(n) for n, keyslot in keyslots.items() if keyslot["kdf"]["type"] == "pbkdf2"] == [edit.slot]


# what standard error says of it before it is done
LEAVES_ARGON2 = "luks: no keyslot is left that opens by PBKDF2: each other one takes memory, which --memory allows"


def own_key(plan, key):
    """The key where it is as long as the keyslot's and its digest is the stored one, or none."""
    salt, iterations, digest = plan[-1]
    return key if len(key) == plan[3] and pbkdf2(plan[5][2], key, salt, iterations, len(digest)) == digest else None


def key_of(v, edit):
    """The key that the edit's passphrase opens, or that is given."""
    if opened_by(edit) is None:
        return None
    slot, secret = opened_by(edit)
    if slot is None:
        return v.volume_key(secret, edit)
    plan = v.plan(slot, edit)
    key = (own_key if isinstance(secret, Key) else reader.opened)(plan, secret)
    if key is None:
        raise other_key(plan[3], secret) if isinstance(secret, Key) else Fault("Locked")
    return key


def place_of(v, edit):
    """The slot that the edit makes or changes; none for Remove and for edits of the header alone."""
    to = edit.to if isinstance(edit, Add) else None
    if not v.takes_a_free_slot(edit):
        return edit.slot if isinstance(edit, Change) else None
    if to is not None and to in v.used:
        raise Fault("SlotTaken")
    free = [n for n in range(v.most) if n not in v.used and to in (None, n)]
    if not free:
        raise Fault("NoFreeSlot")
    return free[0]


def needed(volume, detached, edit, over=True):
    """How many random bytes the edit takes, or the refusal."""
    try:
        edit = named(volume, detached, edit, over)
        v = accepted(volume, detached, over)
        find(v, edit)
        v.judge_need(edit)
        place_of(v, edit)
        return v.need(edit)
    except Fault as fault:
        return f"refused {fault}"


def steps(volume, detached, edit, random, over=True):
    """The slot that is made or changed, or that was found for a removal, and the writes; or the first refusal."""
    asked, edit = edit, named(volume, detached, edit, over)
    v = accepted(volume, detached, over)
    find(v, edit)
    key = key_of(v, edit)
    to = place_of(v, edit)
    if not v.has_room(edit):
        raise Fault("NoRoom")
    if isinstance(edit, Remove) and v.is_last(edit.slot):
        raise Fault("LastSlot")
    if isinstance(edit, (Add, Change)) and has_few_turns(edit):
        raise Fault("Iterations")
    if isinstance(edit, (Add, Change)) and v.is_beyond(edit):
        raise Fault("Argon2")
    v.refuse_rewrite(edit)
    v.refuse_header(edit)
    if len(random) != v.need(edit):
        raise Fault("RandomLength")
    return to if edit is asked or not isinstance(edit, Remove) else edit.slot, v.writes(edit, key, random)


def written(volume, writes):
    out = bytearray(volume)
    for at, part in writes:
        out[at:at + len(part)] = part
    assert len(out) == len(volume)
    return bytes(out)


def apply(volume, detached, edit, random, over=True):
    """The line that the program prints, and the volume left."""
    try:
        slot, writes = steps(volume, detached, edit, random, over)
    except Fault as fault:
        return f"refused {fault}", volume
    return "done" if slot is None else f"done slot {slot}", written(volume, writes)


def run(volume, detached, listed):
    """The lines of a list of (edit, random bytes), and the volume left."""
    lines = []
    for edit, random in listed:
        line, volume = apply(volume, detached, edit, random)
        lines.append(line)
    return lines, volume


def left(volume, detached, edit, random, number, leave):
    """The volume left where one of the write and flush calls fails, counted from 0: each write is one call, and a flush follows it.

    A failed write leaves what `leave` makes of the old and the new bytes.
    """
    _, writes = steps(volume, detached, edit, random)
    whole = written(volume, writes[:(number + 1) // 2])
    if number % 2 == 1:
        return whole
    at, part = writes[number // 2]
    return written(whole, [(at, leave(whole[at:at + len(part)], part))])


LEAVES = {
    "Old": lambda old, new: old,
    "New": lambda old, new: new,
    "Ones": lambda old, new: b"\xff" * len(new),
    "Half": lambda old, new: new[:len(new) // 2] + old[len(new) // 2:],
}
