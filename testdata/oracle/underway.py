"""The wider reading of docs/PROFILE.md, section 11, in Python: metadata in the midst of a reencryption, or of a disk that encrypts itself. No code is shared.

`wider` answers the value that is read, or raises the first fault. What is listed, opened and told of it stands behind. Metadata in which nothing is under way
is read by `reader.py` alone, so that nothing of it changes.
"""
import base64

import reader
from equations import round_up
from reader import NAME, SMALL, Fault, by_number, is_decimal, is_names, is_number

MODES, DIRECTIONS = ("reencrypt", "encrypt", "decrypt"), ("forward", "backward")
CHECKSUMS, SHIFTS = ("checksum", "datashift-checksum"), ("datashift", "datashift-journal", "datashift-checksum")
AREAS = ("none", "journal", "checksum", "datashift", "datashift-journal", "datashift-checksum")
OPAL = ("hw-opal", "hw-opal-crypt")
BACKUPS = ("backup-previous", "backup-final", "backup-moved-segment")
HOT = "in-reencryption"


def type_of(it):
    return it.get("type") if isinstance(it, dict) else None


def numbered(members):
    """The objects of a section by their numbers; those of other names aren't judged."""
    return {name: it for name, it in members.items() if NAME.match(name)} if isinstance(members, dict) else {}


def is_under_way(value):
    """A keyslot is of type `reencrypt`, or a segment of one of the types of a disk that encrypts itself."""
    return any(type_of(it) == "reencrypt" for it in numbered(value.get("keyslots")).values()) or \
        any(type_of(it) in OPAL for it in numbered(value.get("segments")).values())


# --- members

def is_text(it):
    return isinstance(it, str)


def one_of(texts):
    return lambda it: isinstance(it, str) and it in texts


def is_checksum_unit(it):
    return is_number(it, 512, 1 << 31) and it & (it - 1) == 0


def is_shift(it):
    return is_decimal(it) and int(it) > 0 and int(it) % 512 == 0


def is_positive(it):
    return is_decimal(it) and int(it) > 0


class Rows(reader.Rows):
    """The faults of the member table of what is under way, by path."""

    def __init__(self, value):
        super().__init__(value)
        config = value.get("config")
        if isinstance(config, dict) and "requirements" in config:
            self.requirements(config["requirements"])

    def requirements(self, it):
        if not isinstance(it, dict) or ("mandatory" in it and not is_names(it["mandatory"])):
            self.shapes.append("config.requirements")

    def keyslot(self, path, it):
        if type_of(it) != "reencrypt":
            super().keyslot(path, it)
            return
        # the rows of the object, then those of its area, which is one by a type of its own
        self.shapes += [f"{path}.{name}" for name, test in (("direction", one_of(DIRECTIONS)), ("key_size", lambda v: is_number(v, 1, 1)), ("mode", one_of(MODES)))
                        if not test(it.get(name))]
        if "priority" in it and not is_number(it["priority"], 0, 2):
            self.shapes.append(path + ".priority")
        sums = [("hash", is_text), ("sector_size", is_checksum_unit)]
        shift = [("shift_size", is_shift)]
        self.object(path + ".area", it.get("area"), AREAS, [("offset", is_decimal), ("size", is_decimal)],
                    {"checksum": sums, "datashift": shift, "datashift-journal": shift, "datashift-checksum": sums + shift})

    def segment(self, path, it):
        before = len(self.kinds)
        if type_of(it) in OPAL:
            opal = [("opal_key_size", lambda v: is_number(v, 1, 128)), ("opal_segment_number", lambda v: is_number(v, 0, SMALL[1])), ("opal_segment_size", is_positive)]
            crypt = [("iv_tweak", is_decimal), ("encryption", is_text), ("sector_size", lambda v: type(v) is int and v in (512, 1024, 2048, 4096))]
            self.object(path, it, OPAL, [("offset", is_decimal), ("size", is_positive), *opal], {"hw-opal-crypt": crypt})
        else:
            super().segment(path, it)
        # a type that isn't listed hides the object's other rows
        if isinstance(it, dict) and len(self.kinds) == before and "flags" in it and not is_names(it["flags"]):
            self.shapes.append(path + ".flags")


# --- what is said of a value that meets the member table

def flags(it):
    return it.get("flags", [])


def is_backup(it):
    """A segment that isn't read by, but kept to say what was and what will be: cryptsetup knows it by how a flag begins."""
    return any(flag.startswith("backup-") for flag in flags(it))


def naming(value, section, name):
    return [n for n, digest in by_number(value["digests"]) if name in digest[section]]


def unassigned(value):
    for n, it in value["keyslots"].items():
        count = len(naming(value, "keyslots", n))
        if count > 1 or (it["type"] != "reencrypt" and count != 1):
            yield f"keyslots.{n}"
    for n, it in value["segments"].items():
        count = len(naming(value, "segments", n))
        if it["type"] == "linear":
            continue
        if count != 1 and not (count == 2 and HOT in flags(it)):
            yield f"segments.{n}"


def reencryptions(value):
    return [n for n, it in by_number(value["keyslots"]) if it["type"] == "reencrypt"]


def requirements(value):
    return value["config"].get("requirements", {}).get("mandatory", [])


def extent(it):
    """Where a segment begins, and where it ends, or none where it goes on to the end of the device."""
    start = int(it["offset"])
    return start, None if it["size"] == "dynamic" else start + int(it["size"])


def within(inner, outer):
    (start, end), (least, most) = inner, outer
    return least <= start and (most is None or (end is not None and end <= most))


def meets(one, other):
    (start, end), (at, stop) = one, other
    return (stop is None or start < stop) and (end is None or at < end)


def alike(one, other):
    """As cryptsetup compares a segment with a backup of it."""
    return one["type"] == other["type"] and all(one.get(name) == other.get(name) for name in ("encryption", "sector_size"))


def contradictions(value):
    """The paths where what is under way contradicts itself."""
    slots = reencryptions(value)
    segments = by_number(value["segments"])
    kept, used = [(n, it) for n, it in segments if is_backup(it)], [(n, it) for n, it in segments if not is_backup(it)]
    if slots and not any(text.startswith("online-reencrypt") for text in requirements(value)):
        yield "config.requirements"
    if any(it["type"] in OPAL for _, it in segments) and "opal" not in requirements(value):
        yield "config.requirements"
    yield from (f"keyslots.{n}" for n in slots[1:])
    if not slots:
        return
    counts = [sum(flag in flags(it) for _, it in kept) for flag in BACKUPS]
    if counts[0] != 1 or counts[1] != 1 or counts[2] > 1 or sum(HOT in flags(it) for _, it in used) > 1:
        yield "segments"
        return
    # numbered from 0 on without a gap, those that are kept as backups behind the others
    if [n for n, _ in used + kept] != list(range(len(segments))) or not used:
        yield "segments"
        return
    old, new = (next(it for _, it in kept if flag in flags(it)) for flag in BACKUPS[:2])
    for i, (n, it) in enumerate(used):
        if not alike(it, new) and (HOT in flags(it) or not alike(it, old)):
            yield f"segments.{n}"
        elif HOT in flags(it) and not within(extent(it), extent(new)):
            yield f"segments.{n}"
        elif it["size"] == "dynamic" and i + 1 < len(used):
            yield f"segments.{n}"
        elif any(meets(extent(it), extent(other)) for _, other in used[:i]):
            yield f"segments.{n}"


def wider(copy):
    """The value of a chosen copy's metadata by the wider reading."""
    value = reader.read_json(copy["json"])
    if not is_under_way(value):
        reader.judge(copy, value)
        return value
    judge(copy, value)
    return value


def judge(copy, value):
    if reader.levels(value) > 127:
        raise Fault("BadJson")
    rows = Rows(value)
    reader.refuse_least("Shape", rows.shapes)
    reader.refuse_least("Kind", rows.kinds)
    reader.refuse_least("NoSuchName", [path for path, names, known in reader.arrays(value) if any(name not in known for name in names)])
    reader.refuse_least("Assigned", [path for path, names, _ in reader.arrays(value) if len(set(names)) < len(names)] + list(unassigned(value)))
    if int(value["config"]["json_size"]) != copy["size"] - 4096:
        raise Fault("Sizes")
    for n, slot in by_number(value["keyslots"]):
        if slot["type"] == "luks2" and int(slot["area"]["size"]) < round_up(slot["key_size"] * slot["af"]["stripes"], 512):
            raise Fault(f"AreaTooSmall({n})")
    least, most = reader.region(copy, value)
    for n, slot in by_number(value["keyslots"]):
        start, length = reader.slot_area2(slot)
        if start < least or start + length > most:
            raise Fault(f"Region(Slot({n}))")
    reader.refuse_least("UnderWay", list(contradictions(value)))


# --- what is told

def sides(value):
    """The digests of the old and of the new key: of each the one that names the backup, of whatever type that is, as cryptsetup takes it; none where none does."""
    flagged = [[str(n) for n, it in by_number(value["segments"]) if flag in flags(it)][:1] for flag in BACKUPS[:2]]
    return tuple((naming(value, "segments", names[0]) or [None])[0] if names else None for names in flagged)


def side_of_keyslot(value, n):
    """Which key a keyslot gives: `old`, `new`, `both`, or `none` where no side is of its digest."""
    of = naming(value, "keyslots", str(n))
    old, new = (side in of for side in sides(value))
    return "both" if old and new else "old" if old else "new" if new else "none"


def resilience(area):
    words = [area["type"]]
    if area["type"] in CHECKSUMS:
        words += [area["hash"], str(area["sector_size"])]
    if area["type"] in SHIFTS:
        words.append(area["shift_size"])
    return " ".join(words)


def show(volume):
    return reader.answer(lambda: shown(volume))


def show_all(volume):
    """Like `show`, with the subsystem, the costs and salts of keyslots, and how segments are encrypted."""
    return reader.answer(lambda: shown(volume, True))


def under_way(volume):
    """The metadata of a volume in which something is under way, or none; the first fault of such a one."""
    chosen = reader.select(volume)
    if chosen == 1:
        return None
    reader.checked_uuid(chosen[0]["uuid"])
    value = wider(chosen[0])
    return value if is_under_way(value) else None


def shown(volume, whole=False):
    value = under_way(volume)
    if value is None:
        return reader.shown(volume, whole)
    copy, state = reader.select(volume)
    uuid = reader.checked_uuid(copy["uuid"])
    text, names = reader.shown_text, reader.shown_list
    lines = ["luks2", f"uuid {text(uuid)}", f"label {text(copy['label'])}", *([f"subsystem {text(copy['subsystem'])}"] if whole else []),
             f"copies {state} seqid {copy['seqid']}", f"header-size {copy['size']} keyslots-size {value['config']['keyslots_size']}",
             f"requirements {names([text(it) for it in requirements(value)])}"]
    for n, slot in by_number(value["keyslots"]):
        digest, area = (naming(value, "keyslots", str(n)) or ["-"])[0], slot["area"]
        if slot["type"] == "reencrypt":
            lines.append(f"keyslot {n} reencrypt {slot['mode']} {slot['direction']} area {area['offset']} {area['size']} {text(resilience(area))} digest {digest}")
            continue
        lines.append(f"keyslot {n} key-bytes {slot['key_size']} kdf {slot['kdf']['type']} area {area['offset']} {area['size']} {text(area['encryption'])} digest {digest}")
        if whole:
            lines += [reader.costs_line(n, slot["kdf"]), f"salt {n} {base64.b64decode(slot['kdf']['salt']).hex()}"]
    for n, token in by_number(value["tokens"]):
        lines.append(f"token {n} {text(token['type'])} keyslots {names(token['keyslots'])}")
    for n, it in by_number(value["segments"]):
        lines.append(f"segment {n} {it['type']} {it['offset']} {it['size']}" + (f" flags {names([text(flag) for flag in flags(it)])}" if flags(it) else ""))
        if whole and it["type"] in ("crypt", "hw-opal-crypt"):
            lines.append(f"encryption {n} {text(it['encryption'])} sector-size {it['sector_size']} iv-tweak {it['iv_tweak']}")
        if whole and it["type"] in OPAL:
            lines.append(f"opal {n} range {it['opal_segment_number']} key-bytes {it['opal_key_size']} size {it['opal_segment_size']}")
    for n, digest in by_number(value["digests"]):
        lines.append(f"digest {n} {text(digest['hash'])} keyslots {names(digest['keyslots'])} segments {names(digest['segments'])}")
    return 0, "\n".join(lines) + "\n"


def show_map(volume):
    """The areas, as `reader.show_map` draws them, and the backups, which fill no gap and meet nothing."""
    return reader.answer(lambda: reader.show_map(volume) if under_way(volume) is None else (0, "".join(line + "\n" for line in map_lines(shown_map(volume), len(volume)))))


def shown_map(volume):
    copy, _ = reader.select(volume)
    value, total = under_way(volume), len(volume)
    rows = [(total, 1, None, "end of the volume", "-"), (reader.region(copy, value)[1], 0, None, "end of the key areas", "-"),
            (0, 2, copy["size"], "header, copy 1", "#"), (copy["size"], 3, copy["size"], "header, copy 2", "#")]
    rows += [(start, 4 + n, length, f"keyslot {n}", "#") for n, slot in by_number(value["keyslots"]) for start, length in [reader.slot_area2(slot)]]
    for n, it in by_number(value["segments"]):
        start, end = extent(it)
        what = " backup" if is_backup(it) else " in hand" if HOT in flags(it) else ""
        rows.append((start, 260 + n, max(0, total - start) if end is None else end - start, f"segment {n}{what}", "=" if is_backup(it) else "#"))
    return sorted(rows, key=lambda row: row[:2])


def map_lines(rows, total):
    reached = 0
    for place, _, length, name, sign in rows:
        outside = lambda end: "  outside" if end > total else ""
        if place > reached:
            yield f"{reached:20} . {place - reached:20}  gap{outside(place)}"
        if sign == "-":
            yield f"{place:20} - {'':20}  {name}{outside(place)}"
        elif sign == "=":
            yield f"{place:20} = {length:20}  {name}{outside(place + length)}"
        else:
            marks = ["outside"] * (place + length > total) + ["overlap"] * (length > 0 and place < reached)
            yield f"{place:20} # {length:20}  {name}{'  ' if marks else ''}{' '.join(marks)}"
        reached = max(reached, place + (length or 0) if sign == "#" else place)


def show_json(volume):
    return reader.answer(lambda: (0, reader.json_text(shown_json(volume)) + "\n"))


def shown_json(volume):
    value = under_way(volume)
    if value is None:
        return reader.shown_json(volume)
    copy, state = reader.select(volume)
    uuid = reader.checked_uuid(copy["uuid"])
    config, numbers = value["config"], reader.numbers
    return {"version": 2, "uuid": uuid.decode(), "label": reader.text_or_bytes(copy["label"]), "subsystem": reader.text_or_bytes(copy["subsystem"]), "copies": state,
            "seqid": copy["seqid"], "sizes": {"header": copy["size"], "json": int(config["json_size"]), "keyslots": int(config["keyslots_size"])},
            "flags": config.get("flags"), "requirements": config.get("requirements"), "keyslots": [json_slot(value, n, it) for n, it in by_number(value["keyslots"])],
            "tokens": [{"number": n, "type": it["type"], "keyslots": numbers(it["keyslots"])} for n, it in by_number(value["tokens"])],
            "segments": [json_segment(n, it) for n, it in by_number(value["segments"])],
            "digests": [{"number": n, "type": it["type"], "hash": it["hash"], "iterations": it["iterations"], "salt": it["salt"], "value": it["digest"],
                         "keyslots": numbers(it["keyslots"]), "segments": numbers(it["segments"])} for n, it in by_number(value["digests"])],
            "metadata": value, "under_way": json_under_way(value)}


def json_slot(value, n, slot):
    if slot["type"] != "reencrypt":
        return reader.json_slot2(value, n, slot)
    area = slot["area"]
    kept = {"type": area["type"]}
    if area["type"] in CHECKSUMS:
        kept |= {"hash": area["hash"], "sector_size": area["sector_size"]}
    if area["type"] in SHIFTS:
        kept["shift_size"] = int(area["shift_size"])
    return {"number": n, "state": "reencrypt", "digest": (naming(value, "keyslots", str(n)) or [None])[0], "mode": slot["mode"], "direction": slot["direction"],
            "area": {"offset": int(area["offset"]), "size": int(area["size"])}, "resilience": kept}


def json_segment(n, it):
    shown = reader.json_segment(n, it) | {"flags": flags(it)}
    if it["type"] in OPAL:
        shown["opal"] = {"number": it["opal_segment_number"], "key_bytes": it["opal_key_size"], "size": int(it["opal_segment_size"])}
    if it["type"] == "hw-opal-crypt":
        shown |= {"cipher": it["encryption"], "sector_size": it["sector_size"], "iv_tweak": int(it["iv_tweak"])}
    return shown


def json_under_way(value):
    old, new = sides(value)
    hot = [(n, it) for n, it in by_number(value["segments"]) if HOT in flags(it) and not is_backup(it)]
    zone = None
    if hot:
        n, it = hot[0]
        zone = {"segment": n, "offset": int(it["offset"]), "size": it["size"] if it["size"] == "dynamic" else int(it["size"])}
    return {"old_digest": old, "new_digest": new, "hotzone": zone}


def said(value):
    """What standard error says of a reencryption that is under way."""
    slot = value["keyslots"][str(reencryptions(value)[0])]
    old, new = sides(value)
    hot = [it for _, it in by_number(value["segments"]) if HOT in flags(it)]
    key = lambda n: "no encryption" if n is None else f"the key of digest {n}"
    at = f", the part in hand begins at byte {hot[0]['offset']} and has {'the rest' if hot[0]['size'] == 'dynamic' else hot[0]['size'] + ' bytes'}" if hot else ", no part is in hand"
    return f"a reencryption is under way: {slot['mode']} {slot['direction']}, from {key(old)} to {key(new)}{at}"


def said_of(volume, name):
    """What standard error says of a volume of this name in which something is under way; nothing of one that is refused."""
    try:
        value = under_way(volume)
    except Fault:
        return []
    if value is None or not reencryptions(value):
        return []
    return [f"{name}: {said(value)}", f"{name}: cryptsetup repair or cryptsetup reencrypt --resume-only goes on with it"]


# --- opening: the equations are those of the digest that names the keyslot

def openable(volume, memory=0, older=False):
    """As reader's: the plan of a keyslot, whether there is one of a number, and the order in which they are tried."""
    value = under_way(volume)
    if value is None:
        return reader.openable(volume, memory, older)

    def plan(n):
        if value["keyslots"][str(n)]["type"] == "reencrypt":
            raise Fault("NoKey")
        return reader.plan2(volume, value, n, memory, older)

    slots = [(it.get("priority", 1), n) for n, it in by_number(value["keyslots"]) if it["type"] == "luks2"]
    return plan, (lambda n: str(n) in value["keyslots"]), [n for wanted in (2, 1) for priority, n in slots if priority == wanted]


def open_volume(volume, passphrase, slot=None, memory=0, older=False):
    return reader.open_volume(volume, passphrase, slot, memory, older, openable)


GIVES = {"old": "the old key of the reencryption", "new": "the new key of the reencryption", "both": "the key of both sides of the reencryption",
         "none": "the key of neither side of the reencryption"}


def said_of_keys(volume, name, passphrase, first, memory=0, older=False, unread=()):
    """What standard error says of a volume of which this keyslot opens: which key each gives that opens, and which none gives. It tries the
    other keyslots that are tried without --slot; those of `unread` can't be read."""
    value = under_way(volume)
    if value is None or not reencryptions(value):
        return []
    plan, _, order = openable(volume, memory, older)
    opens, lines = [first], [f"keyslot {first}: it gives {GIVES[side_of_keyslot(value, first)]}"]
    for n in sorted(set(order) - {first}):
        try:
            key = None if n in unread else reader.opened(plan(n), passphrase)
        except Fault:
            continue
        if n in unread:
            lines.append(f"{name}: keyslot {n} couldn't be read, and was passed over")
        elif key is not None:
            opens.append(n)
            lines.append(f"keyslot {n}: it gives {GIVES[side_of_keyslot(value, n)]}")
    given = {digest for n in opens for digest in naming(value, "keyslots", str(n))}
    return lines + [f"no keyslot that opens gives the {which} key: cryptsetup reencrypt --resume-only asks for both by one passphrase, and fails"
                    for which, digest in zip(("old", "new"), sides(value)) if digest is not None and digest not in given]


MOST_MEMORY = (1 << 32) - 1


def fault_of_slot(volume, n, memory, older):
    """Why keyslot `n` can't be tried, or none."""
    try:
        openable(volume, memory, older)[0](n)
        return None
    except Fault as fault:
        return str(fault)


def said_of_refused(volume, n, memory=0, older=False):
    """What standard error says would have a keyslot tried that is refused."""
    kdf, lines = under_way(volume)["keyslots"][str(n)]["kdf"], []
    if kdf["type"] != "pbkdf2":
        mib = -(-kdf["memory"] // 1024)
        if kdf["memory"] > memory and mib < 1 << 22 and not fault_of_slot(volume, n, kdf["memory"], True):
            lines.append(f"keyslot {n} is derived by {kdf['type']}, which takes {mib} MiB of memory: --memory {mib} allows it")
    if not older and fault_of_slot(volume, n, MOST_MEMORY, False) and not fault_of_slot(volume, n, MOST_MEMORY, True):
        lines.append(f"keyslot {n} is of an older disk: --older allows it")
    return lines


def said_of_passed_over(volume, memory=0, older=False):
    """What standard error says of the keyslots that weren't tried, where none is named and none opens."""
    lines = []
    for n, it in by_number(under_way(volume)["keyslots"]):
        fault = None if it["type"] == "reencrypt" else "priority 0" if it.get("priority", 1) == 0 else fault_of_slot(volume, n, memory, older)
        if fault:
            lines.append(f"keyslot {n} was passed over: {fault}")
            lines += said_of_refused(volume, n, memory, older) if fault != "priority 0" else []
    return lines


def said_of_opening(volume, name, passphrase, slot, status, line, memory=0, older=False):
    """What standard error says after this answer for a volume in which something is under way, how the passphrase ends aside."""
    if under_way(volume) is None:
        return []
    if status == 0:
        return said_of_keys(volume, name, passphrase, int(line.split()[1]), memory, older)
    if line == "no slot opens\n":
        return said_of_passed_over(volume, memory, older)
    return said_of_refused(volume, slot, memory, older) if line in ("refused Cipher\n", "refused Hash\n", "refused KeySize\n", "refused Argon2\n") else []


# --- the data

def show_tables(volume):
    return reader.answer(lambda: (0, "".join(line + "\n" for line in table(tabled(volume), len(volume)))))


def tabled(volume):
    value = under_way(volume)
    if value is None:
        reader.shown(volume)
        raise Fault("NotUnderWay")
    return value


def table(value, end):
    """The table of dmsetup by the segments in use, over data that ends at byte `end`: one line each; what is in hand isn't read."""
    place = 0
    for n, it in by_number(value["segments"]):
        start, stop = extent(it)
        sectors = 0 if is_backup(it) else (max(0, end - start) if stop is None else stop - start) // 512
        if not sectors:
            continue
        key, at = "".join(f"-{m}" for m in naming(value, "segments", str(n))[:1]), f"DEVICE {start // 512}"
        if HOT in flags(it):
            target = "error"
        elif it["type"] in ("crypt", "hw-opal-crypt"):
            more = "" if it["sector_size"] == 512 else f" 1 sector_size:{it['sector_size']}"
            target = f"crypt {reader.shown_text(it['encryption'])} KEY{key} {it['iv_tweak']} {at}{more}"
        else:
            target = f"linear {at}"
        yield f"{place} {sectors} {target}"
        place += sectors
