"""What docs/PROFILE.md and docs/COMMANDS.md owe to a volume, in Python: `check`, `show` and `open` as (status, text). No code is shared."""
import base64
import hashlib
import json
import re
import struct

from equations import CBC, HASHES, OLDER_HASHES, argon2, opened_area, pbkdf2, round_up

FIRST_MAGIC, SECOND_MAGIC = b"LUKS\xba\xbe", b"SKUL\xba\xbe"
ENABLED, DISABLED = 0x00AC71F3, 0x0000DEAD
SIZES = [16384 << n for n in range(9)]
UUID = re.compile(rb"[0-9a-fA-F]{8}(-[0-9a-fA-F]{4}){3}-[0-9a-fA-F]{12}")
NAME = re.compile(r"(0|[1-9]|[12][0-9]|3[01])\Z")
DECIMAL = re.compile(r"(0|[1-9][0-9]{0,19})\Z")
SMALL = (1, 4294967295)
STEERING = re.compile("[\x7f-\x9f\u202a-\u202e\u2066-\u2069]")


class Fault(Exception):
    """A refusal; its text is what is printed."""


def text_field(field):
    return field.split(b"\0", 1)[0]


def checked_text(name, field):
    text = text_field(field)
    if any(not 0x20 <= byte <= 0x7E for byte in text):
        raise Fault(f"Text({name})")
    return text


def checked_uuid(field):
    text = checked_text("uuid", field)
    if not UUID.fullmatch(text):
        raise Fault("Uuid")
    return text


# --- choosing a header

def sound(volume, at):
    """The fields of the copy at `at`, or none."""
    if len(volume) < at + 4096:
        return None
    magic, version, size, seqid, label, algorithm, _, uuid, subsystem, offset = struct.unpack(">6sHQQ48s32s64s40s48sQ", volume[at:at + 264])
    if magic != (FIRST_MAGIC if at == 0 else SECOND_MAGIC) or version != 2 or size not in SIZES or (at != 0 and size != at):
        return None
    if offset != at or at + size > len(volume) or text_field(algorithm) != b"sha256":
        return None
    whole = volume[at:at + size]
    if hashlib.sha256(whole[:448] + bytes(64) + whole[512:]).digest() != whole[448:480]:
        return None
    return {"at": at, "size": size, "seqid": seqid, "label": text_field(label), "subsystem": text_field(subsystem), "uuid": uuid, "json": whole[4096:]}


def select(volume):
    """1, or the chosen copy and the state of the copies."""
    if len(volume) < 592:
        raise Fault("TooShort")
    magic, version = volume[:6] == FIRST_MAGIC, struct.unpack(">H", volume[6:8])[0]
    if magic and version == 1:
        return 1
    first = sound(volume, 0)
    if first is None:
        for at in SIZES:
            second = sound(volume, at)
            if second:
                return second, "second-only"
        raise Fault("NotLuks" if not magic else "Version" if version != 2 else "NoSoundCopy")
    second = sound(volume, first["size"])
    if second is None:
        return first, "first-only"
    if first["seqid"] == second["seqid"]:
        return first, "in-step"
    return (first, "first-newer") if first["seqid"] > second["seqid"] else (second, "second-newer")


# --- LUKS1

def luks1_fields(volume):
    head = struct.unpack(">8x32s32s32sII20s32sI40s", volume[:208])
    names = ("cipher", "mode", "hash", "payload", "key_bytes", "digest", "salt", "iterations", "uuid")
    fields = dict(zip(names, head))
    fields["slots"] = [struct.unpack(">II32sII", volume[208 + 48 * n:256 + 48 * n]) for n in range(8)]
    return fields


def common1(volume, between=()):
    """The rows of the common part; `between` are the slots whose rows stand among them."""
    d = luks1_fields(volume)
    d["cipher"] = checked_text("cipher-name", d["cipher"])
    d["mode"] = checked_text("cipher-mode", d["mode"])
    d["hash"] = checked_text("hash-spec", d["hash"])
    d["uuid"] = checked_uuid(d["uuid"])
    slots = [(n, d["slots"][n]) for n in between]
    for n, slot in slots:
        if slot[0] not in (ENABLED, DISABLED):
            raise Fault(f"SlotState({n})")
    if not 1 <= d["key_bytes"] <= 128:
        raise Fault("KeyBytes")
    for n, slot in slots:
        if slot[4] == 0:
            raise Fault(f"Stripes({n})")
    for n, slot in slots:
        if slot[0] == ENABLED and slot[1] == 0:
            raise Fault(f"Iterations(Slot({n}))")
    if d["iterations"] == 0:
        raise Fault("Iterations(Digest)")
    return d


def slot_area1(d, n):
    return d["slots"][n][3] * 512, round_up(d["key_bytes"] * d["slots"][n][4], 512)


# --- metadata of LUKS2

class NotWhole:
    """A number that isn't a whole one of 64 bits."""


def read_number(text):
    if float(text) in (float("inf"), float("-inf")):
        raise ValueError("no double holds it")
    if re.fullmatch(r"-?[0-9]+", text) and text != "-0" and -(1 << 63) <= int(text) < 1 << 64:
        return int(text)
    return NotWhole()


def read_pairs(pairs):
    json.dumps([k for k, _ in pairs] + [v for _, v in pairs if isinstance(v, str)], ensure_ascii=False).encode()
    return dict(pairs)


def refused(text):
    raise ValueError(text)


def depth(text):
    """How deep the brackets outside of strings nest."""
    most = now = 0
    for bracket in re.sub(r'"(\\.|[^"\\])*"', "", text, flags=re.S):
        now += (bracket in "[{") - (bracket in "]}")
        most = max(most, now)
    return most


def read_json(area):
    if area[:1] != b"{" or b"\0" not in area or area.rstrip(b"\0") != area.split(b"\0", 1)[0]:
        raise Fault("JsonArea")
    value = read_value(area.split(b"\0", 1)[0])
    if any_not_whole(value):
        raise Fault("NotWhole")
    return value


def read_value(text):
    """The value of a JSON text, in which numbers may be that the metadata hasn't."""
    try:
        text = text.decode()
        if depth(text) > 127:
            raise ValueError("deep")
        value = json.loads(text, parse_int=read_number, parse_float=read_number, parse_constant=refused, object_pairs_hook=read_pairs)
        json.dumps(value, ensure_ascii=False, default=lambda _: None).encode()
    except (ValueError, RecursionError):
        raise Fault("BadJson") from None
    return value


def levels(value):
    """How deep the value nests."""
    inner = value.values() if isinstance(value, dict) else value if isinstance(value, list) else None
    return 0 if inner is None else 1 + max(map(levels, inner), default=0)


def any_not_whole(value):
    inner = value.values() if isinstance(value, dict) else value if isinstance(value, list) else ()
    return isinstance(value, NotWhole) or any(any_not_whole(item) for item in inner)


def is_number(value, least, most):
    return type(value) is int and least <= value <= most


def is_decimal(value):
    return isinstance(value, str) and DECIMAL.match(value) is not None and int(value) < 1 << 64


def is_base64(value, least, most):
    try:
        data = base64.b64decode(value.encode(), validate=True)
    except (AttributeError, ValueError):
        return False
    return least <= len(data) <= most and base64.b64encode(data).decode() == value


class Rows:
    """The faults of the member table, by path."""

    def __init__(self, value):
        self.shapes, self.kinds = [], []
        self.object("config", value.get("config"), None, [("json_size", is_decimal), ("keyslots_size", is_decimal)])
        for name, judge in (("keyslots", self.keyslot), ("segments", self.segment), ("digests", self.digest), ("tokens", self.token)):
            members = value.get(name)
            if not isinstance(members, dict):
                self.shapes.append(name)
                continue
            for member, inner in members.items():
                if NAME.match(member):
                    judge(f"{name}.{member}", inner)
                else:
                    self.shapes.append(name)

    def object(self, path, it, listed, rows, by_type=()):
        """Judges rows of (name, test); true where the rows of inner objects are to be judged too."""
        if not isinstance(it, dict):
            self.shapes.append(path)
            return False
        if listed is not None:
            kind = it.get("type")
            if not isinstance(kind, str):
                self.shapes.append(path + ".type")
            elif listed and kind not in listed:
                self.kinds.append(path + ".type")
                return False
            rows = rows + dict(by_type).get(kind if isinstance(kind, str) else None, [])
        self.shapes += [f"{path}.{name}" for name, test in rows if not test(it.get(name))]
        return True

    def keyslot(self, path, it):
        key_size = ("key_size", lambda v: is_number(v, 1, 128))
        if not self.object(path, it, ("luks2",), [key_size]):
            return
        if "priority" in it and not is_number(it["priority"], 0, 2):
            self.shapes.append(path + ".priority")
        is_text = lambda v: isinstance(v, str)
        small = lambda v: is_number(v, *SMALL)
        self.object(path + ".af", it.get("af"), ("luks1",), [("stripes", small), ("hash", is_text)])
        self.object(path + ".area", it.get("area"), ("raw",), [("offset", is_decimal), ("size", is_decimal), ("encryption", is_text), key_size])
        costs = [(name, small) for name in ("time", "memory", "cpus")]
        self.object(path + ".kdf", it.get("kdf"), ("pbkdf2", "argon2i", "argon2id"), [("salt", lambda v: is_base64(v, 1, 128))],
                    {"pbkdf2": [("hash", is_text), ("iterations", small)], "argon2i": costs, "argon2id": costs})

    def segment(self, path, it):
        crypt = [("iv_tweak", is_decimal), ("encryption", lambda v: isinstance(v, str)),
                 ("sector_size", lambda v: type(v) is int and v in (512, 1024, 2048, 4096))]
        self.object(path, it, ("crypt", "linear"), [("offset", is_decimal), ("size", lambda v: v == "dynamic" or is_decimal(v))], {"crypt": crypt})

    def digest(self, path, it):
        self.object(path, it, ("pbkdf2",), [("keyslots", is_names), ("segments", is_names), ("hash", lambda v: isinstance(v, str)),
                                            ("iterations", lambda v: is_number(v, *SMALL)), ("salt", lambda v: is_base64(v, 1, 128)),
                                            ("digest", lambda v: is_base64(v, 20, 64))])

    def token(self, path, it):
        self.object(path, it, (), [("keyslots", is_names)])


def is_names(value):
    return isinstance(value, list) and all(isinstance(item, str) for item in value)


def refuse_least(word, paths):
    if paths:
        raise Fault(f"{word}({min(paths, key=lambda path: path.encode())})")


def by_number(members):
    return sorted((int(name), it) for name, it in members.items())


def arrays(value):
    for n, digest in value["digests"].items():
        yield f"digests.{n}.keyslots", digest["keyslots"], value["keyslots"]
        yield f"digests.{n}.segments", digest["segments"], value["segments"]
    for n, token in value["tokens"].items():
        yield f"tokens.{n}.keyslots", token["keyslots"], value["keyslots"]


def unassigned(value):
    for name in ("keyslots", "segments"):
        for n, it in value[name].items():
            if name == "keyslots" or it["type"] == "crypt":
                if sum(n in digest[name] for digest in value["digests"].values()) != 1:
                    yield f"{name}.{n}"


def metadata(copy):
    """The value of a chosen copy's metadata; refuses by every row but the region of segments."""
    value = read_json(copy["json"])
    judge(copy, value)
    return value


def judge(copy, value):
    """Refuses a value in the place of the copy's metadata likewise: one that nests too deep isn't read again."""
    if levels(value) > 127:
        raise Fault("BadJson")
    if any_not_whole(value):
        raise Fault("NotWhole")
    rows = Rows(value)
    refuse_least("Shape", rows.shapes)
    refuse_least("Kind", rows.kinds)
    refuse_least("NoSuchName", [path for path, names, known in arrays(value) if any(name not in known for name in names)])
    refuse_least("Assigned", [path for path, names, _ in arrays(value) if len(set(names)) < len(names)] + list(unassigned(value)))
    if int(value["config"]["json_size"]) != copy["size"] - 4096:
        raise Fault("Sizes")
    for n, slot in by_number(value["keyslots"]):
        if int(slot["area"]["size"]) < round_up(slot["key_size"] * slot["af"]["stripes"], 512):
            raise Fault(f"AreaTooSmall({n})")
    least, most = region(copy, value)
    for n, slot in by_number(value["keyslots"]):
        start, length = slot_area2(slot)
        if start < least or start + length > most:
            raise Fault(f"Region(Slot({n}))")


def region(copy, value):
    return 2 * copy["size"], 2 * copy["size"] + int(value["config"]["keyslots_size"])


def slot_area2(slot):
    return int(slot["area"]["offset"]), int(slot["area"]["size"])


# --- areas and the commands

def to_end(start, total):
    return start, max(total - start, 0)


def fit(areas, total):
    for name, (start, length) in areas:
        if start + length > total:
            raise Fault(f"Outside({name})")
    for i, (name, (start, length)) in enumerate(areas):
        for other, (at, size) in areas[i + 1:]:
            if max(start, at) < min(start + length, at + size):
                raise Fault(f"Overlap({name},{other})")


def answer(work):
    try:
        return work()
    except Fault as fault:
        return 1, f"refused {fault}\n"


def check(volume, detached=False):
    return answer(lambda: checked(volume, detached))


def checked(volume, detached):
    status, version, areas = judged(volume, detached)
    return status, f"accepted {version} areas {len(areas)}\n"


def judged(volume, detached):
    """The status, what the accepted volume is, and its areas."""
    total, chosen = len(volume), select(volume)
    if chosen == 1:
        d = common1(volume, range(8))
        areas = [("Head1", (0, 592))] + [(f"Slot({n})", slot_area1(d, n)) for n in range(8)]
        if not detached:
            areas.append(("Segment(0)", to_end(d["payload"] * 512, total)))
        fit(areas, total)
        return 0, "luks1", areas
    copy, state = chosen
    checked_uuid(copy["uuid"])
    value = metadata(copy)
    areas = [("Head1", (0, copy["size"])), ("Head2", (copy["size"], copy["size"]))]
    areas += [(f"Slot({n})", slot_area2(slot)) for n, slot in by_number(value["keyslots"])]
    if not detached:
        for n, segment in by_number(value["segments"]):
            start = int(segment["offset"])
            if start < region(copy, value)[1]:
                raise Fault(f"Region(Segment({n}))")
            areas.append((f"Segment({n})", to_end(start, total) if segment["size"] == "dynamic" else (start, int(segment["size"]))))
    fit(areas, total)
    return 0 if state == "in-step" else 3, f"luks2 {state} seqid {copy['seqid']}", areas


def shown_text(text):
    data = text if isinstance(text, bytes) else text.encode()
    return "".join(chr(b) if 0x20 <= b <= 0x7E and b != 0x5C else f"\\{b:02x}" for b in data)


def shown_list(names):
    return ",".join(names) or "-"


def show(volume):
    return answer(lambda: shown(volume))


def show_all(volume):
    """Like `show`, with the places of LUKS1 in bytes, its salts, and the subsystem, costs, salts and encryption of LUKS2."""
    return answer(lambda: shown(volume, True))


def costs_line(n, kdf):
    if kdf["type"] == "pbkdf2":
        return f"costs {n} pbkdf2 {shown_text(kdf['hash'])} iterations {kdf['iterations']}"
    return f"costs {n} {kdf['type']} time {kdf['time']} memory {kdf['memory']} cpus {kdf['cpus']}"


def shown(volume, whole=False):
    chosen = select(volume)
    if chosen == 1:
        d = common1(volume, range(8))
        lines = ["luks1", f"uuid {shown_text(d['uuid'])}", f"cipher {shown_text(d['cipher'])}-{shown_text(d['mode'])} key-bytes {d['key_bytes']}",
                 f"hash {shown_text(d['hash'])}", f"payload {d['payload']}"]
        if whole:
            lines.append(f"payload-bytes {512 * d['payload']}")
        for n, (active, iterations, salt, offset, stripes) in enumerate(d["slots"]):
            state = f"enabled iterations {iterations}" if active == ENABLED else "disabled"
            lines.append(f"slot {n} {state} offset {offset} stripes {stripes}")
            if whole:
                lines.append("area {} {} {}".format(n, *slot_area1(d, n)))
            if whole and active == ENABLED:
                lines.append(f"salt {n} {salt.hex()}")
        return 0, "\n".join(lines) + "\n"
    copy, state = chosen
    uuid = checked_uuid(copy["uuid"])
    value = metadata(copy)
    lines = ["luks2", f"uuid {shown_text(uuid)}", f"label {shown_text(copy['label'])}", *([f"subsystem {shown_text(copy['subsystem'])}"] if whole else []),
             f"copies {state} seqid {copy['seqid']}", f"header-size {copy['size']} keyslots-size {value['config']['keyslots_size']}"]
    for n, slot in by_number(value["keyslots"]):
        digest = next(name for name, it in value["digests"].items() if str(n) in it["keyslots"])
        area = slot["area"]
        lines.append(f"keyslot {n} key-bytes {slot['key_size']} kdf {slot['kdf']['type']} area {area['offset']} {area['size']} "
                     f"{shown_text(area['encryption'])} digest {digest}")
        if whole:
            lines += [costs_line(n, slot["kdf"]), f"salt {n} {base64.b64decode(slot['kdf']['salt']).hex()}"]
    for n, token in by_number(value["tokens"]):
        lines.append(f"token {n} {shown_text(token['type'])} keyslots {shown_list(token['keyslots'])}")
    for n, segment in by_number(value["segments"]):
        lines.append(f"segment {n} {segment['type']} {segment['offset']} {segment['size']}")
        if whole and segment["type"] == "crypt":
            lines.append(f"encryption {n} {shown_text(segment['encryption'])} sector-size {segment['sector_size']} iv-tweak {segment['iv_tweak']}")
    for n, digest in by_number(value["digests"]):
        lines.append(f"digest {n} {shown_text(digest['hash'])} keyslots {shown_list(digest['keyslots'])} segments {shown_list(digest['segments'])}")
    return 0, "\n".join(lines) + "\n"


def show_map(volume):
    return answer(lambda: (0, "".join(line + "\n" for line in map_lines(shown_map(volume), len(volume)))))


def shown_map(volume):
    """What a map has, gaps aside, as (place, order at one place, length or none for an end, name)."""
    chosen, total = select(volume), len(volume)
    ends = [(total, 1, None, "end of the volume")]
    if chosen == 1:
        d = common1(volume, range(8))
        slots = [(*slot_area1(d, n), f"keyslot {n} " + ("enabled" if d["slots"][n][0] == ENABLED else "disabled")) for n in range(8)]
        areas = [(0, 592, "header"), *slots, (*to_end(d["payload"] * 512, total), "segment 0")]
    else:
        copy, _ = chosen
        checked_uuid(copy["uuid"])
        value = metadata(copy)
        areas = [(0, copy["size"], "header, copy 1"), (copy["size"], copy["size"], "header, copy 2")]
        areas += [(*slot_area2(slot), f"keyslot {n}") for n, slot in by_number(value["keyslots"])]
        for n, it in by_number(value["segments"]):
            start = int(it["offset"])
            areas.append((*(to_end(start, total) if it["size"] == "dynamic" else (start, int(it["size"]))), f"segment {n}"))
        ends.append((region(copy, value)[1], 0, None, "end of the key areas"))
    return sorted(ends + [(start, 2 + i, length, name) for i, (start, length, name) in enumerate(areas)])


def map_lines(rows, total):
    """Each row, and each gap, in the order of places."""
    def outside(end):
        return "  outside" if end > total else ""

    above = []
    for place, _, length, name in rows:
        reached = max((start + size for start, size in above), default=0)
        if place > reached:
            yield f"{reached:20} . {place - reached:20}  gap{outside(place)}"
        if length is None:
            yield f"{place:20} - {'':20}  {name}{outside(place)}"
        else:
            meets = any(max(place, start) < min(place + length, start + size) for start, size in above)
            marks = ["outside"] * (place + length > total) + ["overlap"] * meets
            yield f"{place:20} # {length:20}  {name}{'  ' if marks else ''}{' '.join(marks)}"
        above.append((place, length or 0))


def show_json(volume):
    """Like `show`; the text is the object's, with its members by name."""
    return answer(lambda: (0, json_text(shown_json(volume)) + "\n"))


def json_text(value):
    """The value as the program prints it: characters that steer a terminal as their escapes."""
    text = json.dumps(value, ensure_ascii=False, separators=(",", ":"), sort_keys=True)
    return STEERING.sub(lambda found: f"\\u{ord(found[0]):04x}", text)


def shown_json(volume):
    chosen = select(volume)
    if chosen == 1:
        d = common1(volume, range(8))
        return {"version": 1, "uuid": d["uuid"].decode(), "cipher_name": d["cipher"].decode(), "cipher_mode": d["mode"].decode(), "hash": d["hash"].decode(),
                "key_bytes": d["key_bytes"], "payload_offset": d["payload"] * 512,
                "digest": {"iterations": d["iterations"], "salt": base64_text(d["salt"]), "value": base64_text(d["digest"])},
                "keyslots": [json_slot1(d, n) for n in range(8)]}
    copy, state = chosen
    uuid = checked_uuid(copy["uuid"])
    value = metadata(copy)
    config = value["config"]
    return {"version": 2, "uuid": uuid.decode(), "label": text_or_bytes(copy["label"]), "subsystem": text_or_bytes(copy["subsystem"]), "copies": state,
            "seqid": copy["seqid"], "sizes": {"header": copy["size"], "json": int(config["json_size"]), "keyslots": int(config["keyslots_size"])},
            "flags": config.get("flags"), "requirements": config.get("requirements"), "keyslots": [json_slot2(value, n, it) for n, it in by_number(value["keyslots"])],
            "tokens": [{"number": n, "type": it["type"], "keyslots": numbers(it["keyslots"])} for n, it in by_number(value["tokens"])],
            "segments": [json_segment(n, it) for n, it in by_number(value["segments"])],
            "digests": [{"number": n, "type": it["type"], "hash": it["hash"], "iterations": it["iterations"], "salt": it["salt"], "value": it["digest"],
                         "keyslots": numbers(it["keyslots"]), "segments": numbers(it["segments"])} for n, it in by_number(value["digests"])],
            "metadata": value}


def base64_text(data):
    return base64.b64encode(data).decode()


def text_or_bytes(data):
    try:
        return data.decode()
    except UnicodeDecodeError:
        return list(data)


def numbers(names):
    return [int(name) for name in names]


def json_slot1(d, n):
    active, iterations, salt, _, stripes = d["slots"][n]
    offset, size = slot_area1(d, n)
    cipher, hash_name = (d["cipher"] + b"-" + d["mode"]).decode(), d["hash"].decode()
    slot = {"number": n, "state": "enabled" if active == ENABLED else "disabled", "splitter": {"hash": hash_name, "stripes": stripes},
            "area": {"offset": offset, "size": size, "cipher": cipher, "key_bytes": d["key_bytes"]}}
    if active == ENABLED:
        slot |= {"key_bytes": d["key_bytes"], "kdf": {"type": "pbkdf2", "hash": hash_name, "iterations": iterations, "salt": base64_text(salt)}}
    return slot


def json_slot2(value, n, slot):
    area, kdf = slot["area"], slot["kdf"]
    costs = ("hash", "iterations") if kdf["type"] == "pbkdf2" else ("time", "memory", "cpus")
    return {"number": n, "state": "enabled", "priority": slot.get("priority", 1), "key_bytes": slot["key_size"],
            "kdf": {name: kdf[name] for name in ("type", "salt", *costs)},
            "area": {"offset": int(area["offset"]), "size": int(area["size"]), "cipher": area["encryption"], "key_bytes": area["key_size"]},
            "splitter": {"hash": slot["af"]["hash"], "stripes": slot["af"]["stripes"]},
            "digest": next(int(name) for name, it in value["digests"].items() if str(n) in it["keyslots"])}


def json_segment(n, it):
    size = it["size"] if it["size"] == "dynamic" else int(it["size"])
    shown = {"number": n, "type": it["type"], "offset": int(it["offset"]), "size": size}
    if it["type"] == "crypt":
        shown |= {"cipher": it["encryption"], "sector_size": it["sector_size"], "iv_tweak": int(it["iv_tweak"])}
    if "integrity" in it:
        shown["integrity"] = it["integrity"]
    return shown


# --- opening

def plan1(volume, d, n, older=False):
    """What opening slot n of LUKS1 needs, or its refusal; `older`: ciphers and hashes of older disks are accepted."""
    active, iterations, salt, _, stripes = d["slots"][n]
    if active not in (ENABLED, DISABLED):
        raise Fault(f"SlotState({n})")
    if stripes == 0:
        raise Fault(f"Stripes({n})")
    if active == ENABLED and iterations == 0:
        raise Fault(f"Iterations(Slot({n}))")
    if active == DISABLED:
        raise Fault("SlotFree")
    return known(volume, slot_area1(d, n), b"-".join((d["cipher"], d["mode"])), d["key_bytes"], d["key_bytes"], stripes,
                 [name.decode() for name in (d["hash"],) * 3], (salt, iterations), (d["salt"], d["iterations"], d["digest"]), older)


def plan2(volume, value, n, memory=0, older=False):
    """What keyslot n of LUKS2 answers if Argon2 may take so many KiB."""
    slot = value["keyslots"][str(n)]
    digest = next(it for it in value["digests"].values() if str(n) in it["keyslots"])
    kdf = slot["kdf"]
    hashes = [kdf["hash"] if kdf["type"] == "pbkdf2" else digest["hash"], slot["af"]["hash"], digest["hash"]]
    derivation = derivation2(kdf, memory)
    return known(volume, slot_area2(slot), slot["area"]["encryption"].encode(), slot["area"]["key_size"], slot["key_size"], slot["af"]["stripes"], hashes,
                 derivation, (base64.b64decode(digest["salt"]), digest["iterations"], base64.b64decode(digest["digest"])), older)


def derivation2(kdf, memory):
    """How the area's key is derived; none by Argon2 whose costs aren't allowed, or aren't such as RFC 9106 has."""
    salt = base64.b64decode(kdf["salt"])
    if kdf["type"] == "pbkdf2":
        return salt, kdf["iterations"]
    lanes = kdf["cpus"]
    return (salt, kdf) if 8 * lanes <= kdf["memory"] <= memory and lanes < 1 << 24 and len(salt) >= 8 else None


def known(volume, area, cipher, cipher_key, length, stripes, hashes, derivation, digest, older):
    if area[0] + area[1] > len(volume):
        raise Fault("Outside")
    if derivation is None:
        raise Fault("Argon2")
    fault = refusal(cipher.decode(), hashes, cipher_key, older)
    if fault:
        raise Fault(fault)
    return volume[area[0]:sum(area)], cipher.decode(), cipher_key, length, stripes, hashes, derivation, digest


def refusal(cipher, hashes, cipher_key, older):
    """The fault of a cipher, of hashes or of a key's length."""
    if cipher not in ("aes-xts-plain64", "aes-xts-plain", *(CBC if older else ())):
        return "Cipher"
    if any(name not in (*HASHES, *(OLDER_HASHES if older else ())) for name in hashes):
        return "Hash"
    return None if cipher_key in ((16, 24, 32) if cipher in CBC else (32, 64)) else "KeySize"


def opened(plan, passphrase):
    """The key, or none."""
    key, given = candidate(plan, passphrase)
    return key if given == plan[-1][2] else None


# what was derived once, by all that it is derived from
DERIVED = {}


def candidate(plan, passphrase):
    """What the stripes hold under the passphrase, and what that gives in place of the digest."""
    of = hashlib.sha256(plan[0]).digest(), repr(plan[1:]), bytes(passphrase)
    if of not in DERIVED:
        DERIVED[of] = derived(plan, passphrase)
    return DERIVED[of]


def derived(plan, passphrase):
    area, cipher, cipher_key, length, stripes, hashes, (salt, cost), (digest_salt, digest_iterations, digest) = plan
    slot_key = argon2(cost, passphrase, salt, cipher_key) if isinstance(cost, dict) else pbkdf2(hashes[0], passphrase, salt, cost, cipher_key)
    key = opened_area(hashes[1], slot_key, area, length, stripes, cipher)
    return key, pbkdf2(hashes[2], key, digest_salt, digest_iterations, len(digest))


def distance(plan, passphrase):
    """The number of bits in which that differs from the digest."""
    return (int.from_bytes(candidate(plan, passphrase)[1], "big") ^ int.from_bytes(plan[-1][2], "big")).bit_count()


def open_volume(volume, passphrase, slot=None, memory=0, older=False, by=None):
    """(status, line) and the key where one was found; Argon2 may take so many KiB, and `older` accepts ciphers and hashes of older disks. `by` reads the header,
    `openable` where it isn't given."""
    try:
        return open_found(volume, passphrase, slot, memory, older, by)
    except Fault as fault:
        return 1, f"refused {fault}\n", None


def openable(volume, memory, older):
    """For a volume whose header is accepted so far: the plan of a keyslot, whether a number can be a keyslot's, and the order in which they are tried."""
    chosen = select(volume)
    if chosen == 1:
        d = common1(volume)
        return (lambda n: plan1(volume, d, n, older)), (lambda n: n < 8), range(8)
    checked_uuid(chosen[0]["uuid"])
    value = metadata(chosen[0])
    numbered = [(it.get("priority", 1), n) for n, it in by_number(value["keyslots"])]
    order = [n for wanted in (2, 1) for priority, n in numbered if priority == wanted]
    return (lambda n: plan2(volume, value, n, memory, older)), (lambda n: str(n) in value["keyslots"]), order


def open_found(volume, passphrase, slot, memory, older, by):
    plan, exists, order = (by or openable)(volume, memory, older)
    if slot is not None:
        if not exists(slot):
            raise Fault("NoSuchSlot")
        key = opened(plan(slot), passphrase)
        return (0, f"slot {slot} opens\n", key) if key is not None else (1, f"slot {slot} does not open\n", None)
    for n in order:
        try:
            key = opened(plan(n), passphrase)
        except Fault:
            continue
        if key is not None:
            return 0, f"slot {n} opens\n", key
    return 1, "no slot opens\n", None


def unbound(volume, slot):
    """What standard error says of a keyslot that opens where the digest that names it names no segment."""
    chosen = select(volume)
    if chosen == 1:
        return []
    digests = metadata(chosen[0])["digests"].values()
    bound = any(str(slot) in it["keyslots"] and it["segments"] for it in digests)
    return [] if bound else [f"luks: keyslot {slot}: its key is of no segment, so that it opens no data"]


def almost_met(volume, passphrase, slot=None, memory=0, older=False, by=None):
    """What standard error says of the keyslot that is almost met, of a volume where the passphrase opens none that is tried; or nothing."""
    plan, _, order = (by or openable)(volume, memory, older)
    distances = []
    for n in order if slot is None else [slot]:
        try:
            distances.append((distance(plan(n), passphrase), n))
        except Fault:
            continue
    # the least number of bits, and the first in the order of those that have it
    bits, n = min(distances, key=lambda it: it[0], default=(9, None))
    said = f"keyslot {n} is almost met: its digest differs in {bits} bit{'' if bits == 1 else 's'}, so the passphrase is right and the digest is damaged"
    return [said] if bits <= 8 else []


# --- whether a key is the volume's

def match_key(volume, key, digest=None, older=False):
    """(status, line) and the number of the digest of LUKS2 that was asked; `older` accepts hashes of older disks."""
    try:
        number, name, salt, iterations, stored = key_digest(volume, len(key), digest)
        if name not in (*HASHES, *(OLDER_HASHES if older else ())):
            raise Fault("Hash")
    except Fault as fault:
        return 1, f"refused {fault}\n", None
    matches = pbkdf2(name, key, salt, iterations, len(stored)) == stored
    return (0, "key matches\n", number) if matches else (1, "key does not match\n", number)


def key_digest(volume, length, digest):
    """The digest that is asked for of a key of so many bytes: its number, none of LUKS1, its hash, salt and iterations, and itself."""
    chosen = select(volume)
    if chosen == 1:
        d = common1(volume)
        if digest not in (None, 0):
            raise Fault("NoSuchDigest")
        if length != d["key_bytes"]:
            raise Fault("KeyLength")
        return None, d["hash"].decode(), d["salt"], d["iterations"], d["digest"]
    checked_uuid(chosen[0]["uuid"])
    value = metadata(chosen[0])
    asked = [n for n, it in by_number(value["digests"]) if "0" in it["segments"]][:1] if digest is None else [digest]
    if not asked or str(asked[0]) not in value["digests"]:
        raise Fault("NoSuchDigest")
    it = value["digests"][str(asked[0])]
    lengths = [value["keyslots"][n]["key_size"] for n in it["keyslots"]] or range(1, 129)
    if length not in lengths:
        raise Fault("KeyLength")
    return asked[0], it["hash"], base64.b64decode(it["salt"]), it["iterations"], base64.b64decode(it["digest"])
