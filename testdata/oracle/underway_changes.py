"""Each member of what is under way wrong in each way, in metadata of a reencryption that the wider reading accepts, with the fault that was worked out by hand."""
import copy

import underway

REMOVED = object()


def at(path, new):
    """What puts another value at a path, or removes the member."""
    def change(value):
        *outer, last = path.split(".")
        for name in outer:
            value = value[name]
        if new is REMOVED:
            del value[last]
        else:
            value[last] = new
    return change


DECIMALS = (REMOVED, None, 5, "", "05", "-1", "1.0", "18446744073709551616", [], {})
TEXTS = (REMOVED, None, 5, [], {}, True)
NUMBERS = (REMOVED, None, "1", -1, 4294967296, [], {})


def changes(value):
    """(path, change, fault) of each member of what is under way."""
    n = underway.reencryptions(value)[0]
    slot, area = f"keyslots.{n}", value["keyslots"][str(n)]["area"]
    rows = [(f"{slot}.mode", (*TEXTS, "", "Reencrypt", "reencrypt ", "resume")), (f"{slot}.direction", (*TEXTS, "", "forwards", "Backward", "up")),
            (f"{slot}.key_size", (*NUMBERS, 0, 2, 64)), (f"{slot}.priority", (None, "0", -1, 3)), (f"{slot}.area.offset", DECIMALS), (f"{slot}.area.size", DECIMALS)]
    if area["type"] in underway.CHECKSUMS:
        rows += [(f"{slot}.area.hash", TEXTS), (f"{slot}.area.sector_size", (*NUMBERS, 0, 1, 256, 511, 513, 1000, 4097))]
    if area["type"] in underway.SHIFTS:
        rows.append((f"{slot}.area.shift_size", (*DECIMALS, "0", "1", "511", "513")))
    rows += [(f"segments.{k}.flags", (None, "backup-final", 5, {}, [5], ["backup-final", None])) for k, it in value["segments"].items() if "flags" in it]
    for k, it in value["segments"].items():
        rows += [(f"segments.{k}.offset", DECIMALS), (f"segments.{k}.size", DECIMALS)]
        rows += [(f"segments.{k}.{name}", wrong) for name, wrong in (("iv_tweak", DECIMALS), ("encryption", TEXTS), ("sector_size", (*NUMBERS, 0, 511, 513, 8192))) if it["type"] == "crypt"]
    rows += [("config.requirements", (None, "online-reencrypt-v2", 5, [], *({"mandatory": wrong} for wrong in (None, "online-reencrypt-v2", 5, {}, [5]))))]
    for path, wrong in rows:
        for new in wrong:
            yield f"{path} {'removed' if new is REMOVED else new!r}", at(path, new), f"Shape({path})"
    # types, and what they hide
    for path in (f"{slot}.area.type", *(f"segments.{k}.type" for k in value["segments"])):
        for new in ("", "raw2", "Checksum"):
            yield f"{path} {new!r}", at(path, new), f"Kind({path})"
        for new in (REMOVED, None, 5, []):
            yield f"{path} {new!r}", at(path, new), f"Shape({path})"
    yield f"{slot}.area.type raw", at(f"{slot}.area.type", "raw"), f"Kind({slot}.area.type)"
    yield f"{slot}.area {{}}", at(f"{slot}.area", None), f"Shape({slot}.area)"
    for k, it in value["keyslots"].items():
        if it["type"] == "luks2":
            yield f"keyslots.{k}.area.type checksum", at(f"keyslots.{k}.area.type", "checksum"), f"Kind(keyslots.{k}.area.type)"
            yield f"keyslots.{k}.type", at(f"keyslots.{k}.type", "luks1"), f"Kind(keyslots.{k}.type)"
    # names, and digests
    for d, it in value["digests"].items():
        yield f"digests.{d} names what isn't there", at(f"digests.{d}.segments", it["segments"] + ["31"]), f"NoSuchName(digests.{d}.segments)"
        if it["segments"]:
            yield f"digests.{d} names twice", at(f"digests.{d}.segments", it["segments"] + it["segments"][:1]), f"Assigned(digests.{d}.segments)"
    second = copy.deepcopy(value["digests"])
    second["31"] = {**next(iter(second.values())), "keyslots": [str(n)], "segments": []}
    if underway.naming(value, "keyslots", str(n)):
        yield "the reencryption is of two digests", at("digests", second), f"Assigned({slot})"
    for k, it in value["segments"].items():
        if it["type"] != "crypt":
            continue
        none = copy.deepcopy(value["digests"])
        for digest in none.values():
            digest["segments"] = [name for name in digest["segments"] if name != k]
        yield f"segment {k} is of no digest", at("digests", none), f"Assigned(segments.{k})"
        if underway.HOT not in underway.flags(it):
            two = copy.deepcopy(none)
            two["31"] = {**next(iter(two.values())), "keyslots": [], "segments": [k]}
            two["30"] = {**next(iter(two.values())), "keyslots": [], "segments": [k]}
            yield f"segment {k} is of two digests", at("digests", two), f"Assigned(segments.{k})"
    # sizes and places
    yield "json_size", at("config.json_size", "4096"), "Sizes"
    yield f"{slot} before the region", at(f"{slot}.area.offset", "4096"), f"Region(Slot({n}))"
    yield f"{slot} behind the region", at(f"{slot}.area.size", "18446744073709551615"), f"Region(Slot({n}))"
    # what is under way contradicts itself
    yield "no requirement", at("config.requirements", {}), "UnderWay(config.requirements)"
    yield "another requirement", at("config.requirements.mandatory", ["opal"]), "UnderWay(config.requirements)"
    previous, final = (next(k for k, it in value["segments"].items() if flag in underway.flags(it)) for flag in underway.BACKUPS[:2])
    for k in (previous, final):
        yield f"segment {k} without its flag", at(f"segments.{k}.flags", []), "UnderWay(segments)"
    yield "two final ones", at(f"segments.{previous}.flags", ["backup-previous", "backup-final"]), "UnderWay(segments)"
    hot = [k for k, it in value["segments"].items() if underway.HOT in underway.flags(it)]
    if hot:
        final_end = underway.extent(value["segments"][final])
        if final_end[0] >= 512:
            yield "a part in hand before the final segment", at(f"segments.{hot[0]}.offset", "0"), f"UnderWay(segments.{hot[0]})"
    used = [k for k, it in value["segments"].items() if not underway.is_backup(it)]
    if len(used) > 1:
        yield "the first goes to the end", at(f"segments.{used[0]}.size", "dynamic"), f"UnderWay(segments.{used[0]})"
        yield "two meet", at(f"segments.{used[1]}.offset", value["segments"][used[0]]["offset"]), f"UnderWay(segments.{used[1]})"
    if value["segments"][used[0]]["type"] == "crypt":
        yield "another cipher", at(f"segments.{used[0]}.encryption", "aes-lrw-plain64"), f"UnderWay(segments.{used[0]})"
