"""Backups in Python: what a backup of a volume's header is, and what restoring one leaves, byte for byte of both devices."""
import base64

import reader
from reader import ENABLED, Fault


def kept(volume):
    """The bytes of the header, those of its beginning that aren't kept, and the key areas of the keyslots in use."""
    chosen = reader.select(volume)
    if chosen == 1:
        d = reader.common1(volume, range(8))
        return 592, 0, [reader.slot_area1(d, n) for n in range(8) if d["slots"][n][0] == ENABLED]
    copy, state = chosen
    slots = [reader.slot_area2(slot) for _, slot in reader.by_number(reader.metadata(copy)["keyslots"])]
    return 2 * copy["size"], 512 if state == "second-only" else 0, slots


def size(volume, detached):
    chosen = reader.select(volume)
    if chosen == 1:
        d = reader.common1(volume, range(8))
        ends = [start + length for start, length in (reader.slot_area1(d, n) for n in range(8))]
        return max([592, *ends] + ([] if detached else [d["payload"] * 512]))
    return reader.region(chosen[0], reader.metadata(chosen[0]))[1]


def backed_up(source, detached, target):
    """The line that the program prints, and the target that is left."""
    try:
        reader.checked(source, detached)
        length = size(source, detached)
        if len(target) < length:
            raise Fault("TooSmall")
    except Fault as fault:
        return f"refused {fault}", target
    return "done", laid_over(source, bytes(length) + target[length:])


def laid_over(source, target):
    """The target with the header and the key areas of the source, and zeros where the header isn't kept."""
    header, lead, areas = kept(source)
    out = bytearray(target)
    for start, length in [(lead, header - lead), *areas]:
        out[start:start + length] = source[start:start + length]
    out[:lead] = bytes(lead)
    return bytes(out)


def restored(backup, target, detached, over_any):
    """What restoring a backup onto a target owes."""
    try:
        reader.checked(backup, True)
        fits(backup, len(target), detached)
        if not over_any and is_other(backup, target):
            raise Fault("OtherVolume")
    except Fault as fault:
        return f"refused {fault}", target
    return "done", laid_over(backup, target)


def fits(backup, total, detached):
    """The first fault of a volume of so many bytes with the backup's header."""
    chosen = reader.select(backup)
    if chosen == 1:
        d = reader.common1(backup, range(8))
        areas = [("Head1", (0, 592))] + [(f"Slot({n})", reader.slot_area1(d, n)) for n in range(8)]
        if not detached:
            areas.append(("Segment(0)", reader.to_end(d["payload"] * 512, total)))
    else:
        copy, _ = chosen
        value = reader.metadata(copy)
        areas = [("Head1", (0, copy["size"])), ("Head2", (copy["size"], copy["size"]))]
        areas += [(f"Slot({n})", reader.slot_area2(slot)) for n, slot in reader.by_number(value["keyslots"])]
        for n, segment in [] if detached else reader.by_number(value["segments"]):
            start = int(segment["offset"])
            if start < reader.region(copy, value)[1]:
                raise Fault(f"Region(Segment({n}))")
            areas.append((f"Segment({n})", reader.to_end(start, total) if segment["size"] == "dynamic" else (start, int(segment["size"]))))
    reader.fit(areas, total)


def marks(volume):
    """The field of the uuid and the digests of the header that counts, or none."""
    try:
        chosen = reader.select(volume)
    except Fault:
        return None
    if chosen == 1:
        return volume[168:208], {(volume[132:164], volume[112:132])}
    copy, _ = chosen
    try:
        digests = reader.metadata(copy)["digests"].values()
    except Fault:
        digests = []
    return copy["uuid"], {(base64.b64decode(d["salt"]), base64.b64decode(d["digest"])) for d in digests}


def is_other(backup, target):
    mine, theirs = marks(backup), marks(target)
    return theirs is not None and mine[0] != theirs[0] and not mine[1] & theirs[1]


# --- what is written in which order, and how the keyslots of a backup stand to those of a volume

CLEAR = bytes(512)


def writes_of_backup(source, detached, target):
    """What is written to the target, in order, or the first refusal: second copies that begin there are cleared first."""
    reader.checked(source, detached)
    end = size(source, detached)
    if len(target) < end:
        raise Fault("TooSmall")
    places = sorted((at for at in reader.SIZES if at + 512 <= end), key=lambda at: (target[at:at + 6] != b"SKUL\xba\xbe", -at))
    return [*((at, CLEAR) for at in (0, *places)), (512, bytes(end - 512)), *areas_and_header(source)]


def areas_and_header(source):
    header, lead, areas = kept(source)
    parts = [(start, source[start:start + length]) for start, length in areas]
    if reader.select(source) == 1:
        return [*parts, (0, source[:header])]
    half = header // 2
    return [*parts, (half, source[half:header]), (0, bytes(lead) + source[lead:half])]


def writes_of_restore(backup, volume, detached, over):
    """The same of putting a backup back."""
    try:
        reader.checked(backup, True)
    except Fault as fault:
        raise Fault(f"NotAccepted({fault})") from fault
    try:
        fits(backup, len(volume), detached)
    except Fault as fault:
        raise Fault(f"DoesNotFit({fault})") from fault
    if not over and is_other(backup, volume):
        raise Fault("OtherVolume")
    older = [at for at in reversed(reader.SIZES) if at + 512 <= data_of(backup, volume, detached) and volume[at:at + 6] == b"SKUL\xba\xbe"]
    chosen = reader.select(backup)
    second = [] if chosen == 1 else [chosen[0]["size"]]
    return [*((at, CLEAR) for at in (0, *older, *second)), *areas_and_header(backup)]


def data_of(backup, volume, detached):
    """Where the data begins by the backup's header."""
    if detached:
        return len(volume)
    chosen = reader.select(backup)
    if chosen == 1:
        return reader.common1(backup, range(8))["payload"] * 512
    return min((int(it["offset"]) for it in reader.metadata(chosen[0])["segments"].values()), default=len(volume))


def salts(volume):
    """The salt and the key area of each keyslot in use."""
    chosen = reader.select(volume)
    if chosen == 1:
        d = reader.common1(volume, range(8))
        found = {n: (d["slots"][n][2], reader.slot_area1(d, n)) for n in range(8) if d["slots"][n][0] == ENABLED}
    else:
        found = {n: (base64.b64decode(slot["kdf"]["salt"]), reader.slot_area2(slot)) for n, slot in reader.by_number(reader.metadata(chosen[0])["keyslots"])}
    return {n: (salt, volume[start:start + length]) for n, (salt, (start, length)) in found.items()}


def standing(backup, volume, by_areas):
    """How each keyslot of either stands, by its number."""
    here, there = salts(backup), salts(volume)
    found = {}
    for n in sorted({*here, *there}):
        if n not in here or n not in there:
            found[n] = "missing" if n not in here else "removed"
        elif here[n][0] != there[n][0]:
            found[n] = "older"
        else:
            found[n] = "damaged" if by_areas and here[n][1] != there[n][1] else "same"
    return found


def said_of_keyslots(backup, volume, backup_name, volume_name):
    """What is said of the keyslots before a backup is put back."""
    try:
        reader.checked(backup, True)
    except Fault:
        return []
    count = len(salts(backup))
    said = [f"{backup_name}: the backup has {count} keyslot{'' if count == 1 else 's'}"]
    try:
        reader.checked(volume, True)
    except Fault:
        return said
    found = standing(backup, volume, False)
    lacks, alone = (sum(it in words for it in found.values()) for words in (("missing", "older"), ("removed", "older")))
    said.append(f"{volume_name}: the backup lacks {lacks} of its keyslots, and alone has {alone}")
    return said + [f"{volume_name}: keyslot {n} {it}" for n, it in found.items() if it != "same"]


def compared(backup, volume):
    """What `compare` prints, and its status; or the first refusal."""
    for device in (backup, volume):
        reader.checked(device, True)
    if is_other(backup, volume):
        raise Fault("OtherVolume")
    found = standing(backup, volume, True)
    current = set(found.values()) <= {"same"}
    return ("current" if current else "outdated") + "\n" + "".join(f"keyslot {n} {it}\n" for n, it in found.items()), 0 if current else 1
