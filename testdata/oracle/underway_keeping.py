"""Backups of volumes in the midst of something, in Python: what such a backup is, what restoring one leaves, byte for byte of both devices, and what comparing
one prints."""
import reader
import underway
from reader import Fault, by_number


def copy_of(volume):
    """The chosen copy of a volume in whose metadata something is under way, its bytes from 0 on that aren't kept, and its metadata; none where nothing is."""
    chosen = reader.select(volume)
    if chosen == 1:
        return None
    copy, state = chosen
    if not underway.is_under_way(reader.read_json(copy["json"])):
        return None
    return copy, 512 if state == "second-only" else 0, underway.wider(copy)


def end_of(copy, value):
    return reader.region(copy, value)[1]


def judge(copy, value, total, detached):
    """The first fault of a device of so many bytes with this header."""
    end = end_of(copy, value)
    for n, segment in [] if detached else by_number(value["segments"]):
        if not underway.is_backup(segment) and int(segment["offset"]) < end:
            raise Fault(f"Region(Segment({n}))")
    if total < 2 * copy["size"]:
        raise Fault("Outside(Head2)")
    for n, slot in by_number(value["keyslots"]):
        start, length = reader.slot_area2(slot)
        if start + length > total:
            raise Fault(f"Outside(Slot({n}))")


def moment(name):
    return f"luks: {name}: a reencryption is under way: the backup is of this moment, and once that went on, restoring it destroys data\n"


def says_moment(value):
    return any(underway.type_of(slot) == "reencrypt" for _, slot in by_number(value["keyslots"]))


def backed_up(source, target):
    """The line that the program prints, and the target that is left."""
    try:
        copy, lead, value = copy_of(source)
        judge(copy, value, len(source), True)
        end = end_of(copy, value)
        if len(target) < end:
            raise Fault("TooSmall")
    except Fault as fault:
        return f"refused {fault}", target
    whole = source[:end] + bytes(max(0, end - len(source)))
    return "done", bytes(lead) + whole[lead:] + target[end:]


def standing(backup, target):
    """How the header that counts on the target stands to the backup's: none, another, same or progressed."""
    try:
        there = reader.select(target)
    except Fault:
        return "none"
    here = reader.select(backup)
    if here == 1:
        return "another"
    mine = here[0]
    if there == 1:
        return "progressed" if target[168:208] == mine["uuid"] else "another"
    theirs = there[0]
    if theirs["uuid"] != mine["uuid"]:
        return "another"
    return "same" if (theirs["seqid"], theirs["json"]) == (mine["seqid"], mine["json"]) else "progressed"


def is_barred(volume, flags):
    """What is asked before all else of a volume that is written over: whether it is in the midst of a reencryption; nothing where it isn't, or may be."""
    if "--over-reencryption" in flags:
        return None
    try:
        chosen = reader.select(volume)
    except Fault:
        return None
    if chosen == 1:
        return None
    value = reader.read_json(chosen[0]["json"])
    mandatory = value["config"].get("requirements", {}).get("mandatory", [])
    asked = any(text.startswith(("online-reencrypt", "offline-reencrypt")) for text in mandatory)
    return "Reencrypting" if asked or says_moment(value) else None


def restored(backup, target, detached, another, progressed):
    """What restoring a backup onto a target owes; the last two say which headers may be written over. Older second copies that begin before the data lose their
    first sector."""
    try:
        copy, lead, value = copy_of(backup)
        for fault, total, away in (("NotAccepted", len(backup), True), ("DoesNotFit", len(target), detached)):
            try:
                judge(copy, value, total, away)
            except Fault as inner:
                raise Fault(f"{fault}({inner})") from inner
        so = standing(backup, target)
        if so == "another" and not another:
            raise Fault("OtherVolume")
        if so == "progressed" and not progressed:
            raise Fault("Progressed")
    except Fault as fault:
        return f"refused {fault}", target
    out = bytearray(target)
    limit = len(target) if detached else min(len(target), end_of(copy, value))
    for at in reader.SIZES:
        if at + 512 <= limit and target[at:at + 6] == b"SKUL\xba\xbe":
            out[at:at + 512] = bytes(512)
    end = min(end_of(copy, value), len(backup), len(target))
    out[:end] = bytes(lead) + backup[lead:end]
    return "done", bytes(out)


def compared(backup, volume):
    """What the program prints, and its status."""
    so = standing(backup, volume)
    if so == "another":
        return "refused OtherVolume\n", 1
    if so == "progressed":
        return "refused Progressed\n", 1
    value = copy_of(backup)[2]
    lines, current = "", True
    for n, slot in by_number(value["keyslots"]):
        start, length = reader.slot_area2(slot)
        same = start + length <= min(len(backup), len(volume)) and backup[start:start + length] == volume[start:start + length]
        current &= same
        lines += f"keyslot {n} {'same' if same else 'damaged'}\n"
    return f"{'current' if current else 'outdated'}\n{lines}", 0 if current else 1
