"""What the program says on standard error before a command and once it has ended, beside what the command itself says, by docs/COMMANDS.md."""
import rebuilding
import reader
import underway
import uses
from reader import Fault

EMPTY = "the new passphrase is empty: it keeps nobody out"
IDENTIFIED = "{}: luks show prints its uuid; what names it by an older one, as /etc/crypttab, doesn't find it any more"
DERIVATIONS = "at most {} derivations are made by the passphrase: Ctrl-C ends it, and nothing is written then"
NO_KEYSLOTS = ("{}: the volume has no keyslots: no passphrase opens it",
               "{}: the volume key still reads its data, of a mapping that is open or where it was kept: luks open --key tells whether it is the one")
HEADER1 = 592
# the edits, which write over another use of a disk with --over
EDITS = ("add", "change", "remove", "erase", "repair", "label", "uuid", "priority", "token")
FREE = reader.DISABLED.to_bytes(4, "big")


def explained(answer):
    """The line that each refusal ends with: which command tells more of it; an answer that is no refusal has none."""
    if not answer.startswith("refused "):
        return []
    return [f"luks explain {answer.split()[1].partition('(')[0]} says what to try next"]


def of_new_passphrase(words, given):
    """What is said of a new passphrase before a volume is opened, by `add`, `change` and `format`; `given` are the passphrases by their files."""
    file = {"add": "new", "change": "new", "format": "passphrase"}.get(words.command)
    if file is None:
        return []
    new, option = given.get(file), "--passphrase-line" if file == "passphrase" else "--new-line"
    ends = ((b"\r\n", "ends in a carriage return and a newline: a prompt at boot can't type them; tr -d '\\r\\n' leaves them out"),
            (b"\n", f"ends in a newline: a prompt at boot can't type it; {option} FILE takes the line alone"),
            (b"\r", "ends in a carriage return: a prompt at boot can't type it; tr -d '\\r' leaves it out"))
    if new == b"":
        return [EMPTY]
    return next(([f"the new passphrase {said}"] for end, said in ends if (new or b"").endswith(end)), [])


def of_derivations(done, most):
    """What is said before the first of so many derivations at most, and before the second; the suite's clock is a second later at each reading."""
    took = f"{most} s" if most < 120 else f"{most // 60} minutes"
    return [DERIVATIONS.format(most)] * (done > 0) + [f"the first took 1000 ms, so all take some {took}"] * (done > 1)


def of_ending(words, name, before, answer, status, made1=None):
    """What is said once a command on a volume of this name has answered; `before` are the volume's bytes before it, `made1` the LUKS1 header that
    `rebuild` made."""
    fault = answer.removeprefix("refused ").partition("(")[0] if answer.startswith("refused ") else None
    said = of_written_over(words, name, before, answer)
    if fault in ("NotLuks", "NoSoundCopy", "SlotState", "Stripes"):
        said += of_standing(name, before, fault)
    if fault == "Kind":
        said += of_readable(name, before)
    if words.command == "rebuild" and answer == "done":
        searched = [] if words.searches() else of_source(before, "second" in words.flags, words.number("size"))
        said += of_lost(before, made1) if made1 else searched
    return said + of_command(words, name, before, answer, status, fault)


def of_command(words, name, before, answer, status, fault):
    if words.command == "uuid" and answer == "done":
        return [IDENTIFIED.format(name)]
    if words.command == "check" and status == 3 and uses.standing(before):
        return [f"{name}: {uses.standing(before)} stands in the place of a damaged copy: no edit writes over it without --over"]
    if words.command in ("check", "show") and fault:
        return of_whole(before)
    if words.command == "open" and answer == "no slot opens" and has_no_keyslots(before):
        return [it.format(name) for it in NO_KEYSLOTS]
    if words.command in ("add", "change", "format") and fault == "Argon2" and "kdf" in words.options:
        return of_memory(words, name, before)
    return []


def of_written_over(words, name, before, answer):
    """What stood in the place of a damaged copy that an edit with --over has written over."""
    if "over" in words.flags and answer.startswith("done") and words.command in EDITS and words.operands[1:2] != ["export"]:
        return [f"{name}: {it} stood in the place of a damaged copy, and was written over" for it in [uses.standing(before)] if it]
    return []


def of_standing(name, before, fault):
    """The use of a disk that has no header, by its signature."""
    if before[:6] == b"LUKS\xde\xad":
        return [f"{name}: cryptsetup is in the midst of reencrypting this LUKS1 volume: luks explain Reencrypting"]
    found = uses.first(before[:HEADER1] if fault in ("SlotState", "Stripes") else before)
    return [f"{name}: what stands there is {found}"] if found else []


def of_readable(name, before):
    """The commands that read a volume in which something is under way."""
    try:
        value = underway.under_way(before)
    except Fault:
        return []
    if value is None:
        return []
    opened = "tells which key each keyslot gives" if underway.reencryptions(value) else "tries its keyslots"
    return [f"{name}: luks show lists it, luks open {opened}"]


def copy_of(source, second=False, size=None):
    """The copy, the number of keyslots, and what vouches for the metadata of which a header is made; none if there is none."""
    try:
        size_of, at, _, value, _ = rebuilding.candidate(source, second, size)
    except Fault:
        return None
    vouched = rebuilding.newest_vouched(source, second, size, False)
    copy, count = "second" if at else "first", len(value["keyslots"])
    by = f"vouched by the checksum of the {copy} copy" if vouched else "no checksum vouches for it: compare with luks open before you restore it"
    return copy, f"{count} keyslot{'' if count == 1 else 's'}", by


def of_source(source, second, size):
    """The copy whose metadata a header was made of."""
    found = copy_of(source, second, size)
    return [f"made of the metadata in the {found[0]} copy, which has {found[1]}", found[2]] if found else []


def of_whole(volume):
    """Which metadata is whole in a volume of which no header counts."""
    found = None if rebuilding.counts(volume) else copy_of(volume)
    return [f"metadata of {found[1]} is whole in the {found[0]} copy: luks rebuild makes a header of it", found[2]] if found else []


def of_lost(source, made):
    """Which keyslots of LUKS1 are disabled in the header that was made, though their entry doesn't say that they are free."""
    places = [(n, 208 + 48 * n) for n in range(8)]
    lost = [n for n, at in places if made[at:at + 4] == FREE != source[at:at + 4]]
    return [f"keyslot {n}, which may have been in use, couldn't be kept: it is disabled" for n in lost]


def has_no_keyslots(volume):
    chosen = reader.select(volume)
    try:
        if chosen == 1:
            return all(slot[0] != reader.ENABLED for slot in reader.common1(volume, range(8))["slots"])
        return not reader.metadata(chosen[0])["keyslots"]
    except Fault:
        return False


def of_memory(words, name, before):
    """Which memory a new keyslot by Argon2 takes."""
    if words.options["kdf"] == "pbkdf2":
        return []
    if words.command != "format" and before[:8] == b"LUKS\xba\xbe\0\1":
        return [f"{name}: LUKS1 has no Argon2: --kdf pbkdf2"]
    asked = words.number("kdf-memory", 1024)
    return [f"the new keyslot takes {asked} MiB of memory: --memory {asked} allows it"] if asked > words.number("memory", 0) else []
