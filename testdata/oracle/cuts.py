"""What is left of a device of which a call fails, or at whose call the power is cut. Of writes in their order, of which each is flushed before the next
begins: `calls` has the calls that the program makes of them, `left` the device after each call that fails in turn."""
import edits
import images

PIECE, SECTOR, HEAD = 4096, 512, 4096
ZEROS = bytes(SECTOR)


def calls(writes, piece=None):
    """The writes, and a None for each flush: by pieces of this length or, if none is given, a copy of a LUKS2 header in two parts and all else by eight sectors."""
    for at, part in writes:
        is_copy = piece is None and (part[:6] == images.SECOND_MAGIC or part[:8] == images.FIRST_MAGIC + b"\0\2")
        first = HEAD if is_copy else piece or PIECE
        rest = len(part) if is_copy else first
        yield at, part[:first]
        for start in range(first, len(part), rest):
            yield at + start, part[start:start + rest]
        yield None


def left(device, writes, leave, piece=None):
    """The device that is left where each call fails in turn. `device` has slices, and `written`, which gives the device with these writes."""
    settled, unsettled = device, []
    for call in calls(writes, piece):
        whole = settled.written(unsettled)
        if leave.startswith("lost"):
            yield settled.written(kept_of(settled, unsettled, call, leave))
        elif call is None:
            yield whole
        else:
            at, part = call
            yield whole.written([(at, edits.LEAVES[leave.capitalize()](whole[at:at + len(part)], part))])
        if call is None:
            settled, unsettled = whole, []
        else:
            unsettled = [*unsettled, call]


def kept_of(settled, unsettled, call, leave):
    """What a power cut at this call leaves, of the writes since the last flush and of its own."""
    now = [call] if call else []
    if leave == "lost":
        return []
    if leave == "lost-before":
        return now
    if leave == "lost-ones":
        return [(at, b"\xff" * len(part)) for at, part in [*unsettled, *now]]
    lost = 0 if leave == "lost-even" else 1
    return [piece for at, part in [*unsettled, *now] for piece in sectors(at, part) if piece[0] // SECTOR % 2 != lost]


def sectors(at, part):
    """The write by the sectors that it lies in."""
    start = 0
    while start < len(part):
        end = min(start + SECTOR - (at + start) % SECTOR, len(part))
        yield at + start, part[start:end]
        start = end
