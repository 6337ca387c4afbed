"""Steps that say what fails in the next command or trial."""
import errno

ERRORS = {"denied": errno.EACCES, "busy": errno.EBUSY, "no-memory": errno.ENOMEM, "other": errno.EIO, "eof": 0}


def begin(session):
    session.trouble = {}


def trouble(session, line, rest):
    word, name, how = line.partition(" ")[0], *(rest.partition(" ")[::2])
    session.trouble.setdefault(word, []).append((name, how))


def record(*_):
    """The calls of the devices are always listed."""


def take_trouble(session):
    """What fails in this command; in the next one nothing does."""
    found, session.trouble = session.trouble, {}
    return found


def spans(how):
    """The shim's setting of `reads`, in which the second part is the first where one alone is given."""
    most, *parts = how.split(" ")
    return " ".join([most, *parts, *(parts if len(parts) == 2 else [])])


def settings(found, names):
    """The shim's settings of what fails."""
    made = {}
    for name, why in found.get("broken", ()):
        made["break"] = f"{names[name]}:{ERRORS[why]}"
    for name, how in found.get("fail", ()):
        made["fail"] = f"{name} {how}"
    for name, how in found.get("reads", ()):
        made["reads"] = f"{name} {spans(how)}"
    if "room" in found:
        rooms = dict(found["room"])
        made["room"] = f"{rooms.get('out', -1)} {rooms.get('err', -1)}"
    return made


STEPS = {"unread": trouble, "broken": trouble, "fail": trouble, "reads": trouble, "room": trouble, "block": trouble, "record": record}
