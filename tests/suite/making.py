"""Steps that make the volume, its metadata, and the target."""
import hashlib
import os
import re

from suite import samples
from suite.disks import Disk

ESCAPES = {b"n": b"\n", b"\\": b"\\"}


def unescaped(text):
    """The bytes of a text in which \\n, \\\\ and \\xHH mean one byte."""
    return re.sub(rb"\\(n|\\|x[0-9a-f]{2})", lambda found: ESCAPES.get(found[1]) or bytes.fromhex(found[1][1:].decode()), text.encode())


class Header:
    """The metadata and the fields of which copies of a header are made."""

    def __init__(self, text):
        self.text, self.size, self.seqid = text, 16384, 1
        self.fields = {"label": b"", "subsystem": b"", "uuid": samples.UUID}

    def copy(self, at, length):
        """The copy for this place of a volume of this length; one that doesn't fit has no checksum."""
        fields = self.fields
        head = samples.head(self.size, self.seqid, fields["label"], fields["subsystem"], fields["uuid"], at)
        made = (head.ljust(4096, b"\0") + self.text).ljust(self.size, b"\0")
        if at + self.size <= length:
            made = made[:448] + hashlib.sha256(made[:self.size]).digest() + made[480:]
        return made


def begin(session):
    session.header, session.volume, session.target, session.files_made = Header(b""), None, None, 0


def new_path(session):
    session.files_made += 1
    return f"@{session.files_made}"


def set_volume(session, length, parts=(), kept=None):
    if session.volume:
        session.volume.remove()
    session.volume = Disk(new_path(session), length, parts, kept)


# --- metadata

def text(session, _, name):
    made = session.volume.read(4096, 16384).split(b"\0")[0] if name == "volume" else samples.text(name)
    session.header = Header(made)


def json(session, _, metadata):
    session.header = Header(metadata.encode())


def edit(session, _, rest):
    old, new = rest.encode().split(b" => ", 1)
    if old not in session.header.text:
        raise ValueError("no such text")
    session.header.text = session.header.text.replace(old, new, 1)


def pad(session, _, length):
    filling = b'"pad":"' + b"p" * (int(length) - len(session.header.text)) + b'"'
    session.header.text = session.header.text.replace(b'"pad":""', filling, 1)


def spaces(session, _, length):
    session.header.text = session.header.text.ljust(int(length))


def number(session, line, rest):
    setattr(session.header, line.partition(" ")[0], int(rest))


def field(session, line, rest):
    session.header.fields[line.partition(" ")[0]] = unescaped(rest)


# --- the volume

def volume(session, _, rest):
    name, _, length = rest.partition(" ")
    if name == "zeros":
        set_volume(session, int(length))
    elif name == "luks1":
        set_volume(session, samples.images.SAMPLE_LENGTH, [(0, samples.images.Luks1().header())])
    elif name == "opening-luks1":
        set_volume(session, samples.images.SAMPLE_LENGTH, samples.opening_luks1())
    elif name == "luks2":
        copy, size = session.header.copy, session.header.size
        set_volume(session, int(length), [(0, copy(0, int(length))), (size, copy(size, int(length)))])
    else:
        raise ValueError("no such volume")


def small(session, _, name):
    set_volume(session, samples.SMALL, samples.small(name))


def large(session, _, used):
    set_volume(session, samples.LARGE, samples.large(int(used)), samples.SMALL)


def header(session, _, at):
    disk, at = session.volume, int(at)
    disk.put(at, bytes(session.header.size))
    disk.put_anywhere(at, session.header.copy(at, disk.kept)[:max(disk.kept - at, 0)])


def put(session, _, rest):
    at, digits = rest.split(" ")
    session.volume.put(int(at), bytes.fromhex(digits))


def run(session, _, rest):
    at, length, digits = rest.split(" ")
    session.volume.put(int(at), bytes.fromhex(digits) * int(length))


def area(session, _, rest):
    at, name = rest.split(" ")
    session.volume.put(int(at), samples.area(name))


def seal(session, _, rest):
    at, passphrase = rest.split(" ", 1)
    session.volume.put(int(at), samples.sealed(unescaped(passphrase)))


def cut(session, _, length):
    session.volume.cut(int(length))


def disk(session, _, length):
    """What lies behind the front reads as zeros; a shorter disk has less of the front."""
    os.truncate(session.volume.path, int(length))
    session.volume.kept = min(session.volume.kept, int(length))


def back(session, _, rest):
    at, length, digits = rest.split(" ")
    session.volume.put_anywhere(int(at), bytes.fromhex(digits) * int(length))
    session.volume.back = int(at), int(at) + int(length)


def target(session, _, rest):
    kept, length = map(int, rest.split(" "))
    if session.target:
        session.target.remove()
    kept = min(kept, length)
    session.target = Disk(new_path(session), length, [(0, b"\x55" * kept)], kept)


def exchange(session, *_):
    session.volume, session.target = session.target, session.volume


STEPS = {"text": text, "json": json, "edit": edit, "pad": pad, "spaces": spaces, "size": number, "seqid": number, "label": field,
         "subsystem": field, "uuid": field, "volume": volume, "small": small, "large": large, "header": header, "put": put, "run": run,
         "area": area, "seal": seal, "cut": cut, "disk": disk, "back": back, "target": target, "exchange": exchange}
