"""Steps over the files of the working folder, and commands that run over them as they are."""
import fcntl
import hashlib
import os
import shutil

from suite.commands import Told
from suite.disks import Disk
from suite.filing import counted
from suite.making import Header, pad
from suite.program import put, whole

# the sum of a file is that of its front and of its end, of which a large file has nothing between
FRONT, END = 2097152, 512
# how many bytes metadata has that leaves a JSON area of 12288 bytes no room
FULL = 12287
SEQUENCE = 251
# the uuid of a volume that `format` makes with random bytes counted from 0
UUID = b"00010203-0405-4607-8809-0a0b0c0d0e0f"


def begin(session):
    session.typed, session.lock, session.cut = b"", None, None


def unescaped(text):
    return text.replace("\\n", "\n").encode()


def read_at(name, at, length):
    with open(name, "rb") as file:
        return os.pread(file.fileno(), length, at)


def write_at(name, at, data):
    with open(name, "r+b") as file:
        os.pwrite(file.fileno(), data, at)


# --- commands

def over_files(session, line, text):
    """Runs the command over the files as they are; the files that it opened follow what it told."""
    session.says(line)
    ran = session.program.run(text.split(" ")[1:], given=session.typed, clock=1, cut=session.cut)
    session.emit(Told(ran, []).text() + b"\n")
    session.emit("".join(f"{it}\n" for it in ran.opened if not it[2:].startswith("@")))


def typed(session, _, text):
    session.typed = unescaped(text)


def meanwhile(session, _, rest):
    session.cut = rest.replace(" ", ":")


def hold(session, _, name):
    session.lock = open(name, "rb")
    fcntl.flock(session.lock, fcntl.LOCK_EX)


def release(session, *_):
    session.lock.close()


# --- files

def made_by(make):
    """The step that makes or changes a file: it is given the file's name and what follows that."""
    return lambda _, __, rest: make(*rest.partition(" ")[::2])


def text_file(name, text):
    put(name, unescaped(text))


def zeros(name, length):
    put(name, b"")
    os.truncate(name, int(length))


def counted_file(name, rest):
    start, length = map(int, rest.split(" "))
    put(name, counted(start, length, SEQUENCE))


def copy(name, other):
    """Holes stay holes, so that a large file takes no more memory than what it has."""
    disk = Disk.of_file(other)
    extents, disk.path = disk.extents(), name
    disk.restore(extents)
    shutil.copymode(other, name)


def part(name, rest):
    other, at, length = rest.split(" ")
    put(name, read_at(other, int(at), int(length)))


def mode(name, digits):
    os.chmod(name, int(digits, 8))


def overwrite(name, rest):
    at, text = rest.split(" ", 1)
    write_at(name, int(at), text.encode())


def into(name, rest):
    at, other = rest.split(" ")
    write_at(name, int(at), whole(other))


def flip(name, at):
    write_at(name, int(at), bytes([read_at(name, int(at), 1)[0] ^ 1]))


def metadata(session, _, rest):
    """Writes both copies of the header anew, with these sequence numbers and an edited text, of which an empty member `pad` is filled."""
    name, first, second, old, new = rest.split(" ", 4)
    header = session.header = Header(read_at(name, 4096, 12288).split(b"\0")[0].replace(old.encode(), new.encode(), 1))
    header.fields["uuid"] = UUID
    pad(session, None, FULL)
    for at, header.seqid in ((0, int(first)), (16384, int(second))):
        write_at(name, at, header.copy(at, FRONT))


def save(session, _, name):
    """The volume becomes a file of this name."""
    os.rename(session.volume.path, name)
    session.volume = None


# --- looks

def file_sum(session, line, name):
    end = max(os.stat(name).st_size - END, 0)
    session.answer(line, hashlib.sha256(read_at(name, 0, FRONT) + read_at(name, end, END)).hexdigest())


def same(session, line, names):
    one, other = names.split(" ")
    session.answer(line, "yes" if whole(one) == whole(other) else "no")


def rights(session, line, name):
    session.answer(line, f"{os.stat(name).st_mode % 0o1000:o}")


MAKING = {"file": text_file, "zeros": zeros, "counted": counted_file, "copy": copy, "part": part, "folder": lambda name, _: os.mkdir(name),
          "link": lambda name, other: os.symlink(other, name), "hard": lambda name, other: os.link(other, name), "mode": mode,
          "remove": lambda name, _: os.unlink(name), "overwrite": overwrite, "into": into,
          "shorten": lambda name, length: os.truncate(name, int(length)), "flip": flip}
STEPS = {"%": over_files, "typed": typed, "meanwhile": meanwhile, "hold": hold, "release": release, "metadata": metadata, "save": save,
         "file-sum": file_sum, "same": same, "rights": rights, **{word: made_by(make) for word, make in MAKING.items()}}
