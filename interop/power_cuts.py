"""What a command writes to the file V and when it syncs it, by strace, and what a power cut may leave of it: for `power` and `half_made`."""
import hashlib
import itertools
import multiprocessing
import os
import random
import re
import shutil
import sys
import tempfile

from common import Run, ran, status

SECTOR = 512
MOST = 10
SEED = 36
CALL = re.compile(r"(\w+)\((.*)\) += (-?\w+)")
DATA = re.compile(r'"((?:\\x[0-9a-f]{2})*)"(\.\.\.)?')
# the calls that may change a file, or move the place in it, and those of them that are known below
TRACED = ("open,openat,read,lseek,write,pwrite64,writev,pwritev,pwritev2,sendfile,copy_file_range,splice,fallocate,ftruncate,truncate,"
          "sync_file_range,io_uring_enter,fsync,fdatasync,syncfs,close")


# --- what a command writes

def recorded(folder, line, most=1048576):
    """What the command writes to V, at most so many bytes at once, as a list for each time between two syncs; a piece is a place and its bytes. V
    keeps its length."""
    log, volume = os.path.join(folder, "log"), os.path.join(folder, "V")
    length = os.path.getsize(volume)
    words = ["strace", "-f", "-xx", "-s", str(most), "-e", "trace=" + TRACED, "-P", volume, "-o", log, *line.replace(" V", " " + volume).split()]
    done = ran(words, folder, text=True)
    if done.returncode:
        sys.exit(f"power_cuts: {line}: status {done.returncode}\n{done.stdout}{done.stderr}")
    writes, places = [[]], {}
    with open(log) as calls:
        for call in calls:
            found = CALL.search(call)
            if found and found.group(1) == "ftruncate" and int(found.group(2).split(",")[1], 0) == length:
                continue
            if found:
                follow(*found.groups(), writes, places)
            elif "+++" not in call and "---" not in call:
                sys.exit(f"power_cuts: a line of strace that isn't known: {call[:200]}")
    return writes


def follow(name, arguments, result, writes, places):
    """Takes one call into account: `places` are where the files' numbers stand, `writes` what was written."""
    file, result = arguments.split(",")[0], int(result, 0) if result != "?" else -1
    if result < 0:
        return
    if name in ("open", "openat"):
        if "SYNC" in arguments:
            sys.exit("power_cuts: the volume was opened to be written through, which isn't known here")
        places[str(result)] = 0
    elif name == "lseek":
        places[file] = result
    elif name == "read":
        places[file] += result
    elif name in ("write", "pwrite64"):
        data, cut = DATA.search(arguments).groups()
        data = bytes.fromhex(data.replace("\\x", ""))[:result]
        if cut or len(data) != result:
            sys.exit("power_cuts: strace cut the bytes of a write off")
        writes[-1].append((places[file] if name == "write" else int(arguments.split(",")[-1]), data))
        places[file] = places.get(file, 0) + (result if name == "write" else 0)
    elif name in ("fsync", "fdatasync", "syncfs"):
        writes.append([])
    elif name != "close":
        sys.exit(f"power_cuts: a call that isn't known: {name}")


# --- what a cut leaves

def sectors(pieces):
    """The pieces cut at the volume's sectors."""
    for at, data in pieces:
        while data:
            length = SECTOR - at % SECTOR
            yield at, data[:length]
            at, data = at + length, data[length:]


def torn(pieces):
    """The pieces, with the first half alone of what the last one writes to its last sector."""
    at, data = pieces[-1]
    begin = max(at, (at + len(data) - 1) // SECTOR * SECTOR) - at
    return [*pieces[:-1], (at, data[:begin + (len(data) - begin) // 2])]


def drawn(pieces, count, draw):
    """So many subsets; each length is as likely as any other."""
    for _ in range(count):
        some = sorted(draw.sample(range(len(pieces)), draw.randint(0, len(pieces))))
        yield [pieces[i] for i in some]


def subsets(pieces, count, draw):
    if len(pieces) > MOST:
        yield from drawn(pieces, count, draw)
    else:
        for length in range(len(pieces) + 1):
            yield from map(list, itertools.combinations(pieces, length))
    if any(len(data) > SECTOR for _, data in pieces):
        yield from drawn(list(sectors(pieces)), count // 10, draw)


def laid(image, pieces):
    image = bytearray(image)
    for at, data in pieces:
        image[at:at + len(data)] = data
    return bytes(image)


def states(image, writes, count):
    """The front of the volume as each cut may leave it, no two with the same bytes; `image` is the front before the command."""
    draw, known = random.Random(SEED), set()
    for pieces in writes:
        for some in subsets(pieces, count, draw):
            for left in [some, torn(some)] if some else [some]:
                state = laid(image, left)
                name = hashlib.sha256(state).digest()
                if name not in known:
                    known.add(name)
                    yield state
        image = laid(image, pieces)


# --- who judges it

class Reader:
    """Asks of a state what `ask` of its kind says, in a folder of its own."""

    def __init__(self, folder, program, volume):
        self.program, self.folder = program, tempfile.mkdtemp(dir=folder)
        for name, copy in ((volume, "V"), *((word, word) for word in Run.passphrases)):
            shutil.copyfile(os.path.join(folder, name), os.path.join(self.folder, copy))

    def status(self, *words):
        return status(words, self.folder)

    def lay(self, front):
        with open(os.path.join(self.folder, "V"), "r+b") as volume:
            volume.write(front)


def begin(kind, given):
    global reader
    reader = kind(*given)


def ask(front):
    return reader.ask(front)


def asked(kind, given, fronts):
    """What a reader of this kind tells of each state; each process has one."""
    with multiprocessing.Pool(len(os.sched_getaffinity(0)), begin, (kind, given)) as pool:
        yield from pool.imap(ask, fronts, 4)
