"""Files by their names: two names of one volume, a name that is another file's meanwhile, what isn't written over, and when a file gets its length."""
import os

from suite import devices
from suite.program import whole

SAME = b"refused SameFile\n"
# block devices: two disks, partitions of the first, loop devices over the file `image` and over a partition, mappings, an array, and one of which nothing
# can be told. `start` and `size` are in sectors, `back` is the loop device's file and where in it the device begins, `slaves` what lies beneath.
DEVICES = {
    "disk": {"number": "8:0", "size": 204800, "slaves": {}},
    "one": {"number": "8:1", "size": 20480, "start": 2048, "within": "8:0"},
    "two": {"number": "8:2", "size": 100000, "start": 22528, "within": "8:0"},
    "another": {"number": "8:16", "size": 204800},
    "loop": {"number": "7:0", "size": 8192, "back": ("image", 0)},
    "further": {"number": "7:1", "size": 2048, "back": ("image", 1048576)},
    "over": {"number": "7:2", "size": 100000, "back": ("two", 0)},
    "inside": {"number": "10:0", "size": 100, "start": 8, "within": "7:0"},
    "mapped": {"number": "253:0", "size": 50000, "slaves": {"sda2": "8:2"}},
    "beside": {"number": "253:1", "size": 50000, "slaves": {"sda2": "8:2"}},
    "twice": {"number": "253:2", "size": 40000, "slaves": {"dm-0": "253:0"}},
    "array": {"number": "9:0", "size": 20480, "slaves": {"sda1": "8:1", "sdb": "8:16"}},
    "untold": {"number": "11:0", "slaves": {"gone": None}},
}
# two names, and whether they have bytes in common
WHOLE = [
    ("image", "image", True), ("image", "other", False), ("image", "loop", True), ("image", "further", True), ("loop", "further", True), ("other", "loop", False),
    ("loop", "inside", True), ("image", "inside", True), ("further", "inside", False), ("disk", "one", True), ("disk", "two", True), ("one", "two", False),
    ("disk", "another", False), ("two", "over", True), ("disk", "over", True), ("one", "over", False), ("two", "mapped", True), ("disk", "mapped", True),
    ("over", "mapped", True), ("one", "mapped", False), ("mapped", "twice", True), ("two", "twice", True), ("array", "another", True), ("array", "two", False),
    ("untold", "disk", False), ("missing", "disk", False),
    # two mappings over one partition, as LVM makes them: nothing tells that they have bytes in common
    ("mapped", "beside", False),
]
# a name, a place in it, another name, and whether this has a byte of the first one's bytes before the place, and of those from there on
PARTS = [
    ("image", 1048576, "further", False, True), ("image", 1049088, "further", True, True), ("image", 2097152, "further", True, False),
    ("disk", 1048576, "one", False, True), ("disk", 11534336, "one", True, False), ("disk", 11534336, "mapped", False, True), ("image", 4096, "inside", False, True),
]


def lay_device(name, number, size=None, start=None, within=None, back=None, slaves=None):
    """A file for the device, and what /sys tells of it."""
    place = f"@system/sys/dev/block/{number}"
    devices.lay(name, None)
    for file, text in (("size", size), ("start", start), ("ro", 0)):
        if text is not None:
            devices.put_text(f"{place}/{file}", f"{text}\n")
    if within:
        # a partition's folder is in its disk's: `..` leads there
        target = f"@system/sys/dev/block/{within}/{number}"
        os.rename(place, target)
        os.symlink(f"{within}/{number}", place)
        devices.put_text(f"@system/sys/dev/block/{within}/dev", f"{within}\n")
    if back:
        devices.put_text(f"{place}/loop/backing_file", f"{back[0]}\n")
        devices.put_text(f"{place}/loop/offset", f"{back[1]}\n")
    for slave, beneath in (slaves or {}).items():
        os.makedirs(f"{place}/slaves/{slave}", exist_ok=True)
        if beneath:
            devices.put_text(f"{place}/slaves/{slave}/dev", f"{beneath}\n")


def lay_machine():
    """All devices, and both images; the settings by which they look like that."""
    root = devices.system()
    for name, about in DEVICES.items():
        lay_device(name, **about)
    for name in ("image", "other"):
        devices.lay(name, None, length=8388608)
    return {"root": root, "block": ",".join(f"{name}:{about['number']}" for name, about in DEVICES.items())}


def test_two_names_of_one_volume(run):
    settings = lay_machine()
    for one, other, owed in WHOLE:
        for words in ((one, other), (other, one)):
            ran = run.luks("compare", *words, "--detached", **settings)
            assert (ran.out == SAME) == owed and ran.status == (1 if owed else ran.status), (words, ran.out, ran.err)


def test_parts_of_one_volume(run):
    settings = lay_machine()
    for name, at, other, before, behind in PARTS:
        for range_, owed in (((f"--length={at}",), before), ((f"--offset={at}",), behind)):
            ran = run.luks("compare", other, name, "--detached", *range_, **settings)
            assert (ran.out == SAME) == owed, (name, range_, other, ran.out, ran.err)


# --- what a backup is written to

BACKUP = ["backup", "v", "f"]
CHANGED = b"luks: f: another file has taken its place meanwhile\n"
FOREIGN = b"luks: f: a link that another user owns isn't followed\n"


def test_another_file_takes_the_place_meanwhile(run):
    """Of a file, and of what a link leads to: the other file isn't written."""
    devices.lay("v")
    for link in (False, True):
        for path in ("f", "g", "other"):
            devices.remove(path)
        devices.put_text("g" if link else "f", "")
        devices.put_text("other", "other")
        if link:
            os.symlink("g", "f")
        # the name is looked up once more before the file is opened: the look behind which it is exchanged is the last one
        looks = run.luks(*BACKUP, "--over", system=1).log.splitlines()
        looks = [line for line in looks[:looks.index("open > f")] if line.split(" ")[0] in ("stat", "lstat", "fstat")]
        kind = looks[-1].split(" ")[0]
        assert looks[-1].endswith(" f"), looks
        devices.put_text("g" if link else "f", "")
        number = sum(line.split(" ")[0] == kind for line in looks) - 1
        ran = run.luks(*BACKUP, "--over", exchange=f"{kind} {number} f other")
        assert (ran.status, CHANGED in ran.err) == (4, True), ran.err
        assert whole("f") == b"other"


def test_links_of_other_users(run):
    devices.lay("v")
    devices.put_text("g", "")
    os.symlink("g", "f")
    for owner, owed in ((-1, 0), (0, 0), (12345, 4)):
        ran = run.luks(*BACKUP, "--over", stat=f"f:0:{owner}", system=1)
        assert (ran.status, FOREIGN in ran.err, "open > f" in ran.log) == (owed, owed == 4, owed == 0), (owner, ran.err)


def test_what_is_not_written_over(run):
    devices.lay("v")
    settings = {"root": devices.system("7:5"), "system": 1}
    for make, kept, over in ((None, 0, 0), (lambda: devices.put_text("f", ""), 0, 0), (lambda: devices.put_text("f", "full"), 1, 0), (lambda: devices.lay("f", None), 1, 0),
                             (lambda: os.mkdir("f"), 4, 4), (lambda: os.mkfifo("f"), 4, 4)):
        for words, owed in ((BACKUP, kept), ([*BACKUP, "--over"], over)):
            devices.remove("f")
            if make:
                make()
            ran = run.luks(*words, **settings)
            assert ran.status == owed and (owed != 1 or ran.out == b"refused Exists\n"), (words, ran.out, ran.err)
            assert owed != 4 or "open > f" not in ran.log and b"f: neither a regular file nor a block device\n" in ran.err


def test_a_block_device_is_full(run):
    """No length is told of it, so it isn't written over without --over, and keeps its length with it."""
    devices.lay("v")
    devices.lay("f", None, length=131072)
    settings = {"root": devices.system("7:5"), "block": "f:7:5"}
    assert run.luks(*BACKUP, **settings).out == b"refused Exists\n" and not whole("f").strip(b"\0")
    assert run.luks(*BACKUP, "--over", **settings).status == 0 and len(whole("f")) == 131072
    assert run.luks("check", "f", "--detached").status == 0


def test_a_file_gets_its_length_with_the_first_write(run):
    """One that is empty, shorter and longer. The volume's last bytes aren't the backup's."""
    devices.lay("v")
    run.luks("backup", "v", "owed")
    for text in ("", "01234", "x" * 70000):
        devices.put_text("f", text)
        ran = run.luks(*BACKUP, "--over", devices="v:f:-")
        log = [line for line in ran.log.splitlines() if line.startswith(("truncate 2", "w 2"))]
        assert log[:2] == ["w 2 0 512", "truncate 2 65536"] and not any(line.startswith("truncate") for line in log[2:]), log[:4]
        assert whole("f") == whole("owed"), len(whole("f"))
        devices.put_text("f", text)
        ran = run.luks(*BACKUP, "--over", devices="v:f:-", fail="target write 0 old")
        assert ran.status == 4 and whole("f") == text.encode(), "nothing was written, so it has its length"


def test_an_unfinished_file_is_taken_away(run):
    """What was made goes; another file that has its name by then stays."""
    devices.lay("v")
    settings = {"devices": "v:f:-", "system": 1, "fail": "target write 3 old"}
    ran = run.luks(*BACKUP, **settings)
    assert ran.status == 4 and not os.path.exists("f"), ran.err
    log = ran.log.splitlines()
    number = sum(line.startswith("stat ") for line in log[:log.index("open > f")])
    devices.put_text("other", "other")
    ran = run.luks(*BACKUP, exchange=f"stat {number} f other", **settings)
    assert (ran.status, whole("f")) == (4, b"other"), ran.err


# --- a target that is its source, though nothing tells it


def test_a_target_that_is_its_source(run):
    """The system tells two files of one: the first write shows it, is put back, and nothing else is written."""
    settings = {"devices": "v:f:-", "stat": "f:4711:-1", "locks": "held"}
    for name, words in (("luks2", ["backup", "v", "f", "--over"]), ("luks1", ["backup", "v", "f", "--over"]),
                        ("luks1", ["convert", "v", "f", "--random", "/dev/urandom", "--over"])):
        devices.remove("f")
        devices.lay("v", name, length=16777216 + 66048)
        before = whole("v")
        os.link("v", "f")
        ran = run.luks(*words, **settings)
        assert (ran.status, ran.out, whole("v") == before) == (1, SAME, True), (words, ran.out, ran.err)
        devices.remove("f")
        devices.lay("f", None, length=16777216 + 66048)
        ran = run.luks(*words, **settings)
        assert (ran.status, ran.out, whole("v") == before) == (0, b"done\n", True), (words, ran.out, ran.err)


def test_a_target_that_is_its_source_further_in(run):
    settings = {"devices": "v:f:-", "stat": "f:4711:-1", "locks": "held"}
    for offset in (512, 4096, 32768):
        devices.remove("f")
        devices.lay("v", None, [(offset + at, part) for at, part in devices.small("luks2")], length=offset + 66048)
        before = whole("v")
        os.link("v", "f")
        ran = run.luks("backup", "v", "f", "--over", f"--offset={offset}", **settings)
        assert (ran.status, ran.out, whole("v") == before) == (1, SAME, True), (offset, ran.out, ran.err)
