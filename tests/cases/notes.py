"""What standard error says of damaged headers: which keyslots a rebuilt LUKS1 header lost, which metadata is whole, and what wasn't tried; and of what
stands where a new header writes nothing."""
from suite import devices
from suite.program import put

import images

SIZE, AREA = 16384, 4096
LOST = "luks: keyslot {}, which may have been in use, couldn't be kept: it is disabled\n"
# what is written over the small LUKS1 volume, whose keyslot 0 alone is in use and whose magic is lost, and the keyslot that is named then
LUKS1_DAMAGES = [
    (208, b"\x00\xac\x71\xf3", None), (208, b"\x00\xac\x71\xf2", 0), (208, bytes(4), 0), (208, b"\x00\x00\xde\xad", None), (212, bytes(4), 0),
    (252, bytes(4), 0), (256, b"\xff" * 4, 1), (300, bytes(4), None),
]
WHOLE = "luks: metadata of {} is whole in the {} copy: luks rebuild makes a header of it\n"
UNVOUCHED = "luks: no checksum vouches for it: compare with luks open before you restore it\n"
VOUCHED = "luks: vouched by the checksum of the first copy\n"
NOT_ALL = "luks: not all was tried that the checksum of the first copy may vouch for: luks rebuild --thorough tries more\n"
LARGER = ("luks: not all was tried that the checksum of the second copy of a header of 32768 bytes may vouch for: luks rebuild --size 32768 tries more\n"
          "luks: nothing was tried that checksums of a header of 65536 bytes may vouch for: luks rebuild --size 65536 tries it\n")


def said(run, *words, owed_status=None):
    ran = run.luks(*words)
    assert owed_status is None or ran.status == owed_status, (words, ran.status, ran.out)
    return "".join(line + "\n" for line in ran.err.decode().splitlines() if "luks explain" not in line)


def test_keyslots_that_a_rebuilt_header_lost(run):
    for at, damage, named in LUKS1_DAMAGES:
        devices.lay("v", "luks1", [(0, b"X"), (at, damage)])
        devices.lay("t", None, length=40960)
        ran = run.luks("rebuild", "v", "t", "--over", "--random=/dev/urandom")
        lost = "".join(line + "\n" for line in ran.err.decode().splitlines() if "may have been in use" in line)
        assert (ran.status, lost) == (0, "" if named is None else LOST.format(named)), (at, damage, ran.out, ran.err)


def test_nothing_is_said_of_a_header_that_is_not_made(run):
    devices.lay("v", "luks1", [(0, b"X"), (212, bytes(4))])
    for length in (0, 591, 592, 16384):
        devices.lay("t", None, length=length)
        ran = run.luks("rebuild", "v", "t", "--over", "--random=/dev/urandom")
        assert ran.out == b"refused TooSmall\n" and b"may have been in use" not in ran.err, (length, ran.out, ran.err)


def test_metadata_that_is_whole(run):
    """Both binary headers are damaged, so that no header counts."""
    for parts, owed in (([], WHOLE.format("2 keyslots", "first") + UNVOUCHED), ([(AREA, b"\0")], WHOLE.format("2 keyslots", "second") + UNVOUCHED),
                        ([(AREA, b"\0"), (SIZE + AREA, b"\0")], "")):
        devices.lay("v", "damaged", parts)
        for command in ("check", "show"):
            assert said(run, command, "v", owed_status=1) == owed, (parts, command)
    devices.lay("v", "two-hashes")
    assert said(run, "check", "v", owed_status=0) == "", "a header counts"


def test_what_was_not_tried(run):
    """The second copy's metadata is garbage, and a byte of the first one's is wrong."""
    devices.lay("v", "damaged", [(SIZE + AREA, b"\xff" * 12288), (AREA, b"\0")])
    assert said(run, "check", "v", owed_status=1) == NOT_ALL


def test_more_headers_than_are_sought(run):
    """Copies of headers of three sizes without their magics: 64 MiB are for three searches. The larger ones' metadata isn't whole, since its key areas
    would begin within the copies."""
    slots = {"0": images.keyslot(salt=b"\x11" * 32, offset=32768, stripes=40)}
    parts = []
    for at, size in ((0, 16384), (16384, 16384), (32768, 32768), (65536, 65536)):
        value = images.metadata(slots, digest=bytes(32), digest_salt=b"\x22" * 32, offset=65536)
        value["config"] = {"json_size": str(size - 4096), "keyslots_size": "32768"}
        parts.append((at, bytes(6) + images.copy(images.compact(value), at, size)[6:]))
    devices.lay("v", None, parts, 131072)
    assert said(run, "check", "v", owed_status=1) == WHOLE.format("1 keyslot", "first") + VOUCHED + LARGER


LEFT = "luks: v: left at byte {}: {}\n"
COPY, EXT, SWAP = "the second copy of an older LUKS2 header", "the signature of ext2, ext3 or ext4", "the signature of swap"
HINT = "luks: v: wipefs --offset BYTE takes it away, wipefs --all before format all\n"


def left_behind(last=b""):
    """Sound second copies at three places, signatures of ext and of swap, and these bytes at the end of the third copy."""
    text = images.compact(images.metadata({}))
    copies = [(at, images.copy(text, at, at)) for at in (16384, 262144, 524288)]
    return [*copies, (1080, b"\x53\xef"), (4086, b"SWAPSPACE2"), (1048576 - len(last), last)]


def formatted(run, parts, version, *more, length=16777216, **settings):
    put("p", b"one")
    put("r", bytes(i % 251 for i in range(128208 if version == 2 else 128080)))
    devices.lay("v", None, parts, length)
    ran = run.luks("format", "v", "--over", "--passphrase=p", "--random=r", "--iterations=1000", "--key-bytes=32", f"--version={version}", *more, **settings)
    return ran.status, ran.out, ran.err.decode()


def test_what_a_new_header_leaves_behind(run):
    """What it covers, or clears, isn't named: the copy at 16384, and by LUKS2 both signatures."""
    copies = [LEFT.format(at, COPY) for at in (262144, 524288)]
    for parts, version, owed in ((left_behind(), 1, "".join(copies) + LEFT.format(1080, EXT) + LEFT.format(4086, SWAP) + HINT), (left_behind(), 2, "".join(copies) + HINT),
                                 (left_behind(b"\1"), 2, copies[0] + HINT), ([], 1, ""), ([], 2, "")):
        assert formatted(run, parts, version) == (0, b"done slot 0\n", owed), version
    assert formatted(run, left_behind(), 1, "--quiet") == (0, b"done slot 0\n", "")


def test_what_was_left_behind_is_looked_for_if_there_is_memory(run):
    """Some 16 MiB are taken for it, and nothing else takes so much."""
    owed = (0, b"done slot 0\n", "luks: v: what was left there wasn't looked for: memory was refused\n")
    assert formatted(run, left_behind(), 1, largest=4 << 20) == owed
    assert formatted(run, left_behind(), 1, largest=32 << 20)[2].endswith(HINT)
