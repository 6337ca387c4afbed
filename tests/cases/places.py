"""A volume further in than 32 bits count: each byte is read and written at its place, and none beside it."""
import os

from suite import devices
from suite.program import put, whole

GIB4 = 1 << 32


def test_past_4_gib_of_a_sparse_file(run):
    """The volume begins before 2^32, so that its header reaches across it, and behind it."""
    put("p", b"one")
    put("n", b"three")
    put("r", bytes(i % 251 for i in range(2656)))
    change = ["change", "v", "--slot=0", "--passphrase=p", "--new=n", "--random=r", "--iterations=1000"]
    devices.lay("v")
    assert run.luks(*change).out == b"done slot 0\n"
    owed = whole("v")
    for offset in (GIB4 - 20480, GIB4 - 34816, GIB4, GIB4 + 512):
        disk = devices.lay("v", None, [(offset + at, part) for at, part in devices.small("luks2")], length=2 * GIB4 + 8192)
        ran = run.luks(*change, f"--offset={offset}", "--length=66048")
        assert (ran.out, ran.status) == (b"done slot 0\n", 0), (offset, ran.err)
        end, pieces = disk.extents()
        left = {at: part for at, part in pieces if part.strip(b"\0")}
        assert end == 2 * GIB4 + 8192 and all(offset <= at + len(part.rstrip(b"\0")) <= offset + 66048 for at, part in left.items()), (offset, list(left))
        assert disk.read(offset, offset + 66048) == owed, offset
        assert run.luks("open", "v", "--slot=0", "--passphrase=n", f"--offset={offset}", "--length=66048").out == b"slot 0 opens\n"
        os.unlink("v")
