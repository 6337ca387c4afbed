"""JSON areas that hold no metadata, or have other bytes behind it: by which fault `check` refuses them."""
import hashlib

from suite import devices

import images

AREAS = [
    (b"", "JsonArea"), (b"\0", "JsonArea"), (b"\0\0", "JsonArea"), (b"{}", "Shape(config)"), (b" {}\0", "JsonArea"), (b"[]\0", "JsonArea"), (b"\0{}\0", "JsonArea"),
    (b"{}\0}", "JsonArea"), (b"{\0}\0", "JsonArea"), (b"{}\0\0\x01", "JsonArea"), (b"{\0", "BadJson"), (b"{ \xff\0", "BadJson"), (b"{}}\0", "BadJson"),
    (b'{"x":"\xff"}\0', "BadJson"), (b'{"x":"a\tb"}\0', "BadJson"), (b'{"x":1.0}\0', "NotWhole"), (b'{"config":1e2}\0', "NotWhole"),
    (b'{"config":[]}\0', "Shape(config)"), (b"{}\0", "Shape(config)"), (b"{}\0\0\0", "Shape(config)"),
]


def copies(area):
    """Both copies with this area, zeros behind it and sound checksums."""
    for at in (0, 16384):
        whole = images.copy(b"", at)[:4096] + area.ljust(12288, b"\0")
        yield at, whole[:448] + hashlib.sha256(whole[:448] + bytes(64) + whole[512:]).digest() + whole[480:]


def test_areas_of_no_metadata(run):
    for area, fault in AREAS:
        devices.lay("v", None, copies(area))
        ran = run.luks("check", "v")
        assert (ran.out, ran.status) == (f"refused {fault}\n".encode(), 1), (area, ran.out)


def test_the_last_byte_of_an_area(run):
    text = images.compact(images.metadata({"0": images.keyslot(offset=32768)}))
    for last, owed in ((b"\0", b"accepted"), (b"\1", b"refused JsonArea\n")):
        devices.lay("v", None, copies(text.ljust(12287, b"\0") + last), 16777728)
        assert run.luks("check", "v").out.startswith(owed), last
