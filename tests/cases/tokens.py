"""Texts that are imported as tokens: which are taken, and by which fault the others are refused; deep ones."""
from suite import devices
from suite.program import put, whole

import images

IMPORT = ["token", "v", "import", "k", "--to=3", "--random=r"]
TAKEN = [b'{"keyslots":[],"type":"-"}', b'{"keyslots":["0"],"more":{"":null,"a":[true,-1,{"b":18446744073709551615}]},"type":"a"}']
REFUSED = [
    (b"[]", "Shape(tokens.3)"), (b"{}", "Shape(tokens.3.keyslots)"), (b'{"keyslots":["0"]}', "Shape(tokens.3.type)"),
    (b'{"keyslots":[0],"type":"a"}', "Shape(tokens.3.keyslots)"), (b'{"keyslots":["7"],"type":"a"}', "NoSuchName(tokens.3.keyslots)"),
    (b'{"keyslots":[],"type":""}', "UnreadableToken"), (b'{"keyslots":["0","0"],"type":"a"}', "Assigned(tokens.3.keyslots)"), (b'{"keyslots":["1"],"type":"a","x":1.5}', "NotWhole"),
]


def metadata(path="v"):
    """The text of the first copy."""
    return whole(path)[4096:16384].split(b"\0")[0]


def lay(text):
    devices.lay("v")
    put("r", bytes(range(128)))
    put("k", text)


def nested(arrays):
    """A token with so many arrays, one in another."""
    return b'{"keyslots":[],"type":"a","x":' + b"[" * arrays + b"]" * arrays + b"}"


def is_taken(run, text):
    """Whether the metadata has the token beside what it had, and is that again without it."""
    lay(text)
    # the program writes the metadata in its own order
    run.luks("label", "v", "x", "--random=r")
    before = metadata()
    ran = run.luks(*IMPORT)
    with_it = metadata()
    removed = run.luks("token", "v", "remove", "3", "--random=r")
    return (ran.out, removed.out) == (b"done\n", b"done\n") and with_it == before.replace(b'"tokens":{}', b'"tokens":{"3":' + text + b"}") and metadata() == before


def test_tokens_that_are_taken(run):
    for text in TAKEN:
        assert is_taken(run, text), text


def test_tokens_that_are_refused(run):
    for text, fault in REFUSED:
        lay(text)
        before = whole("v")
        ran = run.luks(*IMPORT)
        assert (ran.out, ran.status, whole("v") == before) == (f"refused {fault}\n".encode(), 1, True), (text, ran.out)


def test_tokens_that_nest(run):
    """cryptsetup reads none that nests deeper than 29 levels, the token itself being one."""
    assert is_taken(run, nested(28))
    lay(nested(29))
    assert run.luks(*IMPORT).out == b"refused UnreadableToken\n"


def test_metadata_that_nests(run):
    """127 levels at most: the metadata, its tokens and the token are three of them. A token that is there stays, and goes by its number."""
    text = metadata_of("luks2")
    for arrays, status, answer in ((124, 0, b"accepted"), (125, 1, b"refused BadJson")):
        deep = text.replace(b'"tokens":{}', b'"tokens":{"3":' + nested(arrays) + b"}")
        devices.lay("v", parts=[(at, images.copy(deep, at)) for at in (0, 16384)])
        ran = run.luks("check", "v")
        assert (ran.status, ran.out.startswith(answer)) == (status, True), (arrays, ran.out)
        put("r", bytes(range(128)))
        assert run.luks("label", "v", "x", "--random=r").out == (b"done\n" if status == 0 else b"refused BadJson\n")
        assert nested(arrays) in metadata()
        if status == 0:
            assert run.luks("token", "v", "remove", "3", "--random=r").out == b"done\n" and b'"tokens":{}' in metadata()


def metadata_of(name):
    devices.lay("v", name)
    return metadata()
