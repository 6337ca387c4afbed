"""Steps that give the commands to come their files: passphrases and random bytes."""
from suite.making import unescaped


def begin(session):
    session.files = {"passphrase": None, "new": None, "random": None}


def counted(start, count, modulus):
    """So many bytes that count up from this number, modulo another one."""
    if not modulus:
        return b""
    begin_at = start % modulus
    return (bytes(it % 256 for it in range(modulus)) * ((begin_at + count) // modulus + 1))[begin_at:begin_at + count]


def file(session, line, rest):
    session.files[line.partition(" ")[0]] = unescaped(rest)


def count(session, _, rest):
    name, *numbers = rest.split(" ")
    session.files[name] = counted(*map(int, numbers))


def repeat(session, _, rest):
    name, length, digits = rest.split(" ")
    session.files[name] = bytes.fromhex(digits) * int(length)


STEPS = {"passphrase": file, "new": file, "random": file, "count": count, "repeat": repeat}
