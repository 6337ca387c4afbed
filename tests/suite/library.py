"""Steps that ask for a keyslot's key, by the command that writes it to a file."""
import os

from suite.program import put, whole


def options(slot, rest):
    """The options of `open` and `key`, by `KIB` or `KIB older`; KIB is 0 or whole MiB."""
    kib, _, older = rest.partition(" ")
    if int(kib) % 1024:
        raise ValueError("memory is given in whole MiB")
    found = ["--slot", slot] if slot else []
    return found + (["--memory", str(int(kib) // 1024)] if int(kib) else []) + (["--older"] if older else [])


def ask(session, word, *words):
    put("@pass", session.files["passphrase"] or b"")
    return session.program.run([word, session.volume.path, "--passphrase", "@pass", *words])


def key_of(session, more):
    """The key that the passphrase opens; `none`, or the refusal."""
    ran = ask(session, "key", "--to", "@key", *more)
    if ran.status == 0:
        key = whole("@key")
        os.unlink("@key")
        return f"key: {key.hex()}\n".encode()
    return ran.out if ran.out.startswith(b"refused") or ran.status == 4 else b"none\n"


def open_slot(session, line, rest):
    session.says(line)
    session.emit(key_of(session, options(*rest.split(" ", 1))))


def unlock(session, line, rest):
    """The keyslot that opens, and its key."""
    session.says(line)
    more = options(None, rest)
    found = ask(session, "open", *more)
    session.emit(b"keyslot %s\n" % found.out.split()[1] if found.status == 0 else b"")
    session.emit(key_of(session, more))


STEPS = {"open": open_slot, "unlock": unlock}
