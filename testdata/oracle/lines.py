"""Lines of a transcript: its steps (tests/README.md has their language), and what is owed to them."""
import hashlib
import sys

import hints
from commands import Words

# An empty member of the metadata, which is filled so that the text has so many bytes: all of a JSON area of 12288 but the zero behind it.
PAD, FULL = '"pad":""', 12287


def escaped(data):
    """The bytes as the text of a step."""
    return "".join(chr(b) if 32 <= b < 127 and b != 0x5C else {0x0A: "\\n", 0x5C: "\\\\"}.get(b, f"\\x{b:02x}") for b in data)


class Transcript:
    def __init__(self):
        self.steps, self.owed, self.files = [], [], {}

    def note(self, text):
        """A case begins; it gives its own files."""
        self.files = {}
        for lines in (self.steps, self.owed):
            lines.append(f"# {text}")

    def step(self, *words):
        self.steps.append(" ".join(str(word) for word in words))

    def file(self, name, *how):
        """The bytes of a file, where they are others than before: a step's words behind its name."""
        if self.files.get(name) != how:
            self.files[name] = how
            self.step(*((name, escaped(how[0])) if len(how) == 1 else ("count", name, *how)))

    def command(self, words, line, status, errors=()):
        """A command that prints this line, and these on standard error."""
        self.step("$", words)
        before = hints.of_new_passphrase(Words(words), {name: self.bytes_of(name) for name in ("passphrase", "new")})
        behind = hints.explained(line) + ([hints.IDENTIFIED.format("v")] if line == "done" and words.startswith("luks uuid v") else [])
        said = [*(f"luks: {it}" for it in before), *errors, *(f"luks: {it}" for it in behind)]
        self.owed += [f"$ {words}", line, *(f"! {it}" for it in said), f"= {status}"]

    def bytes_of(self, name):
        """What a file has that was given as a text; none of another one."""
        how = self.files.get(name, ())
        return how[0] if len(how) == 1 else None

    def sum(self, volume, most=None):
        part = volume[:most]
        self.step("sum", 0, len(part))
        self.owed.append(f"sum 0 {len(part)}: {hashlib.sha256(part).hexdigest()}")

    def header(self, changes, seqids, uuid):
        """Both copies of the volume's header written anew with its metadata changed so."""
        self.step("text", "volume")
        for old, new in changes:
            self.step("edit", old, "=>", new)
        if any(PAD in new for _, new in changes):
            self.step("pad", FULL)
        self.step("uuid", escaped(uuid))
        self.step("run", 0, 32768, "00")
        for at, seqid in zip((0, 16384), seqids):
            self.step("seqid", seqid)
            self.step("header", at)

    def print(self, what):
        print("\n".join({"steps": self.steps, "owed": self.owed}[what]))


def derivation(edit):
    """The options of what a new keyslot derives by."""
    kdf = edit.kdf
    if kdf is None:
        return f" --iterations={edit.iterations}"
    if kdf["type"] == "pbkdf2":
        return f" --kdf=pbkdf2 --iterations={kdf['iterations']}"
    return f" --kdf={kdf['type']} --kdf-memory={kdf['memory'] // 1024} --passes={kdf['time']} --lanes={kdf['cpus']}"


def secret(edit):
    """The option of what opens."""
    return "--key=k" if type(getattr(edit, "old", getattr(edit, "passphrase", None))).__name__ == "Key" else "--passphrase=p"


def words(edit, detached):
    """The command of an edit; none where a line can't say it."""
    end = " --detached" if detached else ""
    memory = f" --memory={edit.memory // 1024}" if getattr(edit, "memory", 0) else ""
    memory += " --older" if getattr(edit, "older", False) else ""
    name = type(edit).__name__.lower()
    if name == "add":
        if edit.to is not None and edit.to > 31:
            return None
        to = f" --to={edit.to}" if edit.to is not None else ""
        slot = f"--slot={edit.by} " if edit.by is not None else ""
        return f"luks add v {slot}{secret(edit)} --new=n --random=r{derivation(edit)}{to}{memory}{end}"
    if name == "change":
        return f"luks change v --slot={edit.slot} {secret(edit)} --new=n --random=r{derivation(edit)}{memory}{end}"
    if name == "remove":
        by = f" --by={edit.by}" if edit.by is not None else ""
        return f"luks remove v --slot={edit.slot}{by} {secret(edit)} --random=r{memory}{end}"
    if name == "label":
        return f"luks label v {edit.text.decode()} --random=r{end}" if edit.text.decode().isprintable() else None
    if name == "erase":
        return f"luks erase v --all --random=r{end}"
    if name == "uuid":
        return "luks uuid v" + (f" {edit.text.decode()}" if edit.text is not None else "") + f" --random=r{end}"
    return f"luks repair v --random=r{end}"


def give(transcript, edit):
    """The passphrases of an edit."""
    for name, bytes_ in (("passphrase", getattr(edit, "old", getattr(edit, "passphrase", None))), ("new", getattr(edit, "new", None))):
        if bytes_ is not None:
            transcript.file(name, bytes_)
