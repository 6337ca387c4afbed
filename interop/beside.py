"""Edits of the program beside those of the model in testdata/oracle: for the scripts that edit volumes."""
import random

from common import Run
import edits
from edits import Add, AddToken, Change, Erase, Key, Label, Priority, Remove, RemoveToken, Repair, Uuid

# one MiB, in KiB: more than each keyslot of Argon2 takes
MEMORY = 1024


def words_of(edit, run):
    """The command line of this edit of the file `volume`, whose passphrases, keys and tokens are put into files."""
    def given(option, value):
        return [] if value is None else [option, value.decode() if isinstance(value, bytes) else str(value)]
    if isinstance(edit, (Repair, Erase)):
        return ["repair", "volume"] if isinstance(edit, Repair) else ["erase", "volume", "--all"]
    if isinstance(edit, Label):
        return ["label", "volume", edit.text.decode(), *given("--subsystem", edit.subsystem)]
    if isinstance(edit, Uuid):
        return ["uuid", "volume"] + ([] if edit.text is None else [edit.text.decode()])
    if isinstance(edit, Priority):
        return ["priority", "volume", edit.priority, "--slot", str(edit.slot)]
    if isinstance(edit, AddToken):
        return ["token", "volume", "import", run.put("token.json", edit.text), *given("--to", edit.to)]
    if isinstance(edit, RemoveToken):
        return ["token", "volume", "remove", str(edit.number)]
    slot, secret = edits.opened_by(edit)
    named = [*given("--slot", edit.slot), *given("--by", edit.by)] if isinstance(edit, Remove) else given("--slot", slot)
    made = [type(edit).__name__.lower(), "volume", *named, "--key" if isinstance(secret, Key) else "--passphrase", run.put("old", secret)]
    if isinstance(edit, (Add, Change)):
        made += ["--new", run.put("new", edit.new), "--iterations", str(edit.iterations)]
    return [*made, *given("--to", getattr(edit, "to", None)), *given("--memory", edit.memory // MEMORY or None)]


class Beside(Run):
    """The program beside the model: both get the same random bytes, which `dice` draws."""

    def __init__(self, program, folder, dice=None):
        super().__init__(program, folder)
        self.dice = dice or random.Random(1)

    def planned(self, edit, name, detached=False, over=True):
        """The random bytes that both get, the model's line, and the volume that it leaves. The program asks first how many bytes are needed, and
        opens no keyslot if that is refused."""
        before = self.whole(name)
        needed = edits.needed(before, detached, edit, over=over)
        if isinstance(needed, str):
            return b"", needed, before
        drawn = self.dice.randbytes(needed)
        return drawn, *edits.apply(before, detached, edit, drawn, over=over)

    def beside(self, what, line, left, name, words):
        """The program's line, status and volume are these."""
        self.same(f"{what}: the answer", (1 if line.startswith("refused") else 0, line + "\n"), self.answered(*words))
        self.same(f"{what}: all bytes", True, self.whole(name) == left)

    def edit(self, what, edit, *words, detached=False, over=True, told=None):
        """One edit, by the program and by the model; the model's line. `told` is what the program prints if it is done, if that isn't the model's
        line."""
        drawn, line, left = self.planned(edit, words[1], detached, over)
        self.put("random", drawn)
        owed = line if told is None or line.startswith("refused") else told
        self.beside(what, owed, left, words[1], [*words, "--random", "random", *(["--detached"] if detached else [])])
        return line
