"""Steps that run commands over many hostile volumes, and print one sum of all answers; testdata/oracle/hostile.py makes the volumes.

From the folder tests `python3 -m suite.hostile PROGRAM STEP` prints each answer to such a step that isn't the model's.
"""
import os
import sys
import tempfile

from suite import samples  # it finds testdata/oracle
from suite.program import Program, compiled_shim, put, whole

import hostile

BLOCK = 4096
PASSPHRASE, NEW, RANDOM = "--passphrase=p", "--new=n", "--random=r"


def laid(before, volume):
    """Makes the file `v` the volume; of one like the volume before only the blocks that differ are written."""
    if before is None:
        put("v", volume)
        return
    with open("v", "r+b") as file:
        if len(before) != len(volume):
            os.truncate("v", len(volume))
        for at in range(0, len(volume), BLOCK):
            if before[at:at + BLOCK] != volume[at:at + BLOCK]:
                os.pwrite(file.fileno(), volume[at:at + BLOCK], at)


def words_of(asked):
    """The command's words for what the model is asked."""
    command, *more = asked
    if command == "open":
        return ["open", "v", PASSPHRASE] + ([] if more[1] is None else [f"--slot={more[1]}"])
    if command == "add":
        return ["add", "v", PASSPHRASE, NEW, RANDOM, "--iterations=1000", f"--slot={more[1]}"]
    return ["label", "v", RANDOM, more[0].decode()] if command == "label" else [command, "v", *more]


class Asked:
    """The program, asked as the model is (see hostile.answer)."""

    def __init__(self, program):
        self.program, self.volume, self.passphrase = program, None, None
        put("n", hostile.NEW)
        put("r", hostile.RANDOM)

    def answer(self, volume, asked):
        if volume is not self.volume:
            laid(self.volume, volume)
            self.volume = volume
        if asked[0] in ("open", "add") and asked[1] != self.passphrase:
            self.passphrase = asked[1]
            put("p", self.passphrase)
        ran = self.program.run(words_of(asked), logs=False)
        if asked[0] in hostile.EDITS:
            self.volume = whole("v")
        return (ran.status, ran.out.decode("utf-8", "backslashreplace")), self.volume


def step(session, line, _):
    session.answer(line, hostile.answers_sum(line, Asked(session.program).answer))


def differences(program, line):
    """Each answer to a step that isn't the model's."""
    for (where, owed), (_, told) in zip(hostile.answers(line), hostile.answers(line, Asked(program).answer)):
        if owed != told:
            yield f"{where}: owed {owed!r}, told {told!r}"


def main():
    path = os.path.abspath(sys.argv[1])
    with tempfile.TemporaryDirectory() as folder:
        os.chdir(folder)
        program = Program(path, compiled_shim(folder))
        print(*differences(program, " ".join(sys.argv[2:])), sep="\n")
        program.end()


STEPS = dict.fromkeys(("cuts", "changes", "damage", "numbers"), step)

if __name__ == "__main__":
    main()
