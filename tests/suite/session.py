"""A session takes the steps of a transcript one by one and collects what each prints. tests/README.md has the language.

A family of steps is a module with a table STEPS: the step's word, and the function that takes it, called with the session, the whole line and
what follows the word.
"""
import os
import shutil
import tempfile

from suite import commands, failing, files, filing, hostile, library, lines, looks, making, trials

FAMILIES = (making, filing, failing, commands, trials, library, looks, files, lines, hostile)


class NoStep(Exception):
    """The line is no step, or can't be taken."""


class Session:
    """What the steps so far have made. `told` has the printing steps, each with its line and the text that it printed."""

    def __init__(self, program, families=FAMILIES):
        self.program, self.told = program, []
        self.steps = {"#": heading}
        for family in families:
            self.steps.update(family.STEPS)
            if hasattr(family, "begin"):
                family.begin(self)

    def emit(self, text):
        """Adds this to what the step prints."""
        line, before = self.told[-1]
        self.told[-1] = line, before + (text if isinstance(text, bytes) else text.encode())

    def answer(self, line, text):
        """What a question prints: its line with the answer."""
        self.told.append((line, f"{line}: {text}\n".encode()))

    def says(self, line):
        """A printing step begins: its line is printed."""
        self.told.append((line, line.encode() + b"\n"))

    def take(self, line):
        word, _, rest = line.partition(" ")
        if word not in self.steps:
            raise NoStep(f"no step: {line:.100}")
        self.steps[word](self, line, rest)


def heading(session, line, _):
    session.says(line)


def run_steps(program, lines, families=FAMILIES, place=None):
    """Takes these steps in a folder of their own; what the printing ones told, and why a step could not be taken, if one couldn't."""
    folder, before = tempfile.mkdtemp(dir=place, prefix="steps-"), os.getcwd()
    os.chdir(folder)
    session = Session(program, families)
    try:
        for number, line in enumerate(lines, 1):
            try:
                session.take(line)
            except (NoStep, OSError, ValueError, KeyError, IndexError, AttributeError, TimeoutError) as error:
                return session.told, f"step {number}, {line:.100}: {error!r}"
        return session.told, None
    finally:
        program.end()
        os.chdir(before)
        shutil.rmtree(folder, ignore_errors=True)
