"""Transcripts: NAME.steps and NAME.owed, cut at headings into pieces that need nothing of each other, run, and compared with what is owed."""
import functools
import os

from suite import files, session
from suite.program import TESTS
from suite.words import Words

FOLDER = os.path.join(TESTS, "transcripts")
SHORTEST = 40
# what a step needs that steps before it made, and what it makes; of the others see `needs_of`
GIVING = ("passphrase", "new", "random", "count", "repeat")
MAKES = {"text": "text", "json": "text", "volume": "volume", "small": "volume", "large": "volume", "target": "target", "keep": "keep"}
NEEDS = {**dict.fromkeys(("edit", "pad", "spaces", "size", "seqid", "label", "subsystem", "uuid"), {"text"}), "header": {"text", "volume"},
         **dict.fromkeys(("put", "run", "area", "cut", "disk", "back", "seal", "exchange", "keep"), {"volume"}), "kept": {"volume", "keep"},
         **dict.fromkeys(("sum", "bytes", "all", "longest", "ended", "length", "holds", "open", "unlock"), {"volume"}),
         **dict.fromkeys(("left", "calls", "ranges", "at-least", "beyond", "reads-beyond"), {"run"}),
         **dict.fromkeys(("target-sum", "untouched"), {"target"}),
         # nothing makes `files`: a heading with such a step is never cut off
         **dict.fromkeys(files.STEPS, {"files"})}
RUNS = ("$", "each", "torn", "rooms", "memory")
# how many runs of the program a step is worth, about, so that long pieces begin first
WEIGHTS = {"$": 1, "%": 3, "briefly": 0.2, "each": 40, "torn": 60, "rooms": 40, "memory": 400, "numbers": 32, "cuts": 1500, "changes": 3000,
           "damage": 3000}


def command_of(line):
    """The command's text of a step that runs one."""
    return line.partition("$ ")[2]


def needs_of(line):
    word, _, rest = line.partition(" ")
    if word in RUNS:
        words = Words(command_of(line))
        return {"volume"} | ({"target"} if words.devices()[1] and not words.keeps() else set())
    if (word, rest) == ("text", "volume") or word == "volume" and rest.startswith("luks2"):
        return {"volume" if word == "text" else "text"}
    return NEEDS.get(word, set())


def stands_alone(steps):
    """Whether these steps need nothing of those before them but passphrases and random bytes."""
    has = set()
    for line in steps:
        word = line.partition(" ")[0]
        if not needs_of(line) <= has:
            return False
        if word == "exchange":
            swapped = {"volume": "target", "target": "volume"}
            has = {swapped.get(it, it) for it in has}
        has |= {MAKES[word]} if word in MAKES else {"run"} if word in RUNS else set()
    return True


class Piece:
    """Whole headings with their steps, which need nothing of other pieces. `given` are the last steps before them that gave a file."""

    def __init__(self, steps, given, owed=b""):
        self.steps, self.given, self.owed = steps, given, owed

    def is_short(self):
        return len(self.steps) < SHORTEST and self.weight() < SHORTEST

    def weight(self):
        return sum(WEIGHTS.get(line.partition(" ")[0], 0) for line in self.steps) + len(self.steps) / 20


def headings(lines):
    """The lines, cut at each heading."""
    found = [[]]
    for line in lines:
        if line.startswith("# "):
            found.append([])
        found[-1].append(line)
    return [it for it in found if it]


def giving(line):
    """Which file a step gives; none if it gives none."""
    word, _, rest = line.partition(" ")
    return (rest.partition(" ")[0] if word in ("count", "repeat") else word) if word in GIVING else None


def pieces(lines):
    found, given = [], {}
    for steps in headings(lines):
        if found and (found[-1].is_short() or not stands_alone(steps)):
            found[-1].steps.extend(steps)
        else:
            found.append(Piece(steps, list(given.values())))
        given.update((giving(line), line) for line in steps if giving(line))
    return found


def is_heading_of_file(line):
    """Whether the line says what the runner has to know of the file, as `# needs: ..`; such lines are before the first step."""
    return line.startswith(("# needs: ", "# takes: ", "# language: ")) or line == "# slow"


def steps_of(text):
    lines = text.split("\n")[:-1]
    while lines and (is_heading_of_file(lines[0]) or not lines[0]):
        lines.pop(0)
    return lines


def owed_to(found, owed):
    """Cuts what is owed at the first heading of each piece; headings are looked for in their order, since two may be alike."""
    begins, at = [0], 0
    for piece in found:
        for line in piece.steps:
            if not line.startswith("# "):
                continue
            place = owed.find(line.encode() + b"\n", at)
            if place < 0:
                raise ValueError(f"nothing is owed to {line!r}")
            if line is piece.steps[0] and piece is not found[0]:
                begins.append(place)
            at = place + len(line)
    for piece, begin, end in zip(found, begins, [*begins[1:], len(owed)]):
        piece.owed = owed[begin:end]
    return found


@functools.cache
def transcript(path):
    """The pieces of the transcript in this file, with what is owed to each."""
    with open(path, encoding="utf-8") as file:
        found = pieces(steps_of(file.read()))
    with open(path.removesuffix(".steps") + ".owed", "rb") as file:
        return owed_to(found, file.read())


class Difference:
    """A step that told something else than is owed."""

    def __init__(self, line, owed, told):
        self.line, self.owed, self.told = line, owed, told

    def text(self):
        owed, told = (it.decode("utf-8", "backslashreplace").splitlines() for it in (self.owed, self.told))
        same = len(os.path.commonprefix([owed, told]))
        return "\n".join([f"  {self.line:.300}", *shown("owed", owed[same:]), *shown("told", told[same:])])


def shown(what, lines, most=4):
    lines = lines or ["(nothing more)"]
    return [f"    {what} {line:.300}" for line in lines[:most]] + [f"    {what} .. {len(lines) - most} lines more"] * (len(lines) > most)


def compared(told, owed):
    """How many printing steps told what is owed, and the differences. After one the texts are laid to the next step whose line is found."""
    passed, differences, at = 0, [], 0
    for number, (line, text) in enumerate(told):
        if owed.startswith(text, at):
            passed, at = passed + 1, at + len(text)
            continue
        end = next_step(told, number + 1, owed, at)
        differences.append(Difference(line, owed[at:end], text))
        at = end
    if owed[at:]:
        differences.append(Difference("(behind the last step)", owed[at:], b""))
    return passed, differences


def next_step(told, number, owed, at):
    """The place at which the next step's text begins in what is owed."""
    if number == len(told):
        return len(owed)
    begin = b"\n" + told[number][1].split(b"\n")[0].partition(b": ")[0]
    found = owed.find(begin, at)
    return len(owed) if found < 0 else found + 1


def run_piece(program, path, number, place):
    """Runs a piece: how many steps passed, how many failed, and what is said of the failures."""
    piece = transcript(path)[number]
    told, missed = session.run_steps(program, [*piece.given, *piece.steps], place=place)
    passed, differences = compared(told, piece.owed)
    said = [it.text() for it in differences] + ([f"  {missed}"] if missed else [])
    return passed, len(differences) + bool(missed), said
