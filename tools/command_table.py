"""The commands of luks, their words and their texts, as docs/commands.table has them; its head says what its lines mean."""
import os
import re
import textwrap

import crates

TABLE = os.path.join(crates.TOP, "docs", "commands.table")
# the most columns of a line that the program prints
WIDTH = 80
# the status of a command that did what it was asked for is that of its help, too
HELPED = ", or help was asked for"
# of each kind how many words its line has at least and at most, and what stands beneath it: the fields that it has to have, and those that it may have
KINDS = {"program": (0, 0, "date version line more status last", ""), "value": (1, 3, "", "range names default offers file alone"),
         "option": (3, 4, "help", "in-code shells"), "operand": (3, 4, "help", ""), "choice": (2, 9, "name", ""), "text": (1, 1, "", ""), "other": (2, 20, "", ""),
         "command": (1, 1, "line operands prints more status", "file overwrites options choices form shells page")}


class Fault(Exception):
    """What is wrong with the table, or with a file that is made of it."""


class Record:
    """What begins at the left of the table: its kind and the other words of its line, a text, and fields, each its name, the rest of its line and a text."""

    def __init__(self, line):
        self.kind, *self.words = line.split()
        self.line, self.text, self.fields = line, [], []

    def judge(self):
        """Refuses a kind that isn't known, a line that doesn't fit it, a field that it hasn't, and one that is missing."""
        if self.kind not in KINDS:
            raise Fault(f"there is no kind {self.kind}")
        least, most, *fields = KINDS[self.kind]
        if not least <= len(self.words) <= most:
            raise Fault(f"{self.line}: {self.kind} has {least} to {most} words more")
        needed, allowed = (set(names.split()) for names in fields)
        told = {field for field, _, _ in self.fields}
        if told - needed - allowed:
            raise Fault(f"{self.line}: it may not have {' '.join(sorted(told - needed - allowed))}")
        if needed - told:
            raise Fault(f"{self.line}: it lacks {' '.join(sorted(needed - told))}")

    def all(self, name):
        return [rest for field, rest, _ in self.fields if field == name]

    def rest(self, name):
        """The rest of the line of a field that stands once at most."""
        found = self.all(name)
        if len(found) > 1:
            raise Fault(f"{self.line}: has more than one {name}")
        return found[0] if found else ""

    def lines(self, name):
        return next((without_end(text) for field, _, text in self.fields if field == name), [])


def without_end(lines):
    """The lines without the empty ones at their end."""
    return "\n".join(lines).rstrip("\n").split("\n")


def records(text):
    found, under = [], []
    for number, line in enumerate(text.split("\n"), 1):
        indent = len(line) - len(line.lstrip(" "))
        if not line:
            under.append("")
        elif indent >= 8:
            under.append(line[8:])
        elif indent == 4:
            name, _, rest = line.strip().partition(" ")
            under = []
            found[-1].fields.append((name, rest, under))
        elif indent == 0 and not line.startswith("#"):
            found.append(Record(line))
            under = found[-1].text
        elif indent:
            raise Fault(f"line {number} stands {indent} columns in")
    return found


class Rows(dict):
    """What the table has of a kind, by names."""

    def __init__(self, kind, made):
        super().__init__(made)
        self.kind = kind
        if len(self) < len(made):
            raise Fault(f"more than one {kind} has the name of another")

    def __missing__(self, name):
        raise Fault(f"there is no {self.kind} {name}")


class Value:
    """What an option takes, by its name in luks_line: how helps and shells call it, its range or its names, what counts without it, and what shells offer."""

    def __init__(self, record):
        self.name, self.shown, self.word = [*record.words, "", ""][:3]
        self.range, self.names, self.preset = record.rest("range").split(), record.rest("names").split(), record.rest("default")
        self.offers = record.rest("offers") or " ".join(self.names)
        self.is_file, self.is_alone = bool(record.all("file")), bool(record.all("alone"))


class Option:
    """A word that is known by its name; `code` is what stands for its help in the source, where that isn't the text."""

    def __init__(self, record, values):
        self.row, self.name, value, *needed = record.words
        self.value, self.needed = values[value], bool(needed)
        self.help, self.code = record.rest("help"), record.rest("in-code")
        self.shells = record.rest("shells") or self.help


class Operand:
    """A word that is known by its place."""

    def __init__(self, record):
        self.row, self.shown, self.word, *file = record.words
        self.name, self.needed = self.shown.strip("[]"), not self.shown.startswith("[")
        self.help, self.is_file = record.rest("help"), bool(file)


class Choice:
    """Options of which exactly one is needed."""

    def __init__(self, record):
        self.row, *self.options = record.words
        self.name = record.rest("name")


class Other:
    """A word of another program, and what stands for it here."""

    def __init__(self, record):
        self.word, *here = record.words
        self.here = " ".join(here)


class Command:
    """A command, and what may follow its name."""

    def __init__(self, record, table):
        self.name, self.row = record.words[0], record.words[0].capitalize()
        self.file, self.line, self.overwrites = record.rest("file") or "helps", record.rest("line"), bool(record.all("overwrites"))
        self.operands = [table.operands[row] for row in record.rest("operands").split()]
        self.options = [table.options[row] for row in record.rest("options").split()]
        self.choices = [table.choices[row] for row in record.rest("choices").split()]
        self.forms, self.prints = record.all("form"), record.rest("prints")
        self.more, self.page = table.with_texts(record.lines("more")), entries(record.lines("page"))
        self.statuses = statuses(record)
        self.shells = dict(rest.split(" ", 1) for rest in record.all("shells"))

    def option(self, name):
        found = [option for option in self.options if option.name == name]
        if len(found) != 1:
            raise Fault(f"{self.name} has {len(found)} options {name}")
        return found[0]

    def said_of(self, option):
        """What the shells say of its option."""
        return self.shells.get(option.name, option.shells)

    def chosen(self, option):
        """The names of the options of which one is needed, and this one is one; else none."""
        return next((choice.options for choice in self.choices if option.name in choice.options), [])

    def rivals(self, option):
        """The options of which at most one is given, and this one is one."""
        chosen = self.chosen(option)
        return [it for it in self.options if it is option or it.name in chosen or option.value.is_alone and it.value is option.value]

    def parts(self):
        """Its options as a synopsis has them: each with its rivals, and whether one of them is needed; those that are needed first."""
        found = [(option.needed or bool(self.chosen(option)), self.rivals(option)) for option in self.options if self.rivals(option)[0] is option]
        return sorted(found, key=lambda part: not part[0])


def statuses(record):
    """The texts of its statuses, by their numbers."""
    found = dict(rest.split(" ", 1) for rest in record.all("status"))
    return {number: text + HELPED if number == "0" else text for number, text in found.items()}


def entries(lines):
    """The options of a command on the page: of each entry the names, whose meaning they have, and the text."""
    found = []
    for line in filter(None, lines):
        if line.startswith(" "):
            found[-1][2].append(line.strip())
        else:
            names, _, alike = line.partition(" as of ")
            found.append((names.split(), alike, []))
    return found


class Table:
    """All of the table."""

    def __init__(self, text):
        of_kind = {kind: [] for kind in KINDS}
        for record in records(text):
            record.judge()
            of_kind[record.kind].append(record)
        self.program = of_kind["program"][0]
        self.statuses = statuses(self.program)
        self.texts = Rows("text", [(record.words[0], without_end(record.text)) for record in of_kind["text"]])
        self.values = Rows("value", [(it.name, it) for it in map(Value, of_kind["value"])])
        self.options = Rows("option", [(it.row, it) for it in (Option(record, self.values) for record in of_kind["option"])])
        self.operands = Rows("operand", [(it.row, it) for it in map(Operand, of_kind["operand"])])
        self.choices = Rows("choice", [(it.row, it) for it in map(Choice, of_kind["choice"])])
        self.commands = [Command(record, self) for record in of_kind["command"]]
        self.others = Rows("other", [(it.word, it) for it in map(Other, of_kind["other"])])
        known = {command.name for command in self.commands} | {option.name for option in self.options.values()}
        if known & set(self.others):
            raise Fault(f"a word of this program is one of another: {' '.join(sorted(known & set(self.others)))}")

    def with_texts(self, lines):
        """The lines, with those of a text in the place of a line that names it."""
        return [it for line in lines for it in (self.texts[line[1:-1]] if re.fullmatch(r"\{[\w-]+\}", line) else [line])]

    def status_lines(self, own):
        """The statuses as a help has them: those of a command, and those of the program that all commands have."""
        told = {**{number: self.statuses[number] for number in ("2", "4")}, **own}
        return ["Exit status:"] + [line for number in sorted(told) for line in
                                   textwrap.wrap(told[number], WIDTH, initial_indent=f"  {number}  ", subsequent_indent="     ")]


def read():
    with open(TABLE, encoding="utf-8") as it:
        text = it.read()
    try:
        return Table(text)
    except Fault as fault:
        raise Fault(f"docs/commands.table: {fault}")
