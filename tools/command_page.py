"""What docs/luks.1 and docs/COMMANDS.md repeat of docs/commands.table; each part stands between a comment that names it, and one that ends it."""
import re
import textwrap

from command_table import Fault, Rows

# every command on a volume has these: COMMANDS tells them once, and not in its list
COMMON = ("--offset", "--length", "--quiet")
# of a value with so many names at most, the list in COMMANDS has the names
FEW = 3


def with_parts(text, start, end, parts):
    """The text, with these lines in the parts of these names; `start` and `end` are what begins and ends a comment."""
    known = re.findall(rf"^{re.escape(start)}tools/commands makes (.*):{re.escape(end)}$", text, re.M)
    unlike = [f"has no line, or more than one: {start}tools/commands makes {name}:{end}" for name in parts if known.count(name) != 1]
    unlike += [f"has a line of what isn't made: {start}tools/commands makes {name}:{end}" for name in known if name not in parts]
    if unlike:
        raise Fault("; ".join(unlike))
    for name, lines in parts.items():
        opening, closing = f"{start}tools/commands makes {name}:{end}\n", f"{start}end of {name}{end}\n"
        before, _, rest = text.partition(opening)
        if closing not in rest:
            raise Fault(f"has no line: {closing.strip()}")
        text = before + opening + "".join(line + "\n" for line in lines) + closing + rest.partition(closing)[2]
    return text


def roff(text, names):
    """The text in roff: what stands between backquotes is bold, a name of a value and a path italic, and each hyphen stays one."""
    italic = re.compile(rf"(?<![\w/-])({'|'.join(names)}|/[\w/]+)(?![\w-])")
    parts = text.split("`")
    for number, part in enumerate(parts):
        font = "RB"[number % 2]
        part = italic.sub(lambda found: rf"\fI{found[0]}\f{font}", part).replace("-", r"\-")
        parts[number] = r"\fB" + re.sub(r"^(\\-\\-\S+) (?=\S+$)", lambda found: found[1] + r"\~", part) + r"\fR" if number % 2 else part
    return re.sub(r"(?m)^([.'])", r"\\&\1", "".join(parts))


def between(rivals):
    """What stands between options of which one is given: no space where each has a value behind a space."""
    return "|" if rivals[0].value.shown else " | "


class Page:
    """The parts of the manual page."""

    def __init__(self, table):
        self.table = table
        shown = {value.shown for value in table.values.values()} | {operand.name for operand in table.operands.values()}
        self.names = sorted((re.escape(name) for name in shown if name), key=len, reverse=True)

    def roff(self, text):
        return roff(text, self.names)

    def parts(self):
        found = {"the title": self.title(), "the synopsis": self.synopsis(), "the statuses": self.statuses()}
        for command in self.table.commands:
            found[f"the head of {command.name}"] = self.head(command)
            if command.options:
                found[f"the options of {command.name}"] = [line for entry in command.page for line in self.entry(command, entry)]
        return found

    def title(self):
        record = self.table.program
        return [f'.TH LUKS 1 {record.rest("date")} "luks {record.rest("version").split()[0]}" "User Commands"']

    def synopsis(self):
        """A row for all commands whose one operand is the volume, and one for each other."""
        found, usual = [".B luks", ".I COMMAND VOLUME", ".RI [ OPTION ]..."], self.table.operands["Volume"]
        for command in self.table.commands:
            if command.operands != [usual]:
                found += [".br", f".B luks {command.name}", *self.words(command), *([".RI [ OPTION ]..."] if command.options else [])]
        return [*found, ".br", ".B luks", r".BR \-\-help | \-\-version"]

    def words(self, command):
        needed = [operand.name for operand in command.operands if operand.needed]
        return [*([f".I {' '.join(needed)}"] if needed else []), *(f".RI [ {operand.name} ]" for operand in command.operands if not operand.needed)]

    def statuses(self):
        marked = {number: re.sub(r"^(\w+):", r"`\1`:", text) for number, text in self.table.statuses.items()}
        return [line for number in sorted(marked) for line in (".TP", f".B {number}", *textwrap.wrap(self.roff(marked[number]), 80))]

    def head(self, command):
        operands = [operand.shown.replace(operand.name, rf"\fI{operand.name}\fP") for operand in command.operands]
        shown = []
        for needed, rivals in command.parts():
            part = between(rivals).join(self.option(option, "P", " ") for option in rivals)
            shown.append(part if needed else f"[{part}]")
        return [f'.SS "luks {" ".join([command.name, *operands, *shown])}"']

    def option(self, option, back, joint=r"\~"):
        """An option with what it takes; `back` is the font that follows."""
        name, value = (word.replace("-", r"\-") for word in (option.name, option.value.shown))
        return rf"\fB{name}\f{back}" + (rf"{joint}\fI{value}\f{back}" if value else "")

    def entry(self, command, entry):
        """An entry of a command's options: what they are, or whose they are as."""
        names, alike, text = entry
        options = [command.option(name) for name in names]
        if alike:
            return self.alike(options, alike)
        return [".TP", self.tag(options), *self.roff("\n".join(text)).split("\n")]

    def tag(self, options):
        if len(options) > 1:
            return ", ".join(self.option(option, "R") for option in options)
        name, value = (word.replace("-", r"\-") for word in (options[0].name, options[0].value.shown))
        return rf".BI {name}\~ {value}" if value else f".B {name}"

    def alike(self, options, alike):
        shown = [rf"\fB{option.name}\fR".replace("-", r"\-") for option in options]
        several = ", ".join(shown[:-1]) + " and " + shown[-1] if len(shown) > 1 else shown[0]
        other, comma, rest = alike.partition(",")
        text = rf"{several} {'are' if len(shown) > 1 else 'is'} as of \fB{other}\fR{comma}{self.roff(rest)}."
        return [".PP", *textwrap.wrap(text, 80, break_long_words=False, break_on_hyphens=False)]


def page(table, old):
    return with_parts(old, '.\\" ', "", Page(table).parts())


def unlike_texts(table):
    """What is wrong with the options on the page and in the list: one that isn't told, one whose meaning another command hasn't, a number that isn't its value's."""
    wrong, commands = [], Rows("command", [(command.name, command) for command in table.commands])
    for command in table.commands:
        told = [name for names, _, _ in command.page for name in names]
        if sorted(told) != sorted(option.name for option in command.options):
            wrong.append(f"{command.name} has not the options that its page tells: {' '.join(told)}")
        wrong += [f"{command.name} has {option.name} in no form" for option in command.options if command.forms and not is_formed(command, option)]
        for names, alike, text in command.page:
            wrong += [line for name in names for line in unlike(command, command.option(name), alike.partition(",")[0], " ".join(text), commands)]
    return [f"docs/commands.table: {line}" for line in wrong]


def is_formed(command, option):
    """Whether a form of the list has the option, or another one in its place."""
    told = set(re.findall(r"--[\w-]+", " ".join(command.forms)))
    return option.name in COMMON or any(rival.name in told for rival in command.rivals(option))


def unlike(command, option, other, text, commands):
    """What is wrong with an option on the page, which is as that of another command, or has the text."""
    value, wrong = option.value, []
    if other and not any(it.name == option.name and it.value is value for it in commands[other].options):
        wrong.append(f"{command.name} has {option.name} as of {other}, which hasn't that")
    for told in (option.help, text):
        ranges = re.findall(r"(\d+) to (\d+)", told) if value.range else []
        presets = re.findall(r"default: ([\w-]+)", told) if value.preset else []
        if ranges and tuple(value.range) not in ranges or [it for it in presets if it != value.preset]:
            takes = " to ".join(value.range) + (f", without it {value.preset}" if value.preset else "")
            wrong.append(f"{command.name} {option.name} takes {takes}, and its text says otherwise: {told}")
    return wrong


def listed(command):
    """The lines of a command in the list of COMMANDS."""
    forms = command.forms or [" ".join(form_of(part) for part in command.parts() if part[1][0].name not in COMMON)]
    operands = " ".join(operand.shown for operand in command.operands)
    return [*(" ".join(["luks", command.name, operands, *(spelled(command, word) for word in form.split(" ") if word)]) for form in forms), f"    {command.prints}"]


def form_of(part):
    """An option as `form` has it; of those that take a value the first stands for its rivals."""
    needed, rivals = part
    names = rivals[0].name if rivals[0].value.shown else between(rivals).join(option.name for option in rivals)
    return names if needed else f"[{names}]"


def spelled(command, word):
    """A word of a form, with what the option takes behind its name."""
    name, _, value = word.strip("[]").partition("=")
    if "|" in name:
        return word
    option = command.option(name)
    taken = value or ("|".join(option.value.names) if len(option.value.names) <= FEW and option.value.names else option.value.shown)
    return word.replace(word.strip("[]"), f"{name} {taken}" if taken else name)


def numbers(table):
    """What each option takes: the ranges, and the names of which one is taken."""
    rows = {}
    for option in table.options.values():
        if option.value.range or option.value.names:
            rows.setdefault(option.value.name, []).append(option)
    return [f"- **Numbers**: {'; '.join(taken(table, options) for options in rows.values() if options[0].value.range)}.",
            f"- **Names**: {'; '.join(taken(table, options) for options in rows.values() if options[0].value.names)}."]


def taken(table, options):
    """What these options take, and of which commands they are where others have one of the same name and another value."""
    value = options[0].value
    names = series([f"`{name}`" for name in dict.fromkeys(option.name for option in options)])
    if any(it.name == options[0].name and it.value is not value for it in table.options.values()):
        names += " of " + series([f"`{command.name}`" for command in table.commands if options[0] in command.options])
    told = f"from {value.range[0]} to {value.range[1]}" if value.range else series(value.names, "or")
    return f"{names} {told}" + (f" (default: {value.preset})" if value.preset else "")


def elsewhere(table):
    """What stands here for words of other programs, those that have one answer together."""
    rows = {}
    for it in table.others.values():
        rows.setdefault(it.here, []).append(f"`{it.word}`")
    return ["| There | Here |", "|---|---|", *(f"| {', '.join(words)} | {here} |" for here, words in rows.items())]


def series(words, last="and"):
    return f" {last} ".join([", ".join(words[:-1]), words[-1]] if len(words) > 1 else words)


def pages(table, old):
    lists = ["```", *(line for command in table.commands for line in listed(command)), "```", "", *numbers(table)]
    return with_parts(old, "<!-- ", " -->", {"the list": lists, "the words of other programs": elsewhere(table)})


MAKERS = {"docs/luks.1": page, "docs/COMMANDS.md": pages}
