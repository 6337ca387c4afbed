"""The Rattle sources that are made of docs/commands.table: the helps' texts, and the tables of the words of a command line."""
import re

from command_table import WIDTH, Fault

LINE = "crates/luks_line/src"
TAKES, HASHES = f"{LINE}/takes.rt", "crates/luks_kdf/src/hash_name.rt"
# the widest array, and the widest line, that rt fmt leaves on one line
ARRAY, COLUMNS = 60, 100


def literal(text):
    return '"' + text.replace("\\", "\\\\").replace('"', '\\"') + '"'


def constant(name, text, *comment):
    """A public text: on the lines after its name where it has several."""
    if "\n" in text:
        body = f'pub const {name}: &str = "\\\n{literal(text)[1:]};'
    else:
        body = f"pub const {name}: &str = {literal(text)};"
        body = body if len(body) <= COLUMNS else body.replace(" = ", " =\n    ", 1)
    return "\n".join([*(f"/// {line}" for line in comment), body]) + "\n"


def usage(command):
    """What stands behind `Usage: `, where that is on several lines."""
    first = f"Usage: luks {command.name} "
    needed = [f"{option.name} <{option.value.shown}>" for option in command.options if option.needed]
    chosen = ["<" + "|".join(f"{name} <{command.option(name).value.shown}>" for name in choice.options) + ">" for choice in command.choices]
    lines = [first + "[OPTIONS]"]
    for word in [*needed, *chosen, *(f"<{operand.name}>" for operand in command.operands)]:
        if len(lines[-1]) + 1 + len(word) <= WIDTH:
            lines[-1] += " " + word
        else:
            lines.append(" " * len(first) + word)
    return "\n".join(lines).removeprefix("Usage: ") if len(lines) > 1 else ""


def narrow(lines):
    """The lines as a text, none of which has too many columns."""
    wide = [line for line in lines if len(line) > WIDTH]
    if wide:
        raise Fault(f"this line has more than {WIDTH} columns: {wide[0]}")
    return "\n".join(lines)


def of_program(table):
    record = table.program
    more = [*record.lines("more"), "", *table.status_lines(table.statuses), "", *record.lines("last")]
    return [constant("VERSION", record.rest("version"), "What `--version` prints after the program's name: the version, whose section is the first of",
                     "CHANGELOG.md, and the logic by which it is proved, as `rt version` says it behind the kit's name."),
            constant("PROGRAM", record.rest("line"), "What the program does, in a line."),
            constant("PROGRAM_MORE", narrow(more), "The program's help after its commands.")]


def of_command(table, command):
    name, words = command.name.upper(), usage(command)
    more = [*command.more, "", *table.status_lines(command.statuses)]
    found = [constant(name, command.line, f"What `{command.name}` does, in a line.")]
    if words:
        comment = f"The usage of `{command.name}` after `Usage: `, on several lines, since one would have more than 80 columns."
        found.append(constant(f"{name}_USAGE", words, comment))
    return [*found, constant(f"{name}_MORE", narrow(more), f"The help of `{command.name}` after its words.")]


def helps(file):
    """What makes that file of helps: the comment at its head stays."""
    def maker(table, old):
        found = of_program(table) if file == "helps" else []
        for command in table.commands:
            found += of_command(table, command) if command.file == file else []
        return old.split("///")[0] + "\n".join(found)
    return maker


def with_item(source, opening, lines):
    """The source, with these lines in the item that has this first line, N standing for the number of rows; its last line begins where its first one does."""
    indent = " " * (len(opening) - len(opening.lstrip()))
    closing = {"{": "}", "[": "];"}[opening[-1]]
    pattern = re.compile("^" + re.escape(opening).replace("N\\]", r"\d+\]") + rf"\n.*?^{re.escape(indent + closing)}$", re.M | re.S)
    count = sum(line.endswith("{") for line in lines)
    body = "\n".join([re.sub(r"N\]", f"{count}]", opening), *(indent + line for line in lines), indent + closing])
    if len(pattern.findall(source)) != 1:
        raise Fault(f"the item `{opening.strip()}` isn't there once")
    return pattern.sub(lambda _: body, source)


def variants(rows):
    return [f"    {row}," for row in rows]


def row(kind, **fields):
    """A row of a table, of a record with these fields."""
    return [f"    {kind} {{", *(line for name, value in fields.items() for line in field(name, value)), "    },"]


def field(name, value):
    """A field of a row; a list is an array, over several lines where one would be too wide."""
    if not isinstance(value, list):
        return [f"        {name}: {value},"]
    joined = ", ".join(value)
    if len(joined) + 2 <= ARRAY:
        return [f"        {name}: &[{joined}],"]
    return [f"        {name}: &[", *(f"            {it}," for it in value), "        ],"]


def truth(value):
    return "true" if value else "false"


def options(table, old):
    rows = [line for it in table.options.values() for line in
            row("OptionRow", name=literal(it.name.removeprefix("--")), needed=truth(it.needed), help=it.code or literal(it.help), takes=f"Takes::{it.value.name}")]
    return with_item(with_item(old, "pub(crate) enum LongOption {", variants(table.options)), "static OPTIONS: [OptionRow; N] = [", rows)


def operands(table, old):
    rows = [line for it in table.operands.values() for line in row("OperandRow", name=literal(it.name), needed=truth(it.needed), help=literal(it.help))]
    return with_item(with_item(old, "pub(crate) enum Operand {", variants(table.operands)), "static OPERANDS: [OperandRow; N] = [", rows)


def choices(table, old):
    rows = [line for it in table.choices.values() for line in
            row("ChoiceRow", name=literal(it.name), options=[literal(name.removeprefix("--")) for name in it.options])]
    return with_item(with_item(old, "pub(crate) enum Choice {", variants(table.choices)), "static CHOICES: [ChoiceRow; N] = [", rows)


def commands(table, old):
    rows = [line for it in table.commands for line in
            row("Described", name=literal(it.name), command=f"CommandName::{it.row}", overwrites=truth(it.overwrites),
                operands=[f"Operand::{operand.row}" for operand in it.operands], options=[f"LongOption::{option.row}" for option in it.options],
                choices=[f"Choice::{choice.row}" for choice in it.choices])]
    return with_item(old, "static COMMANDS: [Described; N] = [", rows)


def names(table, old):
    """The variants of the commands, and which text of the helps is whose."""
    def texts(end, form="{}"):
        return [(it, form.format(f"{it.file}::{it.name.upper()}{end}")) for it in table.commands]
    usages = [(it, text) for it, text in texts("_USAGE", "Some({})") if usage(it)]
    found = with_item(old, "pub(crate) enum CommandName {", variants(it.row for it in table.commands))
    for name, told, other in (("about(self) -> &'static str", texts(""), []), ("usage(self) -> Option<&'static str>", usages, ["        _ => None,"]),
                              ("more(self) -> &'static str", texts("_MORE"), [])):
        lines = [f"        CommandName::{it.row} => {text}," for it, text in told]
        found = with_item(found, f"    pub(crate) fn {name} {{", ["    match self {", *lines, *other, "    }"])
    return found


def other_words(table, old):
    for it in table.others.values():
        narrow([f"  tip: here that is {it.here}"])
    return with_item(old, "static OTHER_WORDS: [OtherWord; N] = [", [line for it in table.others.values() for line in
                                                                    row("OtherWord", word=literal(it.word), here=literal(it.here))])


MAKERS = {**{f"crates/luks_helps/src/{file}.rt": helps(file) for file in ("helps", "rescue_helps")}, "crates/luks_helps/src/other_words.rt": other_words,
          **{f"{LINE}/{file}.rt": maker for file, maker in
             (("options", options), ("operands", operands), ("choices", choices), ("commands", commands), ("command_name", names))}}


def arms(source, function):
    """What a function of takes.rt says of each variant that it names."""
    body = re.search(rf"^    pub\(crate\) fn {function}\(.*?^    }}$", source, re.M | re.S)[0]
    found = re.findall(r"((?:Takes::\w+[\s|]*)+)=>\s*(.*?),\n", body, re.S)
    return {name: told for variants, told in found for name in re.findall(r"Takes::(\w+)", variants)}


def texts(told, constants):
    """The texts of an array, or of the constant that stands for one."""
    for name, array in constants.items():
        told = told.replace(name, array)
    return re.findall(r'"([^"]*)"', told)


def range_of(parser):
    """The least and the most number that is taken, where it is one or a size."""
    return re.findall(r"\d+", parser.replace("u64::MAX", str(2**64 - 1))) if re.search(r"Unsigned|Sizes::(Bytes|Mib)", parser) else []


def spelled(shown, numbers, names, preset):
    """What an option takes, as a text: what it is called, its range, its names, and what counts without it."""
    return " ".join(filter(None, [*shown, " to ".join(numbers), *names, *(f"default {it}" for it in preset)]))


def unlike_values(table, read):
    """What takes.rt and the table don't say both of what options take."""
    source = read(TAKES)
    constants = {**dict(re.findall(r"^static (\w+): \[&str; \d+\] = \[(.*?)\];", source, re.S | re.M)),
                 "HashName::NAMES": re.search(r"const NAMES.*?= &\[(.*?)\]", read(HASHES))[1]}
    parsers, sizes, shown, presets = (arms(source, function) for function in ("parser", "sizes", "names", "preset"))
    wrong = [f"{TAKES} has Takes::{name}, docs/commands.table hasn't" for name in sorted(set(shown) - set(table.values))]
    for name, value in table.values.items():
        parser = sizes.get(name) or parsers.get(name, "")
        told = spelled(texts(shown.get(name, ""), {}), range_of(parser), texts(parser, constants), texts(presets.get(name, ""), {}))
        owed = spelled(filter(None, [value.shown]), value.range, value.names, filter(None, [value.preset]))
        if told != owed or name not in shown:
            wrong.append(f"{TAKES} says of Takes::{name} '{told}', docs/commands.table '{owed}'")
    return wrong
