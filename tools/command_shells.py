"""The completions for bash, zsh and fish, of docs/commands.table."""
import re

BASH = """\
# bash completion for luks(1), made by tools/commands

_luks() {
    # each command with its options
    local -A options=(
@options@
        [help]="--help"
    )
    local at=$COMP_CWORD word=${COMP_WORDS[COMP_CWORD]} begun= words= value=
    # of --slot=3 bash makes three words, --slot and = and 3, and likewise of what has a colon, as aes-cbc-essiv:sha256
    if [[ $word == : ]]; then
        word=
    elif [[ ${COMP_WORDS[at - 1]} == : ]]; then
        at=$((at - 1))
    fi
    if [[ ${COMP_WORDS[at]} == : ]]; then
        at=$((at - 1))
        begun=${COMP_WORDS[at]}:
    fi
    if [[ $word == = ]]; then
        word=
    elif [[ ${COMP_WORDS[at - 1]} == = ]] && ((at > 2)); then
        at=$((at - 1))
    fi
    local before=${COMP_WORDS[at - 1]}
    # these options take no file, but one of these words, if some are known
    case $before in
@values@
    esac
    if ((COMP_CWORD == 1)); then
        words="${!options[*]} --help --version"
    elif [[ ${COMP_WORDS[1]} == help ]]; then
        words="${!options[*]}"
    elif [[ $value == 1 ]]; then
        compopt +o default 2>/dev/null
    elif [[ $word == -* ]]; then
        words=${options[${COMP_WORDS[1]}]}
    elif [[ ${COMP_WORDS[1]} == explain ]]; then
        # the program lists its faults, each at the beginning of a line; no file is named
        compopt +o default 2>/dev/null
        words=$("${COMP_WORDS[0]}" explain 2>/dev/null | cut -d' ' -f1)
    fi
    # if nothing is offered, -o default names files; the text before a colon is there already
    mapfile -t COMPREPLY < <(compgen -W "$words" -- "$begun$word")
    COMPREPLY=("${COMPREPLY[@]#"$begun"}")
}

complete -o default -F _luks luks
"""

ZSH = """\
#compdef luks

# zsh completion for luks(1), made by tools/commands

_luks() {
  local -a commands help
  local context state state_descr line
  typeset -A opt_args
  commands=(
@commands@
    "help:print help"
  )
  help=('(- *)'{-h,--help}'[print help]')

  _arguments -C $help '(- *)'{-V,--version}'[print version]' '1:command:->command' '*::argument:->argument'
  case $state in
    command)
      _describe command commands
      ;;
    argument)
      case $words[1] in
@branches@
        help)
          _describe command commands
          ;;
      esac
      ;;
  esac
}

_luks "$@"
"""

FISH = """\
# fish completion for luks(1), made by tools/commands

complete -c luks -f
complete -c luks -s h -l help -d 'Print help'
complete -c luks -n __fish_use_subcommand -s V -l version -d 'Print version'

@commands@

complete -c luks -n __fish_use_subcommand -a help -d 'Print help'
complete -c luks -n '__fish_seen_subcommand_from help' -a '@names@'
"""


def put_in(text, **parts):
    for name, lines in parts.items():
        text = text.replace(f"@{name}@", "\n".join(lines))
    return text


def doubly_quoted(text):
    return '"' + re.sub(r'(["\\$`])', r"\\\1", text) + '"'


def quoted(text):
    """The text as one word of zsh or fish."""
    return doubly_quoted(text) if "'" in text else f"'{text}'"


def begun_small(text):
    """The text with a small first letter, where that begins a word, and no name as LUKS2 or MiB."""
    return text[0].lower() + text[1:] if re.match(r"[A-Z][a-z]*[ ,]", text) else text


def bash_values(table):
    """The options that take no file, by the words that are offered behind them."""
    rows = {}
    for option in table.options.values():
        if option.value.shown and not option.value.is_file:
            rows.setdefault(option.value.offers, []).append(option.name)
    for offers, names in rows.items():
        words = re.sub(r"(\d+)\.\.(\d+)", r"$(echo {\1..\2})", offers)
        yield f"        {' | '.join(dict.fromkeys(names))}) value=1{f' words={chr(34)}{words}{chr(34)}' if words else ''} ;;"


def bash(table, _):
    options = [f'        [{command.name}]="{" ".join([*(option.name for option in command.options), "--help"])}"' for command in table.commands]
    return put_in(BASH, options=options, values=bash_values(table))


def zsh_option(command, option):
    others = [it.name for it in command.rivals(option) if it is not option]
    value, told = option.value, begun_small(command.said_of(option))
    offers = re.sub(r"(\d+)\.\.(\d+)", r"{\1..\2}", value.offers).replace(":", "\\:")
    action = "_files" if value.is_file else f"({offers})" if offers else ""
    excluded = f"({' '.join(others)})" if others else ""
    return quoted(excluded + (f"{option.name}=[{told}]:{value.word}:{action}" if value.shown else f"{option.name}[{told}]"))


def zsh_operand(number, operand):
    if operand.word == "fault":
        return f"""'{number}:fault:(${{(f)"$(luks explain 2>/dev/null | cut -d" " -f1)"}})'"""
    return quoted(f"{number}:{operand.word}:{'_files' if operand.is_file else ''}")


def zsh_branch(command):
    words = ["$help", *(zsh_option(command, option) for option in command.options), *(zsh_operand(number, it) for number, it in enumerate(command.operands, 1))]
    return [f"        {command.name})", f"          _arguments {words[0]} " + " \\\n            ".join(words[1:]), "          ;;"]


def zsh(table, _):
    commands = ["    " + doubly_quoted(f"{command.name}:{begun_small(command.line)}") for command in table.commands]
    return put_in(ZSH, commands=commands, branches=[line for command in table.commands for line in zsh_branch(command)])


def fish_option(command, option):
    value = option.value
    offers = re.sub(r"^(\d+)\.\.(\d+)$", r"(seq \1 \2)", value.offers)
    takes = "-r -F " if value.is_file else f"-x -a '{offers}' " if offers else "-x " if value.shown else ""
    return f"complete -c luks -n '__fish_seen_subcommand_from {command.name}' -l {option.name.removeprefix('--')} {takes}-d {quoted(command.said_of(option))}"


def fish_command(command):
    faults = """ -a '(luks explain 2>/dev/null | cut -d" " -f1)'"""
    operands = " -F" if any(it.is_file for it in command.operands) else faults
    return ["", f"complete -c luks -n __fish_use_subcommand -a {command.name} -d {quoted(command.line)}",
            f"complete -c luks -n '__fish_seen_subcommand_from {command.name}'{operands}", *(fish_option(command, option) for option in command.options)]


def fish(table, _):
    return put_in(FISH, commands=[line for command in table.commands for line in fish_command(command)][1:], names=[" ".join(it.name for it in table.commands)])


MAKERS = {"completions/luks.bash": bash, "completions/_luks": zsh, "completions/luks.fish": fish}
