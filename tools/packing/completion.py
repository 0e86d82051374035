"""The completion of bash for the words of `pced help`: commands, flags, values that are known, files, an operator's lines."""
from . import words

FILES = ("--te", "--control")  # flags whose value is a path

HEAD = """\
# Completes the words of pced(1) in bash. Made from what `pced help` prints.
_pced() {
    local word=${COMP_WORDS[COMP_CWORD]} before=${COMP_WORDS[COMP_CWORD - 1]} command=${COMP_WORDS[1]} candidates=
    COMPREPLY=()
    if [ "$COMP_CWORD" -eq 1 ]; then
        mapfile -t COMPREPLY < <(compgen -W "@COMMANDS@" -- "$word")
        return
    fi
    case $command:$before in
"""

TAIL = """\
    *) ;;
    esac
    case $word in -*) mapfile -t COMPREPLY < <(compgen -W "$candidates" -- "$word") ;; esac
}
complete -o bashdefault -o filenames -F _pced pced
"""


def values(command):
    """The arms for flags that take a value: paths, words that the help lists, or nothing that is known."""
    for option in command.options:
        if " <" not in option.form:
            continue
        flag = next(part for part in option.form.replace(",", " ").split() if part.startswith("--"))
        listed = [part.strip() for part in option.text.partition("[")[0].partition(": ")[2].replace(" or ", ", ").split(",")]
        if flag in FILES:
            yield flag, 'compgen -f -- "$word"'
        elif len(listed) > 2 and all(part.isalpha() for part in listed):
            yield flag, f'compgen -W "{" ".join(listed)}" -- "$word"'
        else:
            yield flag, None


def arms(command):
    for flag, made in values(command):
        fill = f"mapfile -t COMPREPLY < <({made}); " if made else ""
        yield f"    {command.name}:{flag}) {fill}return ;;\n"


def rest(command, lines):
    """What stands behind a command, where no flag in front wants a value."""
    forms = [argument.form for argument in command.arguments]
    yield f"    {command.name})\n        candidates=\"{' '.join(words.flags(command.options))}\"\n"
    if forms and forms[0] == "<PATH>" and len(forms) > 1:
        yield "        local place socket=\n"
        yield "        for ((place = 2; place < COMP_CWORD; place++)); do [[ ${COMP_WORDS[place]} == -* ]] || socket=yes; done\n"
        yield f"        if [ -n \"$socket\" ]; then mapfile -t COMPREPLY < <(compgen -W \"{' '.join(lines)}\" -- \"$word\")\n"
        yield "        else mapfile -t COMPREPLY < <(compgen -f -- \"$word\"); fi\n"
    elif forms:
        yield "        mapfile -t COMPREPLY < <(compgen -f -- \"$word\")\n"
    yield "        ;;\n"


def text(program):
    """The completion, for the words of a program."""
    lines = [word for command in program.commands if command.name in ("serve", "tell") for word in words.line_words(command.after)]
    names = [*(command.name for command in program.commands), "help", *words.flags(program.options)]
    made = [HEAD.replace("@COMMANDS@", " ".join(names))]
    for command in program.commands:
        made += arms(command)
    made.append("    help:help) mapfile -t COMPREPLY < <(compgen -W \"" + " ".join(names[:-3]) + "\" -- \"$word\"); return ;;\n")
    made.append("    *) ;;\n    esac\n    case $command in\n")
    for command in program.commands:
        made += rest(command, lines)
    return "".join(made) + TAIL
