"""The manual page pced(1) in mdoc(7): what `pced help` prints, and around it the text of pced.1.in."""
import os
import re
import textwrap
import time

FRAME = os.path.join(os.path.dirname(os.path.realpath(__file__)), "pced.1.in")


def plain(text):
    """A text as mdoc reads it."""
    text = text.replace("\\", "\\e").replace("--", "\\-\\-")
    return f"\\&{text}" if text.startswith((".", "'")) else text


def marked(form):
    """A form of the help in macros: -x and --long flags, <VALUE>, [LINE].., words."""
    made = []
    for part in form.replace(",", " ,").split():
        if found := re.fullmatch(r"\[(\w+)\](\.*)", part):
            made.append(f"Op Ar {found[1]} ..." if found[2] else f"Op Ar {found[1]}")
        elif found := re.fullmatch(r"<([^>]+)>(\.*)", part):
            made.append(f"Ar {found[1]} ..." if found[2] else f"Ar {found[1]}")
        elif part.startswith("-"):
            made.append("Fl " + part[1:].replace("-", "\\-", 1) if part.startswith("--") else f"Fl {part[1:]}")
        else:
            made.append(part)
    return " ".join(made)


def usage(command):
    """A command with its arguments: those of its usage line, and each option that the line leaves out."""
    yield ".Nm"
    yield f".Cm {command.name}"
    needed = command.usage.replace("[OPTIONS]", "")
    for option in command.options:
        form = option.form.split(", ")[-1]
        if form.split()[0] == "--help" or form in needed:
            continue
        repeated = " ..." if option.form.startswith("--settle-for") else ""
        yield f".Op {marked(form)}{repeated}"
    for pair in re.findall(r"--\S+ <[^>]+>", needed):
        yield f".{marked(pair)}"
    for argument in command.arguments:
        yield f".{marked(argument.form)}"


def synopsis(program):
    lines = []
    for command in program.commands:
        lines += usage(command)
    return lines


def rows(words):
    """A list of flags or arguments."""
    if not words:
        return []
    lines = [".Bl -tag -width Ds"]
    for word in words:
        lines += [f".It {marked(word.form)}", sentence(word.text)]
    return [*lines, ".El"]


def sentence(text):
    """A text with its full stop, in lines as mdoc wants them."""
    whole = text if text.endswith((".", "]")) else f"{text}."
    return "\n".join(plain(line) for line in textwrap.wrap(whole, 76, break_on_hyphens=False))


def shown(lines):
    """Lines of a help as they stand."""
    return [".Bd -literal", *(plain(line) for line in lines), ".Ed"] if lines else []


def commands(program):
    lines = []
    for command in program.commands:
        lines += [f".Ss pced {command.name}", sentence(command.about)]
        lines += rows([*command.arguments, *(option for option in command.options if "--help" not in option.form)])
        lines += shown(command.after)
    return lines


def day(seconds):
    """A day as mdoc writes it."""
    moment = time.gmtime(seconds)
    return f"{time.strftime('%B', moment)} {moment.tm_mday}, {moment.tm_year}"


def text(program, seconds, place):
    """The page of an installation, of this day."""
    about = program.about[0].lower() + program.about[1:]
    made = {"DATE": [day(seconds)], "ABOUT": [plain(about)], "SYNOPSIS": synopsis(program), "OPTIONS": rows(program.options),
            "COMMANDS": commands(program), "DOCUMENTS": [place.documents], "ETC": [place.etc]}
    with open(FRAME) as file:
        page = file.read()
    for name, lines in made.items():
        page = page.replace(f"@{name}@", "\n".join(lines))
    return page
