"""Manual pages, as text for man, of what commands take."""
import re
from datetime import datetime, timezone
from typing import Iterator

from packing.command_shapes import Shape

STATUSES = (("0", "clean, or done"), ("1", "dirty"), ("2", "input refused"), ("3", "usage"), ("4", "out of memory"), ("5", "a device failed"),
            ("6", "nothing was found, and not everything was looked at"))
STATUSES_OF_TOOLS = (("0", "done"), ("1", "what was looked for was found, as the command says"), ("2", "input refused"), ("3", "usage"),
                     ("5", "a file, a program or the network failed"))
STANDARD_INPUT = ("Joined input is a trace, a line that is --- and nothing else, and evidence. A trace or evidence that comes by a pipe is the "
                  "file /dev/stdin. Files are plain text in UTF-8, without a byte order mark and not compressed.")


def escaped(text: str) -> str:
    """A text that stands as it is, also where it begins with a dot and where somebody copies its hyphens."""
    text = text.replace("\\", "\\e").replace("-", "\\-")
    return "\\&" + text if text[:1] in (".", "'") else text


def paragraphs(text: str) -> Iterator[str]:
    """The lines of a text's paragraphs; those that are indented stay as they are."""
    for block in re.split(r"\n\s*\n", text.strip("\n")):
        is_kept = block.startswith("    ")
        yield ".PP"
        if is_kept:
            yield from (".RS 4", ".nf")
        for line in block.splitlines():
            yield escaped(line[4:] if is_kept else line.strip())
        if is_kept:
            yield from (".fi", ".RE")


def items(pairs: Iterator[tuple[str, str]]) -> Iterator[str]:
    for name, told in pairs:
        yield from (".TP", name, escaped(told or "no more is said"))


def _named(shape: Shape) -> Iterator[tuple[str, str]]:
    """The arguments and options of a command, set in type."""
    for argument in shape.arguments:
        yield "\\fI%s\\fR" % escaped(argument.name), argument.told
    for option in shape.options:
        names = ", ".join("\\fB%s\\fR" % escaped(name) for name in option.names)
        yield names + (" \\fI%s\\fR" % escaped(option.value) if option.value else ""), option.told


def synopsis(shape: Shape, before: str) -> Iterator[str]:
    """A line for each command that takes no further one."""
    name = (before + " " + shape.name).strip()
    if not before or not shape.below:
        yield from (".PP", "\\fB%s\\fR %s" % (escaped(name), escaped(re.sub("[<>]", "", shape.usage))))
    for child in shape.below:
        yield from synopsis(child, name)


def described(shape: Shape, before: str) -> Iterator[str]:
    """The section of a command, with those below it."""
    name = before + " " + shape.name
    yield ".SS " + escaped(name)
    if shape.told:
        yield escaped(shape.told[0].upper() + shape.told[1:] + ".")
    if shape.text.strip() and shape.text.strip(". ") != shape.told:
        yield from paragraphs(shape.text)
    yield from items(_named(shape))
    for child in shape.below:
        yield from described(child, name)


def page(shape: Shape, version: str, seconds: int, about: str, statuses: tuple[tuple[str, str], ...], see: tuple[str, ...]) -> str:
    """The page of a command in section 1; `seconds` is the time of the commit that it is of."""
    day = datetime.fromtimestamp(seconds, timezone.utc).strftime("%Y-%m-%d")
    lines = ['.TH "%s" "1" "%s" "new_enemy %s" "new_enemy"' % (escaped(shape.name.upper()), day, version), ".nh", ".ad l",
             ".SH NAME", "%s \\- %s" % (escaped(shape.name), escaped(shape.told[0].lower() + shape.told[1:])),
             ".SH SYNOPSIS", *synopsis(shape, ""), ".SH DESCRIPTION", *paragraphs(about)]
    if shape.text.strip():
        lines += paragraphs(shape.text)
    lines += items(_named(shape))
    lines += [".SH COMMANDS", *(line for child in shape.below for line in described(child, shape.name))]
    lines += [".SH EXIT STATUS", *items(iter(statuses))]
    lines += [".SH SEE ALSO", escaped(", ".join(see))]
    return "".join(line + "\n" for line in lines)


ABOUT_PROGRAM = """An auditor for authorization services that work as Zanzibar does. It reads what a service recorded, the rules, the changes of \
access and the replies, and says line by line which replies ignored a newer change or are wrong. The program is proved; what a clean verdict \
means is said in README.md.

""" + STANDARD_INPUT + """

Examples:

    new_enemy audit trace.jsonl --make
    new_enemy make trace.jsonl > evidence.jsonl
    new_enemy audit trace.jsonl evidence.jsonl --workers 4
    new_enemy history trace.jsonl doc:plan#viewer@20
    tail -n +1 -F trace.jsonl | new_enemy follow --heartbeat
    new_enemy follow monday.jsonl --carry monday.carry
    new_enemy follow tuesday.jsonl --from monday.carry --carry tuesday.carry"""
ABOUT_TOOLS = """Tools in Python, tested and not proved: they make traces of the logs of a service, and say what the findings of an audit mean. \
Their own texts call the command ne.

Examples:

    NAME import openfga --model model.json --from-empty log.jsonl
    new_enemy audit trace.jsonl --make > report.txt
    NAME report --form text --ids ids.jsonl trace.jsonl report.txt
    NAME explain --ids ids.jsonl trace.jsonl 13"""


def program_page(shape: Shape, version: str, seconds: int, tools: str, documents: str) -> str:
    return page(shape, version, seconds, ABOUT_PROGRAM, STATUSES, ("%s(1)" % tools, "the documents in %s" % documents))


def tools_page(shape: Shape, version: str, seconds: int, documents: str) -> str:
    return page(shape, version, seconds, ABOUT_TOOLS.replace("NAME", shape.name), STATUSES_OF_TOOLS,
                ("new_enemy(1)", "the documents in %s" % documents))
