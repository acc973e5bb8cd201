"""What a command takes, in one form: of the tools by their parsers, and of the program by its help texts."""
import argparse
import importlib
import re
import subprocess
from contextlib import contextmanager
from typing import Iterator, NamedTuple, NoReturn, Optional, Union

from new_enemy_tools.commands import ne
from new_enemy_tools.commands.running import Parser
from packing.package_faults import PackageFault


class Option(NamedTuple):
    """Its names, the word for its value where it takes one, what that may be where it is one of few, and what it does."""

    names: tuple[str, ...]
    value: Optional[str]
    choices: tuple[str, ...]
    told: str


class Argument(NamedTuple):
    name: str
    told: str


class Shape(NamedTuple):
    """A command: its name, what it does in a line, the words behind its name, its text, and what it takes."""

    name: str
    told: str
    usage: str
    text: str
    options: tuple[Option, ...]
    arguments: tuple[Argument, ...]
    below: tuple["Shape", ...]


class Stopped(Exception):
    """A command that came as far as its words."""

    def __init__(self, parser: argparse.ArgumentParser):
        super().__init__()
        self.parser = parser


@contextmanager
def stopped_at_words() -> Iterator[None]:
    """Within it a command hands out its parser in place of reading words."""
    def stop(parser: argparse.ArgumentParser, _: object = None) -> NoReturn:
        raise Stopped(parser)

    # In front of the one that Parser inherits.
    setattr(Parser, "parse_args", stop)
    try:
        yield
    finally:
        delattr(Parser, "parse_args")


def parser_of(module: str) -> argparse.ArgumentParser:
    with stopped_at_words():
        try:
            importlib.import_module("new_enemy_tools." + module).main([])
        except Stopped as stopped:
            return stopped.parser
    raise ValueError("%s reads no words" % module)


def _option(parser: argparse.ArgumentParser, action: argparse.Action) -> Option:
    choices = tuple(str(choice) for choice in action.choices or ())
    value = None if action.nargs == 0 else str(action.metavar or ("|".join(choices) if choices else action.dest.upper()))
    return Option(tuple(action.option_strings), value, choices, (action.help or "") % {"default": action.default, "prog": parser.prog})


# How an argument is written, by how often it may stand.
COUNTS: dict[Union[int, str, None], str] = {None: "%s", "?": "[%s]", "+": "%s ..", "*": "[%s ..]", argparse.REMAINDER: "[%s ..]"}


def _usage(parser: argparse.ArgumentParser) -> str:
    """The words behind a command's name, which argparse writes differently from one Python to the next."""
    words = []
    for action in parser._actions:
        if isinstance(action, argparse._SubParsersAction):
            words.append("COMMAND ..")
        elif action.option_strings:
            if action.required:
                words.append("%s %s" % (action.option_strings[-1], action.metavar))
        else:
            words.append(COUNTS[action.nargs] % (action.metavar or action.dest))
    return " ".join(["[OPTION ..]", *words])


def shape_of(name: str, told: str, parser: argparse.ArgumentParser) -> Shape:
    options, arguments, below = [], [], []
    for action in parser._actions:
        if isinstance(action, argparse._SubParsersAction):
            helps = {choice.dest: choice.help or "" for choice in action._choices_actions}
            below += [shape_of(each, helps[each], child) for each, child in action.choices.items()]
        elif action.option_strings and action.help != argparse.SUPPRESS:
            options.append(_option(parser, action))
        elif not action.option_strings:
            arguments.append(Argument(str(action.metavar or action.dest), action.help or ""))
    return Shape(name, told, _usage(parser), parser.description or "", tuple(options), tuple(arguments), tuple(below))


def tools_shape(name: str) -> Shape:
    """All commands of the tools, below the name by which they are called."""
    top = ne.parser()
    below = [shape_of(each, command.does, parser_of(command.module)) for each, command in ne.COMMANDS.items()]
    options = tuple(_option(top, action) for action in top._actions if action.option_strings)
    return Shape(name, "the tools around the auditor new_enemy", "COMMAND ..", "", options, (), tuple(below))


# A line of the sections that clap writes: a name or names, perhaps a value, and what it is.
LISTED = re.compile(r"  +(?P<names>-[^ ]+(?:, --[^ ]+)?|[^- ]+)(?: <(?P<value>[^>]+)>)?(?:  +(?P<told>.*))?")
SECTIONS = ("Commands:", "Arguments:", "Options:")


def _sections(text: str) -> dict[str, list[re.Match[str]]]:
    """The lines of each section of a help text."""
    found: dict[str, list[re.Match[str]]] = {section: [] for section in SECTIONS}
    for section in SECTIONS:
        _, there, behind = text.partition("\n%s\n" % section)
        for line in behind.split("\n\n")[0].splitlines() if there else []:
            match = LISTED.fullmatch(line)
            if match is None:
                raise PackageFault("a help text of the program has a line that is not understood: %s" % line)
            found[section].append(match)
    return found


def _program_option(match: re.Match[str]) -> Option:
    return Option(tuple(match["names"].split(", ")), match["value"], (), match["told"] or "")


def program_shape(program: str, *words: str) -> Shape:
    """A command of the program, by what it prints on --help."""
    run = subprocess.run([program, *words, "--help"], stdin=subprocess.DEVNULL, capture_output=True, text=True, timeout=60)
    if run.returncode or "\nOptions:\n" not in run.stdout:
        raise PackageFault("the program prints no help here, and ends with status %d: %s" % (run.returncode, run.stderr.strip()))
    about, _, rest = run.stdout.partition("\n\nUsage: ")
    sections = _sections(run.stdout)
    behind = rest.split("\nOptions:\n")[1].partition("\n\n")[2]
    below = [program_shape(program, *words, match["names"]) for match in sections["Commands:"] if match["names"] != "help"]
    arguments = [Argument(match["names"].strip("[]<>") if match["value"] is None else match["value"], match["told"] or "")
                 for match in sections["Arguments:"]]
    usage = rest.split("\n")[0].removeprefix("new_enemy").strip().removeprefix(" ".join(words)).strip()
    return Shape(words[-1] if words else "new_enemy", about.strip(), usage, behind.strip(),
                 tuple(map(_program_option, sections["Options:"])), tuple(arguments), tuple(below))
