"""One command for all that users call: ne COMMAND WORD .."""
import importlib
import sys
from argparse import SUPPRESS
from typing import NamedTuple, NoReturn

from new_enemy_tools import VERSION
from new_enemy_tools.commands.running import Parser, ended, run


class Command(NamedTuple):
    """The module of a command within the package, and what it does."""

    module: str
    does: str


COMMANDS = {
    "import": Command("commands.import_logs", "makes a trace of the logs of a service"),
    "lint": Command("commands.lint", "lists what is odd in a trace"),
    "make-evidence": Command("commands.make_evidence", "finds evidence for a trace, by a plain search"),
    "watch": Command("commands.watch", "runs the auditor, and says on a terminal how far it has come"),
    "parts": Command("commands.parts", "audits a trace that is too large for one process"),
    "window": Command("commands.window", "audits a log stretch by stretch, each behind what the one before left"),
    "day": Command("commands.day", "imports, audits and reports a day's logs behind those of the days before"),
    "monitor": Command("commands.monitor", "audits a recorder's log while it grows, and tells what is found at once"),
    "forget": Command("commands.forget", "takes away what old days keep of users and of what they asked"),
    "report": Command("commands.report", "says which findings of an audit mattered, as a page, a text or rows"),
    "explain": Command("commands.explain", "says why an entry is allowed or denied, or why a trace is refused"),
    "draw": Command("commands.draw", "draws what the rules say of a goal, and what the service said"),
    "join": Command("commands.join", "joins the logs of several recorders of one service into one"),
    "record": Command("recording.command", "records what a service decides, as a proxy in front of it"),
    "selftest": Command("commands.selftest", "tries whether the recorder fits a service of yours, in a scratch place of it"),
}


def parser() -> Parser:
    listed = "\n".join("  %-14s %s" % (name, command.does) for name, command in COMMANDS.items())
    made = Parser(prog="ne", usage="ne [-h] COMMAND ...", description="The tools around the auditor.\n\ncommands:\n%s" % listed,
                  epilog="`ne COMMAND --help` says what a command takes.")
    made.add_argument("--version", action="version", version="new_enemy tools " + VERSION, help="print the version and exit")
    made.add_argument("command", metavar="COMMAND", choices=COMMANDS, help=SUPPRESS)
    return made


def main(words: list[str]) -> int:
    name = words[0] if words and words[0] in COMMANDS else parser().parse_args(words[:1]).command
    command = importlib.import_module("new_enemy_tools." + COMMANDS[name].module)
    return ended(command.main, words[1:])


def called() -> NoReturn:
    """What tools/ne, and the command that pip installs, do."""
    run(lambda: main(sys.argv[1:]))
