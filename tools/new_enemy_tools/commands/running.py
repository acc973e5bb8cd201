"""What commands share: their words, and how they end."""
import argparse
import os
import sys
import traceback
from typing import Any, Callable, NoReturn, TextIO

from new_enemy_tools.faults import ToolFault
from new_enemy_tools.shown import plain, secretless, tell, tell_all

# A fault of the tool itself, which a traceback tells.
BROKEN = 7


class Parser(argparse.ArgumentParser):
    """Keeps the paragraphs of a description, and ends with status 3 on a fault of usage, as the program does."""

    def __init__(self, **words: Any):
        words.setdefault("formatter_class", argparse.RawDescriptionHelpFormatter)
        super().__init__(**words)

    def error(self, message: str) -> NoReturn:
        self.print_usage(sys.stderr)
        self.exit(3, "%s: %s\n" % (self.prog, secretless(plain(message))))


def percent(text: str) -> float:
    """A share from 0 to 100; raises ArgumentTypeError of anything else."""
    try:
        value = float(text)
    except ValueError:
        value = -1
    if not 0 <= value <= 100:
        raise argparse.ArgumentTypeError("%r is no number from 0 to 100" % text)
    return value


def add_allowing(parser: argparse.ArgumentParser) -> None:
    parser.add_argument("--allow-unaudited", type=percent, default=0, metavar="PERCENT", help="status 0 in place of 6 where at most so many "
                        "percent of the checks, and of the time in gaps, were not looked at whole (0)")


def add_program(parser: argparse.ArgumentParser) -> None:
    """The auditor of a clone or a tarball stands above the folder of the tools; a Debian package puts it into the PATH."""
    above = os.path.join(os.path.dirname(os.path.dirname(os.path.dirname(os.path.dirname(os.path.abspath(__file__))))), "new_enemy")
    parser.add_argument("--program", default=above if os.path.isfile(above) else "new_enemy", metavar="PROGRAM",
                        help="the auditor (new_enemy in the folder above the tools, or of the PATH)")


def add_skew(parser: argparse.ArgumentParser) -> None:
    parser.add_argument("--skew", type=int, default=1000, metavar="MS", help="by how many milliseconds the clocks of the machines of joined logs may "
                        "be apart (1000)")


def refuse_below(parser: argparse.ArgumentParser, given: argparse.Namespace, **least: int) -> None:
    for name, value in least.items():
        said = getattr(given, name)
        if said is not None and said < value:
            parser.error("--%s is below %d" % (name.replace("_", "-"), value))


def refuse_twice(parser: argparse.ArgumentParser, logs: list[str]) -> None:
    if len({os.path.realpath(log) for log in logs}) < len(logs):
        parser.error("one LOG stands twice")


def text_of(fault: OSError) -> str:
    """The file of a device's fault, where it names one, and what failed."""
    return ": ".join(str(said) for said in (fault.filename, fault.strerror) if said)


def say(fault: ToolFault, stream: TextIO) -> None:
    """The fault's line, and what else is to be said of it."""
    tell(str(fault), stream)
    for detail in fault.details:
        tell("  " + detail, stream)


def ended(main: Callable[[list[str]], int], words: list[str]) -> int:
    """The status of a command; a fault that ends it is said."""
    try:
        return main(words)
    except ToolFault as fault:
        say(fault, sys.stderr)
        return fault.status


def run(main: Callable[[], int]) -> NoReturn:
    """Ends with the status of a tool's main, or with status 5 where a file fails: in silence where nobody reads standard output."""
    try:
        status = _status_of(main)
        if sys.stdout is not None:
            sys.stdout.flush()
    except OSError as fault:
        if not isinstance(fault, BrokenPipeError):
            tell("cannot %s: %s" % ("use %s" % fault.filename if fault.filename else "write", fault.strerror), sys.stderr)
        status = 5
    except Exception:
        # Python would end with the status of a finding.
        tell_all(traceback.format_exc(), sys.stderr)
        status = BROKEN
    sys.stderr.flush()
    # All is written, and to free what was read would take a tenth of the time.
    os._exit(status)


def _status_of(main: Callable[[], int]) -> int:
    """The status, also where the words of the command line end the tool."""
    try:
        return main()
    except SystemExit as end:
        return end.code if isinstance(end.code, int) else 0
