"""Runs the auditor, and says on a terminal how far it has come: ne watch PROGRAM WORD ..

From the third second on one line on standard error says how many bytes of which file are read, of how many, and about how many lines a
second that is. Where the program waits for what is typed, and nothing was, it says that. Where standard error is no terminal, the
program runs as if it had been called alone. Its answer and its status are the same either way.
"""
import argparse
import os
import signal
import sys

from new_enemy_tools.commands.running import Parser
from new_enemy_tools.faults import DeviceFault
from new_enemy_tools.watching import watched


def ended_by(number: int) -> int:
    """Ends as the program was ended, by a signal."""
    signal.signal(number, signal.SIG_DFL)
    os.kill(os.getpid(), number)
    # The caller holds it back.
    return 128 + number


def main(words: list[str]) -> int:
    parser = Parser(prog="ne watch", description=__doc__)
    parser.add_argument("program", metavar="PROGRAM", help="the auditor, new_enemy")
    parser.add_argument("words", metavar="WORD", nargs=argparse.REMAINDER, help="its command and what that takes")
    given = parser.parse_args(words)
    command = [given.program, *given.words]
    try:
        if not os.path.exists("/proc/self/fdinfo") or not sys.stderr.isatty():
            signal.signal(signal.SIGPIPE, signal.SIG_DFL)
            os.execvp(given.program, command)
        status = watched(command)
    except OSError as fault:
        raise DeviceFault("cannot run %s: %s" % (given.program, fault.strerror)) from None
    return ended_by(-status) if status < 0 else status
