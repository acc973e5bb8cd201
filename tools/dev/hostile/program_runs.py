"""Runs of the program, and what is wrong with an answer by docs/FORMATS.md."""
import re
import subprocess
from typing import NamedTuple, Optional

from new_enemy_tools.findings import ReportFault, read_report

END_SECONDS = 60
NUMBER = r"(?:0|[1-9][0-9]*)"
TEXT = r"bad text, (?:namespace|object id|relation|user) at %s" % NUMBER
EITHER = ("too long", "not JSON", "wrong shape", TEXT)
TRACE = EITHER + (
    "unknown kind", r"bad zookie, (?:length|prefix|digit at %s|kind)" % NUMBER,
    "bad namespace, (?:shape|name|repeated namespace|repeated relation|undeclared relation|too deep|too many|relations changed|stratum changed)",
    "namespace after other lines", "undeclared relation",
    "strata, relation %s of namespace %s reads relation %s of namespace %s(?: strictly)?" % (4 * (NUMBER,)),
    "commit not later than %s" % NUMBER, "tuple touched twice, place %s" % NUMBER, "too many changes", "repeated version")
EVIDENCE = EITHER + ("unknown step", "stray line", "repeated line", "too many facts")
# The line on standard error, by status.
TOLD = {
    2: "trace line {0}: (?:{1})|evidence line {0}: (?:{2})|joined input refused".format(NUMBER, "|".join(TRACE), "|".join(EVIDENCE)),
    3: "usage: .*",
    4: "out of memory",
    5: "read fault|write fault after {0} bytes|(?:trace|evidence) line {0}: read fault".format(NUMBER),
}


class Answer(NamedTuple):
    """A status, or the negative number of a signal, and what was written."""
    status: int
    out: bytes
    err: bytes


def run_file(words: list[str], given, **how) -> Answer:
    """A run with a file for standard input; raises TimeoutExpired where it does not end."""
    run = subprocess.run(words, stdin=given, capture_output=True, timeout=END_SECONDS, **how)
    return Answer(run.returncode, run.stdout, run.stderr)


def wrong_with(answer: Answer) -> Optional[str]:
    """What is wrong with an answer; None where nothing is."""
    if answer.status < 0:
        return "ended by signal %d" % -answer.status
    if answer.status not in (0, 1) and answer.status not in TOLD:
        return "status %d" % answer.status
    out, err = answer.out.decode("utf-8", "replace"), answer.err.decode("utf-8", "replace")
    if answer.status in TOLD:
        if out:
            return "status %d with %r on standard output" % (answer.status, out[:200])
        if not re.fullmatch("(?:%s)\n" % TOLD[answer.status], err):
            return "status %d with %r on standard error" % (answer.status, err[:200])
        return None
    if err:
        return "status %d with %r on standard error" % (answer.status, err[:200])
    try:
        report = read_report(out)
    except ReportFault as fault:
        return "status %d, and %s" % (answer.status, fault)
    if not out.endswith("\n") or (report.verdict == "clean") != (answer.status == 0):
        return "status %d with %r at the end of standard output" % (answer.status, out[-40:])
    return None
