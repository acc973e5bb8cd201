"""A run of `new_enemy follow` over the own lines of a window, behind the carry of the window before, and what it told.

A window of more bytes than one run may read takes several, each behind the carry of the one before.
"""
import os
import re
import subprocess
import tempfile
from contextlib import suppress
from typing import IO, Callable, Iterator, NamedTuple, Optional

from new_enemy_tools import limits
from new_enemy_tools.faults import DeviceFault, WindowFault, naming
from new_enemy_tools.findings import ON_TOKENS, Finding, finding_of
from new_enemy_tools.parting.blocks import Blocks
from new_enemy_tools.trace_lines import COMMIT_START
from new_enemy_tools.windowing.own_lines import Own
from new_enemy_tools.windowing.state import State

# A run reads at most so many bytes, but for its last line.
STRETCH = limits.INPUT_BYTES // 2
BELOW = re.compile(r"line ([0-9]+): not audited, below ([0-9]+)")
SUM = re.compile(r"(not audited|open|entries|findings) ([0-9]+)")
REFUSED = re.compile(r"trace line ([1-9][0-9]*): (.+)\n")
NO_CARRY = "no carry:"
CLOSING = COMMIT_START + b"%d}\n" % limits.NUMBER
VERDICT = {"clean": 0, "dirty": 1, "incomplete": 6}


class Refused(Exception):
    """The program's own refusal, and its status."""

    def __init__(self, status: int, error: str):
        super().__init__(error)
        self.status, self.error = status, error


class RunReport(NamedTuple):
    """What runs told, by the lines of the log: in the order in which they told it."""

    findings: list[Finding]
    # of each entry that asks below the base this base
    below: dict[int, int]
    open: int
    entries: int

    def plus(self, other: "RunReport") -> "RunReport":
        return RunReport(self.findings + other.findings, {**self.below, **other.below}, other.open, self.entries + other.entries)


def run_report_of(output: str, status: int, is_whole: bool = False) -> RunReport:
    """Reads what a run wrote, or one over a whole log, which begins with no carry and leaves none; raises WindowFault where that is something else."""
    findings: list[Finding] = []
    below: dict[int, int] = {}
    sums: dict[str, int] = {}
    *lines, verdict = output.splitlines() or [""]
    for line in lines:
        one, under, total = finding_of(line), BELOW.fullmatch(line), SUM.fullmatch(line)
        if one is not None:
            findings.append(one)
        elif under is not None:
            below[int(under[1])] = int(under[2])
        elif total is not None:
            sums[total[1]] = int(total[2])
        else:
            raise WindowFault("the program wrote %r, which is no line of a run" % line[:200])
    wanted = {"entries", "findings"} if is_whole else {"entries", "findings", "not audited", "open"}
    if VERDICT.get(verdict.partition("verdict ")[2]) != status or set(sums) != wanted or sums["findings"] != len(findings) \
            or sums.get("not audited", 0) != len(below):
        raise WindowFault("what the program wrote is not the whole of a run, and it ended with %d" % status)
    return RunReport(findings, below, sums.get("open", 0), sums["entries"])


class Follow:
    """Runs over the own lines of a window, with their carries in a folder."""

    def __init__(self, program: str, folder: str, own: Own, old: State, oldest: int):
        """Behind a state; the base of a carry moves up to a timestamp."""
        self.program, self.folder, self.own, self.oldest = program, folder, own, oldest
        self.lines, self.runs = old.lines, 0
        # so many bytes are still to be read
        self.left = own.size
        # where the last run ended, and before the first the state
        self.carry: Optional[str] = None
        if old.carry is not None:
            self.carry = self._next()
            with naming(self.carry), open(self.carry, "wb") as file:
                file.write(old.carry.data)

    def _next(self) -> str:
        self.runs += 1
        return os.path.join(self.folder, "carry%d" % self.runs)

    def all(self, step: Callable[[int], None]) -> RunReport:
        """What is told of all own lines; `carry` is that behind them then. `step` is told how many bytes were read."""
        found: Optional[RunReport] = None
        blocks = self._blocks(step)
        block: Optional[bytes] = next(blocks, b"")
        while block is not None:
            told, block = self._run(block, blocks, self._next())
            found = told if found is None else found.plus(told)
        assert found is not None
        return found

    def final(self, step: Callable[[int], None]) -> RunReport:
        """The same where no more lines come, and so nothing waits any longer."""
        if self.carry is None and self.own.size <= STRETCH:
            blocks = self._blocks(step)
            return self._run(next(blocks, b""), blocks, None)[0]
        told = self.all(step)
        if not told.open:
            return told
        # A commit behind all snapshots settles what waits; where a snapshot is as great as a number can be, it is no commit of the log.
        closing = self.lines + 1
        rest = self._run(CLOSING, iter(()), None)[0]
        return told.plus(rest._replace(findings=[one for one in rest.findings if (one.finding, one.related) != ("F4", closing)]))

    def _blocks(self, step: Callable[[int], None]) -> Iterator[bytes]:
        read = 0
        with self.own.open() as file:
            blocks = Blocks(file)
            for block in blocks:
                yield block
                read += len(block)
                step(read)
            if blocks.too_long:
                yield blocks.too_long

    def _run(self, block: bytes, blocks: Iterator[bytes], out: Optional[str]) -> tuple[RunReport, Optional[bytes]]:
        """What a run tells of a block and of those behind it, as many as a run may read; and the first that it was not given, if any."""
        before, given = self.lines, 0
        more: Optional[bytes] = block
        is_read = True
        with tempfile.TemporaryFile() as output, tempfile.TemporaryFile() as error:
            with self._begun(out, output, error) as process:
                assert process.stdin is not None
                try:
                    while more is not None and given <= STRETCH:
                        process.stdin.write(more)
                        given, self.lines, more = given + len(more), self.lines + more.count(b"\n"), next(blocks, None)
                    process.stdin.close()
                except BrokenPipeError:
                    is_read = False
                    # Else what was not written would be tried again.
                    with suppress(BrokenPipeError):
                        process.stdin.close()
            told = self._report_of(process.returncode, _text_of(output), _text_of(error), before, self.carry is None and out is None)
        if not is_read:
            raise WindowFault("%s ended before it had read all lines" % self.program)
        self.carry, self.left = out, self.left - given
        return told, more

    def _begun(self, out: Optional[str], output: IO[bytes], error: IO[bytes]) -> "subprocess.Popen[bytes]":
        words = [self.program, "follow", *(["--from", self.carry] if self.carry is not None else []), *(["--carry", out] if out is not None else [])]
        if out is not None and self.left <= STRETCH:
            # Entries of the same window may ask for what those of later ones may not.
            words += ["--oldest-snapshot", str(self.oldest)]
        try:
            return subprocess.Popen(words, stdin=subprocess.PIPE, stdout=output, stderr=error)
        except OSError as fault:
            raise DeviceFault("cannot run %s: %s" % (self.program, fault.strerror)) from None

    def _report_of(self, status: int, output: str, error: str, before: int, is_whole: bool) -> RunReport:
        if status < 0:
            raise WindowFault("%s was killed by signal %d" % (self.program, -status))
        if error.startswith(NO_CARRY):
            raise WindowFault("%s: nothing can be handed on to the next window; give these lines together with those behind them" % error.strip())
        if status not in VERDICT.values():
            found = REFUSED.fullmatch(error)
            raise Refused(status, error if found is None else "trace line %d: %s\n" % (before + int(found[1]), found[2]))
        return run_report_of(output, status, is_whole)


def report_of_waiting(program: str, state: State) -> RunReport:
    """What would have been told already of the entries that wait in a state, had it been a run that left it: what their lines let tell, and the
    commits behind them."""
    rows = state.untold
    if not any(row.kind == "h" for row in rows):
        return RunReport([], {}, 0, 0)
    with tempfile.NamedTemporaryFile() as file:
        file.writelines(row.raw + b"\n" for row in rows)
        file.flush()
        ended = subprocess.run([program, "follow", file.name], stdin=subprocess.DEVNULL, stdout=subprocess.PIPE, stderr=subprocess.PIPE, check=False)
    if ended.returncode not in VERDICT.values():
        raise Refused(ended.returncode, ended.stderr.decode("utf-8", "replace"))
    found = run_report_of(ended.stdout.decode("utf-8", "replace"), ended.returncode, True).findings
    return RunReport([one._replace(line=rows[one.line - 1].line, related=None if one.related is None else rows[one.related - 1].line)
                 for one in found if one.finding in ON_TOKENS and rows[one.line - 1].kind == "h"], {}, 0, 0)


def _text_of(file: IO[bytes]) -> str:
    file.seek(0)
    return file.read().decode("utf-8", "replace")
