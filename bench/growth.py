#!/usr/bin/env python3
"""How the cost of an input grows: kinds of a generator of this folder at several sizes, as a table.

    python3 bench/growth.py [--runs N | --count] [--make | --audit-make | --audit-slices] PROGRAM trace|hostile SIZE [SIZE ..] [KIND ..] > table

With --make the program makes evidence for the trace in front of the parting line, in place of an audit; of the kinds that are for that
it always does. With --audit-make it audits that trace by evidence that it makes, on one worker; with --audit-slices on sixteen, in the
shortest slices.

Sizes are megabytes. Seconds are processor time, the least of N runs, or of three; memory is the most that the program held, in MB. The column
behind the seconds says what a megabyte costs there, and the one behind the memory, from the second size on, how many times as much a megabyte
costs as at the size before: 1 is in proportion.

With --count one run is made of each, under valgrind, and in place of seconds stand the instructions that it took, in millions and for each
byte. They are the same each time, also beside other work, but for what the C library does otherwise on another processor. A size of which
the program refuses a line as too long gets a dash.
"""
import argparse
import os
import re
import subprocess
import sys
import tempfile
from types import ModuleType
from typing import Dict, List, NamedTuple, Optional, Tuple

import hostile
import trace

GENERATORS = {"trace": trace, "hostile": hostile}
COUNTING = ["valgrind", "--tool=callgrind", "--callgrind-out-file=/dev/null"]
# What the program may do with an input, and by which words. All but the first take its trace alone.
AUDIT, MAKE, AUDIT_MAKE, AUDIT_SLICES = "audit", "make", "audit --make", "audit --make --workers 16 --slice 1"
WORDS: Dict[str, List[str]] = {
    AUDIT: [],
    MAKE: ["make", "/dev/stdin"],
    AUDIT_MAKE: ["audit", "/dev/stdin", "--make"],
    AUDIT_SLICES: ["audit", "/dev/stdin", "--make", "--workers", "16", "--slice", "1"],
}


class TooLong(Exception):
    """A line of the input is longer than the program takes."""


class Cost(NamedTuple):
    """Megabytes of an input; seconds and the most memory of a run, or millions of instructions."""

    size: float
    spent: float
    memory: float


def cut(path: str) -> None:
    """Leaves the trace alone."""
    with open(path, "rb+") as file:
        file.truncate(file.read().index(b"\n---\n") + 1)


def refuse(path: str, status: int, said: bytes) -> None:
    """A run has to end with status 0."""
    if status == 2 and re.search(rb"line \d+: too long\n", said):
        raise TooLong(path)
    if status != 0:
        sys.exit(f"{path}: status {status}: {said[-200:]!r}")


def run(words: List[str], path: str) -> Tuple[float, float]:
    """The processor time and the peak memory of one run."""
    with open(path, "rb") as file:
        started = subprocess.Popen(words, stdin=file, stdout=subprocess.DEVNULL, stderr=subprocess.PIPE)
        assert started.stderr is not None
        said = started.stderr.read()
        _, status, used = os.wait4(started.pid, 0)
    started.returncode = os.WEXITSTATUS(status) if os.WIFEXITED(status) else -os.WTERMSIG(status)
    refuse(path, started.returncode, said)
    return used.ru_utime + used.ru_stime, used.ru_maxrss / 1000


def counted(words: List[str], path: str) -> int:
    """How many instructions one run takes."""
    with open(path, "rb") as file:
        done = subprocess.run([*COUNTING, *words], stdin=file, stdout=subprocess.DEVNULL, stderr=subprocess.PIPE)
    refuse(path, done.returncode, done.stderr)
    return int(re.findall(rb"Collected : (\d+)", done.stderr)[-1])


def cost(program: str, generator: ModuleType, kind: str, megabytes: str, count: int, does: str) -> Optional[Cost]:
    """The least of so many runs, or of 0 the instructions of one; None where a line of the input is too long. A process of its own makes the
    input: what this one holds would count as memory of the program that it starts."""
    if does == AUDIT and kind in getattr(generator, "FOR_MAKE", ()):
        does = MAKE
    with tempfile.NamedTemporaryFile() as file:
        subprocess.run([sys.executable, str(generator.__file__), kind, megabytes], stdout=file, check=True)
        if does != AUDIT:
            cut(file.name)
        words = [program, *WORDS[does]]
        size = os.path.getsize(file.name) / 10**6
        try:
            if not count:
                return Cost(size, counted(words, file.name) / 10**6, 0)
            runs = [run(words, file.name) for _ in range(count)]
        except TooLong:
            return None
        return Cost(size, min(seconds for seconds, _ in runs), max(memory for _, memory in runs))


def row(kind: str, costs: List[Optional[Cost]], counts: bool) -> str:
    cells: List[str] = []
    before: Optional[float] = None
    for place, one in enumerate(costs):
        if one is None:
            cells += ["-"] * (3 + (not counts) + (place > 0))
            continue
        each = one.spent / one.size
        cells += [f"{one.size:.1f}", f"{one.spent:,.1f}", f"{each:,.0f}"] if counts else [
            f"{one.size:.1f}", f"{one.spent:.2f}", f"{each:.3f}", f"{one.memory:,.0f}"]
        if place:
            cells.append(f"{each / before:.2f}" if before else "-")
        before = each
    return f"| `{kind}` | {' | '.join(cells)} |"


def is_size(word: str) -> bool:
    return word.replace(".", "", 1).isdigit()


def main() -> None:
    parser = argparse.ArgumentParser(description=__doc__, formatter_class=argparse.RawDescriptionHelpFormatter)
    parser.add_argument("--runs", type=int, default=3)
    parser.add_argument("--count", action="store_true")
    makes = parser.add_mutually_exclusive_group()
    makes.add_argument("--make", action="store_const", dest="does", const=MAKE, default=AUDIT)
    makes.add_argument("--audit-make", action="store_const", dest="does", const=AUDIT_MAKE)
    makes.add_argument("--audit-slices", action="store_const", dest="does", const=AUDIT_SLICES)
    parser.add_argument("program", metavar="PROGRAM")
    parser.add_argument("generator", choices=GENERATORS)
    parser.add_argument("words", metavar="SIZE|KIND", nargs="+")
    given = parser.parse_args()
    generator = GENERATORS[given.generator]
    sizes = [word for word in given.words if is_size(word)]
    kinds = [word for word in given.words if not is_size(word)]
    unknown = [kind for kind in kinds if kind not in generator.KINDS]
    if not sizes or unknown:
        parser.error(f"no such kind: {', '.join(unknown)}" if unknown else "give at least one size in megabytes")
    if given.runs < 1:
        parser.error("--runs is below 1")
    of_one = ["MB", "million instructions", "per byte"] if given.count else ["MB", "s", "s per MB", "memory"]
    columns = ["Kind", *of_one, *[*of_one, "grows"] * (len(sizes) - 1)]
    print(f"| {' | '.join(columns)} |")
    print(f"|{'---|' * len(columns)}")
    for kind in kinds or generator.KINDS:
        costs = [cost(given.program, generator, kind, size, 0 if given.count else given.runs, given.does) for size in sizes]
        print(row(kind, costs, given.count), flush=True)


if __name__ == "__main__":
    main()
