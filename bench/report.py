#!/usr/bin/env python3
"""What a report costs beside the audit that it tells of: kinds of bench/trace.py, with each N-th check at an older snapshot than its token.

    python3 bench/report.py [--runs N] [--each N] PROGRAM MEGABYTES [KIND ..] > table

It times, in turn, the audit by evidence, the report of what it found, the audit that makes its evidence, and the report of that. Seconds
are processor time, and behind it that of a clock: of N runs, or of three, the one with the least.
"""
import argparse
import json
import os
import resource
import subprocess
import sys
import tempfile
import time

import trace

NE = os.path.join(os.path.dirname(os.path.dirname(os.path.abspath(__file__))), "tools", "ne")
# Checks are moved back by one commit, by two, and so on up to this.
BACK = 20


def moved(lines, each):
    """The lines, with each so many a check at an older snapshot than its token."""
    checks = 0
    for line in lines:
        if '"kind":"check"' in line:
            checks += 1
            if each and checks % each == 0:
                value = json.loads(line)
                value["zookie"] = "z1-%016x" % value["snapshot"]
                value["snapshot"] = max(0, value["snapshot"] - 1 - checks // each % BACK)
                line = trace.text(value)
        yield line


def run(words, out):
    """The processor time of one run, which writes to a file, and that of a clock."""
    before, begun = resource.getrusage(resource.RUSAGE_CHILDREN), time.monotonic()
    with open(out, "wb") as file:
        status = subprocess.run(words, stdout=file, check=False).returncode
    used, clock = resource.getrusage(resource.RUSAGE_CHILDREN), time.monotonic() - begun
    if status not in (0, 1):
        sys.exit(f"{' '.join(words)}: status {status}")
    return used.ru_utime + used.ru_stime - before.ru_utime - before.ru_stime, clock


def findings_in(path):
    with open(path, encoding="utf-8") as file:
        return file.read().rpartition("findings ")[2].split()[0]


def costs(given, kind, folder):
    """A row of the table."""
    made = trace.KINDS[kind](int(given.megabytes * 10**6))
    paths = {name: os.path.join(folder, name) for name in ("trace", "evidence", "report", "made", "told")}
    for name, lines in (("trace", moved(made.lines, given.each)), ("evidence", made.records)):
        with open(paths[name], "w", encoding="utf-8") as file:
            file.writelines(line + "\n" for line in lines)
    told = [sys.executable, NE, "report", "--out", paths["told"], paths["trace"]]
    runs = [(run([given.program, "audit", paths["trace"], paths["evidence"]], paths["report"]), run([*told, paths["report"]], os.devnull),
             run([given.program, "audit", paths["trace"], "--make"], paths["made"]), run([*told, paths["made"]], os.devnull))
            for _ in range(given.runs)]
    least = [min(seconds) for seconds in zip(*runs)]
    audit, report, made, of_made = (f"{used:.2f}; {clock:.2f}" for used, clock in least)
    times = [least[place + 1][0] / least[place][0] for place in (0, 2)]
    return (f"| `{kind}` | {findings_in(paths['report'])} | {audit} | {report} | {times[0]:.1f} "
            f"| {findings_in(paths['made'])} | {made} | {of_made} | {times[1]:.1f} |")


def main():
    parser = argparse.ArgumentParser(description=__doc__, formatter_class=argparse.RawDescriptionHelpFormatter)
    parser.add_argument("--runs", type=int, default=3)
    parser.add_argument("--each", type=int, default=10, metavar="N", help="how many checks there are for each that is moved; 0 moves none")
    parser.add_argument("program", metavar="PROGRAM")
    parser.add_argument("megabytes", metavar="MEGABYTES", type=float)
    parser.add_argument("kinds", metavar="KIND", nargs="*")
    given = parser.parse_args()
    print("| Kind | Findings | `audit T E` | Report | Times | Findings | `audit T --make` | Report | Times |")
    print("|---|---|---|---|---|---|---|---|---|")
    for kind in given.kinds or trace.KINDS:
        with tempfile.TemporaryDirectory() as folder:
            print(costs(given, kind, folder), flush=True)


if __name__ == "__main__":
    main()
