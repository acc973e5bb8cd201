"""Audits in parts answer what an audit of the whole answers, byte for byte.

RANDOM_TRACES and BENCH_BYTES in the environment say how many random traces there are and how large each kind of bench/trace.py is.
"""
import contextlib
import functools
import io
import os
import re
import shutil
import subprocess
import tempfile
from random import Random

from hostile.inputs import worked_cases
from new_enemy_tools.files import read_bytes
from new_enemy_tools.commands import ne
from new_enemy_tools.commands.parts import cut_command
from new_enemy_tools.parting.manifest import read_manifest, report_path
from new_enemy_tools.parting.merging import answer_of
from new_enemy_tools.parting.reports import read_part_report
from new_enemy_tools.parting.part_runs import run_part
from tests.random_traces import RandomInput
from tests.support import EXAMPLES, TOP, Case, Run, loaded_file

PARTS = (1, 2, 7, 16)
RANDOM_TRACES = int(os.environ.get("RANDOM_TRACES", "60"))
BENCH_BYTES = int(os.environ.get("BENCH_BYTES", "20000"))
# These begin with megabytes of commits, however small they are.
LARGE_KINDS = {"toggled", "wide"}
MOST_BYTES = 1_000_000


@functools.lru_cache(maxsize=4096)
def answer(joined):
    """The program's status, output and error; many parts are alike."""
    run = subprocess.run([os.environ["NEW_ENEMY"]], input=joined, capture_output=True, timeout=300)
    return run.returncode, run.stdout, run.stderr


def remembered(_program, trace, evidence, output, error):
    """Audits a part, as `running.audit`."""
    joined = b""
    for path, behind in ((trace, b"---\n"), (evidence, b"")):
        with open(path, "rb") as file:
            joined += file.read() + behind
    status, written, said = answer(joined)
    output.write(written)
    error.write(said)
    return status


def parts(*given):
    """A run of the command in this process."""
    out, err = io.StringIO(), io.StringIO()
    with contextlib.redirect_stdout(out), contextlib.redirect_stderr(err):
        try:
            status = ne.main(["parts", *map(str, given)])
        except SystemExit as end:
            status = end.code
    return Run(status, out.getvalue(), err.getvalue())


class PartsCase(Case):
    def setUp(self):
        """In memory where there is such a place: a cut is many small files."""
        room = tempfile.TemporaryDirectory(dir="/dev/shm" if os.path.isdir("/dev/shm") else None)
        self.addCleanup(room.cleanup)
        self.room = room.name

    def cut(self, count, joined, name="cut", jobs=1):
        """Cuts joined input; its folder."""
        folder = self.path(name)
        self.assertEqual(cut_command(count, self.put(name + ".joined", joined), None, folder, jobs), 0)
        return folder

    def audited_parts(self, folder):
        """Audits each part; the paths of the reports."""
        manifest = read_manifest(folder)
        for part in range(1, manifest.parts + 1):
            run_part("", manifest, folder, part, by=remembered)
        return [report_path(folder, part) for part in range(1, manifest.parts + 1)]

    def compare(self, joined, what, counts=PARTS):
        """The whole's answer, which each cut has to give."""
        status, output, error = answer(joined)
        for count in counts:
            folder = self.cut(count, joined)
            merged = answer_of([read_part_report(path, read_bytes(path)) for path in self.audited_parts(folder)])
            self.assertEqual(merged, (status, output.decode(), error.decode()), "%s in %d parts" % (what, count))
            shutil.rmtree(folder)
        return status, output.decode(), error.decode()


class Wholes(PartsCase):
    def test_the_examples(self):
        names = [one.name for one in os.scandir(EXAMPLES) if one.is_file()]
        self.assertIn("each_finding", names)
        for name in names:
            with open(os.path.join(EXAMPLES, name), "rb") as file:
                self.compare(file.read(), name)

    def test_the_kinds_of_the_benchmark(self):
        for name, made in loaded_file(os.path.join(TOP, "bench", "trace.py")).KINDS.items():
            if name not in LARGE_KINDS or BENCH_BYTES >= MOST_BYTES:
                given = made(BENCH_BYTES)
                status, _, error = self.compare("\n".join([*given.lines, "---", *given.records, ""]).encode(), name)
                self.assertEqual((status, error), (0, ""), name)

    def test_the_worked_cases(self):
        count = 0
        for case in worked_cases():
            if len(case.data) < MOST_BYTES and case.wanted.err != b"joined input refused\n":
                count += 1
                status, output, error = self.compare(case.data, case.name)
                self.assertEqual((status, output.encode(), error.encode()), case.wanted, case.name)
        self.assertGreater(count, 500)

    def test_random_traces(self):
        found = set()
        for number in range(RANDOM_TRACES):
            status, output, error = self.compare(RandomInput(Random("parts %d" % number)).joined(), "random %d" % number)
            self.assertIn(status, (0, 1), error)
            found.update(re.findall(r"F[0-9]+", output))
        self.assertEqual(len(found), 10, found)

    def test_random_faults(self):
        faults = set()
        for number in range(RANDOM_TRACES):
            _, _, error = self.compare(RandomInput(Random("faults %d" % number)).refused(), "faults %d" % number)
            faults.add(re.sub("[0-9]+", "N", error))
        self.assertGreater(len(faults), 12, faults)
