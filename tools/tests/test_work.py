"""What tools/dev/work and bench/growth.py make of counts, with a stand-in of valgrind that counts as it is told."""
import os
import re
import shutil
import subprocess
import sys
import unittest

from tests.documents import read
from tests.support import TOP, Case

COUNTS = '#!/bin/sh\nsize=$(wc -c)\necho "==1== Collected : $((%s))" >&2\n'
REFUSES = '#!/bin/sh\necho "trace line 1: too long" >&2\nexit 2\n'
# Counts how many words the program gets, in place of what it does.
WORDS = '#!/bin/sh\ncat > /dev/null\necho "==1== Collected : $(($# - 2))000000" >&2\n'


class Counted(Case):
    def run_with(self, valgrind: str, *words: str) -> "subprocess.CompletedProcess[str]":
        os.makedirs(self.path("bin"), exist_ok=True)
        with open(self.path("bin/valgrind"), "w", encoding="utf-8") as file:
            file.write(valgrind)
        os.chmod(self.path("bin/valgrind"), 0o755)
        path = os.pathsep.join([self.path("bin"), os.environ["PATH"]])
        return subprocess.run([sys.executable, *words], cwd=TOP, env={**os.environ, "PATH": path}, capture_output=True, text=True, timeout=300)

    def work(self, counts: str, kind: str = "toggled") -> "tuple[int, list[str]]":
        run = self.run_with(COUNTS % counts, os.path.join("tools", "dev", "work"), "program", kind)
        self.assertEqual(run.stderr, "")
        return run.returncode, run.stdout.splitlines()

    def test_what_is_allowed(self) -> None:
        self.assertEqual(self.work("size * 3999"), (0, ["toggled: 0.10 MB 3,999 a byte, 0.40 MB 3,999 a byte", "1 passed, 0 failed"]))

    def test_too_much(self) -> None:
        said = "toggled: 0.10 MB 4,001 a byte, 0.40 MB 4,001 a byte (too much: more than 4,000 instructions a byte)"
        self.assertEqual(self.work("size * 4001"), (1, [said, "0 passed, 1 failed"]))

    def test_a_kind_of_long_rules_is_counted_at_larger_sizes(self) -> None:
        status, said = self.work("size * 999", "tuplesets_in_turn")
        self.assertEqual((status, said[-1]), (0, "1 passed, 0 failed"))
        self.assertRegex(said[0], r"^tuplesets_in_turn: 0\.4\d MB 999 a byte, 1\.6\d MB 999 a byte$")

    def test_growth(self) -> None:
        status, said = self.work("size * size / 1000")
        self.assertEqual((status, said[-1]), (1, "0 passed, 1 failed"))
        self.assertRegex(said[0], r"\(too much: [34]\.\d\d times as many a byte at the large size\)$")

    def test_a_kind_of_the_table(self) -> None:
        status, said = self.work("size * size", "nested_make")
        self.assertEqual((status, said[-1]), (0, "1 passed, 0 failed"))
        self.assertRegex(said[0], r"^nested_make: 0\.01 MB [\d,]+ a byte, 0\.04 MB [\d,]+ a byte \(allowed: ")

    def test_a_kind_that_is_counted_by_more_commands(self) -> None:
        status, said = self.work("size * 999", "wide_records")
        self.assertEqual((status, said[-1]), (0, "3 passed, 0 failed"))
        self.assertEqual([line.split(": ")[0] for line in said[:-1]], ["wide_records", "wide_records, make", "wide_records, audit --make"])

    def test_the_page_of_the_table_is_made_of_what_was_printed(self) -> None:
        run = subprocess.run([sys.executable, os.path.join(TOP, "tools", "dev", "hostile_table")], input=read("bench", "hostile.txt"), capture_output=True,
                             text=True, timeout=300)
        self.assertEqual((run.returncode, run.stdout, run.stderr), (0, read("bench", "hostile.md"), ""))
        rows = [line for line in run.stdout.splitlines() if line.startswith("| `")]
        printed = [line for line in read("bench", "hostile.txt").splitlines() if " a byte" in line]
        self.assertEqual(len(rows), sum(line.endswith(")") for line in printed))
        self.assertIn("The other %d rows" % (len(printed) - len(rows)), run.stdout)

    def test_the_tables_name_kinds(self) -> None:
        """And the head of the generator tells each kind, in the order of its table."""
        generator, key = read("bench", "hostile.py"), re.compile(r'^    "(\w+)": ', re.MULTILINE)
        kinds = key.findall(generator.split("KINDS = {")[1])
        self.assertEqual(re.findall(r"^  (\w+) +\S", generator.split('"""')[1], re.MULTILINE), kinds)
        named = re.findall(r'^    "(\w+)[,"]', read("tools", "dev", "work"), re.MULTILINE) + re.findall(r'"(\w+)"', generator.split("FOR_MAKE = (")[1].split(")")[0])
        self.assertGreater(len(named), 10)
        self.assertLessEqual(set(named), set(kinds))

    def test_the_commands_of_growth_py(self) -> None:
        for words, count in ((), 1), (("--make",), 3), (("--audit-make",), 4), (("--audit-slices",), 8):
            run = self.run_with(WORDS, os.path.join("bench", "growth.py"), "--count", *words, "program", "hostile", "0.01", "toggled")
            self.assertRegex(run.stdout, r"\| 0\.0 \| %d\.0 \| \d+ \|\n$" % count)

    def test_growth_py(self) -> None:
        words = (os.path.join("bench", "growth.py"), "--count", "program", "hostile", "0.1", "0.4", "toggled")
        self.assertEqual(self.run_with(COUNTS % "size * 50", *words).stdout.splitlines()[-1][:16], "| `toggled` | 0.")
        self.assertRegex(self.run_with(COUNTS % "size * 50", *words).stdout, r"\| 0\.1 \| 5\.0 \| 50 \| 0\.4 \| 20\.\d \| 50 \| 1\.00 \|\n$")
        self.assertTrue(self.run_with(REFUSES, *words).stdout.endswith("| `toggled` | - | - | - | - | - | - | - |\n"))

    def test_evidence_is_made_for_each_kind_of_make(self) -> None:
        for kind in re.findall(r'"(\w+)"', read("bench", "hostile.py").split("FOR_MAKE = (")[1].split(")")[0]):
            with self.subTest(kind=kind):
                made = subprocess.run([sys.executable, os.path.join("bench", "hostile.py"), kind, "0.01"], cwd=TOP, capture_output=True, check=True)
                trace, evidence = made.stdout.split(b"---\n")
                self.assertEqual(evidence.strip(), b"")
                self.put("trace", trace.decode())
                run = subprocess.run([os.environ["NEW_ENEMY"], "audit", self.path("trace"), "--make"], capture_output=True, text=True, timeout=300)
                self.assertEqual((run.returncode, run.stdout.splitlines()[-1], run.stderr), (0, "verdict clean", ""))

    @unittest.skipUnless(shutil.which("valgrind"), "valgrind is not installed")
    def test_the_program(self) -> None:
        run = subprocess.run([os.path.join(TOP, "tools", "dev", "work"), os.environ["NEW_ENEMY"], "alike"], capture_output=True, text=True, timeout=300)
        self.assertEqual((run.returncode, run.stdout.splitlines()[-1], run.stderr), (0, "1 passed, 0 failed", ""))
