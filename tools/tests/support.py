"""What the tests share: the tools on files in a folder of their own, and audits by the program."""
import contextlib
import io
import json
import os
import shutil
import subprocess
import sys
import tempfile
import unittest
from typing import NamedTuple
from unittest import mock

from new_enemy_tools.commands import ne
from new_enemy_tools.evidence_maker import record
from new_enemy_tools.importing.refusals import HINT, Refusals
from new_enemy_tools.trace import read_trace
from hostile.loading import loaded_file

TOOLS = os.path.dirname(os.path.dirname(os.path.abspath(__file__)))
NE = os.path.join(TOOLS, "ne")
DEV = os.path.join(TOOLS, "dev")
TOP = os.path.dirname(TOOLS)
EXAMPLES = os.path.join(TOP, "examples")


@contextlib.contextmanager
def within(folder):
    before = os.getcwd()
    os.chdir(folder)
    try:
        yield
    finally:
        os.chdir(before)


class Run(NamedTuple):
    returncode: int
    stdout: str
    stderr: str


class Terminal(io.StringIO):
    """A text that says it is a terminal."""

    def isatty(self):
        return True


class Case(unittest.TestCase):
    """A test with a folder of its own."""

    def setUp(self):
        room = tempfile.TemporaryDirectory()
        self.addCleanup(room.cleanup)
        self.room = room.name

    def path(self, name):
        return os.path.join(self.room, name)

    def put(self, name, content):
        """A file of bytes, of a text, or of JSON lines."""
        if not isinstance(content, (bytes, str)):
            content = "".join(json.dumps(one) + "\n" for one in content)
        with open(self.path(name), "wb") as file:
            file.write(content if isinstance(content, bytes) else content.encode())
        return self.path(name)

    def get(self, name):
        with open(self.path(name), encoding="utf-8") as file:
            return file.read()

    def rows(self, name):
        return [json.loads(line) for line in self.get(name).splitlines()]

    def assert_alike(self, one, two):
        """Two folders of the same files."""
        self.assertEqual(sorted(os.listdir(one)), sorted(os.listdir(two)))
        for name in os.listdir(one):
            with open(os.path.join(one, name), "rb") as left, open(os.path.join(two, name), "rb") as right:
                self.assertEqual(left.read(), right.read(), name)

    def run_process(self, command, *words, stdin=""):
        return subprocess.run([sys.executable, NE, command, *words], cwd=self.room, input=stdin, capture_output=True, text=True, timeout=300)

    def run_tool(self, *words, stdin="", err=None):
        """A run of a command in this process, which is quicker: its status and what it wrote."""
        return self.run_main(lambda: ne.main(list(words)), stdin, err)

    def run_dev(self, tool, *words):
        """A run of a developers' tool in this process."""
        return self.run_main(lambda: loaded_file(os.path.join(DEV, tool)).main(list(words)))

    def run_main(self, main, stdin="", err=None):
        out, err = io.StringIO(), err or io.StringIO()
        given = io.TextIOWrapper(io.BytesIO(stdin.encode()))
        with within(self.room), contextlib.redirect_stdout(out), contextlib.redirect_stderr(err), mock.patch.object(sys, "stdin", given):
            try:
                status = main()
            except SystemExit as end:
                status = end.code
        return Run(status, out.getvalue(), err.getvalue())

    def audit_window(self, trace, *words, is_first=False, is_last=False):
        """A run of `ne window` from `state` in the folder, where that is there, to a new one in its place."""
        if is_first:
            shutil.rmtree(self.path("state"), ignore_errors=True)
        state = ["--state", "state"] if os.path.exists(self.path("state")) else []
        run = self.run_tool("window", "audit", trace, *state, *(["--final"] if is_last else ["--out", "state.next"]), *words,
                            "--program", os.path.abspath(os.environ["NEW_ENEMY"]))
        if os.path.exists(self.path("state.next")):
            shutil.rmtree(self.path("state"), ignore_errors=True)
            os.rename(self.path("state.next"), self.path("state"))
        return run

    def run_import(self, *words):
        """The status and the standard error of an import in the folder."""
        run = self.run_tool("import", *words)
        return run.returncode, run.stderr

    def imported(self, *words):
        """What an import says that has to work."""
        status, said = self.run_import(*words)
        self.assertEqual(status, 6 if "\nchecks: " in "\n" + said else 0, said)
        return said

    def report(self, *lines, **more):
        """The report on a log of some lines, by the words of the test's class; what its import said is kept."""
        self.said = self.imported(*self.words(*lines, **more))
        return self.audited()

    def forget(self):
        """Takes away what an import left, so that the next one begins anew."""
        for name in "trace.jsonl", "ids.jsonl":
            os.remove(self.path(name))

    def unaudited(self, *words):
        """Of an import that has to work the lines on checks that are not audited whole, with the first of each cause that is not at all."""
        said = self.imported(*words).splitlines()
        return [line for line in said if line.startswith(("not audited", "audited in part", "lost in gaps"))]

    def struck(self, *words):
        """Of an import that has to work each check that is not audited, with its line and cause, in order."""
        found, count = [], Refusals.unread_check

        def note(refusals, file, line, cause, detail=""):
            found.append((line, "%s:%d: %s%s" % (file, line, cause, ": " + detail if detail else "")))
            count(refusals, file, line, cause, detail)
        with mock.patch.object(Refusals, "unread_check", note):
            self.imported(*words, "--jobs", "1")
        return [told for _, told in sorted(found, key=lambda one: one[0])]

    def refused(self, *words):
        """The refusals of an import, which writes nothing."""
        status, said = self.run_import(*words)
        self.assertEqual(status, 2, said)
        self.assertFalse(os.path.exists(self.path("trace.jsonl")))
        self.assertFalse(os.path.exists(self.path("ids.jsonl")))
        lines = [line for line in said.splitlines() if not line.startswith(("passed over", "left out", "not audited")) and " is read as " not in line]
        self.assertEqual(lines[-1], "refused %d" % (len(lines) - 1))
        self.hinted = [line for line in lines if line.endswith(HINT)]
        return [line[:-len(HINT)] if line.endswith(HINT) else line for line in lines[:-1]]

    def audited(self, trace="trace.jsonl"):
        """The report of the program on a trace with made evidence."""
        read = read_trace(self.get(trace).encode())
        records = [record(read, entry) for entry in read.entries.values()]
        joined = self.get(trace) + "---\n" + "\n".join(records)
        run = subprocess.run([os.environ["NEW_ENEMY"]], input=joined.encode(), capture_output=True, timeout=300)
        self.assertIn(run.returncode, (0, 1), run.stderr)
        return run.stdout.decode()
