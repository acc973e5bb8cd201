"""The commands of `tools/ne`: their help, their statuses, and what they say on a terminal."""
import os
import subprocess
from typing import Sequence
from unittest import mock

from new_enemy_tools.commands import ne
from new_enemy_tools.progress import Progress
from tests.support import DEV, EXAMPLES, TOOLS, Case, Run, Terminal

PROGRAM = os.path.abspath(os.environ["NEW_ENEMY"])
TRACE = os.path.join(EXAMPLES, "each_finding")
LOG = os.path.join(EXAMPLES, "openfga", "log.jsonl")
MODEL = os.path.join(EXAMPLES, "openfga", "model.fga")
REPORT = "line 5: F1 stale\nentries 11\nfindings 1\nverdict dirty\n"


def run(words: Sequence[str], **how: object) -> Run:
    ended = subprocess.run(words, capture_output=True, text=True, timeout=300, **how)
    return Run(ended.returncode, ended.stdout, ended.stderr)


class Commands(Case):
    def test_help(self) -> None:
        for words in ([], *([name] for name in ne.COMMANDS), *(["parts", name] for name in ("cut", "run", "one", "merge")),
                      *(["window", name] for name in ("audit", "show"))):
            said = self.run_tool(*words, "--help")
            self.assertEqual((said.returncode, said.stderr), (0, ""), words)
            self.assertEqual(said.stdout.split(" [-h]")[0], "usage: " + " ".join(["ne", *words]))

    def test_it_may_be_executed(self) -> None:
        self.assertEqual(run([os.path.join(TOOLS, "ne"), "--help"])[::2], (0, ""))

    def test_the_list(self) -> None:
        said = self.run_tool("--help").stdout
        for name, command in ne.COMMANDS.items():
            self.assertRegex(said, "(?m)^  %s +%s$" % (name, command.does))

    def test_usage(self) -> None:
        for words in ([], ["other"], *([name] for name in ne.COMMANDS), *([name, "--other"] for name in ne.COMMANDS)):
            said = self.run_tool(*words)
            self.assertEqual((said.returncode, said.stdout), (3, ""), words)
            self.assertRegex(said.stderr, "^usage: ne")

    def test_files_that_are_not_there(self) -> None:
        for words in (["lint", "none"], ["make-evidence", "none"], ["report", "none", "-"], ["explain", "none"], ["draw", "none", "3"],
                      ["window", "audit", "none"], ["window", "show", "none"], ["day", "days", "trace", "none"],
                      ["parts", "cut", "2", "none", "folder"], ["parts", "run", "none", "none"]):
            said = self.run_tool(*words)
            self.assertEqual((said.returncode, said.stdout), (2 if words[1] == "run" else 5, ""), words)
            self.assertRegex(said.stderr, "none")


class DevelopersTools(Case):
    def test_help(self) -> None:
        names = [name for name in os.listdir(DEV) if os.path.isfile(os.path.join(DEV, name))]
        self.assertGreater(len(names), 5)
        for path in [os.path.join(DEV, name) for name in names] + [os.path.join(TOOLS, "parts.d", name) for name in ("parallel", "slurm")]:
            said = run([path, "--help"])
            self.assertEqual((said.returncode, said.stderr), (0, ""), path)
            self.assertIn(os.path.basename(path), said.stdout)


class OnATerminal(Case):
    def test_a_line_of_progress(self) -> None:
        """Where a command works for longer than is waited, which here is not at all; and the line is taken away."""
        self.put("report", REPORT)
        self.put("long", [{"kind": "namespace", "name": "doc", "relations": [{"name": "viewer"}]}]
                 + [{"kind": "check", "goal": "doc:plan#viewer@20", "snapshot": 9, "reply": False}] * 1_100)
        for words in (["import", "openfga", "--model", MODEL, "--from-empty", LOG], ["lint", TRACE], ["make-evidence", TRACE],
                      ["parts", "cut", "2", TRACE, "folder"], ["parts", "run", "true", "folder"], ["parts", "one", "true", "folder", "1"],
                      ["parts", "merge", "folder/part1.report", "folder/part2.report"], ["report", TRACE, "report"],
                      ["window", "audit", "long", "--program", PROGRAM], ["explain", TRACE], ["explain", TRACE, "5"], ["draw", "long", "5"]):
            with mock.patch.object(Progress, "SECONDS", -1.0):
                said = self.run_tool(*words, err=Terminal()).stderr
            self.assertRegex(said, "^(?:\r[a-z ]*[0-9,]+ [a-z]+\x1b\\[K)+\r\x1b\\[K", words)
