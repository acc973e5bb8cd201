"""What tools/dev/same_answers says of the program and itself, and of another program."""
import os
import subprocess
import unittest

from tests.support import TOP, Case

OTHER = "#!/bin/sh\necho 'entries 0'\nexit %d\n"
# It makes the same records, the last first.
BACKWARDS = """#!/bin/sh
[ "$1" = make ] || exec %(program)s "$@"
%(program)s "$@" | tac
"""


class SameAnswers(Case):
    def compared(self, other: str, *more: str) -> "subprocess.CompletedProcess[str]":
        words = [os.path.join(TOP, "tools", "dev", "same_answers"), "--runs", "3", "--folder", self.room, *more, os.environ["NEW_ENEMY"], other]
        return subprocess.run(words, capture_output=True, text=True, timeout=300)

    def test_itself(self) -> None:
        run = self.compared(os.environ["NEW_ENEMY"])
        self.assertEqual((run.returncode, run.stderr, os.listdir(self.room)), (0, "", []))
        self.assertRegex(run.stdout, r"^traces 3, refused by both \d, made otherwise 0, audits \d+, differing 0; findings: .*\n1 passed, 0 failed\n$")

    def program(self, text: str) -> str:
        other = self.path("other")
        with open(other, "w", encoding="utf-8") as file:
            file.write(text)
        os.chmod(other, 0o755)
        return other

    def test_evidence_that_is_made_otherwise(self) -> None:
        other = self.program(BACKWARDS % {"program": os.environ["NEW_ENEMY"]})
        run = self.compared(other, "--other-evidence")
        self.assertEqual((run.returncode, run.stderr), (0, ""))
        self.assertRegex(run.stdout, r"^traces 3, refused by both 0, made otherwise [1-3], audits 12, differing 0; ")
        self.assertIn("make differs", self.compared(other).stdout)

    def test_another_program(self) -> None:
        other = self.program(OTHER % 2)
        run = self.compared(other)
        self.assertEqual((run.returncode, run.stdout.splitlines()[-1]), (1, "0 passed, 1 failed"))
        kept = sorted(name for name in os.listdir(self.room) if name.startswith("same_answers_"))
        self.assertEqual([name.split("_")[2] for name in kept], ["1", "2", "3"])
        self.assertTrue(os.path.isfile(os.path.join(self.room, kept[0], "trace")))
        self.assertIn("seed 1: make differs (%s)" % os.path.join(self.room, kept[0]), run.stdout)


if __name__ == "__main__":
    unittest.main()
