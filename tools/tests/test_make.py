"""Evidence that the program makes says what the tools' own does, by another search."""
import os
import subprocess
from random import Random

from tests.random_traces import RandomInput
from tests.support import Case

RANDOM_TRACES = int(os.environ.get("RANDOM_TRACES", "60"))


class Made(Case):
    def program(self, *words):
        return subprocess.run([os.environ["NEW_ENEMY"], *words], cwd=self.room, capture_output=True, timeout=300)

    def test_random_traces(self):
        wrong = 0
        for number in range(RANDOM_TRACES):
            with self.subTest(number=number):
                self.put("trace.jsonl", b"\n".join(RandomInput(Random("make %d" % number)).lines()) + b"\n")
                made = self.program("make", "trace.jsonl")
                self.assertEqual((made.returncode, made.stderr), (0, b""))
                self.put("evidence.jsonl", made.stdout)
                report = self.program("audit", "trace.jsonl", "evidence.jsonl").stdout.decode()
                self.assertEqual(report, self.audited())
                wrong += report.count("F10")
        self.assertGreater(wrong, RANDOM_TRACES)
