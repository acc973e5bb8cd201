"""The fuzz and the refusals of growth find programs that are wrong, and repeat what they found."""
import os
import subprocess

from hostile.inputs import worked_cases, worked_inputs
from hostile.loading import loaded_file
from hostile.mutations import SIZE, mutant
from hostile.program_runs import Answer, wrong_with
from hostile.second_reading import denied
from new_enemy_tools.files import split_joined
from tests.support import DEV, Case

CLEAN = b"entries 1\nfindings 0\nverdict clean\n"
DIRTY = b"line 3: F10 wrong reply\nentries 1\nfindings 1\nverdict dirty\n"
# A program that asks for memory twice, and answers %s where it gets none.
ASKS = """
#include <stdio.h>
#include <stdlib.h>
#include <unistd.h>
int main(void) {
    void *volatile one = malloc(10), *volatile two = one ? realloc(one, 100) : 0;
    if (!one || !two) { write(2, "out of memory\\n", 14); return %d; }
    write(1, "entries 0\\nfindings 0\\nverdict clean\\n", 35);
    return 0;
}
"""

# Three tests: one asks for memory once more where it gets none, one gives up, one takes none.
TESTS = """
#include <stdlib.h>
#include <string.h>
#include <unistd.h>
#define SAY(text) (void)!write(1, text, strlen(text))
int main(int count, char **words) {
    if (!strcmp(words[1], "--list")) { SAY("again: test\\nonce: test\\nnone: test\\ntests: 3\\n"); return 0; }
    void *volatile got = strcmp(words[1], "none") ? malloc(10) : words;
    if (!got && !strcmp(words[1], "again")) got = malloc(10);
    if (!got) return 101;
    SAY("\\ntest result: ok\\n");
    return 0;
}
"""


class Answers(Case):
    def test_right_answers(self):
        for case in worked_cases():
            self.assertIsNone(wrong_with(case.wanted), case.name)
        for answer in (Answer(3, b"", b"usage: new_enemy\n"), Answer(4, b"", b"out of memory\n"), Answer(5, b"", b"write fault after 7 bytes\n"),
                       Answer(5, b"", b"read fault\n"), Answer(5, b"", b"trace line 2: read fault\n")):
            self.assertIsNone(wrong_with(answer))

    def test_wrong_answers(self):
        for answer in (Answer(-11, b"", b""), Answer(6, b"", b"out of memory\n"), Answer(101, b"", b""), Answer(0, b"", b""),
                       Answer(0, CLEAN[:-1], b""), Answer(0, DIRTY, b""), Answer(1, CLEAN, b""), Answer(0, CLEAN, b"x\n"),
                       Answer(1, DIRTY[24:], b""), Answer(2, b"", b""), Answer(2, b"", b"out of memory\n"), Answer(2, CLEAN, b"joined input refused\n"),
                       Answer(2, b"", b"joined input refused"), Answer(2, b"", b"trace line 1: not JSON\n" * 2), Answer(4, b"", b"read fault\n"),
                       Answer(2, b"", b"evidence line 1: unknown kind\n"), Answer(2, b"", b"trace line 01: too long\n")):
            self.assertIsNotNone(wrong_with(answer), answer)


class Fuzz(Case):
    def fuzz(self, script, *words):
        """A fuzz of a program of the shell, of which faulty inputs stay in the folder of the test."""
        path = self.path("program")
        with open(path, "w", encoding="utf-8") as file:
            file.write("#!/bin/sh\n" + script)
        os.chmod(path, 0o755)
        return self.run_dev("fuzz", *words, "--folder", self.room, "program")

    def test_faults_are_kept_and_come_again(self):
        run = self.fuzz("cat > /dev/null; kill -SEGV $$\n", "--runs", "3", "--seed", "7")
        lines = run.stdout.splitlines()
        self.assertEqual((run.returncode, lines[-1], len(lines)), (1, "0 passed, 1 failed", 5))
        self.assertRegex(lines[1], r"\Aseed 8: ended by signal 11 \(.*fuzz_8\)\Z")
        self.assertTrue(lines[3].startswith("runs 3, faults 3;"))
        with open(self.path("fuzz_8"), "rb") as file:
            self.assertEqual(file.read(), mutant(8, worked_inputs(SIZE - 1)))

    def test_right_and_wrong_answers(self):
        """An input without its parting line is refused; any other is not refused for that."""
        inputs = worked_inputs(SIZE - 1)
        parted = [split_joined(mutant(seed, inputs))[1] is not None for seed in range(100)]
        for seed, faults in ((parted.index(False), 0), (parted.index(True), 1)):
            run = self.fuzz("echo joined input refused >&2; exit 2\n", "--runs", "1", "--seed", str(seed))
            self.assertEqual((run.returncode, run.stdout.splitlines()[-2]), (faults, "runs 1, faults %d; status 2: 1" % faults))

    def test_a_verdict_that_is_no_right_one(self):
        """Each way in which the tools deny an answer."""
        cases = {case.name: case for case in worked_cases()}
        for name, report, told in (
                ("banned_viewer_answered_yes", CLEAN, "line 4: no finding, and the tools say F10 wrong reply"),
                ("one_proved_check", DIRTY, "line 3: F10 wrong reply, and the tools say no finding"),
                ("viewer_of_parent_folder_without_its_premise", CLEAN, "line 4: no finding, and the tools say F8 bad evidence at step 1"),
                ("empty_no_step_is_silent", DIRTY, "line 3: F10 wrong reply, and the tools say F9 silent evidence"),
                ("check_older_than_its_zookie", CLEAN, "[] of tokens, and the tools say ['line 5: F1 stale']"),
                ("empty_trace_is_clean", CLEAN, "entries 1, and the tools say 0"),
                ("check_line_cut", CLEAN, "'' on standard error, and the tools say 'trace line 3: not JSON'")):
            self.assertEqual(denied(Answer(0, report, b""), cases[name].data), told)
            self.assertIsNone(denied(cases[name].wanted, cases[name].data))

    def test_mutants_are_small_and_of_all_kinds(self):
        inputs = worked_inputs(SIZE - 1)
        made = [mutant(seed, inputs) for seed in range(500)]
        self.assertGreater(len(set(made) - set(inputs)), 400)
        self.assertLess(max(map(len, made)), SIZE)


class RefuseGrowth(Case):
    def table(self, status, *words):
        self.put("program.c", ASKS % status)
        subprocess.run(["cc", "-o", self.path("program"), self.path("program.c"), *words], check=True, capture_output=True)
        return self.run_dev("refuse_growth", "program", "empty_trace_is_clean")

    def test_each_growth_fails_alone_and_with_all_behind_it(self):
        run = self.table(4)
        self.assertEqual(run.stdout.splitlines()[1].split(), ["empty_trace_is_clean", "2", "6", "0"])
        self.assertEqual((run.returncode, run.stdout.splitlines()[-1]), (0, "1 passed, 0 failed"))

    def test_another_answer_is_wrong(self):
        run = self.table(2)
        lines = run.stdout.splitlines()
        self.assertEqual(lines[1], "empty_trace_is_clean, growth 1: status 2, b'', b'out of memory\\n'")
        self.assertEqual(lines[-2].split(), ["empty_trace_is_clean", "2", "6", "4"])
        self.assertEqual((run.returncode, lines[-1]), (1, "0 passed, 1 failed"))

    def test_answers_that_may_be_given(self):
        """Of a run that tells two lines early, and of one that says something behind its output."""
        is_right = loaded_file(os.path.join(DEV, "refuse_growth")).is_right
        early = Answer(1, DIRTY, b"early line 3: F10 wrong reply\nearly line 4: F7 no evidence\n")
        gave_up = Answer(0, b"", b"gave up 1\n")
        out_of_memory, written = Answer(4, b"", b"out of memory\n"), Answer(5, DIRTY[:10], b"write fault after 10 bytes\n")
        for calls, wanted, got, may_be in (
                ("growth", early, out_of_memory, True), ("growth", early, out_of_memory._replace(err=early.err + out_of_memory.err), True),
                ("growth", early, early._replace(err=b"".join(reversed(early.err.splitlines(True)))), True), ("growth", early, early._replace(err=b""), True),
                ("growth", early, early._replace(err=early.err * 2), False), ("growth", early, early._replace(status=0), False),
                ("growth", early, out_of_memory._replace(out=DIRTY), False), ("growth", early, early._replace(err=b"early line 5: F7 no evidence\n"), False),
                ("growth", gave_up, gave_up._replace(err=b""), False), ("read", early, early._replace(err=b""), False),
                ("read", early, Answer(5, b"", b"evidence line 2: read fault\n"), True), ("read", early, Answer(5, DIRTY, b"read fault\n"), False),
                ("take", early, written, True), ("take", early, written._replace(err=early.err + written.err), True),
                ("take", early, written._replace(out=DIRTY[:9]), False), ("take", early, written._replace(out=CLEAN[:10]), False),
                ("write", gave_up, gave_up._replace(err=b""), True), ("write", gave_up, Answer(5, b"", b""), False)):
            self.assertEqual(is_right(calls, wanted, got, True), may_be, (calls, wanted, got))

    def test_a_program_that_cannot_be_reached(self):
        """One that is linked whole takes no notice, and that is no pass."""
        run = self.table(4, "-static")
        self.assertEqual((run.returncode, run.stdout.splitlines()[-1]), (1, "0 passed, 1 failed"))
        self.assertIn("this run shows nothing", run.stdout)


class RefuseGrowthOfCalls(Case):
    def runs(self, *names):
        self.put("tests.c", TESTS)
        subprocess.run(["cc", "-o", self.path("tests"), self.path("tests.c")], check=True, capture_output=True)
        run = self.run_dev("refuse_growth_of_calls", self.path("tests"), *names)
        return run.returncode, run.stdout.splitlines()

    def test_a_call_that_is_made_once_more(self):
        status, lines = self.runs("again")
        self.assertEqual((status, lines[1].split(), lines[-1]), (0, ["again", "1", "2", "0"], "2 passed, 0 failed"))

    def test_a_call_that_gives_up(self):
        status, lines = self.runs("once")
        self.assertEqual((status, lines[1], lines[-1]), (1, "once, growth 1: status 101, b''", "1 passed, 1 failed"))

    def test_a_call_without_growths_shows_nothing(self):
        status, lines = self.runs()
        self.assertEqual((status, lines[-2], lines[-1]), (1, "none: no growth was refused, so that this run shows nothing", "3 passed, 2 failed"))

    def test_a_name_that_no_test_has(self):
        self.assertEqual(self.runs("other")[0], 3)
