"""The worked cases are read as their files say, and a file that is not as they are written is refused by its name and line."""
import os
import subprocess
import sys

from tests.support import TOP, Case
from worked.cases import CaseFault, read_case, read_cases
from worked.made_bytes import Repeated, given

TWO_RUNS = r"""$ new_enemy audit t "der Weg" "" "\u007f" doc:a#"b"
status 1
any_order
heavy
room 10
-- file t --
{"kind":"commit","at":5}
ä
-- no newline --
-- text "\r\n" --
 b
-- file "der Weg" --
-- stdin --
-- hex 00ff --
-- repeat 3 "ab" --
-- count 9 to 11 "n%03d" between ", " --

-- stdout anything --
-- stderr --
--
---
-- then --
$ new_enemy
status 0
save e
unreadable
-- stdin --
---
-- made --
last
-- no newline --
-- stdout --
clean
"""
LEAST = "$ new_enemy\nstatus 0\n"
# What stands in a file, the line that is refused, and a part of what is said of it.
REFUSED = (
    ("", 1, "last newline"),
    (LEAST + "-- stdin --\na", 4, "last newline"),
    (b"$ new_enemy\nstatus 0\n-- stdin --\n\xff\n", 4, "not UTF-8"),
    (LEAST + "-- stdin --\na \n", 4, "cannot be seen"),
    (LEAST + "-- stdin --\na\tb\n", 4, "cannot be seen"),
    (LEAST + "-- stdin --\r\n", 3, "cannot be seen"),
    (LEAST + "-- stdin --\n\ufeff{}\n", 4, "cannot be seen"),
    ("new_enemy\nstatus 0\n", 1, "the words of a run"),
    ("$ new_enemy  audit\nstatus 0\n", 1, "the words of a run"),
    ('$ new_enemy "audit\nstatus 0\n', 1, "the words of a run"),
    ('$ new_enemy "\\q"\nstatus 0\n', 1, "not a string of JSON"),
    ('$ new_enemy "\\ud800"\nstatus 0\n', 1, "not a string of JSON"),
    ("$ new_enemy\n-- stdin --\n", 2, "no status"),
    ("$ new_enemy\nstatus -1\n", 2, "no key"),
    (LEAST + "heavy 1\n", 3, "no key"),
    (LEAST + "status 0\n", 3, "no key"),
    (LEAST + "statsu 0\n", 3, "no key"),
    (LEAST + "save e\n", 4, "of a second run"),
    (LEAST + "-- stdin\n", 3, "does not end"),
    (LEAST + "-- stdin --\n-- --\n", 4, "does not end"),
    (LEAST + "-- text \"a\" --\n", 3, "no part"),
    (LEAST + "-- stdni --\n", 3, "no part"),
    (LEAST + "-- stdin anything --\n", 3, "no part"),
    (LEAST + "-- stdin --\n-- repeat \"a\" 3 --\n", 4, "no part"),
    (LEAST + "-- stdin --\n-- made --\n", 4, "no part"),
    (LEAST + "-- stdin --\n-- hex abc --\n", 4, "no part"),
    (LEAST + "-- stdin --\n-- text \"\\x\" --\n", 4, "not a text"),
    (LEAST + "-- stdin --\n-- count 1 to 3 \"a\" --\n", 4, "not one %d"),
    (LEAST + "-- stdin --\n-- count 3 to 1 \"%d\" --\n", 4, "no number"),
    (LEAST + "-- stdin --\n-- no newline --\n", 4, "no line of text"),
    (LEAST + "-- stdin --\na\n-- no newline --\n-- no newline --\n", 6, "no line of text"),
    (LEAST + "-- stdin --\n-- stdin --\n", 4, "was there before"),
    (LEAST + "-- file t --\n-- file \"t\" --\n", 4, "was there before"),
    (LEAST + "-- file ../t --\n", 3, "no name of a file"),
    (LEAST + "-- file .. --\n", 3, "no name of a file"),
    (LEAST + "-- stdout anything --\na\n", 5, "where anything may"),
    (LEAST + "-- then --\n", 4, "the words of a run"),
    (LEAST + "-- then --\n" + LEAST + "heavy\n", 7, "of a second run"),
    (LEAST + "-- then --\n" + LEAST + "-- then --\n", 6, "no third run"),
)


class Files(Case):
    def rows(self, order, **files):
        """A folder of such cases, all of one folder, and in this order."""
        os.makedirs(self.path("some"), exist_ok=True)
        for name, text in files.items():
            self.put("some/%s.txt" % name, text)
        self.put("order", order)
        return self.room

    def said(self, rows):
        with self.assertRaises(CaseFault) as caught:
            read_cases(rows)
        return str(caught.exception)

    def test_all_that_may_stand_in_one(self):
        [case] = read_cases(self.rows("some/two\n", two=TWO_RUNS))
        run, then = case.run, case.then
        self.assertEqual((case.name, case.is_heavy), ("two", True))
        self.assertEqual((run.words, run.status), (["audit", "t", "der Weg", "", "\x7f", 'doc:a#"b"'], 1))
        files = {name: given(pieces) for name, pieces in run.files.items()}
        self.assertEqual(files, {"t": '{"kind":"commit","at":5}\nä\r\n b\n'.encode(), "der Weg": b""})
        self.assertEqual(given(run.stdin), b"\x00\xffabababn009, n010, n011\n")
        self.assertEqual((run.stdout, run.stderr), (None, b"--\n---\n"))
        self.assertEqual((run.room, run.is_unreadable, run.is_any_order, run.save), (10, False, True, None))
        self.assertEqual((then.words, then.files, then.status, then.save), ([], {}, 0, "e"))
        self.assertEqual((then.room, then.is_unreadable, then.is_any_order), (None, True, False))
        self.assertEqual(given(then.stdin, b"written"), b"---\nwrittenlast")
        self.assertEqual((then.stdout, then.stderr), (b"clean\n", b""))

    def test_long_inputs_are_made_where_they_are_given(self):
        [case] = read_cases(self.rows("some/long\n", long=LEAST + '-- stdin --\n-- repeat 1073741825 "\\n" --\n'))
        self.assertEqual(case.run.stdin, [Repeated(b"\n", 1073741825)])

    def test_refusals(self):
        os.makedirs(self.path("some"))
        for content, line, part in REFUSED:
            with self.subTest(content=content):
                self.put("some/one.txt", content)
                with self.assertRaises(CaseFault) as caught:
                    read_case(self.room, "some/one")
                self.assertTrue(str(caught.exception).startswith("rows/some/one.txt: line %d: " % line), caught.exception)
                self.assertIn(part, str(caught.exception))

    def test_the_order(self):
        files = {"one": LEAST, "two": LEAST}
        self.assertEqual([case.name for case in read_cases(self.rows("some/two\nsome/one\n", **files))], ["two", "one"])
        self.assertEqual(self.said(self.rows("some/two\nsome/three\n")), "rows/order: line 2: no file rows/some/three.txt")
        self.assertEqual(self.said(self.rows("some/two\nsome/two\n")), "rows/order: line 2: a case of this name stands above")
        self.assertEqual(self.said(self.rows("some/two\n")), "rows/some/one.txt: not in rows/order")
        os.makedirs(self.path("other"))
        self.put("other/two.txt", LEAST)
        self.assertEqual(self.said(self.rows("some/two\nother/two\n")), "rows/order: line 2: a case of this name stands above")


class Runs(Case):
    def test_a_program_that_answers_otherwise(self):
        names = ["empty_trace_is_clean", "joined_empty_input"]
        run = subprocess.run([sys.executable, os.path.join(TOP, "rows", "run"), "/bin/true", *names], capture_output=True, text=True, timeout=300)
        self.assertEqual((run.returncode, run.stderr), (1, ""))
        self.assertEqual(run.stdout.splitlines(), [
            "empty_trace_is_clean: stdout is b'' and not b'entries 0\\nfindings 0\\nverdict clean\\n'",
            "joined_empty_input: stderr is b'' and not b'joined input refused\\n'",
            "0 passed, 2 failed"])
