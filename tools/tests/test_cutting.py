"""How lines are placed, and what is refused of parts, of their reports and of what the tool is given."""
import io
import os
import re
import shutil
import signal
from random import Random
from unittest import mock

from new_enemy_tools import limits
from new_enemy_tools.parting.blocks import Blocks
from new_enemy_tools.parting.part_runs import audit
from new_enemy_tools.parting.placing import line_of, object_of, part_of
from new_enemy_tools.trace_lines import OBJECTS as ENTRIES, RECORDS
from tests.random_traces import RandomInput
from tests.test_parts import PartsCase, answer, parts

CHECK = b'{"kind":"check","goal":"doc:%s#viewer@1","snapshot":5,"reply":true}'
RULES = b'{"kind":"namespace","name":"doc","relations":[{"name":"viewer"}]}'


class Placing(PartsCase):
    def test_the_number_of_an_object(self):
        """The same on every machine."""
        self.assertEqual([part_of(("doc:" + of).encode(), 16) for of in ("readme", "a", "é", 'q"q')], [4, 15, 4, 6])

    def test_the_quick_form_says_what_json_says(self):
        quick = 0
        for number in range(200):
            trace, evidence = RandomInput(Random("quick %d" % number)).refused().split(b"---\n", 1)
            for form, block, read in ((ENTRIES, trace, object_of), (RECORDS, evidence + b"\n", line_of)):
                found = form.findall(block)
                self.assertEqual(b"".join(line or other for line, _, other in found), block)
                for lines, said, other in found:
                    quick += not other
                    if said:
                        self.assertEqual(read(lines), said if form is ENTRIES else int(said), lines)
                    elif lines:
                        self.assertEqual([read(line) for line in lines.splitlines()], [None] * lines.count(b"\n"), lines)
        self.assertGreater(quick, 1000)

    def test_lines_that_have_no_quick_form(self):
        quick = CHECK % b"a"
        self.assertEqual(ENTRIES.findall(quick + b"\n"), [(quick + b"\n", b"doc:a", b"")])
        for line in (quick + b"x", quick[:-1], quick[:-1] + b',"goal":"doc:b#viewer@1"}', quick[:-1] + b',"kind":"commit"}',
                     quick[:-1] + b',"g\\u006fal":"doc:b#viewer@1"}', quick[:-1] + b',"x":"\xff"}', quick[:-1] + b',"x":01}',
                     quick[:-1] + b",}", b" " + quick, quick[:-1] + b',"x":"}', quick.replace(b"5", b"05"), CHECK % b"a\\n"):
            self.assertEqual(ENTRIES.findall(line + b"\n"), [(b"", b"", line + b"\n")], line)
        record = b'{"line":3,"steps":[{"yes":"doc:a#viewer@1"},{"no":["a","b"]},{"no":[]}]}'
        self.assertEqual(RECORDS.findall(record + b"\n"), [(record + b"\n", b"3", b"")])
        for line in (record[:-1] + b',"line":4}', record[:-2], record.replace(b"3", b"03"), record.replace(b"},{", b"}{"),
                     record.replace(b"a", b"\\u0061"), record.replace(b"3", b"3.0")):
            self.assertEqual(RECORDS.findall(line + b"\n"), [(b"", b"", line + b"\n")], line)

    def test_lines_that_stand_everywhere_are_taken_together(self):
        commit = b'{"kind":"commit","at":1,"add":["doc:kind#viewer@1"]}'
        lines = b"%s\n\n\n%s\n%s\n" % (RULES, commit, commit[:20])
        self.assertEqual(ENTRIES.findall(lines), [(lines, b"", b"")])
        for line in (commit[:-1] + b',"kind":"check"}', commit[:-1] + b',"\\u006bind":"check"}', b" " + commit, b'{"at":1,"kind":"commit"}'):
            self.assertEqual(ENTRIES.findall(line + b"\n"), [(b"", b"", line + b"\n")], line)

    def test_what_counts_is_what_json_says(self):
        for line, thing in ((b'{"kind":"commit","goal":"doc:b#v@1","kind":"check","goal":"doc:a#v@1"}', b"doc:a"),
                            (b'{"kind":"check","goal":"doc:a#v@1","kind":"commit"}', None),
                            (b'{"kind":"chec\\u006b","goal":"doc:\\u00e9#v@1","x":{"goal":"doc:b#v@1"}}', "doc:é".encode()),
                            (b'{"kind":"check","goal":"doc:a#v@01"}', None), (b'["check"]', None),
                            (b'{"kind":"check","goal":["doc:a#v@1"]}', None), (b'{"kind":"check","goal":"doc:\\ud800#v@1"}', None)):
            self.assertEqual(object_of(line), thing, line)

    def test_blank_where_they_do_not_stand(self):
        lines = [RULES, CHECK % b"a", b"", CHECK % b"b", b"{", CHECK % b"a"]
        records = [b'{"line":6,"steps":[]}', b'{"line":5,"steps":[]}', b"{", b'{"line":4,"steps":[]}']
        folder = self.cut(16, b"\n".join(lines) + b"\n---\n" + b"\n".join(records))
        a, b = part_of(b"doc:a", 16), part_of(b"doc:b", 16)
        for part in range(1, 17):
            with open(os.path.join(folder, "part%d.trace" % part), "rb") as file:
                self.assertEqual(file.read().split(b"\n"), [
                    RULES, lines[1] if part == a else b"", b"", lines[3] if part == b else b"", b"{", lines[5] if part == a else b"", b""])
            with open(os.path.join(folder, "part%d.evidence" % part), "rb") as file:
                self.assertEqual(file.read().split(b"\n"), [
                    records[0] if part == a else b"", records[1], b"{", records[3] if part == b else b"", b""])

    def test_one_file_or_two_are_cut_alike(self):
        joined = RandomInput(Random(1)).joined()
        trace, evidence = joined.split(b"---\n", 1)
        one, two = self.cut(3, joined), self.path("two")
        self.assertEqual(parts("cut", 3, self.put("trace", trace), self.put("evidence", evidence), two).returncode, 0)
        self.assert_alike(one, two)

    def test_any_number_of_processes_cuts_alike(self):
        """Blocks that are small, and much or little of them that is joined in the processes."""
        joined = b"".join(RandomInput(Random("shared %d" % number)).refused() for number in range(12))
        one = self.cut(5, joined, "one")
        for number, (jobs, block, most) in enumerate(((1, 300, 1 << 22), (2, 300, 1 << 22), (3, 2000, 0), (4, 10_000, 2000))):
            with mock.patch("new_enemy_tools.parting.blocks.BLOCK", block), mock.patch("new_enemy_tools.parting.spread.JOINED", most):
                self.assert_alike(one, self.cut(5, joined, "cut%d" % number, jobs))

    def test_a_process_that_is_killed(self):
        folder, joined = self.path("killed"), self.put("joined", RandomInput(Random(1)).joined())
        with mock.patch("new_enemy_tools.parting.blocks.BLOCK", 300), mock.patch("new_enemy_tools.parting.spread.object_of", lambda line: os.kill(os.getpid(), 9)):
            run = parts("cut", 3, joined, folder, "--jobs", 2)
        self.assertEqual(run, (2, "", "parts: a process that places lines was killed\n"))
        self.assertEqual(os.listdir(folder), [])

    def test_lines_across_blocks(self):
        for text in (b"a\n" * 300_000, b"a" * limits.LINE_BYTES + b"\nb", b"x\n" + b"a" * limits.LINE_BYTES + b"\n\n"):
            blocks = Blocks(io.BytesIO(text))
            self.assertEqual(b"".join(blocks), text if text.endswith(b"\n") else text + b"\n")
            self.assertEqual(blocks.too_long, b"")
        for text in (b"x\n\n%s\nb\n", b"x\n\n%s", b"x\n\n%s\n---\n{}"):
            blocks = Blocks(io.BytesIO(text % (b"a" * (limits.LINE_BYTES + 1))), is_trace=True)
            self.assertEqual(b"".join(blocks), b"x\n\n")
            self.assertEqual(len(blocks.too_long), limits.LINE_BYTES + 2)

    def test_a_line_that_is_too_long(self):
        line = CHECK % b"a"
        for trace, evidence in ((line + b" " * limits.LINE_BYTES, b""), (line, b'{"line":2,"steps":[]}' + b" " * limits.LINE_BYTES)):
            _, _, said = self.compare(RULES + b"\n" + trace + b"\n" + line + b"\n---\n" + evidence + b"\n{}", "too long", (1, 3))
            self.assertRegex(said, "line [12]: too long")


class Refusals(PartsCase):
    def setUp(self):
        super().setUp()
        self.joined = RandomInput(Random(7)).joined()
        self.folder = self.cut(3, self.joined)
        self.reports = self.audited_parts(self.folder)

    def refused(self, told, *reports):
        run = parts("merge", *reports)
        self.assertEqual((run.returncode, run.stdout), (2, ""), run)
        self.assertRegex(run.stderr, "^parts: .*%s.*\n$" % told)

    def edited(self, part, old, new):
        """The reports, one of them edited."""
        path = self.reports[part - 1]
        with open(path, "rb") as file:
            data = file.read()
        self.assertIn(old, data)
        reports = list(self.reports)
        reports[part - 1] = self.put("edited", data.replace(old, new, 1))
        return reports

    def test_whole(self):
        status, output, _ = answer(self.joined)
        self.assertEqual(parts("merge", *reversed(self.reports)), (status, output.decode(), ""))

    def test_missing_and_twice(self):
        self.refused("part 2 of 3 is missing", self.reports[0], self.reports[2])
        self.refused("part 1, 3 of 3 is missing", self.reports[1])
        self.refused("part 2 of 3 stands in .*part2.report and in .*part2.report", *self.reports, self.reports[1])
        os.remove(self.reports[1])
        self.refused("part2.report is not there", *self.reports)

    def test_torn(self):
        with open(self.reports[0], "rb") as file:
            data = file.read()
        for size in range(len(data)):
            self.refused("torn is .*cut short", self.put("torn", data[:size]), *self.reports[1:])
        self.refused("torn is too long", self.put("torn", data + b"\n"), *self.reports[1:])

    def test_torn_by_the_program(self):
        with open(self.reports[0], "rb") as file:
            head, output = file.read().split(b"\n\n", 1)
        for size in range(len(output)):
            short = re.sub(b"output [0-9]+", b"output %d" % size, head)
            self.refused("part 1 of 3: ", self.put("torn", short + b"\n\n" + output[:size]), *self.reports[1:])

    def test_other_cuts(self):
        other = self.cut(3, self.joined.replace(b'"reply":true', b'"reply":false', 1), "other")
        self.refused("are of different cuts", self.reports[0], self.audited_parts(other)[1], self.reports[2])
        other = self.cut(2, self.joined, "fewer")
        self.refused("are of different cuts", *self.audited_parts(other), self.reports[2])

    def test_reports_that_are_not_of_their_part(self):
        self.refused("its report has [0-9]+ entries, and the cut gave it [0-9]+", *self.edited(1, b"entries ", b"entries 9"))
        with open(self.reports[1], "rb") as file:
            is_clean = b"\nstatus 0\n" in file.read()
        old, new = (b"\nstatus 0", b"\nstatus 1") if is_clean else (b"\nstatus 1", b"\nstatus 0")
        self.refused("part 2 of 3: it ended with status [01]", *self.edited(2, old, new))

    def test_killed(self):
        program = self.put("program", "#!/bin/sh\nkill -9 $$\n")
        os.chmod(program, 0o755)
        run = parts("one", program, self.folder, 2)
        self.assertEqual(run, (2, "", "parts: part 2 was killed by signal %d\n" % signal.SIGKILL))
        self.refused("part 2 of 3 was killed by signal 9", *self.reports)
        self.assertEqual(parts("run", program, self.folder).stderr, "parts: part 1 of 3 was killed by signal 9\n")

    def test_a_program_that_ends_before_it_has_read_all(self):
        """Its status counts, and not what it was not given."""
        program = self.put("program", "#!/bin/sh\nexit 2\n")
        os.chmod(program, 0o755)
        trace, evidence = self.put("short", "line\n"), self.put("long", "line\n" * 1_000_000)
        with open(os.devnull, "wb") as out:
            self.assertEqual(audit(program, trace, evidence, out, out), 2)

    def test_files_that_are_not_whole(self):
        path = os.path.join(self.folder, "part2.trace")
        os.truncate(path, os.path.getsize(path) - 1)
        run = parts("run", os.environ["NEW_ENEMY"], self.folder)
        self.assertEqual((run.returncode, run.stdout), (2, ""))
        self.assertRegex(run.stderr, "part2.trace has [0-9]+ bytes, and the cut wrote [0-9]+")
        os.remove(os.path.join(self.folder, "manifest.json"))
        self.assertIn("the folder has no whole cut", parts("run", os.environ["NEW_ENEMY"], self.folder).stderr)

    def test_a_part_that_stands_for_another(self):
        """Parts of entries that are alike have as many bytes, and what stands in one of them would not be audited."""
        names = [b"%02d" % one for one in range(20)]
        self.put("alike", b"\n".join([RULES, *[CHECK % name for name in names]]) + b"\n")
        folder = self.path("parts of what is alike")
        self.assertEqual(parts("cut", 2, self.path("alike"), folder).returncode, 0)
        shutil.copy(os.path.join(folder, "part1.trace"), os.path.join(folder, "part2.trace"))
        run = parts("run", os.environ["NEW_ENEMY"], folder, "--make")
        self.assertEqual((run.returncode, run.stdout), (2, ""))
        self.assertIn("part2.trace has other lines than the cut wrote, as those of another part; cut again", run.stderr)

    def test_usage(self):
        trace = self.path("cut.joined")
        for given in (("cut", 0, trace, self.path("x")), ("cut", 1000, trace, self.path("x")), ("cut", 1), ("merge",), ()):
            self.assertEqual(parts(*given).returncode, 3, given)
        self.assertEqual(parts("cut", 2, self.path("none"), self.path("x")).returncode, 5)
        self.assertFalse(os.path.exists(self.path("x")))
        self.assertEqual(parts("cut", 2, trace, self.folder), (2, "", "parts: %s is not empty\n" % self.folder))
        self.assertEqual(parts("one", "none", self.folder, 4).stderr, "parts: there is no part 4 of 3\n")
        self.assertEqual(parts("run", self.path("none"), self.folder).returncode, 5)

    def test_run(self):
        program = os.environ["NEW_ENEMY"]
        status, output, _ = answer(self.joined)
        for jobs in (1, 3):
            run = self.run_process("parts", "run", program, self.folder, "--jobs", str(jobs))
            self.assertEqual((run.returncode, run.stdout, run.stderr), (status, output.decode(), ""))
        trace, evidence = self.joined.split(b"---\n", 1)
        bare = self.path("bare")
        self.assertEqual(parts("cut", 2, self.put("trace", trace), bare).returncode, 0)
        self.assertIn("part1.evidence is not there", parts("run", program, bare).stderr)


class Faults(PartsCase):
    """Which part's fault is the answer."""

    def merged(self, *told):
        reports = []
        for part, (status, said) in enumerate(told, 1):
            output = "" if status > 1 else "entries 0\nfindings 0\nverdict clean\n"
            reports.append(self.put("report%d" % part, "part %d of %d\ncut %s\nentries 0\nstatus %d\noutput %d\nerror %d\n\n%s%s" % (
                part, len(told), "0" * 32, status, len(output), len(said), output, said)))
        return parts("merge", *reports)

    def test_the_least_line_of_the_trace_first(self):
        clean = (0, "")
        faults = [(2, "evidence line 3: stray line\n"), (2, "trace line 9: not JSON\n"), clean,
                  (2, "trace line 7: undeclared relation\n"), (2, "trace line 7: namespace after other lines\n")]
        for given, told in ((faults, faults[4]), (faults[:3], faults[1]), ([faults[0], clean, (2, "evidence line 2: not JSON\n")],
                                                                         (2, "evidence line 2: not JSON\n"))):
            self.assertEqual(self.merged(*given), (told[0], "", told[1]))
        for worse in ((4, "out of memory\n"), (5, "write fault after 10 bytes\n"), (5, "trace line 12: read fault\n"),
                      (2, "joined input refused\n"), (3, "usage: new_enemy < JOINED_INPUT\n")):
            self.assertEqual(self.merged(*faults, worse), (worse[0], "", worse[1]))

    def test_faults_that_say_nothing(self):
        for told in ((2, ""), (2, "trace line 0: not JSON\n"), (2, "trace line 3: not JSON"), (2, "out of memory\n"), (7, "")):
            run = self.merged((0, ""), told)
            self.assertEqual((run.returncode, run.stdout), (2, ""))
            self.assertIn("part 2 of 2 ended with status %d" % told[0], run.stderr)
        run = self.merged((2, "trace line 2: not JSON\n"), (2, "trace line 2: unknown kind\n"))
        self.assertEqual(run.stderr, "parts: part 1 of 2 and part 2 of 2 refuse the same line for different causes\n")
