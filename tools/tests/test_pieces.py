"""A trace that is longer than a file may be is written in pieces, which are audited as the one trace that they are."""
import glob
import json
import os
import re
import signal
import subprocess
from random import Random
from unittest import mock

from new_enemy_tools.trace_pieces import PiecesReader, PiecesWriter, pieces_of
from tests.support import Case
from tests.test_trace_maker import RULES, check, content, rel, write

LEAST = 1_000
TOLD = "trace.jsonl: the trace is in pieces, since it has more bytes than one program takes\n"


def read(path):
    with open(path, "rb") as file:
        return file.read()


def log(checks, first="0"):
    """A service with some checks at an older snapshot than their token, and some wrong replies."""
    events = [RULES, write(1, rel(first))]
    for number in range(checks):
        thing = str(number % 7)
        if number % 9 == 0:
            events += [write(2 + number, rel(thing)), content(2 + number, "v%d" % number, goal=rel(thing), token=2 + number)]
        at = events[-1]["snapshot"] if "snapshot" in events[-1] else 1
        events.append(check(1 if number % 5 == 0 else at, number % 4 != 0, goal=rel(thing), token=at))
    return events


class PiecesCase(Case):
    def audit(self, *words):
        run = subprocess.run([os.environ["NEW_ENEMY"], *words], cwd=self.room, stdin=subprocess.DEVNULL, capture_output=True, text=True, timeout=300)
        return run.returncode, run.stdout, run.stderr

    def import_log(self, *words, checks=60):
        self.put("log", log(checks))
        return self.imported("events", "--from-empty", *words, "log")

    def import_twice(self, checks=60):
        """The same log as `whole`, and as `trace.jsonl` in pieces."""
        self.import_log("--trace", "whole", "--ids", "whole_ids", checks=checks)
        return self.import_log("--piece-bytes", str(LEAST), checks=checks)

    def pieces(self):
        """The paths of the pieces, in order."""
        found = [path for path in glob.glob(self.path("trace.jsonl.*")) if path.rpartition(".")[2].isdigit()]
        return sorted(found, key=lambda path: int(path.rpartition(".")[2]))

    def left(self):
        """What stands in the folder beside the log."""
        return sorted(set(os.listdir(self.room)) - {"log"})


class Written(PiecesCase):
    def test_one_behind_the_other_they_are_the_trace(self):
        said = self.import_twice()
        whole, paths = read(self.path("whole")), self.pieces()
        self.assertEqual(b"".join(map(read, paths)), whole)
        self.assertGreater(len(paths), 5)
        self.assertLessEqual(max(map(os.path.getsize, [*paths, self.path("trace.jsonl")])), LEAST)
        self.assertEqual(said.splitlines()[-1], "the trace has %d bytes, and stands in %d pieces, trace.jsonl.1 to trace.jsonl.%d: "
                         "audit it in parts, by tools/ne parts cut %d trace.jsonl FOLDER"
                         % (len(whole), len(paths), len(paths), len(whole) // LEAST + 2))
        self.assertEqual(self.get("ids.jsonl"), self.get("whole_ids"))

    def test_no_program_takes_a_piece_or_the_index_for_a_trace(self):
        self.import_twice()
        self.assertEqual(self.audit("audit", "trace.jsonl", "--make"), (2, "", "trace line 1: unknown kind\n"))
        for path in self.pieces():
            status, report, _ = self.audit("audit", path, "--make")
            self.assertEqual((status, report), (2, ""), path)

    def written(self, chunks, most):
        """The pieces that a writer makes of chunks of lines; one where it makes a file."""
        writer = PiecesWriter(self.path("trace"), most)
        for chunk in chunks:
            writer.write(chunk)
        writer.end()
        writer.keep(lambda: None)
        writer.remove()
        listed = pieces_of(self.path("trace"))
        return [read(self.path("trace"))] if listed is None else [read(piece.path) for piece in listed]

    def test_random_lines(self):
        random = Random("pieces")
        for _ in range(200):
            lines = [json.dumps({"kind": "x" * random.randrange(60), "of": [{"a": {"b": {"c": {}}}}] * random.randrange(9)}).encode() + b"\n"
                     for _ in range(random.randrange(40))]
            chunks, size = [b""], 0
            for line in lines:
                if random.random() < 0.5:
                    chunks.append(b"")
                chunks[-1] += line
                size += len(line)
            most = random.choice([LEAST, LEAST + 1, 3 * LEAST, max(size, LEAST), max(size - 1, LEAST)])
            made = self.written(chunks, most)
            self.assertEqual(b"".join(made), b"".join(lines))
            self.assertLessEqual(max(map(len, made)), most)
            self.assertEqual(len(made) == 1, size <= most)
            for piece in made[:-1]:
                # what ends in no brace is no object of JSON, and no end of one
                self.assertNotIn(piece[-1:], (b"}", b"\n"))

    def test_a_trace_of_just_so_many_bytes_is_one_file(self):
        line = b'{"kind":"commit","at":1}\n'
        self.assertEqual(self.written([line] * 40, 40 * len(line)), [line * 40])
        made = self.written([line] * 41, 40 * len(line))
        self.assertEqual(b"".join(made), line * 41)
        # the last line's brace and end go with what follows
        self.assertEqual(list(map(len, made)), [40 * len(line) - 2, len(line) + 2])

    def test_usage(self):
        self.put("log", log(3))
        for given in ("999", str((1 << 30) + 1), "x"):
            self.assertEqual(self.run_import("events", "--from-empty", "--piece-bytes", given, "log")[0], 3)
        self.assertEqual(self.left(), [])


class Audited(PiecesCase):
    def test_the_merged_report_is_that_of_the_whole(self):
        self.import_twice(200)
        status, report, said = self.audit("audit", "whole", "--make")
        self.assertEqual((status, said), (1, ""))
        self.assertRegex(report, "F1 stale(.|\n)*F10 wrong reply")
        for parts in (1, 4):
            folders = ["of_%s_%d" % (name, parts) for name in ("whole", "trace.jsonl")]
            for name, folder in zip(("whole", "trace.jsonl"), folders):
                self.assertEqual(self.run_tool("parts", "cut", str(parts), name, folder), (0, "", ""))
            self.assert_alike(*map(self.path, folders))
            for jobs in ("1", "3"):
                self.assertEqual(self.run_tool("parts", "run", os.environ["NEW_ENEMY"], folders[1], "--make", "--jobs", jobs), (1, report, ""))

    def test_with_evidence(self):
        self.import_twice()
        _, evidence, _ = self.audit("make", "whole")
        self.put("evidence", evidence)
        status, report, _ = self.audit("audit", "whole", "evidence")
        self.assertEqual(self.run_tool("parts", "cut", "2", "trace.jsonl", "evidence", "cut").returncode, 0)
        program = os.environ["NEW_ENEMY"]
        self.assertEqual(self.run_tool("parts", "run", program, "cut"), (status, report, ""))
        self.assertEqual(self.run_tool("parts", "run", program, "cut", "--make"), (
            2, "", "parts: cut/part1.evidence is there, and would not be read with --make\n"))

    def test_a_part_has_a_report_of_the_lines_of_the_whole(self):
        self.import_twice()
        self.put("report", self.audit("audit", "whole", "--make")[1])
        self.run_tool("parts", "cut", "3", "trace.jsonl", "cut")
        self.run_tool("parts", "run", os.environ["NEW_ENEMY"], "cut", "--make")
        wanted = self.run_tool("report", "--ids", "ids.jsonl", "whole", "report").stdout.splitlines()[1:]
        found = []
        for part in "123":
            run = self.run_tool("report", "--ids", "ids.jsonl", "cut/part%s.trace" % part, "cut/part%s.report" % part)
            self.assertEqual((run.returncode, run.stderr), (0, ""))
            found += run.stdout.splitlines()[1:]
        # The numbers of groups are those of a report.
        self.assertEqual(*(sorted(re.sub('"group":[0-9]+,', "", row) for row in rows) for rows in (found, wanted)))
        line = str(json.loads(wanted[0])["line"])
        explained = [self.run_tool("explain", "cut/part%s.trace" % part, line) for part in "123"]
        self.assertEqual(sorted(one.returncode for one in explained), [0, 2, 2])
        self.assertEqual([one.stdout for one in explained if one.returncode == 0], [self.run_tool("explain", "whole", line).stdout])

    def test_a_report_of_another_part_or_cut(self):
        self.import_twice()
        for parts in "23":
            self.run_tool("parts", "cut", parts, "trace.jsonl", "cut" + parts)
            self.run_tool("parts", "run", os.environ["NEW_ENEMY"], "cut" + parts, "--make")
        for path, told in (("cut2/part2.report", "of part 2 of 2, and cut2/part1.trace is none of its"), ("cut3/part1.report", "of another cut than cut2/part1.trace")):
            run = self.run_tool("report", "cut2/part1.trace", path)
            self.assertEqual((run.returncode, run.stdout, run.stderr), (2, "", "%s is %s; give the report of that part\n" % (path, told)))

    def test_a_part_that_ended_with_a_fault_has_no_report(self):
        self.import_twice()
        self.run_tool("parts", "cut", "2", "trace.jsonl", "cut")
        program = self.put("program", "#!/bin/sh\necho out of memory >&2\nexit 4\n")
        os.chmod(program, 0o755)
        self.run_tool("parts", "run", program, "cut", "--make")
        self.assertEqual(self.run_tool("report", "cut/part1.trace", "cut/part1.report"), (
            2, "", "cut/part1.report: the audit of part 1 of 2 ended with status 4: out of memory\n"))
        os.truncate(self.path("cut/part1.report"), os.path.getsize(self.path("cut/part1.report")) - 1)
        self.assertIn("cut/part1.report is cut short", self.run_tool("report", "cut/part1.trace", "cut/part1.report").stderr)

    def test_what_takes_one_file_says_what_to_do(self):
        self.import_twice()
        self.put("report", "entries 0\nfindings 0\nverdict clean\n")
        for words in (["lint", "trace.jsonl"], ["report", "trace.jsonl", "report"], ["explain", "trace.jsonl"], ["explain", "trace.jsonl", "3"],
                      ["draw", "trace.jsonl", "3"], ["make-evidence", "trace.jsonl"]):
            self.assertEqual(self.run_tool(*words), (
                2, "", TOLD + "  cut it into parts: tools/ne parts cut N trace.jsonl FOLDER\n"
                "  and give one of its parts, as FOLDER/part1.trace, whose lines have the numbers of the whole\n"), words)


class NotWhole(PiecesCase):
    def refused(self, told):
        run = self.run_tool("parts", "cut", "2", "trace.jsonl", "cut")
        self.assertEqual(run, (2, "", "parts: %s\n" % told))
        self.assertEqual(os.listdir(self.path("cut")) if os.path.exists(self.path("cut")) else [], [])

    def test_pieces_that_are_missing_or_others(self):
        self.import_twice()
        path = self.pieces()[2]
        data = read(path)
        os.remove(path)
        self.refused("trace.jsonl.3 is not there, which is a piece of the trace")
        self.put("trace.jsonl.3", data[:-1])
        self.refused("trace.jsonl.3 has %d bytes, and the piece that was written has %d" % (len(data) - 1, len(data)))
        self.put("trace.jsonl.3", data.replace(b"check", b"chec1", 1))
        self.refused("trace.jsonl.3 is another piece than the one that was written with its index")
        self.put("trace.jsonl.3", data)
        self.assertEqual(self.run_tool("parts", "cut", "2", "trace.jsonl", "cut").returncode, 0)

    def test_an_index_that_is_none(self):
        self.import_twice()
        index = read(self.path("trace.jsonl"))
        for wrong in (index[:-3], index.replace(b'"format":1', b'"format":2'), index.replace(b'"bytes"', b'"byte"', 1),
                      b'{"kind":"pieces","format":1,"pieces":[]}\n', b'{"kind":"pieces",'):
            self.put("trace.jsonl", wrong)
            self.refused("trace.jsonl is no index of the pieces of a trace")

    def test_read_in_any_sizes(self):
        self.import_twice()
        random = Random("sizes")
        for most in (1, 7, 5_000, 1 << 20):
            reader, data = PiecesReader(pieces_of(self.path("trace.jsonl"))), b""
            while more := reader.read(random.randint(1, most)):
                self.assertLessEqual(len(more), most)
                data += more
            self.assertEqual(data, read(self.path("whole")))


class Killed(PiecesCase):
    """An import that does not come to its end."""

    def killed_at(self, number, words):
        """An import by another process, which is killed when it is about to rename a file for that time; whether it was."""
        child = os.fork()
        if child == 0:
            count, replace = 0, os.replace

            def killing(*paths):
                nonlocal count
                count += 1
                if count == number:
                    os.kill(os.getpid(), signal.SIGKILL)
                replace(*paths)

            with mock.patch("os.replace", killing):
                self.run_import(*words)
            os._exit(0)
        return os.WIFSIGNALED(os.waitpid(child, 0)[1])

    def test_killed_at_any_moment_it_leaves_no_trace(self):
        self.put("log", log(40))
        words, number = ("events", "--from-empty", "--jobs", "1", "--piece-bytes", str(LEAST), "log"), 1
        while self.killed_at(number, words):
            self.assertFalse(os.path.exists(self.path("trace.jsonl")))
            self.assertEqual(self.run_tool("parts", "cut", "2", "trace.jsonl", "cut").returncode, 5)
            self.assertFalse(os.path.exists(self.path("cut")))
            number += 1
        self.assertEqual(number, len(self.pieces()) + 2)
        self.assertEqual(b"".join(map(read, self.pieces())).count(b"\n"), len(log(40)))

    def test_the_trace_that_stood_there_stays_or_is_refused(self):
        self.import_twice(50)
        before = read(self.path("trace.jsonl"))
        self.put("log", log(40, "other"))
        words = ("events", "--from-empty", "--jobs", "1", "--piece-bytes", str(LEAST), "log")
        self.assertTrue(self.killed_at(1, words))
        self.assertEqual(b"".join(map(read, self.pieces())), read(self.path("whole")))
        self.assertTrue(self.killed_at(3, words))
        self.assertEqual(read(self.path("trace.jsonl")), before)
        run = self.run_tool("parts", "cut", "2", "trace.jsonl", "cut")
        self.assertEqual((run.returncode, run.stdout), (2, ""))
        self.assertRegex(run.stderr, "trace.jsonl.[12] (is another piece|has [0-9]+ bytes)")

    def test_interrupted_or_refused_it_leaves_nothing(self):
        self.put("log", log(40))
        given = ("events", "--from-empty", "--jobs", "1", "--piece-bytes", str(LEAST), "log")
        for fault in (KeyboardInterrupt, OSError(28, "No space left on device")):
            for place in ("new_enemy_tools.trace_pieces.PiecesWriter.end", "new_enemy_tools.ids.Ids.append", "json.dumps"):
                with mock.patch(place, side_effect=fault):
                    try:
                        status, _ = self.run_import(*given)
                        self.assertEqual(status, 5)
                    except KeyboardInterrupt:
                        pass
                self.assertEqual(self.left(), [], (fault, place))
        with mock.patch("new_enemy_tools.trace_pieces.MOST_PARTS", 2):
            status, said = self.run_import(*given)
        self.assertEqual((status, said), (2, "the trace has more than 2 pieces of 1000 bytes, and a cut has no more parts\n"))
        self.assertEqual(self.left(), [])
        states = [{**check(None, goal=rel("9")), "snapshot_between": [1, 3]}]
        del states[0]["snapshot"]
        self.put("log", [*log(40)[:-1], write(900, rel("1")), write(901, rel("2")), {**states[0], "snapshot_between": [1, 901]}])
        with mock.patch("new_enemy_tools.importing.trace_maker.STATES", 2):
            self.assertEqual(self.run_import(*given)[0], 6)
        self.assertNotEqual(self.left(), [])

    def test_pieces_of_an_earlier_import_go_with_it(self):
        self.import_twice(80)
        many = len(self.pieces())
        self.put("trace.jsonl.77", "of somebody else")
        self.import_log("--piece-bytes", str(LEAST), checks=40)
        few = len(self.pieces()) - 1
        self.assertLess(few, many)
        self.assertEqual(b"".join(map(read, self.pieces()[:-1])).count(b"\n"), len(log(40)))
        self.import_log(checks=40)
        self.assertEqual(self.pieces(), [self.path("trace.jsonl.77")])
        self.assertEqual(read(self.path("trace.jsonl")).count(b"\n"), len(log(40)))
