"""A log's files as a monitor reads them while they grow: whole lines, each once, whatever a recorder does with its files."""
import os

from new_enemy_tools.faults import MonitorFault
from new_enemy_tools.monitoring.tail import Place, Tail
from new_enemy_tools.recording.log_files import pack
from tests.support import Case
from tests.test_monitor import compact, files_of
from tests.test_trace_maker import check

CHECKS = [check(number) for number in range(6)]


class Tails(Case):
    def setUp(self):
        super().setUp()
        os.mkdir(self.path("log"))
        self.files = files_of(CHECKS, [2, 2])

    def add(self, number, data):
        with open(self.path("log/%06d.jsonl" % number), "ab") as file:
            file.write(data)

    def read(self, tail):
        """The lines that are there now, each with its file and number."""
        found = []
        while (chunk := tail.read()) is not None:
            lines = chunk.data.splitlines(True)
            found += [(os.path.basename(chunk.file), chunk.first + place, line) for place, line in enumerate(lines)]
        return found

    def lines(self, *numbers):
        return [("%06d.jsonl" % number, place, line) for number in numbers
                for place, line in enumerate(self.files[number - 1].splitlines(True), 1)]

    def test_pieces(self):
        """Each line is read once, when all of it is there."""
        tail, found = Tail(self.path("log"), Place()), []
        for number, data in enumerate(self.files, 1):
            for at in range(0, len(data), 7):
                self.add(number, data[at:at + 7])
                found += self.read(tail)
        self.assertEqual(found, self.lines(1, 2, 3))

    def test_what_a_killed_recorder_wrote_by_half(self):
        """The next one cuts it, and writes another line there."""
        first, *others = self.files[0].splitlines(True)
        tail = Tail(self.path("log"), Place())
        self.add(1, first + b'{"event":"check","goal":["doc","very lo')
        self.assertEqual(self.read(tail), self.lines(1)[:1])
        os.truncate(self.path("log/000001.jsonl"), len(first))
        self.add(1, b"".join(others))
        self.assertEqual(self.read(tail), self.lines(1)[1:])

    def test_files_that_are_compressed(self):
        """While they are read, and before."""
        half = self.files[0].index(b"\n") + 1
        tail = Tail(self.path("log"), Place())
        self.add(1, self.files[0][:half])
        found = self.read(tail)
        self.add(1, self.files[0][half:])
        pack(self.path("log/000001.jsonl"))
        self.add(2, self.files[1])
        pack(self.path("log/000002.jsonl"))
        self.add(3, self.files[2])
        self.assertEqual(found + self.read(tail), self.lines(1, 2, 3))
        self.assertEqual(sorted(os.listdir(self.path("log"))), ["000001.jsonl.gz", "000002.jsonl.gz", "000003.jsonl"])

    def test_places(self):
        """Behind any line that was read another one goes on."""
        for number, data in enumerate(self.files, 1):
            self.add(number, data)
        tail = Tail(self.path("log"), Place())
        lines = self.read(tail)
        for place, (file, number, _) in enumerate(lines):
            self.assertEqual(self.read(Tail(self.path("log"), tail.place_at(file, number))), lines[place:])
        self.assertEqual(self.read(Tail(self.path("log"), tail.here())), [])

    def test_a_file_that_is_missing(self):
        self.add(1, self.files[0])
        tail = Tail(self.path("log"), Place())
        self.read(tail)
        self.add(3, self.files[2])
        with self.assertRaisesRegex(MonitorFault, "^file 2 of the log in .* is missing, and others go on from it; give it back$"):
            tail.read()

    def test_lines_behind_the_end(self):
        """Whether they come with it or later."""
        end = self.files[0].count(b"\n")
        for is_later in (False, True):
            with self.subTest(is_later):
                if is_later:
                    os.remove(self.path("log/000001.jsonl"))
                tail = Tail(self.path("log"), Place())
                self.add(1, self.files[0])
                if is_later:
                    self.assertIsNotNone(tail.read())
                self.add(1, compact(CHECKS[:2]))
                with self.assertRaisesRegex(MonitorFault, "000001.jsonl:%d: lines stand behind the one that closes the file; " % (end + 1)):
                    self.read(tail)

    def test_a_file_that_is_cut(self):
        lines = self.files[0].splitlines(True)
        self.add(1, b"".join(lines[:3]))
        tail = Tail(self.path("log"), Place())
        self.read(tail)
        os.truncate(self.path("log/000001.jsonl"), len(lines[0]))
        with self.assertRaisesRegex(MonitorFault, "was cut behind line 3, and lines were read behind that; give it back as it was"):
            tail.read()
