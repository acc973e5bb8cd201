"""Files that are no trace at all: explain says what they are."""
import gzip
import os

from tests.support import EXAMPLES, Case

with open(os.path.join(EXAMPLES, "a_new_enemy"), "rb") as joined:
    JOINED = joined.read()
TRACE = JOINED.partition(b"---\n")[0]


class StrangeFiles(Case):
    def assert_told(self, data: bytes, told: str, *words: str) -> None:
        run = self.run_tool("explain", *words, self.put("given", data))
        self.assertEqual((run.returncode, run.stderr), (2, ""))
        self.assertIn("\n  %s\n" % told, run.stdout)

    def test_beginnings(self) -> None:
        self.assert_told(b"\xef\xbb\xbf" + TRACE, "it begins with a byte order mark, the bytes EF BB BF, which is no part of JSON: take these three bytes away")
        self.assert_told(TRACE.decode().encode("utf-16-le").join([b"\xff\xfe", b""]), "it begins as UTF-16 does: write it as UTF-8")
        self.assert_told(gzip.compress(TRACE), "it begins as gzip does, with the bytes 1F 8B: unpack it, as by gzip -dc, and audit /dev/stdin")

    def test_evidence(self) -> None:
        evidence = self.put("evidence", b"\xef\xbb\xbf" + JOINED.partition(b"---\n")[2])
        run = self.run_tool("explain", "--evidence", evidence, self.put("trace", TRACE))
        self.assertEqual(run.returncode, 2)
        self.assertIn("evidence line 1: not JSON\n", run.stdout)
        self.assertIn("  it begins with a byte order mark", run.stdout)

    def test_a_line_that_is_nearly_the_marker(self) -> None:
        self.assert_told(JOINED.replace(b"\n", b"\r\n"), "line 6 is --- and a carriage return; the line between a trace and its evidence is --- alone")
        self.assert_told(JOINED.replace(b"---", b"--- "), "line 6 is --- and spaces; the line between a trace and its evidence is --- alone")

    def test_what_is_right(self) -> None:
        """Carriage returns at the ends of lines are none of it, and neither are fields with such a text."""
        for data in (TRACE, JOINED, TRACE.replace(b"\n", b"\r\n")):
            run = self.run_tool("explain", self.put("given", data))
            self.assertEqual((run.returncode, run.stdout), (0, "nothing is refused\n"))
