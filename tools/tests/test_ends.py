"""How tools end where standard output fails."""
import io
import os
import subprocess
import sys

from new_enemy_tools.commands.running import text_of
from new_enemy_tools.faults import write_all
from new_enemy_tools.monitoring.journal import Journal
from tests.support import DEV, EXAMPLES, NE, Case

TRACE = os.path.join(EXAMPLES, "each_finding")
RUNS = (("draw", TRACE, "3"), ("explain", TRACE, "5"), ("explain", TRACE), ("make-evidence", TRACE))


class Sparing(io.FileIO):
    """A file that takes few bytes at once."""

    def write(self, data):
        return super().write(data[:3])


class Ends(Case):
    def ended(self, words, out):
        run = subprocess.run([sys.executable, NE, *words], stdout=out, stderr=subprocess.PIPE, timeout=300)
        return run.returncode, run.stderr.decode()

    def test_nobody_reads(self):
        reader, writer = os.pipe()
        os.close(reader)
        for words in RUNS:
            self.assertEqual(self.ended(words, writer), (5, ""), words)
        os.close(writer)

    def test_no_room(self):
        with open("/dev/full", "wb") as full:
            for words in RUNS:
                self.assertEqual(self.ended(words, full), (5, "cannot write: No space left on device\n"), words)

    def test_no_room_for_a_file(self):
        """The file is named, which a fault of writing does not do by itself."""
        self.put("log", [{"event": "rules", "namespaces": [{"name": "doc", "relations": [{"name": "viewer"}]}]}])
        self.put("report.txt", "entries 0\nfindings 0\nverdict clean\n")
        self.put("empty", "")
        for words, name in ((("import", "events", "--from-empty", "log"), "trace.jsonl"), (("report", "--out", "told", "empty", "report.txt"), "told"),
                            (("report", "--form", "html", "--out", "page", "empty", "report.txt"), "page")):
            os.symlink("/dev/full", self.path(name + ".part"))
            run = self.run_process(*words)
            self.assertEqual((run.returncode, run.stderr), (5, "cannot use %s: No space left on device\n" % name), words)
        os.symlink("/dev/full", self.path("alerts.jsonl"))
        with self.assertRaises(OSError) as found:
            Journal(self.path("alerts.jsonl")).add({"alert": 1})
        self.assertEqual(text_of(found.exception), self.path("alerts.jsonl") + ": No space left on device")

    def test_little_room_for_a_file(self):
        """What a disk that is nearly full takes in parts is written whole."""
        file = Sparing(self.path("trace"), "wb")
        write_all(file, b"0123456789")
        file.close()
        self.assertEqual(self.get("trace"), "0123456789")

    def test_no_program(self):
        run = subprocess.run([sys.executable, os.path.join(DEV, "fuzz"), "/absent"], capture_output=True, text=True, timeout=300)
        self.assertEqual((run.returncode, run.stdout, run.stderr), (5, "", "cannot use /absent: No such file or directory\n"))

    def test_closed(self):
        """An importer needs no standard output."""
        self.put("log", '{"event":"rules","namespaces":[]}\n')
        run = subprocess.run(["sh", "-c", 'exec "$@" >&-', "sh", sys.executable, NE, "import", "events", "--from-empty",
                              "log"], cwd=self.room, capture_output=True, text=True, timeout=300)
        self.assertEqual((run.returncode, run.stderr.splitlines()[0]), (0, "commits 0, checks 0, content checks 0"))
