"""The program on devices that fail, of which rows/run has no key; its answers are those of docs/FORMATS.md."""
import os
import re
import signal
import subprocess

from hostile.program_runs import Answer
from tests.support import EXAMPLES, Case

CLEAN = b"entries 1\nfindings 0\nverdict clean\n"
UNREAD = Answer(5, b"", b"read fault\n")
COMMANDS = (("audit", "t", "e"), ("audit", "t", "e", "--workers", "4"), ("audit", "t", "e", "--early"), ("audit", "t", "--make"),
            ("make", "t"), ("history", "t", "doc:readme#viewer@10"), ("follow", "t"), ("follow", "t", "--heartbeat"))
UNWRITTEN = Answer(5, b"", b"write fault after 0 bytes\n")
REFUSED = b"\xff\n---\n"
ENTRIES = 4000


class Devices(Case):
    def setUp(self):
        super().setUp()
        self.program = os.environ["NEW_ENEMY"]
        with open(os.path.join(EXAMPLES, "one_proved_check"), "rb") as file:
            self.proved = file.read()

    def answer(self, data=None, words=(), **how):
        """A run on an input, or on the file of `stdin`; what goes to a file of the caller's counts as nothing."""
        given = {"stdout": subprocess.PIPE, "stderr": subprocess.PIPE, "timeout": 60, **how}
        run = subprocess.run([*words, self.program], **given, **({} if "stdin" in how else {"input": data}))
        return Answer(run.returncode, run.stdout or b"", run.stderr or b"")

    def closed(self, files, data=None):
        """A run without some of its three files."""
        return self.answer(self.proved if data is None else data, ("sh", "-c", 'exec "$0" ' + files))

    def nobody_reads(self):
        reader, writer = os.pipe()
        os.close(reader)
        self.addCleanup(os.close, writer)
        return writer

    def full(self):
        file = open("/dev/full", "wb")
        self.addCleanup(file.close)
        return file

    def test_standard_input_that_is_closed_or_cannot_be_read(self):
        self.assertEqual(self.closed("<&-"), UNREAD)
        for path, mode in ((self.path("written"), "wb"), ("/proc/self/mem", "rb")):
            with open(path, mode) as file:
                self.assertEqual(self.answer(stdin=file), UNREAD)

    def test_standard_input_without_a_byte_yet(self):
        reader, writer = os.pipe()
        os.set_blocking(reader, False)
        self.assertEqual(self.answer(stdin=reader), UNREAD)
        os.close(reader)
        os.close(writer)

    def test_standard_output_that_takes_nothing(self):
        self.assertEqual(self.closed(">&-"), UNWRITTEN)
        self.assertEqual(self.answer(self.proved, stdout=self.full()), UNWRITTEN)

    def test_standard_output_that_nobody_reads(self):
        """Whether the caller ignores SIGPIPE or not."""
        writer = self.nobody_reads()
        for restore in (True, False):
            self.assertEqual(self.answer(self.proved, stdout=writer, restore_signals=restore), UNWRITTEN)

    def commanded(self, words, redirected=""):
        """A run of a command on files, of which the shell redirects the standard ones."""
        trace, evidence = self.proved.split(b"---\n", 1)
        self.put("t", trace)
        self.put("e", evidence)
        run = subprocess.run(["sh", "-c", 'exec "$@" ' + redirected, "sh", self.program, *words], cwd=self.room, stdin=subprocess.DEVNULL,
                             capture_output=True, timeout=300)
        return Answer(run.returncode, run.stdout, run.stderr)

    def test_commands_whose_output_takes_nothing(self):
        for words in COMMANDS:
            for redirected in (">&-", ">/dev/full", "<&- >&-"):
                self.assertEqual(self.commanded(words, redirected), UNWRITTEN, (words, redirected))

    def test_commands_without_standard_input_or_error(self):
        for words in COMMANDS:
            whole = self.commanded(words)
            self.assertEqual((whole.status, whole.err), (0, b""), words)
            self.assertNotEqual(whole.out, b"", words)
            for redirected in ("<&-", "2>&-", "2>/dev/full"):
                self.assertEqual(self.commanded(words, redirected), whole, (words, redirected))

    def test_standard_input_that_fails_behind_the_marker(self):
        reader, writer = os.pipe()
        os.set_blocking(reader, False)
        os.write(writer, self.proved[:self.proved.index(b"---\n") + 4])
        self.assertEqual(self.answer(stdin=reader), UNREAD)
        os.close(reader)
        os.close(writer)

    def test_spaces_without_end(self):
        """A trace, and evidence, that a pipe gives for as long as it is read."""
        trace, evidence = self.proved.split(b"---\n", 1)
        self.put("t", trace)
        self.put("e", evidence)
        for words, told in ((("audit", "/dev/stdin", "e"), b"trace line 1: too long\n"), (("audit", "t", "/dev/stdin"), b"evidence line 1: too long\n"),
                            (("make", "/dev/stdin"), b"trace line 1: too long\n"), (("history", "/dev/stdin", "doc:a#viewer@1"), b"trace line 1: too long\n"),
                            (("follow",), b"trace line 1: too long\n")):
            with open("/dev/zero", "rb") as zeros, subprocess.Popen(["tr", "\\0", " "], stdin=zeros, stdout=subprocess.PIPE) as spaces:
                run = subprocess.run([self.program, *words], cwd=self.room, stdin=spaces.stdout, capture_output=True, timeout=300)
                spaces.stdout.close()
            self.assertEqual((run.returncode, run.stdout, run.stderr), (2, b"", told), words)

    def test_no_file_at_all(self):
        self.assertEqual(self.closed("<&- >&- 2>&-"), Answer(5, b"", b""))
        self.assertEqual(self.closed(">&- 2>&-"), Answer(5, b"", b""))

    def test_standard_error_that_takes_nothing(self):
        """It changes nothing else."""
        for data, status, out in ((self.proved, 0, CLEAN), (REFUSED, 2, b"")):
            self.assertEqual(self.closed("2>&-", data), Answer(status, out, b""))
            self.assertEqual(self.answer(data, stderr=self.full()), Answer(status, out, b""))
            self.assertEqual(self.answer(data, stderr=self.nobody_reads()), Answer(status, out, b""))

    def report_of_many(self):
        """A trace with a long report, and the report."""
        lines = self.proved.split(b"\n")
        entries = range(3, ENTRIES + 3)
        return (b"\n".join(lines[:2] + [lines[2]] * ENTRIES + [b"---\n"]),
                b"".join(b"line %d: F7 no evidence\n" % line for line in entries)
                + b"entries %d\nfindings %d\nverdict dirty\n" % (ENTRIES, ENTRIES))

    def test_a_reader_that_is_slow(self):
        data, report = self.report_of_many()
        self.assertEqual(self.answer(data), Answer(1, report, b""))
        self.assertEqual(self.closed("| (sleep 0.3; cat)", data).out, report)

    def test_a_reader_that_leaves_in_the_middle(self):
        data, report = self.report_of_many()
        with subprocess.Popen([self.program], stdin=subprocess.PIPE, stdout=subprocess.PIPE, stderr=subprocess.PIPE) as run:
            run.stdin.write(data)
            run.stdin.close()
            self.assertEqual(run.stdout.read(10), report[:10])
            run.stdout.close()
            told = run.stderr.read()
        self.assertEqual(run.returncode, 5)
        written = int(re.fullmatch(rb"write fault after ([0-9]+) bytes\n", told)[1])
        self.assertTrue(10 <= written < len(report), written)

    def test_a_writer_that_takes_no_more_for_now(self):
        """What went out before is the beginning of the report, and as long as is told."""
        data, report = self.report_of_many()
        reader, writer = os.pipe()
        os.set_blocking(writer, False)
        answer = self.answer(data, stdout=writer)
        os.close(writer)
        with open(reader, "rb") as file:
            out = file.read()
        self.assertLess(len(out), len(report))
        self.assertTrue(report.startswith(out))
        self.assertEqual(answer, Answer(5, b"", b"write fault after %d bytes\n" % len(out)))

    def test_a_run_that_is_stopped_for_a_while(self):
        with subprocess.Popen([self.program], stdin=subprocess.PIPE, stdout=subprocess.PIPE, stderr=subprocess.PIPE) as run:
            for part in (self.proved[:100], self.proved[100:]):
                run.stdin.write(part)
                run.stdin.flush()
                run.send_signal(signal.SIGSTOP)
                run.send_signal(signal.SIGCONT)
            out, err = run.communicate(timeout=300)
        self.assertEqual((run.returncode, out, err), (0, CLEAN, b""))

    def run_words(self, *words):
        return subprocess.run([self.program.encode(), *words], input=self.proved, capture_output=True, timeout=300)

    def test_words(self):
        """Words that ask for nothing are a fault of usage, also one that is not UTF-8."""
        for words in ((b"audit",), (b"audit", b"t"), (b"--nope",), (b"",), (b"a" * 100000,), (b"\xff",)):
            run = self.run_words(*words)
            self.assertEqual((run.returncode, run.stdout), (3, b""), words[0][:9])
            self.assertNotEqual(run.stderr, b"", words[0][:9])

    def test_help(self):
        """Help and the version go to standard output."""
        for words in ((b"--help",), (b"audit", b"--help"), (b"history", b"--help"), (b"follow", b"--help"), (b"--version",)):
            run = self.run_words(*words)
            self.assertEqual((run.returncode, run.stderr), (0, b""), words)
            self.assertNotEqual(run.stdout, b"", words)
