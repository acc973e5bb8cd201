"""A line on a terminal that says how far the auditor has come, of stand-ins that wait until it was seen."""
import os
import pty
import re
import select
import signal
import subprocess
import sys
import time
from typing import Optional
from unittest import mock

from new_enemy_tools.watching import CALL_READ, WAITING, Terminal
from tests.support import EXAMPLES, NE, Case
from tests.test_provenance import Checkout

# From the first moment on, and often.
AT_ONCE = "import sys; sys.path[:0] = [%r]; from new_enemy_tools.watching import watched; sys.exit(watched(sys.argv[1:], 0.0, 0.02) %% 256)" % os.path.dirname(NE)
READS = """
exec 3<given
dd bs=1000 count=1 <&3 >reading 2>&1
echo "early" >&2
read -r go <fifo
dd bs=2000 count=1 <&3 >reading 2>&1
printf "entries "
read -r go <second
echo 1
exit 1
"""
LOOPS = "#!/bin/sh\ntrap 'echo told; exit 7' TERM\necho ready\nwhile :; do sleep 0.05; done\n"


class Screen:
    """A pseudo-terminal: what a process wrote to it, and how that would stand there."""

    def __init__(self) -> None:
        self.parent, self.child = pty.openpty()
        self.written = ""

    def wait_for(self, pattern: Optional[str]) -> None:
        """Until something was written, or all was."""
        while pattern is None or not re.search(pattern, self.written):
            assert select.select([self.parent], [], [], 300)[0], (pattern, self.written[-999:])
            try:
                data = os.read(self.parent, 1 << 16)
            except OSError:
                # Nobody has it open any more.
                data = b""
            if not data:
                assert pattern is None, (pattern, self.written)
                return
            self.written += data.decode()

    def lines(self) -> list[str]:
        """What stands on it at the end."""
        lines, at = [""], 0
        for part in re.findall(r"\x1b\[K|[^\x1b]", self.written, re.DOTALL):
            if part == "\x1b[K":
                lines[-1] = lines[-1][:at]
            elif part == "\r":
                at = 0
            elif part == "\n":
                lines, at = [*lines, ""], 0
            else:
                lines[-1], at = lines[-1][:at] + part + lines[-1][at + 1:], at + 1
        return lines

    def close(self) -> None:
        os.close(self.parent)


class OnScreen(Case):
    def setUp(self) -> None:
        super().setUp()
        self.screen = Screen()
        self.addCleanup(self.screen.close)

    def stand_in(self, text: str, path: Optional[str] = None) -> str:
        path = path or self.path("program")
        with open(path, "w", encoding="utf-8") as file:
            file.write(text)
        os.chmod(path, 0o755)
        return path

    def start(self, words: list[str], folder: str, **how: object) -> "subprocess.Popen[bytes]":
        """A process with standard error, and if nothing else is said output, on the screen."""
        run = subprocess.Popen(words, cwd=folder, stderr=self.screen.child, **{"stdin": subprocess.DEVNULL, "stdout": self.screen.child, **how})
        os.close(self.screen.child)
        self.addCleanup(run.wait, 300)
        return run

    def watch(self, text: str, **how: object) -> "subprocess.Popen[bytes]":
        # Not from a file, which the shell would read.
        return self.start([sys.executable, "-c", AT_ONCE, "sh", "-c", text], self.room, **how)

    def go(self, path: str) -> None:
        with open(path, "w", encoding="utf-8") as fifo:
            fifo.write("go\n")


class Lines(OnScreen):
    def setUp(self) -> None:
        super().setUp()
        self.put("given", "%99d\n" % 0 * 30)
        # Two, since what one reader leaves is lost to the next.
        for name in ("fifo", "second"):
            os.mkfifo(self.path(name))

    def test_how_far_it_has_come(self) -> None:
        run = self.watch(READS)
        self.screen.wait_for(r"\rgiven: 1,000 of 3,000 bytes, about [0-9,]+ lines a second, \d+ s\x1b\[K")
        self.screen.wait_for(r"\rworking, [0-9,]+ bytes read, \d+ s\x1b\[K")
        self.go(self.path("fifo"))
        self.screen.wait_for(r"entries ")
        before = len(self.screen.written)
        self.go(self.path("second"))
        self.screen.wait_for(None)
        self.assertEqual(run.wait(300), 1)
        # Nothing was shown on the line that was not whole.
        self.assertRegex(self.screen.written[self.screen.written.index("entries "):before + 3], "^entries 1")
        self.assertEqual(self.screen.lines(), ["early", "entries 1", ""])

    def test_output_that_goes_elsewhere(self) -> None:
        with open(self.path("out"), "wb") as out:
            run = self.watch(READS, stdout=out)
        self.screen.wait_for("1,000 of 3,000 bytes")
        self.go(self.path("fifo"))
        self.go(self.path("second"))
        self.screen.wait_for(None)
        self.assertEqual((run.wait(300), self.get("out"), self.screen.lines()), (1, "entries 1\n", ["early", ""]))

    def test_input_by_a_pipe(self) -> None:
        run = self.watch("read -r go <fifo\ncat second >reading\n")
        self.screen.wait_for(r"(reading|working), [0-9,]+ bytes read, \d+ s")
        self.go(self.path("fifo"))
        self.go(self.path("second"))
        self.screen.wait_for(None)
        self.assertEqual((run.wait(300), self.screen.lines()), (0, [""]))


class Typed(OnScreen):
    """Standard input is the screen too, as where a user types the command alone."""

    def type(self, text: str) -> None:
        os.write(self.screen.parent, text.encode())

    def until_it_waits(self, run: "subprocess.Popen[bytes]") -> None:
        """Until the program waits for what is typed, and the tool has looked at it since, some times."""
        while self.said_by(run.pid, "task/%d/children" % run.pid) == [] or self.said_by(
                int(self.said_by(run.pid, "task/%d/children" % run.pid)[0]), "syscall")[:2] != [CALL_READ, "0x0"]:
            time.sleep(0.01)
        looked = self.looks(run.pid) + 5
        while self.looks(run.pid) < looked:
            time.sleep(0.01)

    def looks(self, process: int) -> int:
        """How often a process has waited for something."""
        words = self.said_by(process, "status")
        return int(words[words.index("voluntary_ctxt_switches:") + 1])

    def said_by(self, process: int, name: str) -> list[str]:
        with open("/proc/%d/%s" % (process, name), encoding="ascii") as file:
            return file.read().split()

    def test_nothing_was_typed_yet(self) -> None:
        """It is said once, below it one may type, and nothing is drawn over that while the program waits."""
        run = self.watch("read -r line\necho \"got $line\"\nread -r line\nread -r go <fifo\necho \"and $line\"", stdin=self.screen.child)
        os.mkfifo(self.path("fifo"))
        self.screen.wait_for(r"--help tells more\)\r\n")
        self.type("one\n")
        self.screen.wait_for("got one\r\n")
        self.until_it_waits(run)
        self.type("two\n")
        self.screen.wait_for(r"\r(working|reading), [0-9,]+ bytes read, \d+ s\x1b\[K")
        self.go(self.path("fifo"))
        self.screen.wait_for(None)
        self.assertEqual((run.wait(300), self.screen.lines()), (0, [WAITING, "one", "got one", "two", "and two", ""]))
        self.assertRegex(self.screen.written[:self.screen.written.index("two")], r"(got one\r\n|\r\x1b\[K)$")

    def test_a_line_that_was_typed_before(self) -> None:
        self.type("one\n")
        run = self.watch("read -r line\necho \"got $line\"\nread -r line\n", stdin=self.screen.child)
        self.screen.wait_for("got one\r\n")
        self.until_it_waits(run)
        self.type("two\n")
        self.screen.wait_for(None)
        self.assertEqual((run.wait(300), self.screen.lines()), (0, ["one", "got one", "two", ""]))

    def test_the_auditor(self) -> None:
        run = self.start([sys.executable, "-c", AT_ONCE, os.environ["NEW_ENEMY"]], self.room, stdin=self.screen.child)
        self.screen.wait_for(re.escape(WAITING))
        with open(os.path.join(EXAMPLES, "one_proved_check"), encoding="utf-8") as file:
            self.type(file.read() + "\x04")
        self.screen.wait_for(None)
        self.assertEqual((run.wait(300), self.screen.lines()[-4:]), (0, ["entries 1", "findings 0", "verdict clean", ""]))


class Shown(OnScreen):
    def shown(self, said: str, front: int) -> str:
        """What a terminal shows of a line, where the shell lets a process group have it."""
        with mock.patch("os.tcgetpgrp", return_value=front):
            terminal = Terminal(self.screen.child)
            terminal.show(said)
            terminal.take(self.screen.child, b"end\n")
        os.close(self.screen.child)
        self.screen.wait_for(None)
        return self.screen.written

    def test_a_job_in_front(self) -> None:
        """Its line is as wide as the terminal at most, and what would move the terminal is no part of it."""
        self.assertEqual(self.shown("a\x1b[2Jb" + "c" * 99, os.getpgrp()), "\ra\\u001b[2Jb" + "c" * (79 - 11) + "\x1b[K\r\x1b[Kend\r\n")

    def test_a_job_in_the_background(self) -> None:
        self.assertEqual(self.shown("said", os.getpgrp() + 1), "end\r\n")


class Signals(OnScreen):
    def test_one_that_ends_the_program(self) -> None:
        run = self.start([sys.executable, NE, "watch", self.stand_in("#!/bin/sh\nkill -TERM $$\n")], self.room)
        self.assertEqual(run.wait(300), -signal.SIGTERM)

    def test_one_to_the_tool_is_passed_on(self) -> None:
        run = self.start([sys.executable, NE, "watch", self.stand_in(LOOPS)], self.room)
        self.screen.wait_for("ready")
        run.send_signal(signal.SIGTERM)
        self.screen.wait_for(None)
        self.assertEqual((run.wait(300), self.screen.lines()), (7, ["ready", "told", ""]))

    def test_one_of_the_terminal_ends_both(self) -> None:
        # A shell starts what runs in the background with this signal ignored.
        run = self.start([sys.executable, NE, "watch", self.stand_in(LOOPS)], self.room, start_new_session=True,
                         preexec_fn=lambda: signal.signal(signal.SIGINT, signal.SIG_DFL))
        self.screen.wait_for("ready")
        os.killpg(run.pid, signal.SIGINT)
        self.assertEqual(run.wait(300), -signal.SIGINT)


class NoTerminal(Case):
    def test_the_program_takes_the_place_of_the_tool(self) -> None:
        with subprocess.Popen([sys.executable, NE, "watch", "sh", "-c", "echo $$; exit 4"], stdout=subprocess.PIPE, stderr=subprocess.PIPE) as run:
            out, err = run.communicate(timeout=300)
        self.assertEqual((run.returncode, out.decode(), err), (4, "%d\n" % run.pid, b""))

    def test_no_program(self) -> None:
        run = self.run_process("watch", "./none", "audit")
        self.assertEqual((run.returncode, run.stdout, run.stderr), (5, "", "cannot run ./none: No such file or directory\n"))


class Wrapper(Checkout, OnScreen):
    """The command new_enemy at the top, with a stand-in for the program."""

    def setUp(self) -> None:
        Checkout.setUp(self)
        self.screen = Screen()
        self.addCleanup(self.screen.close)
        os.symlink(NE, self.path("tools", "ne"))
        os.mkfifo(os.path.join(self.room, "fifo"))

    def stands_in(self, text: str) -> None:
        self.stand_in(text, self.path("dist", "new_enemy"))
        self.shell('. dist/provenance && write_proved dist "$(sources_sum .)" ./check', kit=True)

    def called(self, *words: str, **how: object) -> "subprocess.Popen[bytes]":
        return self.start([self.path("new_enemy"), *words], self.room, **how)

    def test_a_terminal(self) -> None:
        self.stands_in('#!/bin/sh\nread -r go <fifo\necho "$@"\nexit 1\n')
        run = self.called("audit", "a b", "--make")
        self.screen.wait_for(r"bytes read, \d+ s")
        self.go(os.path.join(self.room, "fifo"))
        self.screen.wait_for(None)
        self.assertEqual((run.wait(300), self.screen.lines()), (1, ["audit a b --make", ""]))

    def test_quiet(self) -> None:
        """The program takes the place of the wrapper, as it does where there is no terminal."""
        self.stands_in('#!/bin/sh\necho $$ "$@"\n')
        run = self.called("--quiet", "audit", "--make")
        self.screen.wait_for(None)
        self.assertEqual((run.wait(300), self.screen.lines()), (0, ["%d audit --make" % run.pid, ""]))

    def test_no_terminal(self) -> None:
        self.stands_in('#!/bin/sh\necho $$ "$@"\nkill -TERM $$\n')
        with subprocess.Popen([self.path("new_enemy"), "audit"], cwd=self.room, stdout=subprocess.PIPE, stderr=subprocess.PIPE) as run:
            out, err = run.communicate(timeout=300)
        self.assertEqual((run.returncode, out.decode(), err), (-signal.SIGTERM, "%d audit\n" % run.pid, b""))
        self.screen.close = lambda: (os.close(self.screen.parent), os.close(self.screen.child))  # type: ignore[method-assign]
