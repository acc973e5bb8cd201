"""Runs a program, and says on a terminal how far it has come in what it reads. The program is looked at from outside, by /proc."""
import fcntl
import os
import selectors
import signal
import subprocess
import termios
import time
from typing import Any, NamedTuple, Optional

from new_enemy_tools.shown import plain

# Before anything is said, and between two looks.
FIRST = 2.0
PAUSE = 0.2
# Between two looks at whether the program waits for what is typed, until it does or something is said.
SOON = 0.02
# So many bytes before the place that is read are looked at, to see how long lines are.
SAMPLE = 1 << 18
READ_ONLY, ACCESS = os.O_RDONLY, 3
# What /proc says of a process in the call read, on x86-64, for which the program is.
CALL_READ = "0"
WAITING = "waiting for a trace on standard input (end it with Ctrl-D; ./new_enemy --help tells more)"
SIGNALS = (signal.SIGTERM, signal.SIGHUP, signal.SIGINT, signal.SIGQUIT)


class Reading(NamedTuple):
    """A plain file that a process reads: its link below /proc, its path, how far it is read, and its size."""

    link: str
    path: str
    at: int
    size: int

    def line_bytes(self) -> float:
        """How long lines are before the place that is read."""
        with open(self.link, "rb", buffering=0) as file:
            data = os.pread(file.fileno(), SAMPLE, max(0, self.at - SAMPLE))
        return len(data) / max(1, data.count(b"\n"))


def _reading(process: int, name: str) -> Optional[Reading]:
    link = "/proc/%d/fd/%s" % (process, name)
    try:
        path, size = os.readlink(link), os.stat(link).st_size
        with open("/proc/%d/fdinfo/%s" % (process, name), encoding="ascii") as file:
            words = dict(line.split(":", 1) for line in file if ":" in line)
    except OSError:
        # It is closed meanwhile.
        return None
    is_read = int(words["flags"], 8) & ACCESS == READ_ONLY and os.path.isfile(link)
    return Reading(link, path, min(int(words["pos"]), size), size) if is_read else None


def readings(process: int) -> list[Reading]:
    """By their numbers. A process of the auditor has few files open: those of its words."""
    found = [_reading(process, name) for name in sorted(os.listdir("/proc/%d/fd" % process), key=int)]
    return [one for one in found if one is not None]


def bytes_read(process: int) -> int:
    """How many bytes a process has read, also by pipes. The system counts what was read to start it, some thousand bytes."""
    with open("/proc/%d/io" % process, encoding="ascii") as file:
        return int(dict(line.split(":", 1) for line in file)["rchar"])


def typed_ahead() -> bool:
    """Whether lines were typed that nobody has read, on the terminal that is standard input."""
    return any(fcntl.ioctl(0, termios.FIONREAD, bytes(4)))


def read_until_typed(process: int) -> Optional[int]:
    """How many bytes a process has read that waits to read from the terminal that is standard input here. Nothing where it does not
    wait for that, or where the system does not tell."""
    try:
        with open("/proc/%d/syscall" % process, encoding="ascii") as file:
            words = file.read().split()
        waits = words[0] == CALL_READ and os.stat("/proc/%d/fd/%d" % (process, int(words[1], 16))).st_rdev == os.fstat(0).st_rdev
        return bytes_read(process) if waits else None
    except (OSError, IndexError):
        return None


class Line:
    """What is said of a process, from one look to the next."""

    def __init__(self, process: int):
        self.process = process
        self.started = self.last_look = time.monotonic()
        self.places: dict[str, int] = {}
        self.count = 0

    def said(self) -> str:
        now, before, places, count = time.monotonic(), self.last_look, self.places, self.count
        current = readings(self.process)
        self.last_look, self.places, self.count = now, {one.link: one.at for one in current}, bytes_read(self.process)
        moved = [one for one in current if one.at > places.get(one.link, 0)]
        seconds = "%d s" % (now - self.started)
        if moved:
            one = moved[-1]
            lines = (one.at - places.get(one.link, 0)) / one.line_bytes() / max(now - before, 0.001)
            return "%s: %s of %s bytes, about %s lines a second, %s" % (
                os.path.basename(one.path), format(one.at, ","), format(one.size, ","), format(int(lines), ","), seconds)
        return "%s, %s bytes read, %s" % ("reading" if self.count > count else "working", format(self.count, ","), seconds)


class Typing:
    """Whether a process waits for what is typed, and whether it was told that."""

    def __init__(self) -> None:
        self.is_typed = os.isatty(0)
        self.is_told = self.is_typed and typed_ahead()
        # What it had read when it first waited: that was read to start it.
        self.to_start: Optional[int] = None
        self.count: Optional[int] = None

    def is_looked_for(self) -> bool:
        """Whether it has to be seen soon how much was read before anything was typed."""
        return self.is_typed and self.to_start is None

    def look(self, process: int) -> bool:
        """Whether it waits."""
        self.count = read_until_typed(process) if self.is_typed else None
        if self.to_start is None:
            self.to_start = self.count
        return self.count is not None

    def tell(self, terminal: "Terminal") -> None:
        """Says once of a process that waits that it does, where nothing was typed yet."""
        if not self.is_told:
            self.is_told = self.count != self.to_start or terminal.tell(WAITING)


class Terminal:
    """A terminal's standard error, on which the line stands below what the program wrote."""

    def __init__(self, number: int):
        self.number = number
        self.is_shown = False
        # Where the program wrote a part of a line, the line would cover it.
        self.is_free = True

    def _is_in_front(self) -> bool:
        """Whether the shell lets this process have the terminal: a job in the background leaves it to others."""
        try:
            return os.tcgetpgrp(self.number) == os.getpgrp()
        except OSError:
            # It is no terminal that a shell shares out.
            return True

    def show(self, said: str) -> None:
        if self.is_free and self._is_in_front():
            columns = os.get_terminal_size(self.number).columns or 80
            self.is_shown = True
            passed_on(self.number, b"\r" + plain(said)[:columns - 1].encode(errors="replace") + b"\x1b[K")

    def tell(self, said: str) -> bool:
        """Whether a line that stays was written, below which one may type."""
        if not (self.is_free and self._is_in_front()):
            return False
        return passed_on(self.number, said.encode() + b"\n")

    def clear(self) -> None:
        if self.is_shown:
            self.is_shown = False
            passed_on(self.number, b"\r\x1b[K")

    def take(self, target: int, data: bytes) -> bool:
        """Whether a terminal takes what the program wrote."""
        self.clear()
        self.is_free = data.endswith(b"\n")
        return passed_on(target, data)


def passed_on(target: int, data: bytes) -> bool:
    """Whether a file took all bytes."""
    try:
        while data:
            data = data[os.write(target, data):]
    except OSError:
        return False
    return True


def _relayed(program: "subprocess.Popen[bytes]", terminal: Terminal, typing: Typing, first: float, pause: float) -> None:
    """Passes on what the program writes to terminals, until it has closed them, which it does at its end at the latest."""
    line, at = Line(program.pid), time.monotonic() + first
    with selectors.DefaultSelector() as selector:
        for source, target in ((program.stdout, 1), (program.stderr, 2)):
            if source is not None:
                selector.register(source, selectors.EVENT_READ, target)
        while selector.get_map():
            wait = at - time.monotonic()
            for key, _ in selector.select(max(0.0, min(SOON, wait) if typing.is_looked_for() else wait)):
                data = os.read(key.fd, 1 << 16)
                if not data or not terminal.take(key.data, data):
                    selector.unregister(key.fileobj)
                    key.fileobj.close()  # type: ignore[union-attr]
            waits = typing.look(program.pid)
            if time.monotonic() >= at:
                at = time.monotonic() + pause
                if waits:
                    # A line that is drawn again and again would cover what is typed.
                    terminal.clear()
                    typing.tell(terminal)
                else:
                    _show(terminal, line)
    terminal.clear()


def _show(terminal: Terminal, line: Line) -> None:
    try:
        terminal.show(line.said())
    except OSError:
        # The program has ended, or the system does not let it be looked at.
        terminal.clear()


def _pass_on_signals(started: "list[subprocess.Popen[bytes]]", early: list[int]) -> None:
    """Signals go to the program; those that a terminal sends it has already. What the caller ignores stays ignored."""
    def pass_on(number: int, _: Any) -> None:
        if not started:
            early.append(number)
        elif number not in (signal.SIGINT, signal.SIGQUIT):
            started[0].send_signal(number)

    for number in SIGNALS:
        if signal.getsignal(number) != signal.SIG_IGN:
            signal.signal(number, pass_on)


def watched(words: list[str], first: float = FIRST, pause: float = PAUSE) -> int:
    """Runs a program where standard error is a terminal, and answers its status; below 0 it is the signal that ended it."""
    started: list[subprocess.Popen[bytes]] = []
    early: list[int] = []
    _pass_on_signals(started, early)
    pipes = {number: subprocess.PIPE if os.isatty(number) else None for number in (1, 2)}
    typing = Typing()
    with subprocess.Popen(words, stdout=pipes[1], stderr=pipes[2]) as program:
        started.append(program)
        for number in early:
            program.send_signal(number)
        _relayed(program, Terminal(2), typing, first, pause)
    return program.returncode
