"""Who gets alerts: standard output, a webhook, a command, a log of the system. Each is a thread, and tells at most
one alert at a time.

A monitor that is killed between an alert and its mark does not know whether the receiver has it. A file and a command
know it, and are asked; the others get it again, with its id.
"""
import fcntl
import hashlib
import hmac
import http.client
import os
import shlex
import signal
import socket
import ssl
import stat
import subprocess
import sys
import tempfile
import time
from queue import SimpleQueue
from threading import Thread
from typing import Any, NamedTuple, Optional, Protocol
from urllib.parse import SplitResult

from new_enemy_tools.monitoring.delivery import Send
from new_enemy_tools.monitoring.marks import FORM, Mark

# So long a receiver may take for an alert, in seconds; and a command.
PATIENCE, COMMAND_PATIENCE = 10.0, 60.0
# So much of the end of a file is looked at.
TAIL = 1 << 20
# A shell that writes the mark when the command has ended well, also where the monitor is gone by then.
MARKING = '"$@" > /dev/null && printf "%s\\n" "$0"'
# Of the facility of daemons: critical.
PRIORITY = 3 * 8 + 2
SYSLOG = "/dev/log"


class Answered(NamedTuple):
    """What a receiver said of an alert; a fault where it does not have it."""

    receiver: str
    number: int
    fault: Optional[str]


class Receiver(Protocol):
    def take(self, send: Send) -> Optional[str]:
        """Takes an alert; a fault where it could not."""


class Output:
    """A line on standard output. A file gets what it lacks of the line, where it is not known what it has."""

    def __init__(self) -> None:
        self._is_known = False

    def take(self, send: Send) -> Optional[str]:
        file, line = sys.stdout.fileno(), send.text.encode() + b"\n"
        is_file = stat.S_ISREG(os.fstat(file).st_mode)
        if is_file and not self._is_known:
            line = lacking(tail_of(file, TAIL + len(line)), line)
        self._is_known, rest = False, line
        while rest:
            rest = rest[os.write(file, rest):]
        if is_file:
            os.fsync(file)
        # A file that had the line may have the next one too.
        self._is_known = bool(line)
        return None


def tail_of(file: int, size: int) -> bytes:
    """The end of a file that may be open for writing alone."""
    with open("/proc/self/fd/%d" % file, "rb") as other:
        other.seek(max(0, os.fstat(file).st_size - size))
        return other.read()


def lacking(tail: bytes, line: bytes) -> bytes:
    """What has to be written to a file for a line to be in it once; `tail` is its end."""
    if b"\n" + line in b"\n" + tail:
        return b""
    half = tail[tail.rfind(b"\n") + 1:]
    if line.startswith(half):
        return line[len(half):]
    return b"\n" + line


class Webhook:
    """A request of HTTP with the alert as its body, and a signature by a secret that both sides have.

    The signature is HMAC-SHA256 of the time that the request says, a full stop, and the body. An answer between 200
    and 299 says that the alert is there; no other address is followed.
    """

    def __init__(self, url: SplitResult, secret: Optional[bytes]):
        self.url, self.secret = url, secret
        self._connection: Optional[http.client.HTTPConnection] = None

    def take(self, send: Send) -> Optional[str]:
        body, sent = send.text.encode(), str(int(time.time()))
        headers = {"Content-Type": "application/json", "X-New-Enemy-Time": sent}
        if self.secret is not None:
            headers["X-New-Enemy-Signature"] = "sha256=" + signature(self.secret, sent, body)
        path = (self.url.path or "/") + ("?" + self.url.query if self.url.query else "")
        was_open = self._connection is not None
        try:
            return self._ask(path, body, headers)
        except (OSError, http.client.HTTPException) as fault:
            self._close()
            if not was_open:
                return str(fault) or type(fault).__name__
        # The receiver may have closed what was open for long.
        try:
            return self._ask(path, body, headers)
        except (OSError, http.client.HTTPException) as fault:
            self._close()
            return str(fault) or type(fault).__name__

    def _ask(self, path: str, body: bytes, headers: dict[str, str]) -> Optional[str]:
        connection = self._connection or self._opened()
        self._connection = connection
        connection.request("POST", path, body, headers)
        answer = connection.getresponse()
        answer.read()
        if answer.will_close:
            self._close()
        return None if 200 <= answer.status < 300 else "it answered %d %s" % (answer.status, answer.reason)

    def _opened(self) -> http.client.HTTPConnection:
        host = self.url.hostname or ""
        if self.url.scheme == "https":
            return http.client.HTTPSConnection(host, self.url.port, timeout=PATIENCE,
                                               context=ssl.create_default_context())
        return http.client.HTTPConnection(host, self.url.port, timeout=PATIENCE)

    def _close(self) -> None:
        if self._connection is not None:
            self._connection.close()
        self._connection = None


def signature(secret: bytes, sent: str, body: bytes) -> str:
    return hmac.new(secret, sent.encode() + b"." + body, hashlib.sha256).hexdigest()


class Command:
    """A command that gets the alert on standard input; its status 0 says that it has it.

    It goes on where the monitor is killed. The shell round it holds a lock on the mark's file for so long, and writes
    the mark at its end, so the next monitor waits for it and does not begin it again.
    """

    def __init__(self, text: str, mark: Mark):
        self.words, self.mark = shlex.split(text), mark

    def take(self, send: Send) -> Optional[str]:
        file = self.mark.open()
        try:
            if not _locked(file):
                return "a command that was begun before still runs"
            return None if self.mark.read() >= send.number else self._run(send, file)
        finally:
            os.close(file)

    def _run(self, send: Send, file: int) -> Optional[str]:
        with tempfile.TemporaryFile() as given, tempfile.TemporaryFile() as said:
            given.write(send.text.encode() + b"\n")
            given.seek(0)
            run = subprocess.Popen(["/bin/sh", "-c", MARKING, FORM % send.number, *self.words], stdin=given,
                                   stdout=file, stderr=said, start_new_session=True)
            try:
                status = run.wait(COMMAND_PATIENCE)
            except subprocess.TimeoutExpired:
                os.killpg(run.pid, signal.SIGKILL)
                run.wait()
                return "it took longer than %g seconds" % COMMAND_PATIENCE
            said.seek(0)
            text = said.read(1 << 10).decode("utf-8", "replace").strip()
        return None if status == 0 else "it ended with %d: %s" % (status, text[:200])


def _locked(file: int) -> bool:
    """Locks a file, when nobody else has for a command's time."""
    until = time.monotonic() + COMMAND_PATIENCE
    while True:
        try:
            fcntl.flock(file, fcntl.LOCK_EX | fcntl.LOCK_NB)
            return True
        except BlockingIOError:
            if time.monotonic() > until:
                return False
            time.sleep(0.05)


class Syslog:
    """The log of the system, which journald reads too."""

    def __init__(self, path: str = SYSLOG):
        self.path = path

    def take(self, send: Send) -> Optional[str]:
        try:
            with socket.socket(socket.AF_UNIX, socket.SOCK_DGRAM) as end:
                end.settimeout(PATIENCE)
                end.connect(self.path)
                end.send(b"<%d>new_enemy: %s" % (PRIORITY, send.text.encode()))
            return None
        except OSError as fault:
            return "%s: %s" % (self.path, fault.strerror)


class Teller:
    """The thread of a receiver, which marks what it has."""

    def __init__(self, name: str, receiver: Receiver, mark: Mark, inbox: "SimpleQueue[Any]"):
        self.name, self.receiver, self.mark, self.inbox = name, receiver, mark, inbox
        self._sends: "SimpleQueue[Send]" = SimpleQueue()
        Thread(target=self._run, daemon=True).start()

    def put(self, send: Send) -> None:
        self._sends.put(send)

    def _run(self) -> None:
        while True:
            send = self._sends.get()
            try:
                fault = self.receiver.take(send)
                if fault is None:
                    self.mark.write(send.number)
            except Exception as odd:
                # Whatever a receiver does, alerts wait for it and the monitor goes on.
                fault = "%s: %s" % (type(odd).__name__, odd)
            self.inbox.put(Answered(self.name, send.number, fault))
