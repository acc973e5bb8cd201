"""What the tests of documents share: the documents, the commands that they show, and a folder in which these are run."""
import os
import re
import signal
import subprocess
import tempfile
import threading
import unittest
from typing import Dict, List, Set, Tuple

from tests.ports import free_port

TOP = os.path.dirname(os.path.dirname(os.path.dirname(os.path.abspath(__file__))))
PAGES = sorted(name for name in os.listdir(os.path.join(TOP, "docs")) if name.endswith(".md"))
DOCUMENTS = [*([name] for name in ("README.md", "ARCHITECTURE.md", "CHANGELOG.md", "CONTRIBUTING.md", "SECURITY.md")), *(["docs", name] for name in PAGES)]

# A port of a page, which a test exchanges for a free one, since others may run the same page beside it.
PORT = re.compile(r"\b28\d\d\d\b")
# How long a page waits at most for what it began, in seconds; a page's own time is too short for a machine with much other work.
WAIT = 100
# A time of day, which is another one each time.
TIME = re.compile(r"\d{4}-\d\d-\d\dT[\d:.]+Z")
# A line of a recorder's log: others of its lines, which are for itself, come sooner or later.
LOG_LINE = re.compile(r"(\blog/\d{6}\.jsonl):\d+")


def read(*names: str) -> str:
    with open(os.path.join(TOP, *names), encoding="utf-8") as file:
        return file.read()


def imported(*modules: Tuple[str, str]) -> Set[str]:
    """The files of definitions to which some modules lead, each given by its crate and its name, with all that these import."""
    found: Set[str] = set()
    left = [os.path.join(TOP, "crates", crate, "specs", name + ".antt") for crate, name in modules]
    while left:
        path = left.pop()
        if path in found or not os.path.exists(path):
            continue
        found.add(path)
        for crate, kind, name in re.findall(r"^use Rattle\.(\w+)\.(specs|proofs)\.(\w+)", read(path), re.MULTILINE):
            left.append(os.path.join(TOP, "crates", crate, kind, name + ".antt"))
    return found


def modules_of_clauses(crate: str, file: str, function: str, clauses: List[str]) -> Set[Tuple[str, str]]:
    """The modules of definitions that some clauses of a function name, each by its crate and its name."""
    text = read("crates", crate, "src", file)
    modules = {word: (owner, module) for owner, module, words in re.findall(r"^ghost use Rattle\.(\w+)\.specs\.(\w+)\.\{([^}]*)\};", text, re.MULTILINE)
               for word in words.split(", ")}
    contract = text.split("fn %s<" % function)[1].split("\n{\n")[0]
    named = [word for clause in clauses for word in re.findall(r"\w+", contract.split("ensures %s {" % clause)[1].split("ensures")[0])]
    return {modules[word] for word in named if word in modules and modules[word][0] != "std"}


def transcripts(text: str) -> List[Tuple[str, List[str]]]:
    """The commands that a document shows, in order, each with the lines that it prints.

    A command stands behind a dollar sign in an indented block, or some stand in a block ```sh, and what they print in the next block
    ```text. Nothing of them is changed: a line goes on in the next where it ends with a backslash, and up to a line END after << 'END'.
    """
    return [(command, "\n".join(lines).rstrip("\n").splitlines()) for command, lines in in_blocks(text) or behind_dollars(text)]


def in_blocks(text: str) -> List[Tuple[str, List[str]]]:
    shown: List[Tuple[str, List[str]]] = []
    for kind, block in re.findall(r"(?ms)^```(sh|text)\n(.*?)^```$", text):
        if kind == "sh":
            shown.append((block.rstrip("\n"), []))
        elif shown and not shown[-1][1]:
            shown[-1][1].extend(block.splitlines())
    return shown


def behind_dollars(text: str) -> List[Tuple[str, List[str]]]:
    shown: List[Tuple[str, List[str]]] = []
    is_within, is_read, goes_on = False, False, False
    for line in text.splitlines():
        if is_read or goes_on:
            shown[-1] = (shown[-1][0] + "\n" + line[4:], [])
            is_read, goes_on = is_read and line != "    END", not is_read and line.endswith("\\")
            continue
        is_indented = not line or line.startswith("    ")
        if line.startswith("    $ "):
            shown.append((line[6:], []))
            is_read, goes_on = line.endswith("<< 'END'"), line.endswith("\\")
        elif is_within and is_indented:
            shown[-1][1].append(line[4:])
        is_within = line.startswith("    $ ") or is_within and is_indented
    return shown


def without_times(lines: List[str]) -> List[str]:
    return [LOG_LINE.sub(r"\1:a line", TIME.sub("a time", line)) for line in lines]


class Bash:
    """One shell for a whole page, as its reader has one: it gets each piece of the page as it stands there."""

    END = "the end of what a piece prints"

    def __init__(self, folder: str, wait: float = WAIT):
        self.process: "subprocess.Popen[str]" = subprocess.Popen(
            ["bash", "--norc"], cwd=folder, env={**os.environ, "HOME": folder, "WAIT": str(wait)}, stdin=subprocess.PIPE,
            stdout=subprocess.PIPE, stderr=subprocess.STDOUT, text=True, start_new_session=True)

    def printed(self, text: str) -> str:
        """What the shell prints for a piece, on both of its outputs. A piece that does not end in time ends the shell."""
        assert self.process.stdin is not None and self.process.stdout is not None
        timer = threading.Timer(2 * WAIT, self.kill)
        timer.start()
        printed = ""
        try:
            self.process.stdin.write("%s\nprintf '\\n%%s\\n' '%s'\n" % (text, self.END))
            self.process.stdin.flush()
            for line in self.process.stdout:
                printed += line
                if printed.endswith("\n%s\n" % self.END):
                    return printed[:-len(self.END) - 2]
        except BrokenPipeError:
            pass
        finally:
            timer.cancel()
        return printed + "the shell ended before the command did"

    def kill(self) -> None:
        """Ends the shell and what it began and did not end."""
        os.killpg(self.process.pid, signal.SIGKILL)

    def end(self) -> None:
        if self.process.poll() is None:
            self.kill()
        self.process.communicate()


class Shown(unittest.TestCase):
    """A test that runs what a document shows, in a folder of its own."""

    def setUp(self) -> None:
        room = tempfile.TemporaryDirectory()
        self.addCleanup(room.cleanup)
        self.room = room.name
        self.ports: Dict[str, str] = {}

    def link(self, folder: str, *names: str) -> None:
        """What a reader has: the program that is tested, and some folders of the clone."""
        for name in names:
            os.symlink(os.path.join(TOP, name), os.path.join(folder, name))
        os.symlink(os.path.abspath(os.environ["NEW_ENEMY"]), os.path.join(folder, "new_enemy"))

    def with_free_ports(self, text: str) -> str:
        for port in PORT.findall(text):
            self.ports.setdefault(port, str(free_port()))
        return PORT.sub(lambda found: self.ports[found[0]], text)

    def show(self, *names: str) -> None:
        """Runs the commands that a document shows, in order, in one folder, which is the reader's home too."""
        self.show_text(self.with_free_ports(read(*names)))

    def show_text(self, text: str) -> None:
        bash = Bash(self.room)
        self.addCleanup(bash.end)
        for command, lines in transcripts(text):
            with self.subTest(command=command):
                self.assertEqual(without_times(bash.printed(command).splitlines()), without_times(lines))
