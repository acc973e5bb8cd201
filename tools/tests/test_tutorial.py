"""The tutorial, from an empty home on: each command of the page, and what it prints."""
import os
import re
import socket
from typing import List

from tests.documents import WAIT, Bash, Shown, read, transcripts

PAGE = ("docs", "TUTORIAL.md")


def starting_over() -> str:
    [over] = re.findall(r"`(for number in \$\(cat [^`]+)`", read(*PAGE))
    return str(over)


class Walked(Shown):
    """A reader's home with a clone, and the page's shell."""

    def setUp(self) -> None:
        super().setUp()
        clone = os.path.join(self.room, "new_enemy")
        os.mkdir(clone)
        self.link(clone, "tools")

    def get(self, *names: str) -> str:
        with open(os.path.join(self.room, "audits", *names), encoding="utf-8") as file:
            return file.read()


class Tutorial(Walked):
    def test_each_command(self) -> None:
        self.show(*PAGE)
        self.assertIn("user:bob was let in", self.get("report.html"))
        self.assertEqual(self.get("days", "day000001", "report.txt").splitlines()[-1], "verdict dirty")
        self.assertIn("cannot show F1 stale", self.get("days", "day000001", "import.txt"))
        self.a_second_walk()

    def a_second_walk(self) -> None:
        """Nothing that ended has left its number, and what starts over has nothing to say."""
        audits = os.path.join(self.room, "audits")
        self.assertEqual([name for name in os.listdir(audits) if name.endswith(".pid")], [])
        bash = Bash(self.room)
        self.addCleanup(bash.end)
        self.assertEqual(bash.printed(starting_over()), "")
        self.assertFalse(os.path.exists(audits))
        self.assertEqual(os.listdir(self.room), ["new_enemy"])

    def test_it_is_the_whole_way(self) -> None:
        used = {found for command, _ in transcripts(read(*PAGE)) for found in re.findall(r"tools/ne (\w+)|new_enemy (audit)", command)}
        self.assertEqual({one or other for one, other in used}, {"record", "import", "audit", "report", "explain", "day"})


class Stumbled(Walked):
    """What a reader sees who stumbles."""

    def said(self, pieces: List[str], wait: float = WAIT) -> str:
        bash = Bash(self.room, wait)
        self.addCleanup(bash.end)
        return "".join([bash.printed(piece) for piece in pieces])

    def piece(self, word: str) -> str:
        """The first piece of the page that has a word."""
        return next(command for command, _ in transcripts(self.with_free_ports(read(*PAGE))) if word in command)

    def test_a_clone_elsewhere(self) -> None:
        os.rename(os.path.join(self.room, "new_enemy"), os.path.join(self.room, "elsewhere"))
        self.assertIn("./new_enemy: No such file or directory", self.said([self.piece("--version")]))

    def test_a_service_that_does_not_start(self) -> None:
        """The wait ends, and what the service said is shown."""
        pieces = [self.piece("--version"), self.piece("wait_for()"), self.piece("service.pid")]
        said = self.said([*pieces, "wait $(cat service.pid); cat service.txt"], 0.5)
        self.assertIn("\nAfter 0.5 seconds service.txt has no ^ready. Look here:\n==> service.txt <==\n", said)
        self.assertIn("No such file or directory: 'model.json'", said)

    def test_a_port_that_is_taken(self) -> None:
        pieces = [self.piece(word) for word in ("--version", "model.json", "wait_for()", "service.pid", "recorder.pid")]
        with socket.socket() as one, socket.socket() as other:
            for taken, port in (one, "28180"), (other, "28190"):
                taken.bind(("127.0.0.1", int(self.ports[port])))
                taken.listen()
            said = self.said([*pieces, "wait; cat service.txt recorder.txt"], 2)
        for file, why in ("service.txt", "Address already in use"), ("recorder.txt", "cannot listen at 127.0.0.1:%s" % self.ports["28190"]):
            self.assertRegex(said, "After 2 seconds %s has no (?s:.*)%s" % (file, why))

    def test_starting_over(self) -> None:
        """What was begun has ended, the clone is there, and the page can be begun again."""
        pieces = [self.piece(word) for word in ("--version", "model.json", "wait_for()", "service.pid", "recorder.pid")]
        said = self.said([*pieces, starting_over(), "wait", "ls ~", "ls ~/new_enemy", *pieces, "kill $(cat *.pid)", "wait"])
        self.assertNotIn("After ", said)
        self.assertEqual(said.count("new_enemy 0."), 2)
        self.assertEqual(said.count("record: recording openfga at"), 2)
        self.assertIn("new_enemy\nnew_enemy\ntools\n", said)

    def test_a_call_that_nobody_answers(self) -> None:
        self.assertIn("curl: (7)", self.said([self.piece("wait_for()"), self.piece('"deletes"').split("\nwait_for")[0]]))

    def test_without_headers(self) -> None:
        """What the page says of its own log: the verdict is then clean, and what can't be shown is said."""
        pieces = [re.sub(r" -H 'X-Content-\w+: v2'", "", command) for command, _ in transcripts(self.with_free_ports(read(*PAGE)))]
        last = next(place for place, piece in enumerate(pieces) if piece.startswith("tools/ne day"))
        self.assertEqual(self.said([*(piece for piece in pieces[:last] if "explain" not in piece), pieces[last]]).splitlines()[-3:],
                         ["entries 2", "findings 0", "verdict clean"])
