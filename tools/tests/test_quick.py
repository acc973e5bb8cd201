"""A trace that is read by the quick forms of its lines is the one that is read in full, and so are its faults."""
import os
from random import Random
from typing import Optional
from unittest import mock

from hostile.inputs import worked_cases
from new_enemy_tools import strictjson
from new_enemy_tools.files import split_joined
from new_enemy_tools.trace_lines import quick_commit, quick_touch
from new_enemy_tools.texts import Tuple, Userset
from new_enemy_tools.trace import Fault, Trace, is_utf8, read_trace
from tests.random_traces import RandomInput
from tests.support import Case
from tests.test_effects import ChangingInput

RANDOM_TRACES = int(os.environ.get("RANDOM_TRACES", "60"))


def said(trace: Trace) -> list[object]:
    """Everything that is asked of a trace."""
    touched = {given for commit in trace.commits for given in (*commit.add, *commit.remove)}
    return [list(trace.commits), list(trace.entries.items()), {given: trace.store.touches(given) for given in touched},
            [trace.at_of(line) for line in range(80)], trace.touches]


def read(data: bytes) -> tuple[Optional[list[object]], list[str]]:
    try:
        return said(read_trace(data)), []
    except Fault as fault:
        return None, [str(fault), *fault.details]


class Quick(Case):
    def compare(self, data: bytes) -> list[str]:
        quick = read(data)
        with mock.patch.object(Trace, "take_quickly", lambda *_: False):
            self.assertEqual(quick, read(data), data)
        return quick[1]

    def test_random_traces(self):
        refused = 0
        for number in range(3 * RANDOM_TRACES):
            given = RandomInput(Random("quick %d" % number))
            self.compare(split_joined(given.joined())[0])
            refused += bool(self.compare(split_joined(given.refused())[0]))
            self.compare(b"\n".join(ChangingInput(Random("quick %d" % number), 30).lines()))
        self.assertGreater(refused, RANDOM_TRACES)

    def test_lines(self):
        """Blocks of lines give what all lines at once give."""
        random = Random("lines")
        with mock.patch.object(strictjson, "BLOCK", 5):
            for _ in range(500):
                data = bytes(random.choice(b"\n\n \ta{") for _ in range(random.randrange(40)))
                wanted = [(number, line) for number, line in enumerate(data.split(b"\n"), 1) if line.strip(b" \t\r")]
                self.assertEqual(list(strictjson.lines_of(data)), wanted)

    def test_parting_lines(self):
        """The first line that is exactly three dashes parts joined input."""
        for data, wanted in ((b"", (b"", None)), (b"---", (b"", b"")), (b"---\na", (b"", b"a")), (b"a\n---", (b"a\n", b"")),
                             (b"a\n---\nb\n---\n", (b"a\n", b"b\n---\n")), (b"a---\n", (b"a---\n", None)), (b"--- \n---x", (b"--- \n---x", None)),
                             (b"a\n---\r\n", (b"a\n---\r\n", None)), (b"a\n----\n---\n", (b"a\n----\n", b""))):
            self.assertEqual(split_joined(data), wanted)

    def test_worked_cases(self):
        refused = sum(bool(self.compare(split_joined(case.data)[0])) for case in worked_cases() if len(case.data) < 1_000_000)
        self.assertGreater(refused, 200)

    def test_what_is_taken_quickly(self):
        """One byte of difference, and a line is looked at in full."""
        head = ['{"kind":"namespace","name":"doc","relations":[{"name":"viewer"}]}',
                '{"kind":"commit","at":1,"add":["doc:a#viewer@1","doc:a#viewer@doc:b#viewer"]}']
        kept = '{"kind":"commit","at":2,"add":["doc:b#viewer@1","doc:b#viewer@doc:é#viewer"],"remove":["doc:a#viewer@1"],"from":"x:1"}'
        trace = read_trace("\n".join([*head, kept]).encode())
        taken: list[bool] = []
        for line in (kept.replace('"at":2', '"at":3'), kept, kept.replace("@1", "@01").replace(":2", ":4"), kept.replace(":2", ":5") + " ",
                     kept.replace(":2", ":6").replace("b#", "b]#"), kept.replace(":2", ":7").replace('"],', '",],'),
                     kept.replace(":2", ":8").replace('["doc', '[x"doc'), kept.replace(":2", ":9").replace("a#viewer@1", "b#viewer@1"),
                     kept.replace(":2", ":9").replace("a#viewer@1", "b#owner@1"), kept.replace(":2", ":9").replace("é", "é" * 65)):
            taken.append(trace.take_quickly(len(taken) + 4, line.encode()))
        self.assertEqual(taken, [True] + [False] * 9)
        self.assertTrue(trace.store.has(Tuple(Userset("doc", "b", "viewer"), 1), 2))

    def test_commits_of_one_tuple(self):
        """What is said of them is what they say read in full; of another line nothing is said."""
        line = b'{"kind":"commit","at":20,"remove":["doc:\xc3\xa9#viewer@7"],"revision":"3","from":"log:1"}'
        self.assertEqual(quick_touch(line), (b"doc:\xc3\xa9#viewer@7", False))
        random, taken = Random("one tuple"), 0
        for _ in range(20_000):
            place = random.randrange(len(line))
            other = random.choice([line, line.replace(b"remove", b"add"), line.replace(b"@7", b"@doc:b#viewer"), line.replace(b"@7", b"@doc:b#...")])
            other = other[:place] + random.choice([b"", b'"', b"]", b"@", b"#", b",", b"0", b"a", b"\\", b'","x']) + other[place + random.randint(0, 1):]
            touch, commit = quick_touch(other), quick_commit(other)
            if touch is not None and is_utf8(other):
                taken += 1
                self.assertEqual(strictjson.object_of(other).get("add" if touch[1] else "remove"), [touch[0].decode()])
            self.assertIn(commit and len(commit.add) + len(commit.remove), (None, 0, 2) if touch is None else (None, 1), other)
        self.assertGreater(taken, 1_000)
