"""A quick look at a goal says what a look at all that it leads to says, or nothing."""
from collections import Counter
from random import Random
from typing import Optional
from unittest import mock

from new_enemy_tools.audited_trace import read_audited
from new_enemy_tools.meaning import Settled
from new_enemy_tools.quick_reach import UNTOUCHED, Look
from new_enemy_tools.reach import Reach
from new_enemy_tools.texts import Tuple, parse_tuple
from new_enemy_tools.token_order import Window
from new_enemy_tools.trace import Trace, read_trace
from new_enemy_tools.trace_lines import OtherForm
from tests.support import Case
from tests.test_audited import OldSnapshots, imported

THIS = {"this": {}}


def long_look(trace: Trace, goal: Tuple, low: int, high: int) -> Look:
    """The same by the usersets that the goal leads to, one by one, of a trace that was read in full."""
    if not Reach(trace, goal, Window(low, high)).touching():
        return UNTOUCHED
    return Look(True, Settled(trace.rules, trace.store, goal, high).holds())


def declared(**rewrites: dict) -> dict:
    """A namespace of relations, of which those with an exclusion stand above the others."""
    return {"kind": "namespace", "name": "doc", "relations": [
        {"name": name, "stratum": int("exclusion" in rewrite), "rewrite": rewrite} for name, rewrite in rewrites.items()]}


def commits(*added: list[str]) -> list[dict]:
    return [{"kind": "commit", "at": at, "add": list(add)} for at, add in enumerate(added, 1)]


class Looks(Case):
    def look(self, values: list[dict], goal: str, low: int, high: int) -> Optional[Look]:
        return read_audited(imported(values)).look(parse_tuple(goal), low, high)

    def test_random_goals(self) -> None:
        for patched in ({"FEW": 1_000}, {"SHORT": 0}, {"SEARCHES": 0, "NEAR": 60}, {"SEARCHES": 2, "NEAR": 0}):
            seen: Counter[object] = Counter()
            with mock.patch.multiple("new_enemy_tools.quick_reach", **patched):
                for number in range(25):
                    random = Random("sight %d" % number)
                    data = imported(OldSnapshots(random, 60).values)
                    full, quick = read_trace(data), read_audited(data)
                    top = full.commits.ats[-1]
                    for entry in full.entries.values():
                        low = random.randint(0, top)
                        high = random.randint(low, min(top, low + random.choice((1, 3, 100))))
                        found = quick.look(entry.goal, low, high)
                        if found is not None:
                            self.assertEqual(found, long_look(full, entry.goal, low, high), (number, entry, low, high))
                        seen[found] += 1
            self.assertGreater(min(seen[UNTOUCHED], seen[Look(True, False)], seen[Look(True, True)]), 50, seen)
            self.assertLess(seen[None], sum(seen.values()) / 10)

    def test_each_form(self) -> None:
        stored = commits(["doc:a#viewer@1", "doc:a#viewer@2", "doc:a#parent@doc:b#...", "doc:b#banned@2", "doc:b#viewer@doc:a#viewer"])
        for rewrite, wanted in (
                ({"tuple_to": {"tupleset": "parent", "computed": "banned"}}, [False, True]),
                ({"tuple_to": {"tupleset": "parent", "computed": "viewer"}}, [True, True]),
                ({"intersection": [{"computed": "viewer"}, {"tuple_to": {"tupleset": "parent", "computed": "banned"}}]}, [False, True]),
                ({"exclusion": {"base": {"computed": "viewer"}, "subtract": {"tuple_to": {"tupleset": "parent", "computed": "banned"}}}}, [True, False]),
                ({"union": [THIS, {"intersection": [{"union": [THIS, {"computed": "viewer"}]}, {"computed": "viewer"}]}]}, [True, True]),
                ({"exclusion": {"base": {"computed": "viewer"}, "subtract": {"computed": "viewer"}}}, [False, False])):
            values = [declared(viewer=THIS, parent=THIS, banned=THIS, asked=rewrite), *stored]
            self.assertEqual([self.look(values, "doc:a#asked@%d" % user, 0, 1) for user in (1, 2)], [Look(True, holds) for holds in wanted], rewrite)

    def test_without_usersets(self) -> None:
        values = [declared(viewer=THIS, banned=THIS, asked={"exclusion": {"base": {"computed": "viewer"}, "subtract": {"computed": "banned"}}}),
                  *commits(["doc:a#viewer@1"], ["doc:b#viewer@1"], ["doc:a#banned@1"], ["doc:a#banned@11"])]
        asked = [self.look(values, "doc:a#asked@1", *window) for window in ((0, 1), (1, 2), (0, 2), (2, 3), (0, 4), (3, 4))]
        self.assertEqual(asked, [Look(True, True), UNTOUCHED, Look(True, True), Look(True, False), Look(True, False), UNTOUCHED])

    def test_a_circle_of_rules_that_are_no_unions(self) -> None:
        """It is looked at by another way, which gives the answer."""
        rewrite = {"intersection": [{"union": [THIS, {"tuple_to": {"tupleset": "parent", "computed": "asked"}}]}, {"computed": "viewer"}]}
        values = [declared(viewer=THIS, parent=THIS, asked=rewrite),
                  *commits(["doc:a#parent@doc:b#...", "doc:b#parent@doc:a#...", "doc:a#viewer@1", "doc:b#viewer@1"], ["doc:b#asked@1"])]
        self.assertIsNone(self.look(values, "doc:a#asked@1", 0, 1))
        full = read_trace(imported(values))
        self.assertEqual([long_look(full, parse_tuple("doc:a#asked@1"), 0, at) for at in (1, 2)], [Look(True, False), Look(True, True)])

    def test_rules_that_lead_to_the_same_again_and_again(self) -> None:
        """Each of a row of documents needs all that come behind it."""
        rewrite = {"intersection": [THIS, {"computed": "viewer"}]}
        stored = ["doc:%d#asked@doc:%d#asked" % (number, later) for number in range(12) for later in range(number + 1, 12)]
        values = [declared(viewer=THIS, asked=rewrite), *commits([*stored, *["doc:%d#viewer@1" % number for number in range(12)]], ["doc:11#asked@1"])]
        self.assertEqual(self.look(values, "doc:0#asked@1", 1, 2), Look(True, True))
        with mock.patch("new_enemy_tools.quick_reach.STEPS", 5):
            self.assertIsNone(self.look(values, "doc:0#asked@1", 1, 2))

    def test_rules_that_are_no_unions_many_behind_one_another(self) -> None:
        """Such a chain is looked at by another way, and ends with no fault of Python's."""
        both = {"union": [THIS, {"tuple_to": {"tupleset": "parent", "computed": "asked"}}]}
        for rewrite in ({"exclusion": {"base": both, "subtract": {"computed": "viewer"}}}, {"intersection": [both, {"union": [both, {"computed": "viewer"}]}]}):
            values = [declared(viewer=THIS, parent=THIS, asked=rewrite), *commits(
                ["doc:%d#parent@doc:%d#..." % (number, number + 1) for number in range(320)], ["doc:320#asked@1"])]
            self.assertEqual(self.look(values, "doc:310#asked@1", 0, 2), Look(True, True))
            self.assertIsNone(self.look(values, "doc:0#asked@1", 1, 2))

    def test_more_usersets_than_few(self) -> None:
        chain = ["doc:%d#viewer@doc:%d#viewer" % (number, number + 1) for number in range(1_002)]
        values = [declared(viewer=THIS), *commits(chain, ["doc:1000#viewer@1"])]
        self.assertEqual(self.look(values, "doc:5#viewer@1", 1, 2), Look(True, True))
        self.assertIsNone(self.look(values, "doc:0#viewer@1", 1, 2))

    def test_texts_that_are_no_tuples(self) -> None:
        """The source and the revision of a line may be any texts."""
        for key in ("from", "revision"):
            for text, members in (("doc:a#viewer@1", []), ("doc:a#viewer@doc:b#viewer", ["doc:b#viewer@1", "doc:c#viewer@doc:d#viewer"])):
                values = [declared(viewer=THIS), *commits(["doc:a#viewer@2", *members], ["doc:x#viewer@1"], ["doc:a#viewer@3"])]
                values[2][key] = text
                for patched in ({"SEARCHES": 40}, {"SEARCHES": 0, "NEAR": 0}, {"SHORT": 0}):
                    with mock.patch.multiple("new_enemy_tools.quick_reach", **patched):
                        self.assertEqual(self.look(values, "doc:a#viewer@1", 1, 3), UNTOUCHED)
                        self.assertEqual(self.look(values, "doc:a#viewer@2", 0, 3), Look(True, True))
                        self.assertEqual(self.look(values, "doc:a#viewer@3", 1, 2), UNTOUCHED)
                values[3]["remove"] = ["doc:a#viewer@1"]
                self.assertEqual(self.look(values, "doc:a#viewer@1", 1, 3), Look(True, False))

    def test_a_commit_of_another_form(self) -> None:
        values = [declared(viewer=THIS), *commits(["doc:a#viewer@1"], ["doc:a#viewer@2"])]
        data = imported(values)
        for line, other in ((b'"add":["doc:a#viewer@1"]', b'"add":["doc:a#viewer@1"],"other":[]'), (b'"add":["doc:a#viewer@1"]', b'"add": ["doc:a#viewer@1"]')):
            trace = read_audited(data.replace(line, other))
            self.assertRaises(OtherForm, trace.look, parse_tuple("doc:a#viewer@1"), 0, 1)
            self.assertEqual(trace.look(parse_tuple("doc:a#viewer@2"), 1, 2), Look(True, True))
