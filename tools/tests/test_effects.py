"""Whether a finding mattered, compared with audits of traces whose entries stand at the state that they had to see."""
import json
import os
import re
import subprocess
from collections import Counter
from random import Random
from typing import Iterator
from unittest import mock

from new_enemy_tools.effects import Effects
from new_enemy_tools.token_order import ignored, order_findings
from new_enemy_tools.texts import zookie_text
from new_enemy_tools.trace import read_trace
from tests.random_traces import NAMESPACES, VIEWER, RandomInput
from tests.support import Case

ENTRIES = int(os.environ.get("RANDOM_ENTRIES", "2000"))
OTHER_VIEWER = {"union": [{"computed": "owner"}, {"tuple_to": {"tupleset": "parent", "computed": "member"}}]}


class ChangingInput(RandomInput):
    """Random input in which the rules of one namespace change too, and checks name versions of their objects at old snapshots."""

    def __init__(self, random: Random, entries: int):
        self.issued: list[tuple[str, str]] = []
        super().__init__(random, entries)

    def entry(self) -> dict:
        entry = super().entry()
        if entry["kind"] == "content" and entry["reply"]:
            self.issued.append((entry["goal"].rpartition("@")[0], entry["version"]))
        elif entry["kind"] == "check" and self.issued and self.random.random() < 0.5:
            goal, entry["version"] = self.random.choice(self.issued)
            entry["goal"] = "%s@%d" % (goal, self.random.randrange(4))
            entry["snapshot"] = max(0, self.at - self.random.choice([0, 1, 2, 4, 8]))
        return entry

    def commit(self) -> dict:
        if self.random.random() > 0.12:
            return super().commit()
        self.at += 1
        viewer = self.random.choice([VIEWER, OTHER_VIEWER])
        relations = [{**one, "rewrite": viewer} if one["name"] == "viewer" else one for one in NAMESPACES[0]["relations"]]
        return {**NAMESPACES[0], "at": self.at, "relations": relations}


# A plain evaluator of what a goal leads to, on the values of a trace.

def leaves(rewrite: dict) -> Iterator[tuple[str, object]]:
    for form, inner in rewrite.items():
        if form in ("union", "intersection"):
            for child in inner:
                yield from leaves(child)
        elif form == "exclusion":
            yield from leaves(inner["base"])
            yield from leaves(inner["subtract"])
        else:
            yield form, inner


def rules_over(values: list[dict], low: int, high: int) -> Iterator[tuple[str, str, dict]]:
    """The rules in force at some time from low to high."""
    for name in {value["name"] for value in values if value["kind"] == "namespace"}:
        declared = [value for value in values if value["kind"] == "namespace" and value["name"] == name]
        past = [value for value in declared if value.get("at", 0) <= low]
        for value in past[-1:] + [value for value in declared if low < value.get("at", 0) <= high]:
            for relation in value["relations"]:
                yield name, relation["name"], relation.get("rewrite", {"this": {}})


def tuples_over(values: list[dict], low: int, high: int) -> set[str]:
    """The tuples stored at some time from low to high."""
    stored: set[str] = set()
    for value in values:
        if value["kind"] == "commit" and value["at"] <= low:
            stored = stored - set(value["remove"]) | set(value["add"])
    return stored.union(*(value["add"] for value in values if value["kind"] == "commit" and low < value["at"] <= high))


def leads_to(values: list[dict], goal: str, low: int, high: int) -> tuple[set[str], set[str]]:
    """The usersets that a goal leads to, and those of them whose tuples are read."""
    rules, stored = list(rules_over(values, low, high)), tuples_over(values, low, high)
    nodes, read, count = {goal.rpartition("@")[0]}, set(), 0
    while count != len(nodes) + len(read):
        count = len(nodes) + len(read)
        for node in list(nodes):
            thing, _, relation = node.rpartition("#")
            for _, _, rewrite in (one for one in rules if one[:2] == (thing.partition(":")[0], relation)):
                for form, inner in leaves(rewrite):
                    if form == "computed":
                        nodes.add("%s#%s" % (thing, inner))
                        continue
                    of = node if form == "this" else "%s#%s" % (thing, inner["tupleset"])
                    read.add(of)
                    for user in (one[len(of) + 1:] for one in stored if one.startswith(of + "@") and "#" in one[len(of) + 1:]):
                        nodes.add(user if form == "this" else "%s#%s" % (user.rpartition("#")[0], inner["computed"]))
    return nodes, read


def is_touched(values: list[dict], goal: str, low: int, high: int) -> bool:
    """Whether a commit above low, up to high touches what a goal leads to."""
    nodes, read = leads_to(values, goal, low, high)
    user = goal.rpartition("@")[2]
    for value in values:
        if value["kind"] == "namespace" and low < value.get("at", 0) <= high and any(
                node.startswith(value["name"] + ":") for node in nodes):
            return True
        if value["kind"] == "commit" and low < value["at"] <= high:
            for one in value["add"] + value["remove"]:
                of = next((of for of in read if one.startswith(of + "@")), None)
                if of is not None and (one[len(of) + 1:] == user or "#" in one[len(of) + 1:]):
                    return True
    return False


class Audited(Case):
    def audit(self, values: list[dict]) -> str:
        """The report on a trace, by evidence that the program makes."""
        run = subprocess.run([os.environ["NEW_ENEMY"], "audit", self.put("audited", values), "--make"], capture_output=True,
                             text=True, timeout=300)
        self.assertIn(run.returncode, (0, 1), run.stderr)
        return run.stdout

    def told(self, values: list[dict], report: str) -> list[dict]:
        """The sums, and a row for each finding."""
        self.put("trace.jsonl", values)
        run = self.run_tool("report", "trace.jsonl", self.put("report.txt", report))
        self.assertEqual((run.returncode, run.stderr), (0, ""))
        return [json.loads(line) for line in run.stdout.splitlines()]


def window(values: list[dict], line: int, finding: str, related: int) -> tuple[int, int]:
    """The state that an entry saw, and the newest that it had to see, by the report's line."""
    entry, before = values[line - 1], [value["at"] for value in values[:line] if "at" in value]
    low = high = entry["snapshot"]
    if finding == "F1":
        high = int(entry["zookie"][-16:], 16)
    elif finding == "F2":
        high = values[related - 1]["snapshot"]
    elif finding == "F3":
        high = values[related - 1]["at"]
    elif finding == "F4":
        low = values[related - 1]["at"] - 1
    elif finding == "F6":
        high = max(before, default=0)
    return low, max(low, high)


FINDING = re.compile(r"line ([0-9]+): (F[0-9]+) [a-z ]+(?:, see line ([0-9]+))?")


class ByMovingEntries(Audited):
    def effects_by_moving(self, values: list[dict], report: str) -> dict[tuple[int, str], str]:
        """The effect of each finding on tokens: entries are moved, all of one kind of finding in one audit."""
        found: dict[tuple[int, str], str] = {}
        kinds: dict[str, list[tuple[int, int, int]]] = {}
        for line, finding, related in FINDING.findall(report):
            if finding != "F10":
                kinds.setdefault(finding, []).append((int(line), *window(values, int(line), finding, int(related or 0))))
        for finding, listed in kinds.items():
            moved = list(values)
            for line, _, high in listed:
                moved[line - 1] = {**moved[line - 1], "snapshot": high}
            said = self.audit(moved)
            for line, low, high in listed:
                goal = values[line - 1]["goal"]
                is_wrong = "line %d: F10 wrong reply\n" % line in said
                found[line, finding] = "none" if not is_touched(values, goal, low, high) else "changed" if is_wrong else "possible"
        return found

    def assert_changes(self, values: list[dict], rows: list[dict]) -> int:
        """At the change that an entry ignored its reply is wrong, and of a wrong reply it was right before; how many were looked at."""
        looked = [row for row in rows if row["effect"] in ("wrong", "changed") and "ignored_at" in row]
        for finding in {row["finding"] for row in looked}:
            told = [row for row in looked if row["finding"] == finding]
            for back, is_wrong in ((0, True), (1, False)) if finding == "F10" else ((0, True),):
                moved = list(values)
                for row in told:
                    self.assertLessEqual(row["ignored_at"], row.get("seen", row["snapshot"]))
                    moved[row["line"] - 1] = {**moved[row["line"] - 1], "snapshot": row["ignored_at"] - back}
                said = self.audit(moved)
                self.assertEqual({row["line"] for row in told if ("line %d: F10 wrong reply\n" % row["line"] in said) != is_wrong}, set())
        return len(looked)

    def test_random_entries(self):
        entries, number, changes, seen = 0, 0, 0, Counter()
        while entries < ENTRIES:
            values = ChangingInput(Random("effects %d" % number), 40).values
            number += 1
            report = self.audit(values)
            entries += int(re.search("entries ([0-9]+)", report)[1])
            sums, *rows = self.told(values, report)
            wanted = self.effects_by_moving(values, report)
            wrong = {row["line"] for row in rows if row["finding"] == "F10"}
            self.assertEqual(wrong, {int(line) for line, finding, _ in FINDING.findall(report) if finding == "F10"})
            self.assertEqual({(row["line"], row["finding"]): row["effect"] for row in rows if row["finding"] != "F10"}, wanted)
            changed = {line for (line, _), effect in wanted.items() if effect == "changed"} - wrong
            let_in = sum(values[line - 1]["reply"] for line in changed)
            harmless = len({line for line, _ in wanted} - changed - wrong)
            self.assertEqual([sums["sums"][key] for key in ("wrong", "let_in", "kept_out", "undecided", "harmless")],
                             [len(wrong), let_in, len(changed) - let_in, 0, harmless])
            order = [(not row.get("new_enemy"), ("wrong", "changed", "undecided", "possible", "none").index(row["effect"])) for row in rows]
            self.assertEqual(order, sorted(order))
            changes += self.assert_changes(values, rows)
            seen.update((finding, effect) for (_, finding), effect in wanted.items())
        self.assertGreater(changes, ENTRIES // 20)
        for finding in ("F1", "F2", "F3", "F4", "F6"):
            for effect in ("none", "possible", "changed"):
                self.assertGreater(seen[finding, effect], 0, (finding, effect, seen))


class WithoutTheQuickLook(Case):
    """What is quickly seen to touch nothing does touch nothing."""

    def test_random_entries(self):
        seen = Counter()
        for number in range(30):
            trace = read_trace(b"\n".join(ChangingInput(Random("quick look %d" % number), 40).lines()))
            told = [(entry, finding.split()[0]) for entry in trace.entries.values() for finding, _ in order_findings(trace, entry)]
            quick = [Effects(trace).of(*one) for one in told]
            with mock.patch.object(trace, "may_touch", lambda *_: True):
                self.assertEqual(quick, [Effects(trace).of(*one) for one in told])
            for entry, finding in told:
                window = ignored(trace, entry, finding)
                seen[trace.may_touch(trace.commits.during(*window), entry.goal), Effects(trace).of(entry, finding).word] += 1
        self.assertEqual(set(seen), {(False, "none"), (True, "none"), (True, "possible"), (True, "changed")})


BOB = [{"kind": "namespace", "name": "doc", "relations": [{"name": "viewer"}, {"name": "editor"}]},
       {"kind": "commit", "at": 5, "add": ["doc:plan#viewer@20", "doc:plan#editor@30"]},
       {"kind": "commit", "at": 10, "remove": ["doc:plan#viewer@20"]},
       {"kind": "content", "goal": "doc:plan#editor@30", "snapshot": 12, "reply": True, "version": "v2", "zookie": zookie_text(12)}]


def check(user: int, snapshot: int, reply: bool, **more: object) -> dict:
    return {"kind": "check", "goal": "doc:plan#viewer@%d" % user, "snapshot": snapshot, "reply": reply, **more}


class Stories(Audited):
    """Effects by hand."""

    def test_bob_and_others(self):
        values = BOB + [check(20, 9, True, version="v2"), check(20, 4, False, version="v2"), check(21, 9, False, version="v2"),
                        check(20, 12, False, version="v2"), check(21, 12, True)]
        sums, *rows = self.told(values, self.audit(values))
        self.assertEqual(sums["sums"]["text"], "1 reply wrong, 1 stale answer that let someone in, 0 that kept someone out, 3 harmless; "
                         "of these 1 let a new enemy in; of 5 checks 4 name a content version, none carries a token")
        self.assertEqual([(row["line"], row["finding"], row["effect"], row.get("outcome"), row.get("seen")) for row in rows], [
            (5, "F2", "changed", "let in", 12), (9, "F10", "wrong", "let in", None), (6, "F2", "possible", None, 12),
            (7, "F2", "none", None, 12), (8, "F2", "none", None, 12)])

    def test_kept_out(self):
        values = BOB[:2] + [check(20, 2, False, zookie=zookie_text(7)), check(30, 2, False, zookie=zookie_text(7))]
        sums, *rows = self.told(values, self.audit(values))
        self.assertEqual(sums["sums"]["text"], "0 replies wrong, 0 stale answers that let someone in, 1 that kept someone out, 1 harmless; "
                         "of 2 checks none names a content version, 2 carry a token")
        self.assertEqual([row.get("outcome") for row in rows], ["kept out", None])

    def test_wrong_and_stale_counts_once(self):
        """A reply that no state explains is wrong, and its stale snapshot does not count again."""
        values = BOB[:3] + [check(21, 7, True, zookie=zookie_text(10))]
        sums, *rows = self.told(values, self.audit(values))
        self.assertEqual(sums["sums"]["text"], "1 reply wrong, 0 stale answers that let someone in, 0 that kept someone out, 0 harmless; "
                         "of 1 check none names a content version, 1 carries a token")
        self.assertEqual([(row["finding"], row["effect"]) for row in rows], [("F10", "wrong"), ("F1", "none")])

    def test_without_evidence(self):
        values = BOB + [check(20, 12, False)]
        sums, _ = self.told(values, "line 5: F7 no evidence\nentries 2\nfindings 1\nverdict dirty\n")
        self.assertEqual(sums["sums"]["text"], "0 replies wrong, stale answers to checks not looked for, 1 undecided, 0 harmless; "
                         "of 1 check none names a content version, none carries a token")

    def test_a_report_of_another_trace(self):
        self.put("trace.jsonl", BOB + [check(20, 12, False)])
        run = self.run_tool("report", "trace.jsonl", self.put("report.txt", "line 5: F1 stale\nentries 2\nfindings 1\nverdict dirty\n"))
        self.assertEqual((run.returncode, run.stdout, run.stderr), (
            2, "", "report line 1: by this trace, line 5 has no `F1 stale`\n"))
