"""Explanations of findings and of refusals, and drawings."""
import json
import os
import re
import shutil
import subprocess
import unittest
import xml.etree.ElementTree
from collections import Counter
from random import Random
from unittest import mock

from hostile.inputs import worked_cases
from new_enemy_tools import limits
from new_enemy_tools.evidence import check_evidence, records_of
from new_enemy_tools.files import split_joined
from new_enemy_tools.held_goals import Answers
from new_enemy_tools.judging import judge
from new_enemy_tools.meaning import Settled
from new_enemy_tools.reasons import Reasons
from new_enemy_tools.texts import Tuple
from new_enemy_tools.token_order import order_lines
from new_enemy_tools.trace import Fault, Trace, read_trace
from tests.random_traces import RandomInput
from tests.support import EXAMPLES, Case
from tests.test_effects import ChangingInput

RANDOM_TRACES = int(os.environ.get("RANDOM_TRACES", "60"))

NAMESPACES = [
    {"kind": "namespace", "name": "group", "relations": [{"name": "member"}]},
    {"kind": "namespace", "name": "doc", "relations": [
        {"name": "parent"}, {"name": "banned"},
        {"name": "viewer", "stratum": 1, "rewrite": {"exclusion": {
            "base": {"union": [{"this": {}}, {"tuple_to": {"tupleset": "parent", "computed": "viewer"}}]},
            "subtract": {"computed": "banned"}}}}]}]


def commit(at, *add, remove=()):
    return {"kind": "commit", "at": at, "add": list(add), "remove": list(remove)}


def entry(kind, snapshot, reply, goal="doc:1#viewer@7", **more):
    return {"kind": kind, "goal": goal, "snapshot": snapshot, "reply": reply, **more}


def token(at):
    return "z1-%016x" % at


class Findings(Case):
    def explained(self, line, *rows, words=()):
        """What is said of the findings of a line, and why its goal holds or not."""
        self.put("trace", NAMESPACES + list(rows))
        run = self.run_tool("explain", *words, "trace", str(line))
        self.assertEqual((run.returncode, run.stderr), (0, ""))
        said = run.stdout.splitlines()
        place = next(place for place, text in enumerate(said) if text.startswith("Why "))
        return said[2:place - 1], said[place:]

    def test_an_old_token(self):
        rows = [commit(1, "doc:1#viewer@7"), commit(2, "doc:9#viewer@7"), commit(3, "doc:1#banned@group:g#member"),
                commit(4, "group:g#member@8", "group:g#member@7"), commit(5, "doc:1#banned@8"),
                entry("content", 5, True, "doc:1#viewer@7", version="v", zookie=token(5)),
                entry("check", 3, True, version="v", zookie=token(1)), entry("check", 5, False, version="v"),
                entry("check", 3, True, "doc:9#viewer@7", version="v", zookie=token(1))]
        found, why = self.explained(9, *rows)
        self.assertEqual(found, [
            "F2 old token, see line 8",
            "Version v was issued at snapshot 5, so the check had to demand all commits up to 5. Its token demands those up to 1.",
            "Commits that the check had to demand and did not: 4, of which 2 bear on the question.",
            "  bears on it, within the snapshot, at 3 (line 5): adds doc:1#banned@group:g#member",
            "  bears on it, after the snapshot, at 4 (line 6): adds group:g#member@7, adds group:g#member@8",
            "  other, within the snapshot, at 2 (line 4): adds doc:9#viewer@7",
            "  other, after the snapshot, at 5 (line 7): adds doc:1#banned@8",
            "Effect changed: the reply is right without the commits after the snapshot, and wrong with them. They were not seen, and someone was let in.",
            "At 5, the newest state that had to be seen, the user is denied:",
            "  not in doc:1#viewer",
            "    in doc:1#banned, which takes it away",
            "      in group:g#member, by doc:1#banned@group:g#member, added at 3 (line 5)",
            "        group:g#member@7 is stored, added at 4 (line 6)"])
        self.assertEqual(why, [
            "Why allowed:", "  in doc:1#viewer", "    doc:1#viewer@7 is stored, added at 1 (line 3)",
            "    not in doc:1#banned, which would take it away", "      doc:1#banned@7 is not stored",
            "      not in group:g#member, by doc:1#banned@group:g#member, added at 3 (line 5)",
            "        group:g#member@7 is not stored"])
        found, why = self.explained(10, *rows)
        self.assertEqual(found[-1], "Effect none: its snapshot takes in all that it had to see.")
        self.assertEqual(why[:3], ["Why denied:", "  not in doc:1#viewer", "    in doc:1#banned, which takes it away"])

    def test_an_old_token_of_a_snapshot_that_is_new_enough(self):
        """What had to be demanded ends where the version was issued, and not at the snapshot."""
        rows = [commit(1, "doc:1#viewer@7"), commit(2, "doc:9#viewer@7"), entry("content", 2, True, "doc:1#viewer@7", version="v", zookie=token(2)),
                commit(3, "doc:1#viewer@8"), entry("check", 3, True, version="v"), entry("check", 3, True, version="v", zookie=token(1))]
        self.assertEqual(self.explained(7, *rows)[0], [
            "F2 old token, see line 5",
            "Version v was issued at snapshot 2, so the check had to demand all commits up to 2. It carries no token, and so demands none.",
            "Commits that the check had to demand and did not: 2, of which 1 bears on the question.",
            "  bears on it, within the snapshot, at 1 (line 3): adds doc:1#viewer@7",
            "  other, within the snapshot, at 2 (line 4): adds doc:9#viewer@7",
            "Effect none: its snapshot takes in all that it had to see."])
        self.assertEqual(self.explained(8, *rows)[0][2:4], ["Commits that the check had to demand and did not: 1, of which none bears on the question.",
                                                            "  other, within the snapshot, at 2 (line 4): adds doc:9#viewer@7"])

    def test_a_wrong_token(self):
        rows = [commit(4, "doc:1#viewer@7"), entry("content", 4, True, version="v", zookie=token(3))]
        self.assertEqual(self.explained(4, *rows)[0][1], "The content check looked at 4, so its token has to be of 4. The token that was stored with "
                         "the version is %s, of 3." % token(3))

    def test_not_latest(self):
        rows = [commit(1, "doc:1#viewer@7"), commit(3, remove=["doc:1#viewer@7"]),
                entry("content", 2, True, version="v", zookie=token(2)), entry("content", 1, False)]
        self.assertEqual(self.explained(5, *rows)[0][:5], [
            "F3 not latest, see line 4", "A content check has to look at the newest state. The last commit before it is at 3, and it looked at 2, its snapshot.",
            "Commits before it that it did not look at: 1, of which 1 bears on the question.",
            "  bears on it, after the snapshot, at 3 (line 4): removes doc:1#viewer@7",
            "Effect changed: the reply is right without the commits after the snapshot, and wrong with them. They were not seen, and someone was let in."])
        later = self.explained(6, *rows)[0]
        self.assertEqual(later[4], "Effect possible: the reply is right only with the commits after the snapshot; they were seen after all.")
        self.assertEqual(later[6], "F10 wrong reply, as this tool finds without evidence")

    def test_an_open_snapshot(self):
        rows = [commit(1, "doc:1#viewer@7"), entry("check", 5, False), entry("check", 5, True), entry("check", 9, False),
                commit(4, remove=["doc:1#viewer@7"]), commit(5)]
        self.assertEqual(self.explained(4, *rows)[0], [
            "F4 open snapshot, see line 7", "Its snapshot 5 takes in commits that stand on later lines, as if they had been there already.",
            "Commits on later lines that its snapshot takes in: 2, of which 1 bears on the question.",
            "  bears on it, within the snapshot, on a later line, at 4 (line 7): removes doc:1#viewer@7",
            "  other, within the snapshot, on a later line, at 5 (line 8): nothing",
            "Effect possible: the reply is right only with the commits on later lines; they were seen after all."])
        self.assertEqual(self.explained(5, *rows)[0][5], "Effect changed: the reply is right without the commits on "
                         "later lines, and wrong with them. They were not seen, and someone was let in.")

    def test_no_effect(self):
        rows = [commit(1, "doc:1#viewer@7"), commit(2, "doc:2#viewer@7"), commit(3, "doc:1#viewer@8"), commit(4, "doc:1#viewer@7"),
                entry("check", 1, True, zookie=token(3)), entry("check", 1, True, zookie=token(4)),
                entry("check", 1, False, "doc:1#viewer@9", zookie=token(4))]
        self.assertEqual(self.explained(7, *rows)[0][-1], "Effect none: no commit after the snapshot bears on the question.")
        self.assertEqual(self.explained(8, *rows)[0][-1], "Effect possible: the reply is right with the commits after the snapshot and "
                         "without them; it does not show whether they were seen.")
        self.assertEqual(self.explained(9, *rows)[0][2], "Commits that the token demands and the snapshot does not have: 3, of which none bears on the question.")

    def test_a_wrong_reply(self):
        rows = [commit(1, "doc:1#parent@doc:2#..."), commit(2, "doc:2#viewer@7"), commit(3, "doc:5#viewer@7"),
                commit(4, "doc:2#banned@7"), commit(8), entry("check", 9, True), entry("check", 3, False),
                entry("check", 1, True), entry("check", 9, True, "doc:1#viewer@9")]
        found, why = self.explained(8, *rows)
        self.assertEqual(found, [
            "F10 wrong reply, as this tool finds without evidence", "By the rules the right reply at snapshot 9 is false.",
            "The latest snapshot at which the reply was right is 3; the commit after it:",
            "  at 4 (line 6): adds doc:2#banned@7"])
        self.assertEqual(why, [
            "Why it should be denied:", "  not in doc:1#viewer", "    doc:1#viewer@7 is not stored",
            "    not in doc:2#viewer, by doc:1#parent@doc:2#..., added at 1 (line 3)",
            "      in doc:2#banned, which takes it away", "        doc:2#banned@7 is stored, added at 4 (line 6)"])
        found, why = self.explained(9, *rows)
        self.assertEqual(found[2:], ["The latest snapshot at which the reply was right is 1; the commit after it:",
                                     "  at 2 (line 4): adds doc:2#viewer@7"])
        self.assertEqual(why[:4], ["Why it should be allowed:", "  in doc:1#viewer", "    in doc:2#viewer, by doc:1#parent@doc:2#..., "
                                   "added at 1 (line 3)", "      doc:2#viewer@7 is stored, added at 2 (line 4)"])
        self.assertEqual(self.explained(10, *rows)[0][-2:], ["The reply was right at no snapshot up to its own; it is right from "
                                                             "2 on, by the commit", "  at 2 (line 4): adds doc:2#viewer@7"])
        self.assertEqual(self.explained(11, *rows)[0][-1], "The reply was right at no snapshot that was looked at.")

    def test_new_rules_as_a_commit(self):
        change = {"kind": "namespace", "at": 2, "name": "group", "relations": [
            {"name": "member", "rewrite": {"computed": "owner"}}, {"name": "owner"}]}
        rows = [commit(1, "group:g#member@7"), change, entry("check", 2, True, "group:g#member@7")]
        found, why = self.explained(5, *rows)
        self.assertEqual(found[-1], "  at 2 (line 4): new rules of namespace group")
        self.assertEqual(why, ["Why it should be denied:", "  not in group:g#member", "    not in group:g#owner",
                               "      group:g#owner@7 is not stored"])

    def test_circles_and_what_is_not_declared(self):
        rows = [commit(1, "group:a#member@group:b#member", "group:b#member@group:a#member", "group:b#member@group:c#...",
                       "doc:1#banned@7"), commit(2, remove=["doc:1#banned@7"]),
                entry("check", 2, False, "group:a#member@7"), entry("check", 2, False, "doc:1#banned@7"), entry("check", 2, False)]
        self.assertEqual(self.explained(5, *rows)[1], [
            "Why denied:", "  not in group:a#member", "    group:a#member@7 is not stored",
            "    not in group:b#member, by group:a#member@group:b#member, added at 1 (line 3)",
            "      group:b#member@7 is not stored",
            "      not in group:a#member, by group:b#member@group:a#member, added at 1 (line 3), as above",
            "      not in group:c#..., by group:b#member@group:c#..., added at 1 (line 3), which is not declared at the snapshot"])
        self.assertEqual(self.explained(6, *rows)[1][-1], "    doc:1#banned@7 is not stored, removed at 2 (line 4)")
        self.assertEqual(self.explained(7, *rows)[1], ["Why denied:", "  not in doc:1#viewer", "    doc:1#viewer@7 is not stored",
                                                       "    nothing is stored in doc:1#parent"])

    def test_long_ways_are_cut(self):
        chain = ["group:%d#member@group:%d#member" % (one, one + 1) for one in range(3000)]
        wide = ["group:w#member@group:%d#member" % (one + 1) for one in range(3000)]
        rows = [commit(1, *chain, *wide, "group:3000#member@7"), entry("check", 1, True, "group:0#member@7"),
                entry("check", 1, False, "group:w#member@8")]
        why = self.explained(4, *rows)[1]
        self.assertEqual(len(why), 42)
        self.assertTrue(why[-1].endswith(", and so on"), why[-1])
        why = self.explained(5, *rows)[1]
        self.assertEqual(why[-1], "    and 2991 more like these")
        self.assertLess(len(why), 100)

    def test_goals_that_lead_to_too_much(self):
        """Each tool says so, and goes on where it can."""
        rows = [commit(1, *("group:%d#member@group:%d#member" % (one, one + 1) for one in range(9))), commit(2, "group:9#member@7"),
                entry("check", 1, False, "group:0#member@7", zookie=token(2)), entry("check", 1, False, "group:8#member@7", zookie=token(2)),
                entry("check", 2, False, "group:0#member@7")]
        self.put("trace", NAMESPACES + rows)
        self.put("report", "line 5: F1 stale\nline 6: F1 stale\nline 7: F10 wrong reply\nentries 3\nfindings 3\nverdict dirty\n")
        with mock.patch.object(limits, "CONE_USERSETS", 8):
            said = self.run_tool("explain", "trace", "5", "6").stdout
            told = "the goal leads to more than 8 usersets, or reads them more than 4,194,304 times; it is not looked at"
            self.assertIn("No more is said: %s.\n\nline 6" % told, said)
            self.assertIn("Effect changed", said)
            run = self.run_tool("draw", "trace", "5")
            self.assertEqual((run.returncode, run.stdout, run.stderr), (2, "", told + "\n"))
            run = self.run_tool("make-evidence", "trace")
            self.assertEqual((run.returncode, run.stdout.count("\n"), run.stderr), (0, 1, "gave up 2\n"))
            lines = self.run_tool("report", "--form", "text", "trace", "report").stdout.splitlines()
            self.assertEqual(lines[0], "1 reply wrong, 0 stale answers that let someone in, 1 that kept someone out, 1 undecided, 0 harmless; "
                             "of 3 checks none names a content version, 2 carry a token")
            self.assertIn("No more is told: %s." % told, self.run_tool("report", "--form", "html", "trace", "report").stdout)

    def test_many_lines(self):
        self.put("trace", NAMESPACES + [commit(1, "doc:1#viewer@7"), entry("check", 1, True), entry("check", 1, False)])
        run = self.run_tool("explain", "trace", "5", "4")
        said = run.stdout.splitlines()
        self.assertEqual([line for line in said if line.startswith("line ")], [
            "line 5: check of doc:1#viewer@7 at snapshot 1, reply false, without a token",
            "line 4: check of doc:1#viewer@7 at snapshot 1, reply true, without a token"])
        self.assertEqual([line for line in said if line.startswith("Why")], ["Why it should be allowed:", "Why allowed:"])
        self.assertEqual(self.run_tool("explain", "trace", "5", "3").returncode, 2)

    def test_tokens_and_versions(self):
        rows = [commit(1, "doc:1#viewer@7"), commit(4), entry("check", 1, True, zookie=token(4)),
                entry("check", 4, True, version="v"), entry("content", 4, True, version="v"), entry("check", 4, True)]
        self.assertEqual(self.explained(5, *rows)[0][1], "The token demands all commits up to 4, and the service looked at those up to 1, its snapshot.")
        self.assertEqual(self.explained(6, *rows)[0][1], "No earlier line issues version v for doc:1; line 7 does, behind it. "
                         "So it is not known what the check had to see: at most the last commit before it.")
        self.assertEqual(self.explained(7, *rows)[0][1], "The content check looked at 4, so its token has to be of 4. No token was stored with the "
                         "version.")
        self.put("trace", NAMESPACES + rows)
        said = self.run_tool("explain", "trace", "8").stdout
        self.assertIn("By the rules the reply is right, and its token and snapshot are in order.\n\nWhy allowed:", said)
        self.assertNotIn("evidence", said)

    def test_names(self):
        self.put("ids.jsonl", '{"kind":"user","type":"user","id":"anne","number":1}\n')
        said = self.explained(4, commit(1, "doc:1#viewer@1"), entry("check", 1, False, "doc:1#viewer@1"), words=("--ids", "ids.jsonl"))
        self.assertEqual(said[0][-1], "  at 1 (line 3): adds doc:1#viewer@user:anne")
        self.assertEqual(said[1][2], "    doc:1#viewer@user:anne is stored, added at 1 (line 3)")

    def test_lines_that_are_no_entries(self):
        self.put("trace", NAMESPACES)
        for tool in ("explain", "draw"):
            run = self.run_tool(tool, "trace", "1")
            self.assertEqual((run.returncode, run.stderr), (2, "line 1 of the trace is no check and no content line\n"))
            self.assertEqual(self.run_tool(tool, "none", "1").returncode, 5)
            self.assertEqual(self.run_tool(tool).returncode, 3)

    def test_each_finding_of_the_example(self):
        path = os.path.join(EXAMPLES, "each_finding")
        wanted = {5: "F1 stale", 6: "F2 old token, see line 3", 7: "F3 not latest, see line 4",
                  8: "F4 open snapshot, see line 9", 10: "F5 wrong token", 11: "F6 unknown version",
                  12: "F7 no evidence", 13: "F8 bad evidence at step 1", 14: "F9 silent evidence", 15: "F10 wrong reply"}
        for line in range(3, 16):
            if line not in (4, 9):
                heads = [said for said in self.run_tool("explain", path, str(line)).stdout.splitlines() if said[:1] == "F"]
                self.assertEqual(heads, [wanted[line]] if line in wanted else [], line)


class Evidence(Case):
    """What is said of an entry's evidence is what the program says."""

    def test_random_evidence(self):
        seen = Counter()
        for number in range(RANDOM_TRACES):
            joined = RandomInput(Random("judged %d" % number)).joined()
            report = subprocess.run([os.environ["NEW_ENEMY"]], input=joined, capture_output=True, timeout=300).stdout.decode()
            part, evidence = split_joined(joined)
            trace = read_trace(part)
            records = records_of(evidence, trace, set(trace.entries))
            judged = {line: judge(trace, entry, records.get(line)).finding for line, entry in trace.entries.items()}
            wanted = {int(line): finding for line, finding in re.findall("line ([0-9]+): (F(?:7|8|9|10) .*)", report)}
            self.assertEqual({line: finding for line, finding in judged.items() if finding}, wanted)
            seen.update(finding.split()[0] for finding in wanted.values())
        self.assertEqual(set(seen), {"F7", "F8", "F9", "F10"})

    def test_the_way_of_the_evidence(self):
        """Of two ways in, that of the evidence is told."""
        rows = [commit(1, "doc:1#viewer@group:a#member", "doc:1#viewer@group:b#member", "group:a#member@7", "group:b#member@7"),
                entry("check", 1, True)]
        self.put("trace", NAMESPACES + rows)
        no = '{"no":["doc:1#banned@7"]}'
        for group in "ab":
            self.put("evidence", '{"line":4,"steps":[%s,{"yes":"group:%s#member@7"},{"yes":"doc:1#viewer@7"}]}\n' % (no, group))
            said = self.run_tool("explain", "--evidence", "evidence", "trace", "4").stdout
            self.assertIn("    in group:%s#member, by doc:1#viewer@group:%s#member, added at 1 (line 3)" % (group, group), said)
            self.assertEqual(said.count("in group"), 1)

    def test_refused_evidence(self):
        self.put("trace", NAMESPACES + [commit(1, "doc:1#viewer@7"), entry("check", 1, True), entry("check", 1, True)])
        for row, told in (('{"line":4,"steps":[{}]}', "evidence line 1: unknown step\n  step 1 has neither yes nor no\n"),
                          ("{", "evidence line 1: not JSON\n  Expecting property name enclosed in double quotes at character 1\n"),
                          ('{"line":4,"steps', "evidence line 1: not JSON\n  Unterminated string at character 10\n"),
                          ('{"line":4,"steps":7}', "evidence line 1: wrong shape\n  `steps` is no list\n")):
            self.put("evidence", row + "\n")
            run = self.run_tool("explain", "--evidence", "evidence", "trace", "4")
            self.assertEqual((run.returncode, run.stdout, run.stderr), (2, "", told))

    def test_lines_that_are_asked_for(self):
        rows = [commit(1, "doc:1#viewer@7"), entry("check", 1, True), entry("check", 1, True), entry("check", 1, True)]
        self.put("trace", NAMESPACES + rows)
        self.put("evidence", '{"line":4,"steps":[{"yes":"doc:1#viewer@7"}]}\n'
                             '{"line":6,"steps":[{"no":["doc:1#banned@7"]},{"yes":"doc:1#viewer@7"}],"l\\u0069ne":5}\n')
        said = self.run_tool("explain", "--evidence", "evidence", "trace", "4", "5", "6").stdout
        self.assertEqual([line for line in said.splitlines() if line[:1] == "F" or line.startswith("The step")], [
            "F8 bad evidence at step 1",
            "The step yes `doc:1#viewer@7` is not accepted: its rule hangs on what no step before shows.", "F7 no evidence"])


class Ways(Case):
    """What is told of why a goal holds is so, on random traces."""

    def test_random_goals(self):
        seen = Counter()
        for number in range(RANDOM_TRACES):
            trace = read_trace(b"\n".join(ChangingInput(Random("ways %d" % number), 40).lines()))
            for one in trace.entries.values():
                for at in (one.snapshot, one.snapshot // 2):
                    self.follow(trace, one.goal, at, Reasons(Settled(trace.rules, trace.store, one.goal, at), one.goal.set).of_goal(), seen, ())
        for kind in ("stored", "absent", "in", "not in", "taken", "above"):
            self.assertGreater(seen[kind], 0, seen)

    def test_a_quick_answer_is_that_of_what_the_goal_leads_to(self):
        """Also where rules and store grow between two questions."""
        for steps, deep, told_apart in (5_000, 120, 1 << 17), (2, 120, 5), (5_000, 1, 5):
            seen = Counter()
            limits_of = mock.patch.multiple("new_enemy_tools.quick_reach", STEPS=steps, DEEP=deep)
            kept = mock.patch("new_enemy_tools.store.TOLD_APART", told_apart)
            with limits_of, kept, mock.patch("new_enemy_tools.held_goals.Settled", wraps=Settled) as slow:
                for number in range(RANDOM_TRACES):
                    trace, goals = Trace(), []
                    answers = Answers(trace.rules, trace.store)
                    lines = b"\n".join(ChangingInput(Random("at once %d" % number), 40).lines()).splitlines()
                    for line, raw in enumerate(filter(bytes.strip, lines), 1):
                        trace.take(line, raw)
                        goals += [(one.goal, at) for one in list(trace.entries.values())[len(goals) // 2:]
                                  for at in (one.snapshot, one.snapshot // 2)]
                        for goal, at in goals[-4:]:
                            wanted = Settled(trace.rules, trace.store, goal, at).holds()
                            self.assertEqual(answers.holds(goal, at), wanted)
                            seen[wanted] += 1
            self.assertGreater(min(seen[True], seen[False]), RANDOM_TRACES)
            self.assertEqual(slow.call_count > RANDOM_TRACES, told_apart == 5, slow.call_count)

    def follow(self, trace, goal, at, reason, seen, path):
        self.assertEqual(reason.holds, Settled(trace.rules, trace.store, Tuple(reason.of, goal.user), at).holds())
        self.assertFalse(reason.holds and reason.of in path, "a way that leads in a circle")
        seen["in" if reason.holds else "not in"] += 1
        seen[reason.cut] += 1
        for ground in reason.grounds:
            if ground.own is not None:
                self.assertEqual(trace.store.has(ground.own, at), ground.touch is not None and ground.touch[1])
                seen["stored" if ground.touch and ground.touch[1] else "absent"] += 1
            if ground.stored is not None:
                self.assertTrue(trace.store.has(ground.stored, at))
                self.assertIn((ground.since, True), trace.store.touches(ground.stored))
            if ground.why is not None:
                # On a subtracted side it is the other way round.
                seen["taken"] += ground.subtracted
                self.assertEqual(ground.why.holds, reason.holds != ground.subtracted)
                self.follow(trace, goal, at, ground.why, seen, (*path, reason.of) if reason.holds else ())


class WorkedCases(Case):
    """What the program says of each worked case, the tools find too."""

    def test_refusals_and_findings_on_tokens(self):
        refused = found = 0
        for case in worked_cases():
            part, evidence = split_joined(case.data)
            if evidence is None or "100000_facts" in case.name:
                continue
            said, details, findings = "", None, []
            try:
                trace = read_trace(part)
                check_evidence(evidence, trace)
                findings = order_lines(trace)
            except Fault as fault:
                said, details = "%s\n" % fault, fault.details
            self.assertEqual(said, case.wanted.err.decode(), case.name)
            self.assertNotEqual(details, [], case.name)
            wanted = [line for line in case.wanted.out.decode().splitlines() if re.match("line [0-9]+: F[1-6] ", line)]
            self.assertEqual(findings, wanted, case.name)
            refused, found = refused + bool(said), found + len(wanted)
        self.assertGreater(refused, 300)
        self.assertGreater(found, 30)


class Refused(Case):
    """The program's own line on what it refuses, and more behind it."""

    def explained(self, text, *words):
        run = self.run_tool("explain", self.put("input", text), *words)
        self.assertEqual((run.returncode, run.stderr), (2, ""))
        return run.stdout.splitlines()

    def test_the_key_and_the_tuple(self):
        head = "\n".join(map(json.dumps, NAMESPACES)) + "\n"
        for row, told in (
                (commit(1, "doc:1#viewer@7", "doc:1#Viewer@7"), [
                    "trace line 3: bad text, relation at 6", "  add[1] is 'doc:1#Viewer@7'", "  its relation begins at byte 6: 'Viewer@7'"]),
                (commit(1, "doc:1#banned@doc:2#viewer"), [
                    "trace line 3: strata, relation 2 of namespace 2 reads relation 3 of namespace 2",
                    "  doc#banned reads doc#viewer", "  add[0] is doc:1#banned@doc:2#viewer, which gives this edge",
                    "  doc#banned has stratum 0 and doc#viewer has stratum 1; what is read has to be at or below the reader"]),
                (commit(1, "doc:1#viewer@7", remove=["doc:1#viewer@7"]), [
                    "trace line 3: tuple touched twice, place 1", "  remove[0] is doc:1#viewer@7, which add[0] is too"]),
                (commit(1, "doc:1#editor@7"), ["trace line 3: undeclared relation", "  add[0] is doc:1#editor@7",
                                               "  namespace doc declares parent, banned, viewer"]),
                (entry("check", 1, True, "paper:1#viewer@7"), [
                    "trace line 3: undeclared relation", "  goal is paper:1#viewer@7", "  no line before declares namespace paper"]),
                (entry("check", -1, 7), ["trace line 3: wrong shape", "  `snapshot` is -1, and no whole number of 64 bits",
                                         "  `reply` is neither true nor false"])):
            self.assertEqual(self.explained(head + json.dumps(row) + "\n"), told)

    def test_evidence_in_joined_input_and_apart(self):
        head = "\n".join(map(json.dumps, NAMESPACES + [entry("check", 1, True)])) + "\n"
        record = '{"line":3,"steps":[{"yes":"doc:1#viewer@7"},{}]}\n'
        told = ["evidence line 1: unknown step", "  step 2 has neither yes nor no"]
        self.assertEqual(self.explained(head + "---\n" + record), told)
        self.put("evidence", record)
        self.assertEqual(self.explained(head, "--evidence", "evidence"), told)
        run = self.run_tool("explain", os.path.join(EXAMPLES, "each_finding"))
        self.assertEqual((run.returncode, run.stdout), (0, "nothing is refused\n"))


class Drawings(Case):
    def test_a_goal(self):
        self.put("trace", NAMESPACES + [commit(1, "doc:1#parent@doc:\"2\\#...", "doc:\"2\\#viewer@7",
                                               "doc:1#banned@group:g&amp;#member"), entry("check", 1, True)])
        run = self.run_tool("draw", "trace", "4")
        self.assertEqual(run.stdout.splitlines(), [
            'digraph goal {', '  label="doc:1#viewer@7 at 1\\nline 4, the service looked at 1 and said yes\\n'
            'green: by the rules, 7 is in it";',
            '  rankdir=LR; node [shape=box, fontname=monospace]; edge [fontname=monospace];',
            '  reply [shape=note, style=filled, fillcolor=palegreen, label="the service said yes\\nthe rules say yes"];',
            '  reply -> "doc:1#viewer" [label="right"];',
            '  "doc:1#viewer" [label="doc:1#viewer", style=filled, fillcolor=palegreen, penwidth=2];',
            '  "doc:1#banned" [label="doc:1#banned", style=filled, fillcolor=white, penwidth=2];',
            '  "group:g&amp;#member" [label="group:g&amp;amp;#member", style=filled, fillcolor=white, penwidth=2];',
            '  "doc:\\"2\\\\#viewer" [label="doc:\\"2\\\\#viewer\\n(stored)", style=filled, fillcolor=palegreen, penwidth=2];',
            '  "doc:\\"2\\\\#banned" [label="doc:\\"2\\\\#banned", style=filled, fillcolor=white, penwidth=2];',
            '  "doc:1#viewer" -> "doc:\\"2\\\\#viewer" [label="tuple_to parent viewer", penwidth=2];',
            '  "doc:1#viewer" -> "doc:1#banned" [label="computed banned", style=dashed, penwidth=2];',
            '  "doc:1#banned" -> "group:g&amp;#member" [label="this", penwidth=2];',
            '  "doc:\\"2\\\\#viewer" -> "doc:\\"2\\\\#banned" [label="computed banned", style=dashed, penwidth=2];', '}'])

    def test_a_wrong_reply(self):
        """What the service said has its own node, green where it said yes, and red round it where the rules say otherwise."""
        self.put("trace", NAMESPACES + [commit(1, "doc:1#viewer@7"), commit(2, remove=["doc:1#viewer@7"]), entry("check", 2, True)])
        lines = self.run_tool("draw", "trace", "5").stdout.splitlines()
        self.assertEqual(lines[3:6], [
            '  reply [shape=note, style=filled, fillcolor=palegreen, label="the service said yes\\nthe rules say no", color=red, penwidth=2];',
            '  reply -> "doc:1#viewer" [label="wrong", color=red, penwidth=2];',
            '  "doc:1#viewer" [label="doc:1#viewer", style=filled, fillcolor=white, penwidth=2];'])
        lines = self.run_tool("draw", "--at", "1", "trace", "5").stdout.splitlines()
        self.assertEqual(lines[4:6], ['  reply -> "doc:1#viewer" [label="right"];', '  "doc:1#viewer" [label="doc:1#viewer\\n(stored)", '
                                      'style=filled, fillcolor=palegreen, penwidth=2];'])

    def test_another_timestamp(self):
        """A reply is called wrong at its own snapshot alone."""
        self.put("trace", NAMESPACES + [commit(1, "doc:1#viewer@7"), commit(2, remove=["doc:1#viewer@7"]), entry("check", 1, True, "doc:1#viewer@7")])
        self.assertIn('[label="another answer at 2", color=red', self.run_tool("draw", "--at", "2", "trace", "5").stdout)
        for at in ("-1", "18446744073709551616"):
            run = self.run_tool("draw", "--at", at, "trace", "5")
            self.assertEqual((run.returncode, run.stdout, run.stderr.splitlines()[-1]), (3, "", "ne draw: --at is no timestamp, from 0 to 2^64 - 1"))

    def test_many_usersets(self):
        self.put("trace", NAMESPACES + [commit(1, *("group:g#member@group:%d#member" % one for one in range(700)),
                                               "group:7#member@7"), entry("check", 1, True, "group:g#member@7")])
        lines = self.run_tool("draw", "trace", "4").stdout.splitlines()
        self.assertEqual(sum(" -> " in line for line in lines), 500)
        self.assertIn('  "group:g#member" -> "group:7#member" [label="this", penwidth=2];', lines)
        self.assertEqual(lines[-2], '  more [shape=plaintext, label="and 201 usersets more"];')

    @unittest.skipUnless(shutil.which("dot"), "Graphviz is not installed")
    def test_svg(self):
        self.put("trace", NAMESPACES + [commit(1, 'doc:1#parent@doc:"<&amp;\\N#...'), entry("check", 1, True)])
        drawn = xml.etree.ElementTree.fromstring(self.run_process("draw", "--form", "svg", "trace", "4").stdout.encode())
        texts = [one.text for one in drawn.iter("{http://www.w3.org/2000/svg}text")]
        for text in ("the service said yes", "the rules say no", "wrong", 'doc:"<&amp;\\N#viewer'):
            self.assertIn(text, texts)

    def test_no_graphviz(self):
        self.put("trace", NAMESPACES + [entry("check", 1, True)])
        with mock.patch.dict(os.environ, {"PATH": self.room}):
            run = self.run_tool("draw", "--form", "svg", "trace", "3")
        self.assertEqual((run.returncode, run.stdout, run.stderr), (
            5, "", "Graphviz is not installed: there is no program `dot`; without --form svg its text is written\n"))

    def test_as_processes(self):
        path = os.path.join(EXAMPLES, "one_proved_check")
        self.assertIn("digraph", self.run_process("draw", path, "3").stdout)
        self.assertIn("reply is right", self.run_process("explain", path, "3").stdout)
        self.assertEqual(self.run_process("make-evidence", path).stdout, '{"line":3,"steps":[{"yes":"doc:readme#viewer@10"}]}\n')
        self.assertEqual(self.run_process("make-evidence").returncode, 3)
        report = "entries 1\nfindings 0\nverdict clean\n"
        self.assertEqual(self.run_process("report", path, "-", stdin=report).returncode, 0)
