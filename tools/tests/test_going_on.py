"""Imports that go on day by day write what one import of all days writes, but for timestamps, whose order is the same."""
import hashlib
import json
import os
import shutil
import subprocess
from collections import Counter
from random import Random
from unittest import mock

from new_enemy_tools.importing import causes, going_on, located, trace_maker
from new_enemy_tools.importing.going_on import APART, GoingOnFault, Named, numbered, read_left
from tests.test_round_trips import SpiceDb
from tests.test_trace_maker import CoreCase, check, content, rel, write
from tests.test_windows import Told

RULES = {"event": "rules", "namespaces": [
    {"name": "doc", "relations": [{"name": "viewer"}, {"name": "banned"}, {"name": "reader", "rewrite": {"exclusion": {
        "base": {"computed": "viewer"}, "subtract": {"computed": "banned"}}}}]}, {"name": "team", "relations": [{"name": "member"}]}]}
OTHER = {"event": "rules", "namespaces": [{"name": "doc", "relations": [
    {"name": "viewer"}, {"name": "reader", "rewrite": {"computed": "viewer"}}]}]}

UNREAD = {"event": "rules", "namespaces": [{"name": "doc", "relations": [{"name": "viewer"}, {"name": "parent"}, {
    "name": "reader", "rewrite": {"computed": "viewer"}}]}]}
READ = {"event": "rules", "revision": 5, "namespaces": [{"name": "doc", "relations": [{"name": "viewer"}, {"name": "parent"}, {
    "name": "reader", "rewrite": {"union": [{"computed": "viewer"}, {"tuple_to": {"tupleset": "parent", "computed": "reader"}}]}}]}]}
NEWLY_READ = ("a rule goes on from the tuples of doc#parent, as none did before, and those so far stand in the trace without what it reads: "
              "import all of the log at once, or begin a new log")


def between(event, low, high, newest):
    """The event between two states, in place of one."""
    event = {**event, "newest_between" if newest else "snapshot_between": [max(0, low), high]}
    del event["snapshot"]
    if newest:
        event.pop("token", None)
    return event


def events_of(random, count, has_between=False):
    """Random events: writes, changes of rules, checks at old and future snapshots, and versions."""
    revision, labels, events, rules = random.randint(1, 9), [], [], RULES
    for _ in range(count):
        pick, thing = random.random(), str(random.randrange(3))
        user = rel(thing, "viewer", "u%d" % random.randrange(3))
        if pick < 0.3:
            revision += random.randint(1, 5)
            others = [rel(thing, "viewer", "staff", "team", "member"), rel("staff", "member", user[4], of="team"), rel(thing, "banned", user[4])]
            some = random.sample([user, *others], random.randint(1, 3))
            cut = random.randint(0, len(some))
            events.append(write(revision, *some[:cut], remove=some[cut:]))
        elif pick < 0.34:
            revision += 1
            # Rules that change nothing are a state of a log, and of a trace of the days before they are none.
            rules = OTHER if rules is RULES else RULES
            events.append({**rules, "revision": revision})
        else:
            goal = rel(thing, random.choice(["viewer", "reader"]), user[4])
            at = max(0, revision + random.choice([0, 0, 0, -1, 1, 4, -6]))
            token = {"token": max(0, at + random.choice([0, 0, -1, 1, -20]))} if random.random() < 0.6 else {}
            if pick < 0.5:
                labels.append("v%d" % len(labels))
                events.append(content(at, labels[-1], goal=goal, **token))
            else:
                named = {"version": random.choice(labels)} if labels and random.random() < 0.4 else {}
                events.append(check(at, random.random() < 0.6, goal, **named, **token))
            if has_between and random.random() < 0.5:
                events[-1] = between(events[-1], revision - random.randint(0, 9), revision, random.random() < 0.5)
    return events


class GoingOn(CoreCase):
    def report(self, name):
        run = subprocess.run([os.environ["NEW_ENEMY"], "audit", self.path(name), "--make"], capture_output=True, text=True, timeout=300)
        self.assertIn(run.returncode, (0, 1), run.stderr)
        return run.stdout

    def days(self, log, random, *words, cut=None):
        """Imports and audits a log day by day; what the days told."""
        # the base state is the first day's
        places = sorted(random.sample(range(2, len(log)), random.randint(1, 5)))
        told = Told()
        for low, high in zip([0, *places], [*places, len(log)]):
            self.put("log", log[low:high])
            state = ["--state", "state"] if low else []
            self.imported(*words, "--go-on", "left", *state, "--trace", "day", "--ids", "day_ids")
            run = self.audit_window("day", "--oldest-snapshot", "0", is_first=not low, is_last=high == len(log))
            self.assertIn((run.returncode, run.stderr), ((0, ""), (1, "")))
            told.take(run.stdout)
            if cut:
                cut()
        return told.report

    def compare(self, log, random, *words, cut=None):
        for name in ("left", "day_ids", "whole_ids"):
            if os.path.exists(self.path(name)):
                os.remove(self.path(name))
        self.put("log", log)
        self.imported(*words, "--trace", "whole", "--ids", "whole_ids")
        report = self.report("whole")
        self.assertEqual(self.days(log, random, *words, cut=cut), report)
        return report

    def test_random_events(self):
        found = ""
        for number in range(30):
            random = Random("going on %d" % number)
            found += self.compare([RULES, write(0, base=True), *events_of(random, 60)], random, "events", "log")
        for finding in ("F1", "F2", "F3", "F4", "F5", "F6", "F10"):
            self.assertIn(finding, found)

    def test_a_check_that_asked_for_the_newest_state(self):
        """It demands that of its version too, which a day before issued."""
        doc = rel("1", "viewer", "anne")
        log = [RULES, write(0, base=True), write(5, doc), write(10, remove=[doc]), content(10, "v2", goal=doc, token=10),
               check(5, True, doc, version="v2", newest=True)]
        for number in range(5):
            self.assertIn("F1 stale", self.compare(log, Random("newest %d" % number), "events", "log"))

    def test_a_version_whose_content_check_finds_no_state_is_left_out_with_it(self):
        """Checks that name it, also on later days, are audited in part. They are no F6, since it was issued."""
        doc = rel("1", "viewer", "anne")
        self.put("log", [RULES, write(0, base=True), write(5), between(content(9, "v", goal=doc), 5, 9, True),
                         check(5, False, doc, version="v", token=5)])
        said = self.imported("events", "log", "--go-on", "left", "--trace", "one", "--ids", "ids")
        self.assertIn("not audited 1: %s\n" % causes.STATE_TO_COME, said)
        self.assertIn("audited in part 1: %s" % causes.VERSION_LEFT_OUT, said)
        self.assertEqual(self.report("one").splitlines()[-1], "verdict clean")
        self.assertEqual(read_left(self.path("left")).issued, [])
        self.put("log", [write(10), check(10, False, doc, version="v", token=10)])
        said = self.imported("events", "log", "--go-on", "left", "--trace", "two", "--ids", "ids")
        self.assertIn("audited in part 1: %s" % causes.VERSION_LEFT_OUT, said)

    def test_a_version_whose_content_check_may_have_seen_too_many_states_is_left_out_with_it(self):
        doc = rel("1", "viewer", "anne")
        log = [RULES, write(0, base=True), *(write(one) for one in range(1, 5)), write(5, doc),
               between(content(5, "v", goal=doc), 0, 5, True), check(5, True, doc, version="v", token=5)]
        self.put("log", log)
        with mock.patch.object(trace_maker, "STATES", 3):
            said = self.imported("events", "log", "--trace", "one", "--ids", "ids")
        self.assertIn("not audited 1: %s\n" % causes.TOO_WIDE, said)
        self.assertIn("audited in part 1: %s" % causes.VERSION_LEFT_OUT, said)
        self.assertEqual(self.report("one").splitlines()[-1], "verdict clean")

    def test_rules_that_go_on_from_tuples_of_before(self):
        """These stand in the trace without what such a rule reads, so a right reply would be called wrong."""
        self.put("log", [UNREAD, write(0, base=True), write(1, rel("2"), rel("1", "parent", "2", "doc"))])
        self.imported("events", "log", "--go-on", "left", "--trace", "one", "--ids", "ids")
        self.put("log", [READ, check(5, goal=rel("1", "reader"))])
        status, said = self.run_import("events", "log", "--go-on", "left", "--trace", "two", "--ids", "ids")
        self.assertEqual((status, said.splitlines()), (2, ["log:1: " + NEWLY_READ, "refused 1"]))

    def test_rules_of_a_later_day_in_whatever_order_its_files_are_read(self):
        """The last of them is that of the latest revision: who is banned reads by those between alone."""
        doc, reads = rel("1", "viewer", "anne"), rel("1", "reader", "anne")
        first = [RULES, write(0, base=True), write(1, doc, rel("1", "banned", "anne")), check(1, False, reads)]
        second = [{**OTHER, "revision": 5}, check(5, True, reads)], [{**RULES, "revision": 8}, check(8, False, reads), write(9)]
        third = [check(9, False, reads)]
        lines = [{**event, "sequence": number} for number, event in enumerate([*first, *second[0], *second[1], *third])]
        for names in ("early", "late"), ("late", "early"):
            for name in "left", "ids":
                if os.path.exists(self.path(name)):
                    os.remove(self.path(name))
            self.put("first", lines[:4])
            self.put("early", lines[4:6])
            self.put("late", lines[6:9])
            self.put("third", lines[9:])
            told = []
            for files in ("first",), names, ("third",):
                self.imported("events", *files, "--go-on", "left", "--trace", "day", "--ids", "ids")
                run = self.audit_window("day", "--oldest-snapshot", "0", is_first=not told)
                told.append((run.returncode, run.stderr))
            self.assertEqual(told, [(0, "")] * 3, names)

    def test_checks_between_two_states(self):
        """What was stored on the days before is known from the state."""
        found = ""
        for number in range(20):
            random = Random("going on between %d" % number)
            log = [RULES, write(0, base=True), *events_of(random, 60, True)]
            found += self.compare(log, random, "events", "log")
        for finding in ("F2", "F3", "F10"):
            self.assertIn(finding, found)

    def test_a_state_that_is_still_to_come(self):
        """A check that is right at no state so far may be right at one of the next day's log: it is counted, and not called wrong."""
        goal, later = rel("1", "viewer", "anne"), rel("2", "viewer", "bob")
        checks = [between(check(0, True, goal), 1, 2, True), between(content(0, "v", goal=goal), 1, 2, True), between(check(0, True, later), 1, 2, True)]
        self.put("log", [RULES, write(1, later), *checks])
        told = ["not audited: %s, first at log:3" % causes.STATE_TO_COME, "not audited 2: %s" % causes.STATE_TO_COME]
        self.assertEqual(self.unaudited("events", "--from-empty", "--go-on", "left", "--trace", "day", "log"), told)
        # Alone, the log ends there.
        self.assertEqual(self.unaudited("events", "--from-empty", "--trace", "whole", "log"), [])

    def test_a_state_that_is_not_kept(self):
        """A check between states of which not all are kept is not audited, and others are."""
        for number in range(1, 4):
            self.put("log", ([RULES] if number == 1 else []) + [write(10 * number, rel(str(number), "viewer", "anne"))])
            state = ["--state", "state"] if number > 1 else []
            self.imported("events", "--from-empty", "--go-on", "left", *state, "--trace", "day", "log")
            self.assertEqual(self.audit_window("day").returncode, 0)
        goal = rel("1", "viewer", "anne")
        self.put("log", [between(check(0, True, goal), 20, 30, False), between(check(0, False, goal), 19, 30, False)])
        left = self.get("left")
        self.assertEqual(self.unaudited("events", "--go-on", "left", "--state", "state", "--trace", "next", "log"), [
            "not audited: %s, first at log:2" % causes.STATE_NOT_KEPT, "not audited 1: %s" % causes.STATE_NOT_KEPT])
        self.put("left", left)
        self.put("log", [between(check(0, True, goal), 20, 30, False), between(check(0, False, goal), 20, 30, False)])
        self.assertIn("2 checks may have looked at any state between two that are known: 1 right at one of them, 1 wrong at each of them (2 entries)",
                      self.imported("events", "--go-on", "left", "--state", "state", "--trace", "next", "log"))

    def test_spicedb(self):
        for number in range(3):
            random = Random("going on in SpiceDB %d" % number)
            service, log, states = SpiceDb(random), [], []
            for at in range(1, 10):
                log.append(service.write(at))
                states.append((at, service.state()))
                for _ in range(10):
                    _, line_for = service.check(*random.choice(states))
                    log.append(line_for(random.random() < 0.5))
            self.put("rules", service.rules)
            self.assertIn("F10", self.compare(log, random, *service.words))

    def test_revisions_that_are_let_go(self):
        """Those that no later line needs stand in their order all the same."""
        def let_go():
            left = read_left(self.path("left"))
            going_on.write_left(self.path("left"), going_on.cut(left, left.named[-1].at, None))
        for number in range(10):
            random = Random("let go %d" % number)
            # Each entry reads what no later day commits behind.
            events = [one for one in events_of(random, 60) if one["event"] == "write"]
            log = [RULES, write(0, base=True)]
            for place, one in enumerate(events):
                at = one["revision"]
                log += [one, content(at, "v%d" % place, goal=rel(), token=at),
                        check(at, goal=rel(), version="v%d" % random.randint(0, place), token=random.randint(0, at))]
            self.assertIn("F2", self.compare(log, random, "events", "log", cut=let_go))


class TakenAhead(CoreCase):
    """Lines that are taken while others are read give what they give when all are read."""

    def outcome(self, log, jobs, *words):
        """What an import says and writes that goes on from the first day."""
        for name in ("left", "ids.jsonl"):
            shutil.copyfile(self.path("first/" + name), self.path(name))
        self.put("log", log)
        with mock.patch.object(located, "BLOCK", 400):
            status, said = self.run_import("events", *words, "--go-on", "left", "--jobs", str(jobs), "--trace", "trace", "log")
        names = ["left", "ids.jsonl"] + ["trace"] * (status == 0)
        return status, said, [self.get(name) for name in names]

    def compare(self, log, *words):
        """The status, and whether the lines that were taken ahead were taken for good."""
        stands = []

        def noted(ahead, lines):
            stands.append(found(ahead, lines))
            return stands[-1]
        found = trace_maker.Ahead.stands
        for jobs in (1, 4):
            with mock.patch.object(trace_maker.Ahead, "stands", noted):
                quick = self.outcome(log, jobs, *words)
            with mock.patch.object(trace_maker.Ahead, "stands", lambda *_: False):
                self.assertEqual(self.outcome(log, jobs, *words), quick)
            with mock.patch.object(trace_maker.Core, "_taken_ahead", lambda *_: None):
                self.assertEqual(self.outcome(log, jobs, *words), quick)
        return quick[0], any(stands)

    def setUp(self):
        super().setUp()
        self.put("log", [RULES, write(1, rel("0", "viewer", "u1")), content(1, "first", goal=rel("0", "viewer", "u1"), token=1)])
        os.mkdir(self.path("first"))
        self.imported("events", "--from-empty", "--go-on", "first/left", "--ids", "first/ids.jsonl", "log")

    def test_random_events(self):
        outcomes = Counter()
        for number in range(40):
            random = Random("ahead %d" % number)
            log = [{**one, "revision": one["revision"] + 9} if "revision" in one else one for one in events_of(random, 40)]
            log = [one for one in log if one["event"] != "rules" or number % 4 == 0]
            if number % 5 == 4:
                log.insert(random.randrange(len(log)), random.choice([write(5), check(99, goal=rel("1", "missing", "x")), {"event": "x"}]))
            outcomes[self.compare(log)] += 1
        self.assertEqual(set(outcomes), {(0, True), (0, False), (2, True), (2, False), (6, True)})

    def test_what_hangs_on_all_lines(self):
        """Such a line stands behind many that were taken."""
        plain = [write(20), *[check(20, False, rel("1", "viewer", "u%d" % one)) for one in range(20)]]
        self.assertEqual(self.compare(plain), (0, True))
        for line, status in ((write(30, ["doc", "1", "viewer", "user", "*", "*"]), 6), (write(30, base=True), 2), ({**RULES}, 0),
                             ({**OTHER, "revision": 30}, 0), ({**content(20, "x", goal=rel("1", "viewer", "u3")), "newest": True}, 2),
                             (between(check(20, False, rel("1", "viewer", "u1")), 19, 20, False), 2), ({**check(20, False, rel()), "sequence": 3}, 0)):
            self.assertEqual(self.compare([*plain, line]), (status, line.get("sequence") == 3), line)
        for places, is_ahead in ((range(len(plain)), True), ((*range(1, len(plain)), 0), False)):
            self.assertEqual(self.compare([{**one, "sequence": place} for place, one in zip(places, plain)]), (0, is_ahead))
        self.assertEqual(self.compare([{**one, "time": "2024-01-01T00:00:%02dZ" % place} for place, one in enumerate(plain)], "--skew", "9"), (0, False))
        self.assertEqual(self.compare([]), (0, True))


class Numbers(CoreCase):
    def test_between(self):
        first = numbered({5: 1, 9: 3, 7: 1}, [])
        self.assertEqual([(one.revision, one.lines) for one in first], [(5, 1), (7, 1), (9, 3)])
        then = numbered({6: 1, 8: 2, 1: 1, 12: 1}, first)
        self.assertEqual([one.revision for one in then], [1, 5, 6, 7, 8, 9, 12])
        self.assertTrue(set(first) < set(then))
        ends = [(one.at - one.lines, one.at) for one in then]
        self.assertTrue(all(high <= low for (_, high), (low, _) in zip(ends, ends[1:])), ends)
        self.assertGreaterEqual(ends[0][0], -1)

    def test_no_room(self):
        before = [Named(1, 10, 1), Named(9, 14, 1)]
        self.assertEqual([one.at for one in numbered({3: 1, 4: 1}, before)], [10, 11, 12, 14])
        for wanted in ({3: 1, 4: 1, 5: 1, 6: 1}, {3: 4}, {9: 6}):
            with self.assertRaises(GoingOnFault):
                numbered(wanted, before)
        with self.assertRaises(GoingOnFault):
            numbered({10: 1}, [Named(9, (1 << 64) - APART, 1)])


def chained(number, before, *events, is_closed=True, **more):
    """A file of tools/record, and its hash."""
    lines = "".join(json.dumps(one) + "\n" for one in ({"event": "log", "number": number, "before": before, **more}, *events))
    found = hashlib.sha256(lines.encode()).hexdigest()
    return lines + json.dumps({"event": "closed", "count": lines.count("\n"), "sha256": found}) * is_closed, found


class Chains(CoreCase):
    """Files of tools/record, which are one chain from day to day."""

    def file(self, name, *given, **how):
        """A file of the chain; its hash."""
        text, found = chained(*given, **how)
        self.put(name, text)
        return found

    def next_day(self, name):
        return self.run_import("events", "--from-empty", "--go-on", "left", "--trace", "next", name)

    def test_chains(self):
        first = self.file("one", 1, None, RULES, write(3, rel()), check(3))
        second = self.file("two", 2, first, check(3))
        self.file("three", 3, second, check(3))
        self.file("other", 2, "0" * 64, check(3))
        self.file("open", 2, first, check(3), is_closed=False)
        self.put("plain", [check(3)])
        status, said = self.next_day("two")
        self.assertIn("two:1: files 1 to 1 of the log are missing", said)
        self.assertEqual(self.next_day("one")[0], 0)
        for name, told in (("three", "three:1: file 2 of the log, between it and the last file of the day before, is missing"),
                           ("one", "one:1: the last file of the day before is file 1 too"), ("other", "other:1: it goes on from another file"),
                           ("open", "open:1: the file is not closed"), ("plain", "the day before had files of tools/record, and this is none that goes on")):
            status, said = self.next_day(name)
            self.assertEqual(status, 2, name)
            self.assertIn(told, said)
        self.assertEqual([self.next_day(name)[0] for name in ("two", "three")], [0, 0])


    def test_a_circle_of_the_day_before_that_is_taken_away(self):
        """Which of its tuples are stored is not known without a state, and then no check that may hang on one is audited."""
        rules = {"event": "rules", "namespaces": [{"name": "group", "relations": [{"name": "member"}]}, {"name": "doc", "relations": [
            {"name": "blocked"}, {"name": "viewer", "rewrite": {"exclusion": {"base": {"this": {}}, "subtract": {"computed": "blocked"}}}}]}]}
        ring = [["group", "g", "member", "group", "h", "member"], ["group", "h", "member", "group", "g", "member"]]
        stored = [*ring, ["doc", "1", "blocked", "group", "g", "member"], ["doc", "1", "viewer", "user", "a"]]
        denied = {"event": "check", "goal": stored[-1], "snapshot": 1, "reply": False}
        first = self.file("one", 1, None, rules, {"event": "write", "revision": 1, "add": stored}, service="openfga")
        self.file("two", 2, first, denied, {**denied, "goal": ["group", "g", "member", "user", "a"]}, service="openfga")
        self.assertEqual(self.next_day("one")[0], 0)
        status, said = self.next_day("two")
        self.assertEqual(status, 6, said)
        self.assertIn("not audited 1: check by a rule that takes away what leads into a circle\n", said)

    def test_rules_that_change_the_next_day_in_files_of_another_order(self):
        def rule(revision, sequence, rewrite):
            return {"event": "rules", "revision": revision, "sequence": sequence, "namespaces": [{"name": "doc", "relations": [
                {"name": "viewer"}, {"name": "banned"}, {"name": "reader", "rewrite": rewrite}]}]}
        self.put("log", [{**one, "sequence": number} for number, one in enumerate((RULES, write(3, rel())), 1)])
        self.imported("events", "--from-empty", "--go-on", "left", "log")
        reads = [{**check(at, reply, rel(relation="reader")), "sequence": at} for at, reply in ((5, True), (7, False))]
        self.put("early", [rule(4, 4, {"computed": "viewer"}), reads[0]])
        self.put("late", [rule(6, 6, {"this": {}}), reads[1]])
        status, said = self.run_import("events", "--sequence-has-holes", "--go-on", "left", "--trace", "next", "late", "early")
        self.assertEqual(status, 0, said)
        self.put("both", self.get("trace.jsonl") + self.get("next"))
        self.assertIn("findings 0\n", self.audited("both"))
        # The third day begins with the rules that the last one ended with.
        self.put("third", [{key: value for key, value in rule(6, 8, {"this": {}}).items() if key != "revision"}, {**reads[1], "sequence": 9}])
        status, said = self.run_import("events", "--sequence-has-holes", "--go-on", "left", "--trace", "next", "third")
        self.assertEqual(status, 0, said)


class Refusals(CoreCase):
    def setUp(self):
        super().setUp()
        self.put("log", [RULES, write(3, rel()), check(3)])
        self.imported("events", "--from-empty", "--go-on", "left", "log")
        self.before = self.get("left"), self.get("ids.jsonl")

    def refusal(self, *events, words=(), log="log"):
        self.put(log, list(events))
        status, said = self.run_import("events", *words, "--go-on", "left", "--trace", "next", log)
        self.assertEqual(status, 2, said)
        self.assertFalse(os.path.exists(self.path("next")))
        self.assertEqual((self.get("left"), self.get("ids.jsonl")), self.before)
        return said

    def test_what_does_not_go_on(self):
        self.assertIn("log:1: its revision 3 is not later than that of log:2, 3", self.refusal(write(3, rel("2"))))
        self.assertIn("log:1: the rules are others than at the end of the day before", self.refusal({"event": "rules", "namespaces": [
            {"name": "doc", "relations": [{"name": "viewer", "rewrite": {"computed": "banned"}}, {"name": "banned"}]}]}))
        self.assertIn("log:1: a base state stands at the beginning", self.refusal(write(9, base=True)))
        self.assertIn("checks between two states", self.refusal(check(3) | {"snapshot": None, "snapshot_between": [3, 4]}))

    def test_files(self):
        text = self.get("left")
        for other in (text[:-1], text[:50], text.replace('"has_gap":false', '"has_gap":true'), ""):
            self.put("left", other)
            self.before = other, self.get("ids.jsonl")
            self.assertIn("was not left by an import, or was altered or cut short", self.refusal(check(3)))
        self.put("left", text)
        self.put("schema", "definition user {}")
        status, said = self.run_import("spicedb", "--schema", "schema", "--from-empty", "--go-on", "left", "--ids", "others", "log")
        self.assertEqual((status, said), (2, "left was left by an import of events, and the logs are of spicedb\n"))

    def test_tuples_for_every_user_are_left_out(self):
        """Which users there are, later days may say too."""
        every, words = ["doc", "1", "viewer", "user", "*", "*"], ("events", "--go-on", "left", "--trace", "next", "log")
        self.put("log", [write(9, every), check(9), check(9, False, rel("5", "banned"))])
        said = self.imported(*words)
        self.assertIn("left out 1: tuple for every user of a type, in a log that goes on, first at log:1: doc:1#viewer@user:*\n", said)
        self.assertIn("checks: 1 whole, 1 not audited\n", said)
        self.put("log", [write(10, remove=[every]), check(10, False), check(10, False, rel("5", "banned"))])
        self.assertEqual(self.unaudited(*words), ["not audited: %s, first at log:2: doc:1#viewer@user:a" % causes.HANGS_ON_LEFT_OUT,
                                                  "not audited 1: %s" % causes.HANGS_ON_LEFT_OUT])

    def test_what_is_left_out_is_known_the_next_day(self):
        """Versions whose content checks were left out, labels that were saved again, and tuples in doubt."""
        parent = rel("2", "parent", "1", "doc")
        self.put("log", [write(9, parent, rel("9", "gone")), content(9, "lost", goal=rel("1", "gone")), content(9, "twice"), write(10),
                         content(10, "twice"), {"event": "unmapped", "reason": "caveat", "userset": ["doc", "1", "viewer"]}])
        words = ("events", "--go-on", "left", "--trace", "next", "log")
        self.imported(*words)
        self.put("log", [check(10, goal=rel("5")), check(10, goal=rel("1")), check(10, goal=rel("2", "reader"))])
        self.assertEqual(self.unaudited(*words)[-1], "not audited 3: %s" % causes.HANGS_ON_LEFT_OUT)

    def test_versions_that_are_left_out_are_known_the_next_day(self):
        self.put("log", [write(9), content(9, "lost", goal=rel("1", "gone")), content(9, "twice"), write(10), content(10, "twice")])
        words = ("events", "--go-on", "left", "--trace", "next", "log")
        self.imported(*words)
        self.put("log", [check(10, version="lost"), check(10, version="twice"), check(10, version="never")])
        self.assertEqual([(row.get("version"), row.get("named"), row.get("part")) for row in self.imported(*words) and self.rows("next")], [
            (None, "lost", causes.VERSION_LEFT_OUT), ("twice", None, causes.LABEL_TWICE), ("never", None, None)])

    def test_usage(self):
        status, said = self.run_import("openfga", "--model", "x", "--from-empty", "--go-on", "left", "log")
        self.assertEqual(status, 3)
        self.assertIn("--go-on takes no logs of OpenFGA", said)
        self.assertTrue(json.loads(self.get("left").splitlines()[0])["named"])
