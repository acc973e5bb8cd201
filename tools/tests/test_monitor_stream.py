"""The import of a monitor, a few lines at a time, writes what one import of all lines writes, but for timestamps; and
what it holds back."""
import json
import os
import subprocess
import unittest
from random import Random
from unittest import mock

from new_enemy_tools.faults import MonitorFault
from new_enemy_tools.ids import Ids
from new_enemy_tools.importing import causes
from new_enemy_tools.importing.times import nanoseconds
from new_enemy_tools.monitoring import holding as holding_of
from new_enemy_tools.monitoring.holding import STATE_WAIT, WRITE_WAIT, Holding
from new_enemy_tools.monitoring.midnights import NoZone, midnight_after, zone_of
from new_enemy_tools.monitoring.run import Begun, Run
from new_enemy_tools.monitoring.stream import Chunk
from new_enemy_tools.windowing.beginning import Keep
from new_enemy_tools.windowing.state import NOTHING
from tests.random_traits import RandomLog, events
from tests.test_circles import Ring
from tests.test_going_on import NEWLY_READ, READ, RULES, UNREAD, between, events_of
from tests.test_trace_maker import CoreCase, check, content, rel, write

BASE = write(0, base=True)
PLACE = {"event": "place", "revision": 0}


def lines_of(events):
    return [json.dumps(event, separators=(",", ":")).encode() + b"\n" for event in events]


class Streamed(CoreCase):
    def stream(self, events, random, has_between=True, is_held=True):
        """The trace of events that come a few at a time."""
        lines, at, now, text = lines_of(events), 0, 0.0, b""
        run, holding = Run(Begun(None, NOTHING, Ids()), has_between,
                           lambda line: b"", Keep()), Holding(1e6 if is_held else 0.0, False)
        while at < len(lines) or holding.lines:
            count = random.randint(1, 5)
            some = lines[at:at + count]
            if some:
                holding.put(Chunk("log", at + 1, b"".join(some)), now)
                at += len(some)
            now += WRITE_WAIT * random.random() if at < len(lines) else 1e7
            for chunk in holding.ready(run.stream.issues, run.stream.last_revision(), now).chunks:
                text += run.take(chunk)
        self.begun = run
        return text

    def report(self, trace):
        run = subprocess.run([os.environ["NEW_ENEMY"], "audit", "/dev/stdin", "--make"], input=trace,
                             capture_output=True, timeout=300)
        self.assertIn(run.returncode, (0, 1), run.stderr)
        return run.stdout.decode()

    def compare(self, events, random, has_between):
        for name in ("trace.jsonl", "ids.jsonl"):
            if os.path.exists(self.path(name)):
                os.remove(self.path(name))
        self.put("log", events)
        self.imported("events", "log")
        with open(self.path("trace.jsonl"), "rb") as file:
            whole = self.report(file.read())
        self.assertEqual(self.report(self.stream([*events[:2], PLACE, *events[2:]], random, has_between)), whole)
        return whole

    def test_random_events(self):
        found = ""
        for number in range(30):
            random = Random("stream %d" % number)
            found += self.compare([RULES, BASE, *events_of(random, 60)], random, number % 2 == 0)
        for finding in ("F1", "F2", "F3", "F4", "F5", "F6", "F10"):
            self.assertIn(finding, found)

    def test_denials_by_circles_that_are_taken_away(self):
        """They are left out by their cause where the service denies them, and each other one is audited."""
        rules = {"event": "rules", "namespaces": [{"name": "group", "relations": [{"name": "member"}]}, {"name": "doc", "relations": [
            {"name": "blocked"}, {"name": "viewer", "rewrite": {"exclusion": {"base": {"this": {}}, "subtract": {"computed": "blocked"}}}}]}]}

        def stored(thing, relation, user):
            return [*thing.split(":"), relation, *user.replace("#", ":").split(":")]
        struck = 0
        for seed in range(12):
            ring, random = Ring(seed), Random("circles of a monitor %d" % seed)
            for service in "openfga", "spicedb":
                events, wanted, last = [], 0, 0
                for place, thing, user, _, high in [*ring.checks, (len(ring.changes), "doc:1", "user:a", 0, len(ring.changes))]:
                    for number in range(last, place):
                        given, live = ring.changes[number]
                        events.append({"event": "write", "revision": number + 1, "add": [stored(*given)] if live else [],
                                       **({} if live else {"remove": [stored(*given)]})})
                    last = place
                    is_denied = service == "openfga" and ring.is_struck(thing, ring.states[high])
                    wanted += is_denied
                    events.append({"event": "check", "goal": stored(thing, "viewer", user), "snapshot": high,
                                   "reply": not is_denied and ring.holds(thing, user, ring.states[high])})
                text = self.stream([{"event": "log", "number": 1, "before": None, "service": service}, rules, BASE, PLACE, *events], random)
                self.assertEqual(self.begun.stream.refusals.not_audited, {causes.CIRCLE_TAKEN_AWAY: wanted} if wanted else {}, seed)
                self.assertNotIn("F10", self.report(text), seed)
                struck += wanted
        self.assertGreater(struck, 12)

    def test_tuples_that_have_no_form(self):
        """A right reply is never called wrong, and a wrong one is where nothing that it may rest on was left out."""
        struck = 0
        for seed in range(20):
            log = events(RandomLog(seed, True))
            begin = [one for one in log if one["event"] == "rules" or one.get("base")] + [PLACE]
            rest = log[len(begin) - 1:]
            self.assertNotIn("F10", self.report(self.stream(begin + rest, Random(seed), seed % 2 == 0)))
            struck += sum(self.begun.stream.refusals.not_audited.values())
            flipped = [{**one, "reply": not one["reply"]} if "reply" in one else one for one in rest]
            found = self.report(self.stream(begin + flipped, Random(seed), seed % 2 == 0))
            self.assertGreaterEqual(found.count("F10 wrong reply"), RandomLog(seed, True).tainted.count(False), seed)
        self.assertGreater(struck, 20)

    def test_a_tuple_for_every_user_stops_no_monitor(self):
        log = [RULES, BASE, PLACE, write(1, [*rel("1", "viewer", "*"), "*"]), check(1, False), check(1, False, rel("2")), check(1, True, rel("3"))]
        report = self.report(self.stream(log, Random(1)))
        self.assertEqual((report.count("F10"), self.begun.stream.refusals.not_audited), (1, {causes.HANGS_ON_LEFT_OUT: 1}))

    def test_checks_that_asked_for_the_newest_state(self):
        """They demand that of their version too, whenever that was issued."""
        doc = rel("1", "viewer", "anne")
        log = [RULES, BASE, write(5, doc), write(10, remove=[doc]), content(10, "v2", goal=doc, token=10),
               check(5, True, doc, version="v2", newest=True)]
        for number in range(5):
            self.assertIn("F1 stale", self.compare(log, Random("newest %d" % number), False))
        found = ""
        for number in range(20):
            random = Random("stream newest %d" % number)
            log = events_of(random, 60)
            for event in log:
                if event["event"] == "check" and "version" in event:
                    event.pop("token", None)
                    event["newest"] = True
            found += self.compare([RULES, BASE, *log], random, number % 2 == 0)
        self.assertIn("F1", found)

    def test_checks_between_two_states(self):
        for number in range(20):
            random = Random("stream between %d" % number)
            self.compare([RULES, BASE, *events_of(random, 60, True)], random, True)

    def test_gaps_that_are_told_later(self):
        """A check of a version that nobody issued waits for a line that may say why; what was issued in a gap is not
        said to be unknown."""
        found, parts = "", 0
        for number in range(20):
            random = Random("stream gap %d" % number)
            log = [{**event, "time": "2026-11-26T10:00:%02dZ" % place} for place,
                   event in enumerate(events_of(random, 58))]
            last = max(event.get("revision", 0) for event in log)
            for _ in range(3):
                place = random.randrange(len(log))
                named = {**check(0, False, rel("1", "viewer", "none")), "version": "lost %d" % random.randrange(9),
                         "time": log[place]["time"]}
                log.insert(place, named)
            if number % 3:
                place = random.randrange(20, len(log))
                since = log[random.randrange(place)]["time"]
                log.insert(place, {"event": "gap", "from": since, "to": log[place]["time"], "reason": "it was full",
                                   "lost": 1})
            found += self.compare([RULES, BASE, *log, write(last + 1)], random, number % 2 == 0)
            parts += self.get("trace.jsonl").count('"part"')
        self.assertIn("F6", found)
        self.assertGreater(parts, 10)

    def test_rules_that_go_on_from_tuples_of_before(self):
        """They are refused by name, since a right reply would be called wrong."""
        log = [UNREAD, BASE, PLACE, write(1, rel("2"), rel("1", "parent", "2", "doc")), check(1, goal=rel("2")), READ, check(5, goal=rel("1", "reader"))]
        refused = 0
        for number in range(5):
            try:
                trace = self.stream(log, Random("tuplesets %d" % number))
                # All came together.
                self.assertIn("verdict clean", self.report(trace))
            except MonitorFault as fault:
                self.assertEqual(str(fault), "log:6: " + NEWLY_READ)
                refused += 1
        self.assertGreater(refused, 0)


class Held(CoreCase):
    """What can be taken of lines, one by one."""

    def ready(self, holding, events, now, issues=lambda *_: False, first=1):
        holding.put(Chunk("log", first, b"".join(lines_of(events))), now)
        return self.taken(holding, now, issues)

    def taken(self, holding, now, issues=lambda *_: False):
        return [json.loads(line)["event"] for chunk in holding.ready(issues, -1, now).chunks
                for line in chunk.data.splitlines()]

    def test_the_base_state(self):
        holding = Holding(30.0, False)
        self.assertEqual(self.ready(holding, [RULES, BASE, BASE], 0.0), [])
        self.assertEqual(self.ready(holding, [PLACE], 100.0), ["rules", "write", "write", "place"])

    def has_room(self, is_begun, *events):
        """Whether more is read when some lines were looked at, and whether some could be taken."""
        holding = Holding(30.0, is_begun)
        holding.put(Chunk("log", 1, b"".join(lines_of(events))), 0.0)
        self.assertFalse(holding.has_room)
        return bool(self.taken(holding, 0.0)), holding.has_room

    def test_what_is_read_ahead(self):
        """Few lines, but of those that are held as many as it takes until some can be taken."""
        commit = [write(1, rel(str(number))) for number in range(9)]
        with mock.patch.multiple(holding_of, LINES=1, MOST=100, MOST_HELD=2_000):
            self.assertEqual(self.has_room(False, RULES, *[BASE] * 99), (False, True))
            self.assertEqual(self.has_room(True, *commit), (False, True))
            self.assertEqual(self.has_room(True, *commit * 9), (False, False))
            self.assertEqual(self.has_room(True, check(1), *[check(0)] * 9), (True, False))

    def test_the_last_write(self):
        """Until another line comes, or for a moment."""
        holding = Holding(30.0, True)
        self.assertEqual(self.ready(holding, [check(0), write(1, rel())], 0.0), ["check"])
        self.assertEqual(self.ready(holding, [write(1, rel("2"))], 0.1), [])
        self.assertEqual(self.ready(holding, [check(1)], 0.2), ["write", "write", "check"])
        self.assertEqual(self.ready(holding, [write(2, rel())], 0.3), [])
        self.assertEqual(self.taken(holding, 0.3 + WRITE_WAIT), ["write"])

    def test_states_to_come(self):
        """A check, and all behind it, until the log has come to the states that it may have looked at; or for some
        seconds."""
        holding = Holding(30.0, True)
        self.assertEqual(self.ready(holding, [write(1), between(check(0), 1, 2, True), check(1)], 0.0), ["write"])
        self.assertEqual(self.ready(holding, [write(2, rel()), check(2)], 1.0), ["check", "check", "write", "check"])
        self.assertEqual(self.ready(holding, [between(check(0), 2, 9, True)], 2.0), [])
        self.assertEqual(self.taken(holding, 2.0 + STATE_WAIT), ["check"])

    def test_versions_that_nobody_issued(self):
        holding, gap = Holding(30.0, True), {"event": "gap", "to": "2026-11-26T10:00:00Z", "reason": "it was full"}
        named = {**check(0, False), "version": "v"}
        self.assertEqual(self.ready(holding, [check(0), named, check(0)], 0.0), ["check"])
        self.assertEqual(self.ready(holding, [gap], 9.0), ["check", "check", "gap"])
        self.assertEqual(self.ready(holding, [named, check(0)], 10.0, lambda *_: True), ["check", "check"])
        self.assertEqual(self.ready(holding, [content(0, "v", token=0), named], 11.0), ["content", "check"])
        self.assertEqual(self.ready(holding, [named | {"version": "w"}], 12.0), [])
        self.assertEqual(self.taken(holding, 41.9), [])
        self.assertEqual(self.taken(holding, 42.0), ["check"])

    def test_a_gap_comes_with_what_it_explains(self):
        holding, gap = Holding(30.0, True), {"event": "gap", "to": "2026-11-26T10:00:00Z", "reason": "it was full"}
        with mock.patch.object(holding_of, "LINES", 1):
            self.assertEqual(self.ready(holding, [{**check(0, False), "version": "v"}, check(0), gap, check(0)], 0.0),
                             ["check", "check", "gap"])
            self.assertEqual(self.taken(holding, 0.0), ["check"])

    def test_days(self):
        """The lines of a day come before its end, also where both came together. In winter Berlin is an hour ahead."""
        for zone, times, wanted in (
                (zone_of("UTC"), ["%02dT00:00" % day for day in (26, 26, 27, 28, 28)], [([1], True), ([3], True), ([4], False), ([], False)]),
                (zone_of("Europe/Berlin"), ["26T22:59", "26T23:00", "26T23:59"], [([1], True), ([2], False)])):
            with self.subTest(zone=zone):
                holding = Holding(30.0, True, zone=zone)
                holding.put(Chunk("log", 1, b"".join(lines_of([check(0, time="2026-11-%s:00Z" % time) for time in times]))), 0.0)
                found = [holding.ready(lambda *_: False, -1, 0.0) for _ in wanted]
                self.assertEqual([([chunk.first for chunk in one.chunks], one.is_over) for one in found], wanted)


class Midnights(unittest.TestCase):
    """By the tables of time zones."""

    def test_the_first_midnight_behind_a_time(self):
        for zone, time, wanted in (
                ("UTC", "2026-11-26T00:00:00Z", "2026-11-27T00:00:00"),
                ("UTC", "2026-11-26T23:59:59.999Z", "2026-11-27T00:00:00"),
                ("Europe/Berlin", "2026-11-26T22:59:59Z", "2026-11-26T23:00:00"),
                ("Europe/Berlin", "2026-07-26T22:00:00Z", "2026-07-27T22:00:00"),
                # There the clock was put ahead at midnight, so the day begins at one.
                ("Asia/Beirut", "2025-03-29T20:00:00Z", "2025-03-29T22:00:00"),
                # There the 30th of December was left out.
                ("Pacific/Apia", "2011-12-29T20:00:00Z", "2011-12-30T10:00:00"),
                ("UTC", "9999-12-31T10:00:00Z", "~")):
            with self.subTest(zone=zone, time=time):
                self.assertEqual(midnight_after(nanoseconds(time), zone_of(zone)).text.decode(), wanted)

    def test_a_zone_that_is_none(self):
        for name in ("Europe/Nowhere", "../etc/passwd", ""):
            with self.assertRaisesRegex(NoZone, "is no time zone that this machine has"):
                zone_of(name)
