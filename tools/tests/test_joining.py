"""ne join: the logs of several recorders say what that of one in front of all would say."""
import json
import os
import re
from unittest import mock

from new_enemy_tools.importing.causes import VERSION_UNKNOWN
from new_enemy_tools.recording import joining
from new_enemy_tools.recording.joining import UNKNOWN, Join
from new_enemy_tools.recording.log_files import LogFiles
from new_enemy_tools.recording.sketches import Given, JoinFault, Row
from new_enemy_tools.recording.spine import Spine
from tests.recorded import Client
from tests.simulated_crowd import run_crowd
from tests.simulated_case import SimulatedCase
from tests.support import Case
from tests.test_recording_openfga import DOCUMENTS, EARLY, FIXED, MODEL, USERS, OpenFga, key
from tests.test_recording_spicedb import FULL, SpiceDb, at_least

SEEDS = 200


class Simulated(SimulatedCase):
    """Two or three recorders, of which some begin later or end earlier; versions are saved through one and shown through another."""

    RUN = run_crowd

    def test_no_right_reply_is_accused_and_no_wrong_one_passes(self):
        shown = sum(one.shows is not None and one.shows.world is not one.world for _, verdict in self.held(range(SEEDS)) for one in verdict.checks)
        self.assertGreater(self.recorded, 2 * self.lost)
        self.assertGreater(shown, 40)

    def test_a_model_that_changes(self):
        self.assert_holds(*range(100), models=True)

    def test_a_write_that_made_one_of_two_changes(self):
        """A tuple is added twice, and which of the two a write made that has its answer is not known."""
        self.assert_holds(1164414)

    def test_content_that_does_not_stand_before_what_shows_it(self):
        with mock.patch.object(Join, "_ordered", lambda self, placed: iter([placed.value])):
            self.assert_finds("a version that was saved is not known")

    def test_a_recorder_that_was_killed_and_of_which_nothing_is_told(self):
        """Its clients go on through the others."""
        with mock.patch.object(Join, "_open", lambda self: iter(())):
            self.assert_finds("a log that is not closed is not told")

    def test_content_that_stands_before_what_its_recorder_knew(self):
        def place(self, log, revision):
            return max(0, self.tracks[log].solid[self._step(log, revision)] - 1)
        with mock.patch.object(joining.OfPlaces, "place", place):
            self.assert_finds("a content check stands before a commit that was known")

    def test_a_write_of_several_tuples_that_only_its_own_recorder_knows_to_be_one(self):
        shape = {"faults": 0.6, "ours": 1, "writes": 0.6, "requests": 25}
        self.assertEqual(run_crowd(2671, **shape)[1].faults(), [])
        with mock.patch.object(Spine, "_leaders", lambda self: list(range(len(self.changes)))):
            self.assertIn("a wrong reply is called right", "".join(run_crowd(2671, **shape)[1].faults()))


def lines(*values, service="openfga", store="S", changes=0):
    """A log as a recorder begins it, and more lines."""
    head = [{"event": "log", "number": 1, "service": service, "time": "2024-01-01T00:00:00Z"}]
    head += [{"event": "feed", "store": store, "changes": changes}] if service == "openfga" else []
    rules = {"event": "rules", "model": "M" if service == "openfga" else None,
             "namespaces": [{"name": "document", "relations": [{"name": "viewer", "rewrite": {"this": {}}}]}]}
    base = {"event": "write", "revision": 0, "base": True}
    return head + [rules, base, {"event": "place", "revision": 0, "rules_sha256": "x", "cursor": None}, *values]


def change(revision, user, side="add", at=None):
    return {"event": "write", "revision": revision, "time": "2024-01-01T00:00:%02dZ" % (at or revision),
            side: [["document", "d", "viewer", "user", user]]}


def check(snapshot, second, event="check", **more):
    return {"event": event, "goal": ["document", "d", "viewer", "user", "a"], "snapshot": snapshot, "reply": True,
            "time": "2024-01-01T00:00:%02dZ" % second, **more}


def joined(*logs, skew=0):
    given = [Given("log%d" % number, lambda rows=rows, number=number: (Row("log%d" % number, line, row) for line, row in enumerate(rows, 1)), True)
             for number, rows in enumerate(logs)]
    return list(Join(given, skew).lines())


def events(rows):
    return [(row["event"], row.get("revision", row.get("snapshot"))) for row in rows]


class Parts(Case):
    def test_a_log_that_begins_later(self):
        """Its base state is what the other log has by then, and its revisions go on from there."""
        later = lines(change(1, "c", at=3), check(1, 9), changes=2)
        later[3]["add"] = [["document", "d", "viewer", "user", "a"], ["document", "d", "viewer", "user", "b"]]
        made = joined(later, lines(change(1, "a"), change(2, "b"), change(3, "c"), check(2, 5)))
        self.assertEqual(events(made)[2:], [("write", 1), ("write", 2), ("write", 3), ("check", 2), ("check", 3)])

    def test_a_log_that_begins_with_a_later_model(self):
        rules = {**lines()[2], "revision": 1, "model": "N"}
        later = lines(change(1, "a"), check(1, 9))
        later[2] = {**later[2], "model": "N"}
        first = lines(rules, change(2, "a", at=1))
        for logs in ((later, first), (first, later)):
            self.assertEqual(events(joined(*logs)), [("rules", None), ("write", 0), ("rules", 1), ("write", 2), ("check", 2)])
        other = lines(check(0, 9))
        other[2] = {**other[2], "model": "N"}
        self.assertEqual(self.refused(lines(check(0, 9)), other), "log1 begins with another model than those of the other logs")

    def test_content_stands_before_what_shows_it(self):
        saving = lines(change(1, "a"), change(2, "b"), check(2, 5, "content", version="v", token=2))
        showing = lines(change(1, "a"), check(1, 6, version="v"), change(2, "b"))
        self.assertEqual(events(joined(showing, saving))[2:], [("write", 1), ("write", 2), ("content", 2), ("check", 1)])

    def test_a_log_that_is_open_lacks_what_its_recorder_let_wait(self):
        """By what its first line says."""
        for hold, since in (None, "01:29"), (60, "00:58"):
            late = lines(check(0, 59, time="2024-01-01T00:02:00Z"))
            late[0] = {**late[0], "hold": hold}
            given = [Given("log", lambda late=late: (Row("log", number, row) for number, row in enumerate(late, 1)), False)]
            (gap,) = [row for row in Join(given, 0).lines() if row["event"] == "gap"]
            self.assertEqual(gap["from"], "2024-01-01T00:%s.000000Z" % since)

    def test_orders_that_differ(self):
        """The first log has a before b, and the second b before a: what it saw of b alone is no state of the first."""
        def other(goal):
            return lines(change(1, "b", at=2), {**check(1, 6), "goal": goal}, change(2, "a", at=1))
        first = lines(change(1, "a"), change(2, "b"))
        # A state with the one and without the other is none of the first log's, and it matters where both bear on the question.
        goal = ["document", "d", "viewer", "user", "a"]
        self.assertEqual(events(joined(first, other(goal)))[2:], [("write", 1), ("write", 2), ("unmapped", None)])
        far = lines(change(1, "b", at=2), {**check(1, 6), "goal": ["document", "e", "viewer", "user", "a"]}, change(2, "a", at=1))
        self.assertEqual(events(joined(first, far))[2:], [("write", 1), ("write", 2), ("check", 2)])

    def test_a_change_that_a_recorder_read_too_late(self):
        """A tuple that was there went and came. One recorder read first that it came; what another saw, and a later one begins with, is that it is there."""
        def with_base(rows):
            rows[3]["add"] = [["document", "d", "viewer", "user", "a"]]
            return rows
        late = with_base(lines(change(1, "a", at=2), change(2, "a", "remove", at=1)))
        right = with_base(lines(change(1, "a", "remove", at=1), change(2, "a", at=2), check(2, 5)))
        later = with_base(lines(check(0, 9), changes=2))
        for logs in ((late, right, later), (right, late, later)):
            made = joined(*logs)[2:]
            self.assertEqual([tuple(side for side in ("add", "remove") if side in row) for row in made[:2]], [("remove",), ("add",)])
            self.assertEqual(events(made), [("write", 1), ("write", 2), ("check", 2), ("check", 2)])

    def test_a_log_that_ends_before_a_change_that_it_read_too_late(self):
        """It has that the tuple went, and not yet that it had come before; another log has both, in the order in which they came."""
        first = lines(change(1, "a", "remove", at=2), {**check(1, 5), "reply": False})
        other = lines(change(1, "a", at=1), change(2, "a", "remove", at=2), {**check(2, 6), "reply": False})
        for logs in ((first, other), (other, first)):
            made = joined(*logs)[2:]
            self.assertEqual([side for row in made for side in ("add", "remove") if side in row], ["add", "remove"])
            self.assertEqual(sorted(row["event"] for row in made[2:]), ["check", "unmapped"])

    def test_a_change_that_no_recorder_read(self):
        """A tuple that comes twice went between. What rests on it is in doubt, and no log is refused that begins with it or without it."""
        first, later = lines(change(1, "a", at=1), change(2, "a", at=3)), lines(check(0, 9), changes=2)
        made = joined(first, later)
        self.assertEqual({tuple(row["userset"]) for row in made if row["event"] == "unmapped"}, {("document", "d", "viewer")})
        self.assertEqual(events(made)[-1], ("check", 2))

    def test_a_log_that_begins_with_the_later_of_two_changes(self):
        """Which a recorder read at once, and has the other way round. What the later log saw is no state of the first, where both bear on the question."""
        first = lines(change(1, "a"), change(2, "b"))

        def later(goal):
            rows = lines({**check(0, 9), "goal": goal}, changes=1)
            rows[3]["add"] = [["document", "d", "viewer", "user", "b"]]
            return rows
        near, far = (["document", one, "viewer", "user", "b"] for one in "de")
        self.assertEqual(events(joined(first, later(near)))[2:], [("write", 1), ("write", 2), ("unmapped", None)])
        self.assertEqual(events(joined(first, later(far)))[2:], [("write", 1), ("write", 2), ("check", 2)])
        # One that begins with what nobody wrote is of another store.
        other = later(near)
        other[3]["add"] = [["document", "d", "viewer", "user", "c"]]
        self.assertIn("does not begin with what the other logs have there", self.refused(first, other))

    def test_content_between_changes_whose_order_differs(self):
        """It stands behind all that its recorder knew; where that is more than it saw, it is left out, with its version."""
        content = check(1, 6, "content", version="v", token=1)
        made = joined(lines(change(1, "a"), change(2, "b")), lines(change(1, "b", at=2), content, change(2, "a", at=1)), lines(check(0, 9, version="v")))
        self.assertEqual([row.get("version") for row in made if row["event"] == "unmapped"], [["document", "d", "v"]])
        self.assertEqual([row["event"] for row in made][-2:], ["unmapped", "check"])

    def test_a_version_that_may_have_been_saved_where_a_log_had_ended(self):
        other = lines(check(0, 5))
        for second, told in ((4, 0), (6, 1)):
            made = joined(lines(check(0, second, version="v"), check(0, 9)), other)
            self.assertEqual([row["reason"] for row in made if row["event"] == "unmapped"], [UNKNOWN] * told)
        made = joined(lines(check(0, 4, version="v"), check(0, 9)), other, skew=2 * 10 ** 9)
        self.assertEqual([row["reason"] for row in made if row["event"] == "unmapped"], [UNKNOWN])

    def test_gaps_begin_earlier_by_what_the_clocks_may_be_apart(self):
        gap = {"event": "gap", "from": "2024-01-01T00:00:05Z", "to": "2024-01-01T00:00:06Z", "reason": "why", "lost": 1, "time": "2024-01-01T00:00:06Z"}
        made = joined(lines(gap), lines(), skew=10 ** 9)
        self.assertEqual([row["from"] for row in made if row["event"] == "gap"], ["2024-01-01T00:00:04.000000Z"])

    def refused(self, *logs):
        with self.assertRaises(JoinFault) as found:
            joined(*logs)
        return str(found.exception)

    def test_what_is_refused(self):
        old = lines({"event": "write", "revision": 1, "add": [["document", "d", "viewer", "user", "a"]]})
        for logs, told in (((lines(), lines(store="T")), "log1 is a log of the store T, and log0 of S"),
                           ((lines(), lines(service="spicedb")), "log1 is a log of spicedb, and log0 of openfga"),
                           ((lines(), lines(service="joined openfga")), "log1 is a joined log; give the recorders' own"),
                           ((lines(), old), "log1 does not say when its changes came; it was written by a recorder that is too old to be joined"),
                           ((lines(store=None), lines(store=None)), "log0 does not say which store it is of; it was written by a recorder that is too "
                            "old to be joined"),
                           ((lines(change(1, "a")), lines(changes=3)), "log1 begins with 2 changes that no other log has; give logs of which each "
                            "begins before the one before has ended"),
                           ((lines(change(1, "a")), lines(changes=1)), "log1 does not begin with what the other logs have there: "
                            "document:d#viewer@user:a is in the other logs, and not in it. It is of another store, or there were changes that are "
                            "in no log"),
                           ((lines(change(1, "a")), lines()[:3]), "log1 has no base state; give the whole log, from its first file on")):
            with self.subTest(told):
                self.assertEqual(self.refused(*logs), told)

    def test_spicedb_on_postgres_is_refused(self):
        one = lines(service="spicedb")
        one[-1]["cursor"] = "Gg4KDENPUUZFQUFvQVE9PQ=="
        self.assertIn("SpiceDB on PostgreSQL", self.refused(one, one))

    def test_changes_of_spicedb_that_one_log_does_not_have(self):
        def of(*revisions):
            made = lines(*(change(revision, "u%d" % revision) for revision in revisions), service="spicedb")
            made[-1 - len(revisions)]["cursor"] = "GhUKEzE3MTQ5ODYwMDAwMDAwMDAwMDA="
            return made
        self.assertIn("log1 does not have revision 2, which the other logs have", self.refused(of(1, 2, 3), of(1, 3)))
        self.assertEqual(events(joined(of(1, 2, 3), of(1, 2)))[2:], [("write", 1), ("write", 2), ("write", 3)])


class Folders(Case):
    def log(self, folder, *rows):
        log = LogFiles(self.path(folder), "openfga")
        log.lock()
        for row in rows:
            log.add(json.dumps(row).encode() + b"\n")
        log.close()
        os.close(log._lock)

    def test_nothing_is_written_where_something_is_refused(self):
        self.log("a", *lines()[1:])
        self.log("b", *lines(store="T")[1:])
        run = self.run_process("join", "--out", "all", "a", "b")
        self.assertEqual((run.returncode, run.stderr), (2, "b is a log of the store T, and a of S\n"))
        self.assertEqual(sorted(os.listdir(self.room)), ["a", "b"])

    def test_files_that_are_no_whole_log(self):
        self.log("a", *lines()[1:])
        os.mkdir(self.path("empty"))
        self.assertIn("empty has no files of a log", self.run_process("join", "--out", "all", "a", "empty").stderr)
        self.log("b", *lines({"event": "check", "gaol": 1})[1:])
        run = self.run_process("join", "--out", "all", "a", "b")
        self.assertEqual(run.returncode, 2)
        self.assertIn('unknown key "gaol"; is "goal" meant?', run.stderr)
        os.rename(self.path("b/000001.jsonl"), self.path("b/000002.jsonl"))
        with open(self.path("b/000002.jsonl"), "a", encoding="utf-8") as file:
            file.write("{}\n")
        self.assertEqual(self.run_process("join", "--out", "all", "a", "b").returncode, 2)

    def test_lines_that_are_no_events(self):
        """Of a key that stands twice nobody knows which value was meant."""
        self.log("a", *lines()[1:])
        head = '{"event":"own","format":1,"service":"openfga","store":"S"}\n'
        for odd in ('{"event":"over","asked":0,"asked":0}', '{"event":"over","asked":NaN}', '{"event":%s}' % ("[" * 100_000), "{}", "[]", "over", "null",
                    '{"event":7}', '{"event":["over"]}'):
            self.put("own", head + odd + "\n")
            run = self.run_tool("join", "--out", "all", "a", "own")
            self.assertEqual((run.returncode, run.stderr), (2, "own:2: no line of a recorder's log\n"))

    def test_usage(self):
        self.log("a", *lines()[1:])
        self.assertEqual(self.run_process("join", "--out", "all", "a", "a").returncode, 3)
        self.assertEqual(self.run_process("join", "--out", "a", "a").returncode, 2)
        for words in ("--took", "inf"), ("--stale-by", "nan"), ("--skew", "-1"):
            self.assertEqual(self.run_process("join", "--out", "all", "a", *words).returncode, 3)


class Processes(OpenFga):
    """Two recorders with a third between them and the service, whose log is that of one in front of all."""

    def start_two(self, share, *words):
        self.start_service(MODEL, share, "planted")
        self.prepare()
        first = self.start_recorder(folder="one", said="one.said")
        self.service_port, self.between = self.port, first
        self.two = [(self.start_recorder(*words, folder=name, said=name + ".said"), self.port) for name in ("left", "right")]
        self.versions = {}

    def work(self, client, random, number, turn):
        client.port = self.two[number % 2][1]
        form, user, thing = random.random(), random.choice(USERS), random.choice(DOCUMENTS)
        if form < 0.15:
            self.write(client, key(user, "viewer", thing), kind=random.choice(["writes", "deletes"]))
        elif form < 0.3:
            version = "v%d.%d" % (number, turn)
            if self.check(client, USERS[0], "editor", thing, X_Content_Save=version)[1]["allowed"]:
                self.versions[thing] = version
        elif form < 0.8 and thing in self.versions:
            self.check(client, user, "viewer", thing, random.choice(("HIGHER_CONSISTENCY",) * 3 + ("MINIMIZE_LATENCY",)),
                       X_Content_Version=self.versions[thing])
        else:
            self.check(client, user, "viewer", random.choice(FIXED + EARLY))

    def found_of(self, folder):
        """What an audit finds of each check, by what was asked and answered of which version."""
        self.said_of_import = self.import_log(folder=folder)
        places = {"%s:%d" % (name, line): json.loads(row) for name in self.files(folder) for line, row in enumerate(self.get(name).splitlines(), 1)}
        for row in list(places.values()):
            if folder == "all" and "file" in row:
                places["%s:%d" % (row["file"], row["line"])] = row
        return sorted((json.dumps([places[place]["goal"], places[place]["reply"], places[place].get("version")]), sorted(found))
                      for place, found in self.found().items())

    def test_joined_logs_give_the_findings_of_one_recorder_in_front_of_all(self):
        self.start_two("0.3")
        self.run_clients(4, 60, self.work)
        for recorder, _ in self.two:
            self.end(recorder)
        self.end(self.between)
        run = self.run_process("join", "--out", "all", "left", "right")
        self.assertEqual((run.returncode, run.stderr), (0, ""))
        self.assertRegex(run.stdout, "joined 2 logs of openfga: [0-9]+ changes")
        one, both = self.found_of("one"), self.found_of("all")
        self.assertIn("F2 old token", str(one))
        self.assertIn("F10 wrong reply", str(one))
        # Each of them has its own gaps; a check in a gap has no finding, and one of a version that was saved in a gap not all.
        lost = sum(row.get("lost", 0) for row in self.of_kind("gap", "all"))
        in_part = re.search(r"(?m)^checks: .*?([0-9,]+) in part", self.said_of_import)
        unseen = lost + (int(in_part[1].replace(",", "")) if in_part else 0)
        self.assertLessEqual(len([found for found in one if found not in both]), unseen, (one, both))
        self.assertEqual([found for found in both if found not in one and "F6" in str(found)], [])
        shown = [row for row in self.of_kind("check", "all") if "version" in row]
        self.assertGreater(len({row["clock"] for row in shown}), 1)


class OfSpiceDb(SpiceDb):
    def test_a_version_that_is_saved_through_one_and_shown_through_another(self):
        self.start_service()
        client = Client(self.service_port)
        self.prepare(client)
        client.close()
        two = [(self.start_recorder(folder=name, said=name + ".said"), Client(self.port)) for name in ("left", "right")]
        (first, left), (second, right) = two
        _, before = self.check(right, "u0", "edit", "d0", FULL, X_Content_Save="v0")
        self.write(left, ("TOUCH", ("document:d0", "banned", "user:u1", "")))
        _, saved = self.check(left, "u0", "edit", "d0", FULL, X_Content_Save="v1")
        self.check(right, "u1", "view", "d0", at_least(saved["checkedAt"]["token"]), X_Content_Version="v1")
        self.check(right, "u1", "view", "d0", at_least(before["checkedAt"]["token"]), X_Content_Version="v1")
        left.close()
        right.close()
        for recorder in (first, second):
            self.end(recorder)
        run = self.run_process("join", "--out", "all", "right", "left")
        self.assertEqual((run.returncode, run.stderr), (0, ""))
        self.import_log(folder="all")
        self.assertEqual([sorted(found) for found in self.found().values()], [["F2 old token"]])
        # Alone, the log of the second does not know the version.
        self.assertIn(VERSION_UNKNOWN, self.import_log(folder="right"))
