"""Events that an application writes itself, beside a log of the changes alone: ne record --changes-only, and ne join."""
import importlib.util
import json
import os
import time
from collections import Counter
from itertools import count
from unittest import mock

from new_enemy_tools.importing import causes
from new_enemy_tools.importing.times import nanoseconds, text_of_time
from new_enemy_tools.recording import own_events
from new_enemy_tools.recording.joining import Join
from new_enemy_tools.recording.own_events import BEFORE, BEHIND, OTHER, Timed, Tokened, own_of
from new_enemy_tools.recording.places import Places
from new_enemy_tools.recording.sequencer import Known
from new_enemy_tools.recording.sketches import FAR, Given, JoinFault, Row
from tests.simulated_spicedb import run_apart as run_tokens_apart
from tests.simulation import run_apart
from tests.recorded import Client
from tests.stand_in_openfga import STORE
from tests.simulated_case import SimulatedCase
from tests.support import EXAMPLES, Case
from tests.test_joining import change, events, lines
from tests.test_recording_openfga import EARLY, FIXED, MODEL, USERS, OpenFga, key
from tests.test_recording_spicedb import DOCUMENTS, FINDINGS, SpiceDb, at_least

PLACE = os.path.join(EXAMPLES, "recorder", "new_enemy_events.py")
SEEDS = 250
SECONDS = 10 ** 9


def library():
    spec = importlib.util.spec_from_file_location("new_enemy_events", PLACE)
    made = importlib.util.module_from_spec(spec)
    spec.loader.exec_module(made)
    return made


def at(second):
    return "2024-01-01T00:00:%02dZ" % second


def log(*given):
    """A log of the changes: at these seconds a user comes, between one second before and then; read up to second 50."""
    rows = [{"event": "read", "until": at(1)}]
    for revision, (second, user) in enumerate(given, 1):
        rows.append({**change(revision, user, at=second), "came": [at(second - 1), at(second)]})
    return lines(*rows, {"event": "read", "until": at(50)})


def asked(began, ended, **more):
    return {"event": "asked", "began": at(began), "ended": at(ended), "goal": ["document", "d", "viewer", "user", "a"], "reply": True, "newest": True, **more}


def said(*rows, is_over=True, store="S"):
    head = {"event": "own", "format": 1, "service": "openfga", "store": store, "time": at(0)}
    count = sum(row["event"] == "asked" for row in rows)
    return [head, *rows, *([{"event": "over", "time": at(49), "asked": count}] if is_over else [])]


def joined(log_rows, *own, skew=0, stale=0):
    def given(name, rows):
        return Given(name, lambda: (Row(name, number, row) for number, row in enumerate(rows, 1)), True)
    return list(Join([given("log", log_rows)], skew, [own_of(given("own%d" % number, rows)) for number, rows in enumerate(own)], stale).lines())


class Simulated(SimulatedCase):
    RUN = run_apart

    def test_no_right_reply_is_accused_and_no_wrong_one_passes(self):
        self.assert_holds(*range(SEEDS))
        self.assertGreater(self.recorded, 1.5 * self.lost)

    def test_a_model_that_changes(self):
        self.assert_holds(*range(100), models=True)

    def test_an_order_that_is_not_known_taken_for_known(self):
        with mock.patch.object(Places, "is_unsure", lambda *words: False):
            self.assert_finds("a right reply is called wrong", race=20, writes=0.6, requests=25, faults=0)

    def test_a_change_that_counts_as_soon_as_it_may_have_come(self):
        kept = Places.known
        with mock.patch.object(Places, "known", lambda self, clock: kept(self, clock + 10 ** 7)), \
                mock.patch.object(Places, "has_unknown", lambda *words: False):
            self.assert_finds("a right reply is called wrong", writes=0.6, requests=25, faults=0)

    def test_a_cache_that_is_not_told(self):
        kept = Timed.__init__
        with mock.patch.object(Timed, "__init__", lambda self, sketch, skew, stale, bearing: kept(self, sketch, skew, 0, bearing)):
            self.assert_finds("a right reply is called wrong", stale=10 ** 7, faults=0)


class OfSpiceDb(SimulatedCase):
    """The same of SpiceDB, whose answers say what they saw."""

    RUN = run_tokens_apart

    def test_the_findings_are_those_of_the_truth(self):
        self.assert_holds(*range(SEEDS))
        self.assertGreater(self.recorded, 3 * self.lost)

    def assert_finds(self, fault, changed=None):
        """By a recorder or a join that is wrong in a way."""
        kept = Tokened.__init__

        def made(self, *words):
            kept(self, *words)
            changed(self)
        with mock.patch.object(Tokened, "__init__", made if changed else kept):
            super().assert_finds(fault, 600)

    def test_rules_that_are_not_known_taken_for_known(self):
        self.assert_finds("a right check is accused of a wrong reply", lambda placing: placing.sketch.unsure.clear())

    def test_changes_that_the_log_does_not_have(self):
        self.assert_finds("the log has another state at a snapshot than the service", lambda placing: setattr(placing, "reached", FAR))

    def test_what_answers_had_shown(self):
        with mock.patch.object(Known, "add", lambda *words: None):
            self.assert_finds("a check passes without a stale answer")

    def test_clocks_that_are_apart(self):
        """What is known at one may not be at another."""
        for began, token in (10, 1), (12, 2):
            made = self.joined([asked_token(5, 8, 2), asked_token(began, 15, 1, newest=True)], 3)
            self.assertEqual([row["token"] for row in made if row["event"] == "check" and row["snapshot"] == 1], [token])

    def joined(self, rows, skew=0, log_rows=None):
        head = {"event": "own", "format": 1, "service": "spicedb", "time": at(0)}
        own = own_of(given("own", [head, *rows, {"event": "over", "time": at(49), "asked": len(rows)}]))
        return [numbers_of(row) for row in Join([given("log", log_rows or TOKENS)], skew * SECONDS, [own]).lines()]

    def test_what_can_not_be_placed_is_counted(self):
        made = self.joined([asked_token(5, 6, 0), asked_token(5, 6, 1), asked_token(5, 6, 9), asked_token(5, 6, 2, token=str(9)),
                             asked_token(41, 42, 2, newest=True)])
        self.assertEqual(sorted(row.get("reason", "") for row in made if row["event"] in ("check", "unmapped")), ["", BEFORE, *[BEHIND] * 3])
        self.assertEqual([row["snapshot"] for row in self.joined([asked_token(41, 42, 2)]) if row["event"] == "check"], [2])

    def test_what_waits_for_a_change_that_was_given_and_is_not_logged(self):
        """Watch gave nothing behind a check that asks for the newest state: what it should have seen is not known."""
        self.assert_finds("a check passes without", lambda placing: setattr(placing, "until", FAR))

    def test_content_stands_behind_what_was_known(self):
        made = self.joined([asked_token(5, 6, 1, saves="v"), asked_token(20, 21, 1, saves="w"), asked_token(22, 23, 2, token="2", shows="w")])
        self.assertEqual([(row["event"], row.get("version"), row.get("revision"), row.get("token")) for row in made
                          if row["event"] in ("write", "content", "check")],
                         [("write", None, 1, None), ("content", "v", None, 1), ("write", None, 2, None), ("content", "w", None, 1), ("check", "w", None, 2)])

    def test_what_is_refused(self):
        for row, told in ((asked_token(5, 6, 1, model="M"), "own:2: unknown key \"model\""),
                          ({**asked_token(5, 6, 1), "snapshot": "x"}, "own:2: 'x' is no token with a revision that is a number"),
                          ({key: one for key, one in asked_token(5, 6, 1).items() if key != "snapshot"},
                           "own:2: the check has no `snapshot`, the token of its reply (`checkedAt`)")):
            with self.assertRaises(JoinFault) as found:
                self.joined([row])
            self.assertEqual(str(found.exception), told)
        with self.assertRaises(JoinFault) as found:
            joined(TOKENS, said(asked(5, 6)))
        self.assertEqual(str(found.exception), "own0 is of openfga, and the logs of spicedb")


def given(name, rows):
    return Given(name, lambda: (Row(name, number, row) for number, row in enumerate(rows, 1)), True)


# A log of SpiceDB's changes alone: revisions 1 and 2, the second known at second 10, and nothing more came up to second 40.
TOKENS = [{"event": "log", "number": 1, "service": "spicedb"},
          {"event": "rules", "namespaces": [{"name": "document", "relations": [{"name": "viewer"}]}, {"name": "user", "relations": []}]},
          {"event": "write", "revision": 10 ** 10, "base": True}, {"event": "read", "until": at(1), "revision": 10 ** 10}, {"event": "place"},
          {"event": "write", "revision": 2 * 10 ** 10, "add": [["document", "d", "viewer", "user", "a"]], "time": at(10)},
          {"event": "read", "until": at(10), "revision": 2 * 10 ** 10}, {"event": "read", "until": at(40), "revision": 2 * 10 ** 10}]


def asked_token(began, ended, snapshot, **more):
    row = {"event": "asked", "began": at(began), "ended": at(ended), "goal": ["document", "d", "viewer", "user", "a"], "reply": True}
    return {**row, "snapshot": str(snapshot), **more}


def numbers_of(row):
    """A line with the service's numbers in place of those that rise also by its decimals."""
    return {**row, **{key: row[key] // 10 ** 10 for key in ("revision", "snapshot", "token") if isinstance(row.get(key), int)}}


class Parts(Case):
    def places(self, rows):
        return [row.get("newest_between") or row.get("reason") for row in rows if row["event"] in ("check", "content", "unmapped")]

    def test_what_a_check_may_have_seen(self):
        made = joined(log((10, "a"), (20, "b")), said(asked(5, 8), asked(5, 15), asked(12, 15), asked(12, 19), asked(12, 20), asked(21, 30)))
        self.assertEqual(self.places(made), [[0, 0], [0, 1], [1, 1], [1, 1], [1, 2], [2, 2]])

    def test_clocks_that_are_apart(self):
        made = joined(log((10, "a")), said(asked(5, 8), asked(12, 15), asked(14, 15)), skew=3 * SECONDS)
        self.assertEqual(sorted(self.places(made)), [[0, 1], [0, 1], [1, 1]])

    def test_checks_that_the_log_does_not_have_the_changes_of(self):
        made = joined(log((10, "a")), said(asked(0, 5), asked(45, 51)))
        self.assertEqual(sorted(self.places(made)), [BEFORE, BEHIND])

    def test_a_cache(self):
        made = joined(log((10, "a")), said(asked(12, 15, newest=False), asked(12, 15)), stale=5 * SECONDS)
        self.assertEqual([row.get("snapshot_between", row.get("newest_between")) for row in made if row["event"] == "check"], [[0, 1], [1, 1]])

    def test_versions(self):
        showing, saving = said(asked(12, 15, shows="v")), said(asked(11, 40, saves="v"))
        made = joined(log((10, "a"), (20, "b")), showing, saving)
        self.assertEqual(events(made)[2:], [("write", 1), ("content", None), ("check", None), ("write", 2)])
        lost = joined(log((10, "a"), (20, "b")), said(asked(12, 51, saves="v")), showing)
        self.assertEqual([row.get("version") for row in lost if row["event"] == "unmapped"], [["document", "d", "v"]])

    def test_a_model_that_a_check_names(self):
        rules = {**lines()[2], "revision": 1, "model": "N", "came": [at(19), at(20)]}
        rows = lines({"event": "read", "until": at(1)}, rules, {"event": "read", "until": at(50)})
        made = joined(rows, said(*(asked(began, began + 2, model=model) for began in (5, 25) for model in "MN")))
        self.assertEqual(sorted(map(str, self.places(made))), ["[0, 0]", "[1, 1]", OTHER, OTHER])

    def test_a_check_that_is_not_of_one_user_is_counted(self):
        """As one user it would be one that nobody let in."""
        goals = [["document", "d", "viewer", "group", "g#member"], ["document", "d", "viewer", "user", "*"], asked(1, 2)["goal"]]
        made = joined(log((10, "a")), said(*(asked(12, 15, goal=goal, saves="v%d" % number) for number, goal in enumerate(goals))))
        self.assertEqual(self.places(made), [causes.USER_USERSET, causes.USER_WILDCARD, [1, 1]])
        self.assertEqual([row.get("version") for row in made if row["event"] == "unmapped"], [["document", "d", "v0"], ["document", "d", "v1"]])

    def test_a_process_that_was_killed_or_could_not_write(self):
        lost = {"event": "lost", "from": at(5), "to": at(9), "count": 3}
        made = joined(log((10, "a")), said(lost, asked(12, 15), is_over=False), skew=SECONDS)
        self.assertEqual([(row["from"], row["reason"], row.get("lost")) for row in made if row["event"] == "gap"],
                         [("2024-01-01T00:00:04.000000Z", own_events.LOST, 3),
                          ("2024-01-01T00:00:14.000000Z", "own0 has no end, since its process runs or was killed", None)])

    def test_what_is_refused(self):
        whole = said(asked(5, 8))
        plain = lines(change(1, "a"))
        for log_rows, rows, told in (
                (log(), said(store="T"), "own0 is of the store T, and the logs of S"),
                (plain, whole, "events of an application need a log of the changes: that of `ne record --changes-only`"),
                (log(), whole[1:], "own0 does not begin with a line `own` of format 1, and of service openfga with a store, or spicedb"),
                (log(), whole[:1] + whole[2:], "own0:2: the file has 0 checks, and 1 were written: it was changed or cut"),
                (log(), said({**asked(5, 8), "rely": True}), 'own0:2: unknown key "rely"; is "reply" meant?'),
                (log(), said(asked(8, 5)), "own0:2: `began` and `ended` are no times of RFC 3339 in their order"),
                (log(), said(asked(5, 8, saves="v", shows="w")), "own0:2: `saves` beside `shows`"),
                (log(), said({**asked(5, 8), "reply": 1}), "own0:2: `reply` or `newest` is neither true nor false"),
                (log(), [*whole[:1], *whole], "own0 has more than one beginning or end")):
            with self.subTest(told), self.assertRaises(JoinFault) as found:
                joined(log_rows, rows)
            self.assertEqual(str(found.exception), told)


class Library(Case):
    def test_what_it_writes(self):
        made = library().Events(self.path("events"), "S")
        with made.asked("user:bob", "viewer", "document:a:b", newest=True, shows="v") as one:
            one.reply = True
        with made.asked("user:bob", "viewer", "document:x"):
            pass
        with self.assertRaises(KeyError), made.asked("user:bob", "viewer", "document:x"):
            raise KeyError  # before it has its answer
        made.close()
        rows = self.rows(made.path)
        self.assertEqual([row["event"] for row in rows], ["own", "asked", "over"])
        self.assertEqual((rows[1]["goal"], rows[1]["shows"], rows[2]["asked"]), (["document", "a:b", "viewer", "user", "bob"], "v", 1))
        self.assertEqual(os.stat(made.path).st_mode & 0o777, 0o600)

    def test_a_disk_that_is_full_fails_no_request(self):
        made, write = library().Events(self.path("events"), "S"), os.write
        for chance in (lambda file, data: write(file, data[:7]), mock.Mock(side_effect=OSError)):
            with mock.patch("os.write", chance), made.asked("user:bob", "viewer", "document:x") as one:
                one.reply = False
        with made.asked("user:bob", "viewer", "document:x") as one:
            one.reply = True
        made.close()
        self.assertEqual([(row["event"], row.get("count")) for row in self.rows(made.path)], [("own", None), ("lost", 2), ("asked", None), ("over", None)])

    def test_an_application_that_fails_behind_its_answer(self):
        """The check had its answer, whatever came of it."""
        made = library().Events(self.path("events"), "S")
        with self.assertRaises(PermissionError), made.asked("user:bob", "viewer", "document:x") as one:
            one.reply = False
            raise PermissionError
        made.close()
        self.assertEqual([(row["event"], row.get("reply")) for row in self.rows(made.path)], [("own", None), ("asked", False), ("over", None)])

    def test_what_a_line_can_not_have_is_counted(self):
        """Such a line would cost the whole file; a number as a label is its text."""
        made = library().Events(self.path("events"), "S")
        for reply, more in ((object(), {}), ({"allowed": True}, {}), (True, {"saves": ""}), (True, {"saves": "a", "shows": "b"}), (True, {"model": object()}),
                            (True, {"shows": 7, "newest": 1})):
            with made.asked("user:bob", "viewer", "document:x", **more) as one:
                one.reply = reply
        with made.asked(7, "viewer", "document:x") as one:
            one.reply = True
        made.close()
        rows = self.rows(made.path)
        self.assertEqual([(row["event"], row.get("count"), row.get("shows")) for row in rows],
                         [("own", None, None), ("lost", 4, None), ("lost", 1, None), ("asked", None, "7"), ("lost", 1, None), ("over", None, None)])
        self.assertEqual(own_of(Given("own", lambda: (Row("own", number, row) for number, row in enumerate(rows, 1)), True)).rows[2].value["newest"], True)

    def test_what_was_lost_last_is_counted_at_the_end(self):
        made = library().Events(self.path("events"))
        with made.asked("user:bob", "viewer", "document:x") as one:
            one.reply = True
        made.close()
        self.assertEqual([(row["event"], row.get("count")) for row in self.rows(made.path)], [("own", None), ("lost", 1), ("over", None)])

    def test_what_is_asked_behind_the_end(self):
        """It stands in another file, which has no end; and in no file that got the number of the first."""
        made = library().Events(self.path("events"), "S")
        first = made.path
        made.close()
        made.close()
        other = os.open(self.path("other"), os.O_CREAT | os.O_WRONLY)
        for chance in (mock.Mock(side_effect=OSError), os.write):
            with mock.patch("os.write", chance), made.asked("user:bob", "viewer", "document:x") as one:
                one.reply = True
        os.close(other)
        self.assertEqual([[row["event"] for row in self.rows(path)] for path in (first, made.path)], [["own", "over"], ["own", "lost", "asked"]])
        self.assertEqual((self.get("other"), len(os.listdir(self.path("events")))), ("", 2))

    def test_a_clock_that_goes_back(self):
        """It costs the check that was under way, and not the whole file."""
        made, now = library().Events(self.path("events"), "S"), nanoseconds(at(20))
        with mock.patch("time.time_ns", side_effect=(now, now - 5 * SECONDS, now - 4 * SECONDS, now - 3 * SECONDS, now)):
            for _ in range(2):
                with made.asked("user:a", "viewer", "document:d", newest=True) as one:
                    one.reply = True
            made.close()
        rows = self.rows(made.path)
        self.assertEqual([(row["event"], row.get("count")) for row in rows], [("own", None), ("lost", 1), ("asked", None), ("over", None)])
        self.assertEqual([row["event"] for row in joined(log((10, "a")), rows) if row["event"] in ("gap", "check")], ["gap", "check"])


class Processes(OpenFga):
    def test_what_an_application_says_is_audited(self):
        """Stale replies that the service plants are found, and no other."""
        self.start_service(MODEL, "0.3", "planted")
        self.prepare()
        recorder = self.started("log", "--changes-only")
        self.wait_for(lambda: self.of_kind("read") if "recording" in self.get("said") else False, lambda: self.get("said"))
        module = library()
        apps = [module.Events(self.path("events"), STORE) for _ in range(2)]

        def work(client, random, number, turn):
            client.port = self.service_port
            user, thing = random.choice(USERS), random.choice(FIXED + EARLY)
            relation = "viewer"
            version = {"saves": "v%d.%d" % (number, turn)} if turn % 10 == 0 else {}
            if turn % 7 == 0:
                self.write(client, key("user:n%d.%d" % (number, turn), "viewer", "document:x"))
            if version:
                user, relation, thing = USERS[0], "editor", FIXED[0]
            with apps[number % 2].asked(user, relation, thing, newest=True, **version) as one:
                one.reply = self.check(client, user, relation, thing)[1]["allowed"]
            if version:
                with apps[1 - number % 2].asked(USERS[0], "viewer", thing, newest=True, shows=version["saves"]) as one:
                    one.reply = self.check(client, USERS[0], "viewer", thing)[1]["allowed"]
        self.port = self.service_port
        self.run_clients(4, 40, work)
        count = sum(app.count for app in apps)
        for app in apps:
            app.close()
        # A check is placed where the changes were read beyond it, by as much as clocks may be apart.
        until = time.time_ns() + 20_000_000
        self.wait_for(lambda: nanoseconds(self.of_kind("read")[-1]["until"]) > until)
        self.end(recorder)
        run = self.run_process("join", "--skew", "20", "--out", "all", "log", *[app.path for app in apps])
        self.assertEqual((run.returncode, run.stderr), (0, ""))
        self.import_log(folder="all")
        found = self.found()
        planted = len(self.get("planted").splitlines())
        self.assertEqual(set.union(*found.values()), {"F10 wrong reply"})
        lost = len([row for row in self.of_kind("unmapped", "all") if "detail" in row])
        self.assertEqual(len(self.of_kind("check", "all")) + len(self.of_kind("content", "all")) + lost, count)
        self.assertLess(lost, 10)
        self.assertTrue(planted - lost <= len(found) <= planted, (planted, lost, len(found)))
        self.assertGreater(len(found), 5)

    def test_what_does_not_go_together(self):
        for words in (["--spicedb", "http://x", "--changes-only", "--tls-cert", "x"], ["--openfga", "http://x"], ["--openfga", "http://x", "--changes-only", "--listen", ":1"],
                      ["--openfga", "http://x", "--changes-only", "--share-port"]):
            self.assertEqual(self.run_process("record", *words, "--out", "log").returncode, 3, words)


class SpiceDbProcesses(SpiceDb):
    """What the service plants is found, and nothing else: by what an application says, and by the server's log of requests and responses."""

    def setUp(self):
        super().setUp()
        self.start_service("0.1", "planted")
        client = Client(self.service_port)
        self.prepare(client)
        client.close()
        self.recorder = self.started("log", "--changes-only")
        self.wait_for(lambda: "recording" in self.get("said") and self.of_kind("read"), lambda: self.get("said"))
        self.port, self.versions = self.service_port, {}

    def asked_along(self, told):
        """Clients ask; `told` is called around each check with what is asked, and what the answer is."""
        def work(client, random, number, turn):
            user, thing = random.choice(USERS)[5:], random.choice(DOCUMENTS)
            if turn % 5 == 0:
                self.write(client, ("TOUCH", ("document:" + thing, "viewer", "user:" + user, "")))
            permission, more = "view", {"token": self.versions.get(thing, (None, None))[1]}
            if turn % 6 == 0:
                user, permission, more = "u0", "edit", {"saves": "v%d.%d" % (number, turn)}
            elif more["token"]:
                more["shows"] = self.versions[thing][0]
            consistency = at_least(more["token"]) if more.get("token") else {"fullyConsistent": True}
            answer = told(client, user, permission, thing, consistency, {"newest": "fullyConsistent" in consistency, **more})
            if "saves" in more and answer["permissionship"] == "PERMISSIONSHIP_HAS_PERMISSION":
                self.versions[thing] = more["saves"], answer["checkedAt"]["token"]
        self.run_clients(4, 60, work)
        until = time.time_ns() + 20_000_000
        self.wait_for(lambda: nanoseconds(self.of_kind("read")[-1]["until"]) > until)
        self.end(self.recorder)

    def assert_found(self, count, *own):
        run = self.run_process("join", "--skew", "10", "--out", "all", "log", *own)
        self.assertEqual((run.returncode, run.stderr), (0, ""))
        said = self.import_log(folder="all")
        planted = Counter((FINDINGS[kind], *goal) for kind, goal in map(json.loads, self.get("planted").splitlines()) if kind in FINDINGS)
        goals = {"%s:%d" % (row["file"], row["line"]): row["goal"] for row in self.events("all") if "goal" in row}
        found = Counter((kind, goals[place][1], goals[place][2], goals[place][4]) for place, kinds in self.found().items() for kind in kinds)
        self.assertEqual(found, planted)
        self.assertGreater(len(planted), 5)
        self.assertEqual(len(self.of_kind("check", "all")) + len(self.of_kind("content", "all")), count)
        return said

    def test_what_an_application_says(self):
        app = library().Events(self.path("events"))

        def told(client, user, permission, thing, consistency, more):
            with app.asked("user:" + user, permission, "document:" + thing, **more) as one:
                _, answer = self.check(client, user, permission, thing, consistency)
                one.reply, one.snapshot = answer["permissionship"] == "PERMISSIONSHIP_HAS_PERMISSION", answer["checkedAt"]["token"]
            return answer
        self.asked_along(told)
        app.close()
        said = self.assert_found(240, app.path).splitlines()
        self.assertEqual([line.split(": ")[-1] for line in said if line.startswith(("gap", "checks"))], ["the log begins"])

    def test_the_server_s_own_log(self):
        rows, numbers = [], count(1)

        def told(client, user, permission, thing, consistency, more):
            line = {"level": "info", "grpc.method": "CheckPermission", "grpc.service": "authzed.api.v1.PermissionsService", "requestID": str(next(numbers))}
            request = {"consistency": consistency, **self.asked(user, permission, thing)}
            first = {**line, "time": text_of_time(time.time_ns()), "grpc.request.content": request}
            _, answer = self.check(client, user, permission, thing, consistency)
            named = {"version": more["shows"]} if "shows" in more else {"content": {"version": more["saves"]}} if "saves" in more else {}
            rows.extend((first, {**line, "time": text_of_time(time.time_ns()), "grpc.response.content": answer, **named}))
            return answer
        self.asked_along(told)
        self.put("payloads", [{"level": "info", "time": at(0), "message": "configured logging"}, *rows])
        self.assertIn("payloads has no end, since its process runs or was killed", self.assert_found(240, "payloads"))
