"""Where the recorder puts the changes and checks of OpenFGA: what is new in a reading, what bears on a question, what is known when."""
import json
import tracemalloc
from collections import Counter
from itertools import count
from unittest import mock

from new_enemy_tools.importing.events import Relationship
from new_enemy_tools.importing.openfga import ModelReader
from new_enemy_tools.importing.reading import Bad
from new_enemy_tools.importing.refusals import Refusals
from new_enemy_tools.recording.bearing import Bearing
from new_enemy_tools.recording.core import FULL, Core, Now
from new_enemy_tools.recording.log_files import Left
from new_enemy_tools.recording.messages import Beat, Ended, Started
from new_enemy_tools.recording.openfga import NOT_NAMED, OTHER_STORE, Base, Changes, OpenFga
from new_enemy_tools.recording.overlap import Change, Overlap
from new_enemy_tools.recording.overlap import Known as Shown
from new_enemy_tools.recording.places import Places, Row, Window, by_turns
from new_enemy_tools.recording.spicedb import Feed as SpiceDbFeed, SpiceDb
from new_enemy_tools.recording.stored import Stored
from tests.simulation import RULES, STORE
from tests.stand_in_spicedb import FIRST, STEP, Snapshots
from tests.support import Case

SECOND = 10 ** 9


def change(user, live=True, time=0, thing="d"):
    return Change(Relationship("document", thing, "viewer", "user", user, None), live, time)


def again(*changes):
    """The same changes, as another reading gives them."""
    return [Change(one.given, one.live, one.time) for one in changes]


class Overlapping(Case):
    def setUp(self):
        super().setUp()
        self.overlap = Overlap(None, 10)

    def take(self, listed, cursor, began):
        read = self.overlap.take(again(*listed), cursor, began, began + 1)
        return None if read is None else ([one.given.user_id for one in read.changes], read.cursor, read.behind, [one.given.user_id for one in read.apart])

    def test_a_change_that_comes_before_one_that_was_shown(self):
        a, b, late, c = change("a"), change("b"), change("late"), change("c")
        self.assertEqual(self.take([a, b], "b", 1), (["a", "b"], None, 2, []))
        self.assertEqual(self.take([a, late, b], "b", 3), (["late"], None, 3, []))
        self.assertEqual(self.take([a, late, b, c], "c", 5), (["c"], None, 4, []))
        # The token behind b is old enough: a later recorder goes on there, and late does not come again.
        self.assertEqual(self.take([a, late, b, c], "c", 12), ([], "b", 2, ["late"]))
        self.assertEqual(self.overlap.cursor, "b")
        self.assertEqual(self.take([c], "c", 16), ([], "c", 0, []))

    def test_a_change_before_a_later_one_of_its_tuple(self):
        there = change("a", True, 2)
        self.take([there], "a", 1)
        read = self.overlap.take(again(change("a", False), change("b"), there), "a", 3, 4)
        self.assertEqual([one.is_late for one in read.changes], [True, False])

    def test_what_is_the_same_twice(self):
        a = change("a")
        self.assertEqual(self.take([a], "a", 1)[0], ["a"])
        self.assertEqual(self.take([a, change("a", False), a], "x", 2)[0], ["a", "a"])

    def test_a_reading_that_shows_less(self):
        """It is of a replica that is behind, and counts for nothing."""
        a, b = change("a"), change("b")
        self.take([a, b], "b", 1)
        self.assertIsNone(self.take([a], "a", 3))
        self.assertEqual(self.take([a, b], "b", 5)[0], [])

    def test_a_log_that_does_not_have_what_is_shown(self):
        overlap = Overlap("x", 10)
        known = [Shown(("document", "d", "viewer", "user", user), True, number) for number, user in enumerate("ab", 1)]
        self.assertIsNone(overlap.go_on([change("a"), change("c")], known, [], "x", 1))
        self.assertEqual([one.given.user_id for one in overlap.go_on([change("a"), change("c")], known, [2], "x", 1)], ["c"])


class BaseState(Case):
    def test_what_changes_left(self):
        """Each tuple is kept in few bytes, and comes back as it was."""
        stored, wanted = Stored(), {}
        for given in (("document", "d", "viewer", "user", "a", None), ("document", "d", "viewer", "group", "g", "member"),
                      ("document", "d", "viewer", "user", "*", "*"), ("document", "no\u00a0break", "viewer", "user", "a", None)):
            stored.take(Change(Relationship(*given), True, 0, "why" if given[4] == "*" else None))
            wanted[Relationship(*given)] = "why" if given[4] == "*" else None
        stored.take(change("gone"))
        stored.take(change("gone", False))
        stored.take(Change(Relationship("document", "d", "two\nlines", "user", "a", None), True, 0))
        self.assertEqual((dict(stored.items()), len(stored.odd), stored.count), (wanted, 1, 7))

    def test_memory_of_a_tuple(self):
        tracemalloc.start()
        self.addCleanup(tracemalloc.stop)
        stored = Stored()
        for number in range(20_000):
            stored.take(Change(Relationship("document", "d%d" % (number % 700), "viewer", "user", "u%d" % number, None), True, number))
        self.assertLess(tracemalloc.get_traced_memory()[0] / 20_000, 220)

    def test_memory_of_a_tuple_of_spicedb(self):
        """Also while the log is begun with it."""
        def relationships(of, token):
            for number in range(20_000 if of == "document" else 0):
                yield {"resource": {"objectType": of, "objectId": "d%d" % (number % 700)}, "relation": "viewer",
                       "subject": {"object": {"objectType": "user", "objectId": "u%d" % number}}}
        schema = "definition user {}\ndefinition document {\nrelation viewer: user\n}", "GhUKEzE3MDAwMDAwMDAwMDAwMDAwMDA="
        source = mock.Mock(schema=lambda: schema, relationships=relationships)
        core = Core(SpiceDb(), 30)
        tracemalloc.start()
        self.addCleanup(tracemalloc.stop)
        core.take(SpiceDbFeed(source)._base(None), Now(1, 1))
        lines = sum(one.count(b"document") for one in core.first)
        self.assertEqual(lines, 20_001)
        self.assertLess(tracemalloc.get_traced_memory()[1] / 20_000, 220)


class OfSpiceDb(Case):
    """What waits, and what can't be kept, of SpiceDB on PostgreSQL."""

    SCHEMA = "definition user {}\ndefinition document {\nrelation viewer: user\n}"

    def begin(self, *relationships):
        self.token = Snapshots().token_of
        source = mock.Mock(schema=lambda: (self.SCHEMA, self.token(FIRST)["token"]), relationships=lambda of, token: relationships)
        self.service = SpiceDb()
        self.core = Core(self.service, 30)
        base = SpiceDbFeed(source)._base(None)
        self.odd = [reason for _, reason in base.stored.items() if reason]
        self.core.take(base, Now(1, 1))
        self.core.drained()

    def check(self, number, at, **consistency):
        """One that saw what Watch has not given."""
        request = {"consistency": consistency or {"fullyConsistent": True}, "resource": {"objectType": "document", "objectId": "d"}, "permission": "viewer",
                   "subject": {"object": {"objectType": "user", "objectId": "u"}}, "context": {"pad": "x" * 100_000}}
        answer = {"checkedAt": self.token(FIRST + 9 * STEP), "permissionship": "PERMISSIONSHIP_HAS_PERMISSION"}
        self.core.take(Started(number, at, False, "check"), Now(at, at))
        self.core.take(Ended(number, "check", "/v1/permissions/check", at, at, at, None, None, None, 200, json.dumps(request).encode(),
                             json.dumps(answer).encode(), None), Now(at, at))

    def test_of_what_waits_nothing_long_is_kept(self):
        self.begin()
        self.check(1, 5)
        (one,) = self.service.pending
        self.assertEqual((one.message.request, one.message.response, one.request), (None, None, {"consistency": {"fullyConsistent": True}}))

    def test_what_is_not_known_of_a_demand_or_of_a_relationship(self):
        """A check whose demand can't be read is counted, and a relationship that says more than is known has no form."""
        given = {"resource": {"objectType": "document", "objectId": "d"}, "relation": "viewer",
                 "subject": {"object": {"objectType": "user", "objectId": "u"}}}
        self.begin(given, {**given, "optionalHours": 3})
        self.check(1, 5, atLeastAsNew={"token": "t"})
        self.check(2, 5, at_least_as_fresh=self.token(FIRST))
        self.assertEqual((self.core.lost, len(self.core.held)), ({"Consistency has a field that is not known (atLeastAsNew)": 1}, 1))
        self.assertEqual(list(self.odd), ["Relationship has a field that is not known (optionalHours)"])

    def test_how_many_decisions_wait(self):
        self.begin()
        with mock.patch("new_enemy_tools.recording.spicedb.WAITING", 2):
            for number in range(4):
                self.check(number, 5)
            self.assertEqual((self.core.lost, len(self.core.held)), ({FULL: 1}, 3))
            self.core.tick(Now(40 * SECOND, 40 * SECOND))
            self.check(9, 40 * SECOND + 1)
        self.assertEqual((self.core.lost, len(self.core.held)), ({FULL: 1, "the changes were more than 30 seconds behind": 3}, 1))

    def test_a_base_state_with_the_end_of_a_line_in_a_name(self):
        """It is not begun without it."""
        for thing in "d\n", "d":
            given = {"resource": {"objectType": "document", "objectId": thing}, "relation": "viewer",
                     "subject": {"object": {"objectType": "user", "objectId": "u"}}}
            if thing == "d":
                self.begin(given)
            else:
                with self.assertRaisesRegex(Bad, "a relationship with a line's end in it"):
                    self.begin(given)


class Turns(Case):
    def names(self, changes):
        return [(one.given.user_id, one.live) for one in changes]

    def test_a_tuple_comes_and_goes(self):
        for was, given, wanted, odd in (
                (False, (False, True), (True, False), 0), (True, (True, False), (False, True), 0), (None, (True, False), (True, False), 0),
                (None, (False, True), (False, True), 0), (False, (False, True, True), (True, False, True), 0), (True, (True,), (True,), 1)):
            made, strange = by_turns([change("a", live) for live in given], lambda one, was=was: was)
            self.assertEqual((self.names(made), len(strange)), ([("a", live) for live in wanted], odd))

    def test_others_stay_where_they_are(self):
        made, _ = by_turns([change("a", False), change("b"), change("a"), change("c")], lambda one: False)
        self.assertEqual(self.names(made), [("a", True), ("b", True), ("a", False), ("c", True)])


class Known(Case):
    def places(self, *rows):
        made = Places()
        made.add([Row(low, high, change(user)) for low, high, user in rows])
        return made

    def test_what_was_known_when(self):
        places = self.places((0, 5, "a"), (2, 9, "b"), (8, 9, "c"))
        self.assertEqual([places.known(at) for at in (4, 5, 8, 9)], [0, 1, 1, 3])

    def test_nothing_behind_an_answer(self):
        places = self.places((0, 5, "a"), (6, 9, "b"))
        self.assertEqual([places.window(5, at) for at in (6, 7)], [Window(1, 1), Window(1, 2)])

    def test_an_order_that_is_not_known(self):
        places = self.places((0, 5, "a"), (4, 9, "b"), (9, 12, "c"))
        everyone = Window(0, 3)
        self.assertTrue(places.is_unsure(everyone, lambda row: True))
        self.assertFalse(places.is_unsure(everyone, lambda row: row.changes[0].given.user_id != "b"))
        self.assertFalse(places.is_unsure(Window(1, 3), lambda row: True))
        places.rows[0].unit = places.rows[1].unit = 7
        self.assertFalse(places.is_unsure(everyone, lambda row: True))


class Bears(Case):
    MODEL = {"schema_version": "1.1", "id": "M", "type_definitions": [
        {"type": "user"},
        {"type": "group", "relations": {"member": {"this": {}}}, "metadata": {"relations": {"member": {"directly_related_user_types": [
            {"type": "user"}, {"type": "group", "relation": "member"}]}}}},
        {"type": "folder", "relations": {"viewer": {"this": {}}, "other": {"this": {}}}, "metadata": {"relations": {
            "viewer": {"directly_related_user_types": [{"type": "user"}]}, "other": {"directly_related_user_types": [{"type": "user"}]}}}},
        {"type": "document", "relations": {
            "parent": {"this": {}}, "owner": {"this": {}}, "other": {"this": {}},
            "viewer": {"union": {"child": [{"this": {}}, {"computedUserset": {"relation": "owner"}}, {"tupleToUserset": {
                "tupleset": {"relation": "parent"}, "computedUserset": {"relation": "viewer"}}}]}}},
         "metadata": {"relations": {"parent": {"directly_related_user_types": [{"type": "folder"}]}, "owner": {"directly_related_user_types": [{"type": "user"}]},
                                    "other": {"directly_related_user_types": [{"type": "user"}]},
                                    "viewer": {"directly_related_user_types": [{"type": "user"}, {"type": "group", "relation": "member"}]}}}}]}

    def test_by_the_names_of_the_rules(self):
        refusals, bearing = Refusals(), Bearing()
        bearing.add(ModelReader("m", refusals).rules(self.MODEL))
        self.assertFalse(refusals.refused)
        goal = Relationship("document", "d", "viewer", "user", "u", None)
        for given, wanted in ((("document", "d", "viewer"), True), (("document", "e", "viewer"), False), (("document", "d", "owner"), True),
                              (("document", "d", "parent"), True), (("document", "e", "parent"), False), (("document", "d", "other"), False),
                              (("folder", "any", "viewer"), True), (("folder", "any", "other"), False), (("group", "any", "member"), True)):
            self.assertEqual(bearing.bears(Relationship(*given, "user", "x", None), goal), wanted, given)
        self.assertTrue(bearing.bears(None, goal))


class Writes(Case):
    """What the recorder says of writes that passed it."""

    def setUp(self):
        super().setUp()
        self.service = OpenFga(STORE, 0, 30 * SECOND)
        self.core = Core(self.service, 30.0)
        self.overlap = Overlap(None, 10 ** 15)
        self.feed, self.numbers, self.lines = [], count(1), []
        self.at(1, Base(STORE, None, Stored(), [], "end", *RULES, 0, 1))

    def at(self, clock, message):
        self.core.take(message, Now(clock, clock))
        self.lines += self.core.drained().splitlines()

    def write(self, asked, answered, *users, live=True, thing="d", **more):
        body = {"writes" if live else "deletes": {"tuple_keys": [
            {"user": "user:" + user, "relation": "viewer", "object": "document:" + thing} for user in users], **more}}
        number = next(self.numbers)
        self.at(asked, Started(number, asked, False, "write"))
        self.at(answered, Ended(number, "write", "/stores/S/write", asked, answered, answered, None, None, None, 200, json.dumps(body).encode(), b"{}", None))

    def read(self, began, received, *changes):
        self.feed += changes
        read = self.overlap.take(again(*self.feed), "c", began, received)
        self.at(received, Changes(began, received, True, read, None))
        self.at(received, Beat(received))

    def check(self, began, ended, thing="d", call="check", path="/stores/S/check", **more):
        number = next(self.numbers)
        self.at(began, Started(number, began, False, call))
        body = {"tuple_key": {"user": "user:a", "relation": "viewer", "object": "document:" + thing}, "consistency": "HIGHER_CONSISTENCY", **more}
        self.at(ended, Ended(number, call, path, began, ended, ended, None, None, None, 200, json.dumps(body).encode(), b'{"allowed":true}', None))
        return number

    def lost(self):
        """What the gaps count, by their reasons."""
        self.core.tick(Now(10 ** 15, 10 ** 15))
        found = Counter()
        for row in map(json.loads, [*self.lines, *self.core.drained().splitlines()]):
            if row["event"] == "gap":
                found[row["reason"]] += row.get("lost", 0)
        return found

    def test_a_change_that_was_shown_before_the_answer_came(self):
        self.read(2, 5, change("a"))
        self.write(1, 6, "a")
        self.assertEqual([self.service.known(at) for at in (4, 5)], [0, 1])

    def test_an_answer_before_the_change_is_shown(self):
        self.write(3, 4, "a", "b")
        self.read(5, 9, change("a"), change("b"))
        self.assertEqual([self.service.known(at) for at in (3, 4)], [0, 1])
        self.assertEqual((len(self.service.places.rows), len(self.service.places.rows[0].changes)), (1, 2))

    def test_a_horizon_is_learnt_up_to_when_the_change_was_shown(self):
        """A reading that takes long may have looked at its end, so it began too early to say how late changes are shown."""
        self.write(3, 4, "a")
        self.read(5, 6)
        self.read(8, 20, change("a"))
        self.assertEqual(self.service.horizon, 17)

    def test_a_horizon_that_was_learnt_is_known_to_the_next_recorder(self):
        """It may begin within milliseconds, when changes that had come are not shown yet; and no write may pass."""
        self.write(3, 4, "a")
        self.read(5, 6)
        self.read(8, 20, change("a"))
        self.assertEqual([row["late"] for row in map(json.loads, self.lines) if "late" in row], [1.7e-08])
        for _ in range(2):
            self.go_on(30)
            self.assertEqual((self.service.horizon, [row for row in map(json.loads, self.lines) if "late" in row]), (17, []))
        self.check(31, 32)
        self.read(40, 41)
        self.assertEqual(len(self.service.waits), 1)
        self.read(50, 51)
        self.assertEqual(self.service.waits, [])

    def test_a_horizon_of_a_log_is_at_most_half_of_what_a_check_waits(self):
        self.core.place = self.core.place._replace(late=1000.0)
        self.go_on(30)
        self.assertEqual(self.service.horizon, 15 * SECOND)

    def test_a_write_that_need_change_nothing_proves_nothing(self):
        self.write(3, 4, "a", on_duplicate="ignore")
        self.read(5, 9, change("a"))
        self.assertEqual([self.service.known(at) for at in (8, 9)], [0, 1])

    def test_what_is_never_shown_puts_later_checks_in_doubt(self):
        """Until the changes show its tuple."""
        self.write(3, 4, "a")
        waits = self.check(5, 6)
        self.read(7, 8)
        self.assertIn(waits, self.core.held)
        self.read(40 * SECOND, 41 * SECOND)
        later, other = self.check(42 * SECOND, 42 * SECOND + 1), self.check(42 * SECOND, 42 * SECOND + 1, "e")
        self.read(43 * SECOND, 44 * SECOND)
        self.assertEqual(self.core.held, {})
        self.read(45 * SECOND, 46 * SECOND, change("a"))
        self.check(47 * SECOND, 47 * SECOND + 1)
        self.read(48 * SECOND, 49 * SECOND)
        self.assertEqual((self.core.held, later < other), ({}, True))
        self.assertEqual(self.lost(), {"a write was answered that the changes did not show within 30 seconds": 2})

    def test_a_tuple_that_comes_twice(self):
        """A change between was missed, so it is not known whether it is there until it changes again."""
        self.read(2, 3, change("a", True, 1))
        self.read(4, 5, change("a", True, 2))
        self.check(6, 7)
        self.check(6, 7, "e")
        self.read(8, 9)
        self.read(10, 11, change("a", False, 3))
        self.check(12, 13)
        self.read(14, 15)
        self.assertEqual((self.core.held, self.lost()), ({}, {"changes of a tuple that do not come by turns": 1}))

    def test_a_base_state_that_was_read_while_a_tuple_went_and_came(self):
        """The pages showed that it came, and not that it had gone before. It is there, and the changes leave that it is not; until it comes again."""
        self.feed = [change("a", True, 2)]
        self.overlap.go_on(again(*self.feed), [], (), "c", 1)
        self.feed.insert(0, change("a", False, 1))
        self.read(2, 3)
        self.check(4, 5)
        self.check(4, 5, "e")
        self.read(6, 7)
        self.read(8, 9, change("a", False, 8))
        self.read(10, 11)
        self.read(12, 13, change("a", True, 12))
        self.check(14, 15)
        self.read(16, 17)
        self.assertEqual((self.core.held, self.lost()), ({}, {"changes of a tuple that do not come by turns": 1}))

    def test_what_is_in_doubt_when_a_recorder_ends_is_so_for_the_next(self):
        self.read(2, 3, change("a", True, 1))
        self.read(4, 5, change("a", True, 2))
        told = [row["doubts"] for row in map(json.loads, self.lines) if "doubts" in row]
        self.assertEqual(told, [[["document", "d", "viewer", "user", "a"]]])
        left = Left(self.core.place, 0, self.core.place.revision, None, 0)
        self.service = OpenFga(STORE, 0, 30 * SECOND)
        self.core = Core(self.service, 30.0)
        self.core.left = left
        self.at(11, Base(STORE, left, Stored(), [], "c", *RULES, 10, 11))
        self.check(12, 13)
        self.check(12, 13, "e")
        self.read(14, 15)
        self.read(16, 17, change("a", False, 3))
        self.check(18, 19)
        self.read(20, 21)
        self.assertEqual((self.core.held, self.lost()["changes of a tuple that do not come by turns"], self.core.place.doubts), ({}, 1, ()))

    def go_on(self, clock, *unshown, changes=(), known=(), early=(), heard=None):
        """Another recorder goes on, which is told of some writes before it does."""
        left = Left(self.core.place, 0, self.core.place.revision, None, 0, list(known), unshown=unshown, heard=heard)
        self.service, self.lines = OpenFga(STORE, 0, 30 * SECOND), []
        self.core = Core(self.service, 30.0)
        self.core.left = left
        self.overlap = Overlap(None, 10 ** 15)
        self.feed = []
        for asked, answered, user in early:
            self.write(asked, answered, user)
        self.at(clock, Base(STORE, left, Stored(), list(changes), "c", *RULES, clock - 1, clock))

    def told_of_unshown(self):
        """What the lines say of writes that are not shown, and of those that are no more."""
        rows = [row for row in map(json.loads, self.lines) if row["event"] == "place"]
        return [(one["number"], one["add"]) for row in rows for one in row.get("unshown", ())], [one for row in rows for one in row.get("shown", ())]

    def test_the_log_has_what_is_not_shown_yet(self):
        self.write(3, 4, "a")
        self.assertEqual(self.told_of_unshown(), ([(1, [["document", "d", "viewer", "user", "a"]])], []))
        self.read(5, 6)
        self.assertEqual(self.told_of_unshown()[1], [])
        self.read(7, 8, change("a"))
        self.read(20, 21)
        self.assertEqual((self.told_of_unshown()[1], self.service.unshown()), ([1], []))

    def test_what_is_not_shown_when_a_recorder_is_killed_is_waited_for_by_the_next(self):
        """Also by what the changes show at once; and what is never shown puts checks in doubt."""
        self.write(3, 4, "a")
        unshown = self.service.unshown()
        self.go_on(11, *unshown, changes=[change("a")])
        self.assertEqual(self.service.unshown(), [])
        self.go_on(11, *unshown)
        waits = self.check(12, 13)
        self.read(14, 15)
        self.assertIn(waits, self.core.held)
        self.read(16, 17, change("a"))
        self.read(40, 41)
        self.read(60, 61)
        self.assertEqual((self.core.held, self.told_of_unshown()[1]), ({}, [1]))
        self.go_on(11, *unshown)
        self.check(12, 13)
        self.read(40 * SECOND, 41 * SECOND)
        self.check(42 * SECOND, 42 * SECOND + 1)
        self.read(43 * SECOND, 44 * SECOND)
        self.assertEqual((self.core.held, self.lost()["a write was answered that the changes did not show within 30 seconds"]), ({}, 2))

    def test_what_a_proxy_tells_again_when_its_keeper_was_killed(self):
        """Of that counts what is later than the last line of the log, and what its last changes do not have."""
        known = [Shown(("document", "d", "viewer", "user", "b"), True, 0)]
        self.go_on(9000, known=known, early=((1000, 2000, "a"), (3000, 5000, "b"), (3000, 5000, "c")), heard=2500)
        self.assertEqual([key[0].user_id for made in self.service.made for key in made.keys], ["c"])

    def test_what_a_proxy_tells_again_and_cannot_be_read(self):
        """It is lost; the log goes on."""
        left = Left(self.core.place, 0, self.core.place.revision, None, 0)
        self.service = OpenFga(STORE, 0, 30 * SECOND)
        self.core, self.core.left = Core(self.service, 30.0), left
        for number, body in enumerate((b"{", b'{"unknown":1}', b"[]")):
            self.at(5, Ended(number, "write", "/stores/S/write", 3, 4, 4, None, None, None, 200, body, b"{}", None))
        self.at(11, Base(STORE, left, Stored(), [], "c", *RULES, 10, 11))
        self.assertTrue(self.core.is_ready)
        self.assertGreaterEqual(sum(self.core.lost.values()), 2)

    def test_too_many_writes_that_are_not_shown_put_all_in_doubt(self):
        with mock.patch("new_enemy_tools.recording.openfga.MADE", 3):
            for number in range(5):
                self.write(3 + number, 3 + number, "u%d" % number, thing="far%d" % number)
            self.read(40 * SECOND, 41 * SECOND)
            self.check(42 * SECOND, 43 * SECOND)
            self.read(44 * SECOND, 45 * SECOND)
        self.assertEqual((self.core.held, sum(self.lost().values())), ({}, 1))

    def test_too_many_in_doubt_put_all_in_doubt(self):
        with mock.patch("new_enemy_tools.recording.openfga.TAINTED", 3):
            for number in range(5):
                self.write(3 + number, 3 + number, "u%d" % number, thing="far%d" % number)
            self.read(40 * SECOND, 41 * SECOND)
            self.check(42 * SECOND, 43 * SECOND)
            self.read(44 * SECOND, 45 * SECOND)
            self.assertEqual(self.core.held, {})
            self.assertEqual(sum(self.lost().values()), 1)

    def test_how_much_is_remembered(self):
        with mock.patch("new_enemy_tools.recording.openfga.RECENT", 3), mock.patch("new_enemy_tools.recording.openfga.MADE", 3):
            for number in range(8):
                self.read(10 * number + 5, 10 * number + 9, change("a", number % 2 == 0, number))
            self.assertEqual((len(self.service.recent), sum(map(len, self.service.shown.values())), self.service.known(79)), (3, 3, 8))
            for number in range(8):
                self.write(100 + number, 100 + number, "b%d" % number)
            self.assertEqual(len(self.service.made), 3)

    def test_a_request_with_a_field_that_its_call_does_not_have(self):
        """Services pass over such a field, so that it must not turn a check into another call, or into none."""
        fields = {"checks": [], "type": "document", "user_filters": [], "as_of": 1}
        for name, value in fields.items():
            self.check(5, 6, **{name: value})
        self.check(5, 6, contextualTuples={"tupleKeys": [{"user": "user:a", "relation": "viewer", "object": "document:d", "as_of": 1}]})
        for known in ({"contextualTuples": {"tuple_keys": []}}, {"authorizationModelId": "", "trace": True, "context": {"any": 1}}):
            self.check(5, 6, **known)
        self.read(7, 8)
        self.assertEqual(self.lost(), {**{"CheckRequest has a field that is not known (%s)" % name: 1 for name in fields},
                                       "TupleKey has a field that is not known (as_of)": 1})
        self.assertEqual([json.loads(one)["event"] for one in self.lines if b"user" in one][1:], ["check", "unmapped"])

    def test_causes_that_come_from_clients_are_bounded(self):
        with mock.patch("new_enemy_tools.recording.core.CAUSES", 3):
            for number in range(9):
                self.check(5, 6, **{"x%d" % number * 50: 1})
        lost = self.lost()
        self.assertEqual((len(lost), lost["other causes than 3"], sum(lost.values())), (4, 6, 9))
        self.check(5, 6, thing="x y" * 1000)
        self.assertEqual(sum(self.core.lost.values()), 10)
        self.assertLess(max(map(len, self.core.lost)), 250)

    def test_a_store_that_is_made_again(self):
        """Checks of another store than the one that is recorded are lost, unless somebody said that they are no loss; they are counted and told
        all the same. So the log of a client that moves to another store is not as one of a client that asks no more."""
        for store, ignores, lost in (None, False, {OTHER_STORE: 2}), (STORE, False, {NOT_NAMED: 2}), (STORE, True, {}):
            self.setUp()
            self.service = OpenFga(store, 0, 30 * SECOND, 0, False, ignores)
            self.core.service = self.service
            self.at(1, Base(STORE, None, Stored(), [], "end", *RULES, 0, 1))
            self.core.told.clear()
            for path in "/stores/T/check", "/stores/%s/x/stores/T/check" % STORE:
                self.check(5, 6, path=path)
            self.read(7, 8)
            self.assertEqual((self.lost(), self.core.held, self.core.elsewhere), (lost, {}, 2))
            self.core.end(Now(9, 9))
            self.assertEqual(self.core.told, ["checks of other stores, which are not recorded: 2"])

    def test_models_that_come_one_behind_the_other_between_two_readings(self):
        """A check may have looked by one that no reading showed; one that began behind the last is by that."""
        self.check(3, 4)
        self.at(5, Changes(2, 5, True, self.overlap.take([], "c", 2, 5), RULES, True))
        self.at(5, Beat(5))
        self.check(6, 7)
        self.read(8, 9)
        self.read(10, 11)
        self.assertEqual((self.lost(), self.core.held), ({"the model and tuples changed at once": 1}, {}))
        self.assertEqual([json.loads(one)["event"] for one in self.lines].count("check"), 1)

    def test_how_many_decisions_wait(self):
        with mock.patch("new_enemy_tools.recording.openfga.WAITING", 3):
            for clock in (5, 5, 5, 5, 5):
                self.check(clock, 6)
            self.read(7, 8)
            self.check(9, 10)
            self.read(11, 12)
            self.assertEqual((self.lost(), self.core.held), ({FULL: 2}, {}))
            self.assertEqual([json.loads(one)["event"] for one in self.lines].count("check"), 4)

    def test_what_was_given_up_leaves_room(self):
        with mock.patch("new_enemy_tools.recording.openfga.WAITING", 3):
            for _ in range(4):
                self.check(5, 6)
            self.core.tick(Now(40 * SECOND, 40 * SECOND))
            self.check(40 * SECOND, 40 * SECOND + 1)
            self.assertEqual((self.core.lost, len(self.core.held)), ({FULL: 1, "the changes were more than 30 seconds behind": 3}, 1))

    def test_of_what_waits_no_bodies_are_kept(self):
        """The changes may stand still for as long as `--hold`."""
        self.check(5, 6, context={"pad": "x" * 100_000})
        self.assertEqual([(one.message.request, one.message.response) for one in self.service.waits], [(None, None)])

    def test_more_changes_than_an_import_looks_at(self):
        with mock.patch("new_enemy_tools.recording.openfga.STATES", 3):
            self.check(5, 30)
            self.read(10, 20, *[change("u%d" % number, thing="x") for number in range(4)])
            self.read(31, 40)
            self.read(41, 50)
            self.assertEqual(self.lost(), {"more than 3 changes came while a check was under way": 1})
