"""Writes that a log has in the calls that made them; changes that were read twice; and calls within events of CloudEvents."""
import json
from unittest import mock

from new_enemy_tools.importing import located
from tests import test_openfga, test_postgres, test_spicedb
from tests.support import Case
from tests.test_openfga import MODEL, THIS, change
from tests.test_round_trips import token_text
from tests.test_spicedb import SCHEMA, VIEW, update, watch

AT = "2024-01-01T00:00:%02dZ"


def written(at, *updates):
    return {"request": {"updates": list(updates)}, "response": {"writtenAt": {"token": token_text(at)}}}


class SpiceDb(Case):
    def words(self, *lines):
        self.put("schema.zed", SCHEMA % VIEW)
        self.put("log", list(lines))
        return "spicedb", "--schema", "schema.zed", "--from-empty", "log"

    check = staticmethod(test_spicedb.check)

    def test_calls_that_wrote_are_changes(self):
        log = (self.check(0, reply="NO"), written(1, update("user:a"), update("user:b")), self.check(1), self.check(1, "user:c", reply="NO"),
               written(2, update("user:a", operation="DELETE")), self.check(2, reply="NO"), self.check(1))
        self.assertEqual(self.report(*log), "entries 5\nfindings 0\nverdict clean\n")
        self.assertIn("F10 wrong reply", self.report(*log, self.check(2)))

    def test_a_write_that_the_watch_stream_has_too_is_one(self):
        first, second = written(1, update("user:a")), watch(1, update("user:a"))
        for log in ((first, self.check(1), second), (second, self.check(1), first), (first, second, self.check(1))):
            if log[2] is second:
                # The stream says when: what stands before it looked into the future.
                self.assertIn("F4 open snapshot", self.report(*log))
                self.assertIn("passed over 1: other call (WriteRelationships)\n", self.said)
                continue
            self.assertEqual(self.report(*log), "entries 1\nfindings 0\nverdict clean\n")
            self.assertIn("passed over 1: other call (WriteRelationships)\n", self.said)

    def test_a_call_that_is_logged_late_is_put_before_what_saw_it(self):
        one, two = written(1, update("user:a")), written(2, update("user:b"))
        for log in ((two, one), (self.check(1), one, two), (self.check(2, "user:b"), two, self.check(1), one), (one, self.check(2), two)):
            report = self.report(*log, self.check(2, "user:b"), self.check(0, reply="NO"))
            self.assertEqual(report.splitlines()[1:], ["findings 0", "verdict clean"])
        self.assertIn("log:3: a check saw this write before the line of its call", self.said)
        self.assertIn("F10 wrong reply", self.report(two, one, self.check(1, "user:b")))
        self.report(one, two, self.check(2))
        self.assertNotIn("before the line of its call", self.said)

    def test_on_postgres(self):
        own, after = test_postgres.revision(10, 11, own=10), test_postgres.revision(12, 12)
        log = written(own, update("user:a")), self.check(after)
        self.assertEqual(self.report(*log), "entries 1\nfindings 0\nverdict clean\n")
        self.assertEqual(self.report(watch(own, update("user:a")), *log), "entries 1\nfindings 0\nverdict clean\n")
        self.assertIn("passed over 1: other call (WriteRelationships)\n", self.said)
        second = written(test_postgres.revision(12, 13, own=12), update("user:b"))
        newest = self.check(test_postgres.revision(13, 13), "user:b")
        for late in (log[1], newest, log[0], second), (log[0], newest, second, log[1]), (newest, second, log[0], log[1]):
            self.assertEqual(self.report(*late), "entries 2\nfindings 0\nverdict clean\n")
            self.assertIn("a check saw this write before the line of its call", self.said)
        self.assertIn("F10 wrong reply", self.report(newest, *log, second, self.check(after, "user:b")))
        self.assertIn("F4 open snapshot", self.report(newest, log[0], log[1], watch(test_postgres.revision(12, 13, own=12), update("user:b"))))

    def test_a_log_whose_writes_are_not_all_told_is_refused(self):
        delete = {"request": {"relationshipFilter": {"resourceType": "doc"}}, "response": {"deletedAt": {"token": token_text(3)}}}
        load = {"request": {}, "response": {}, "method": "/authzed.api.v1.PermissionsService/ImportBulkRelationships"}
        said = ("and no line of the log says all of what: give the watch stream, which has each change with its revision, and put files together "
                "that were cut between a request and its response")
        self.assertEqual(self.refused(*self.words(delete, self.check(3, reply="NO"), delete, load)), [
            "log:1: this DeleteRelationships wrote, " + said, "log:4: this ImportBulkRelationships wrote, " + said])
        self.assertEqual(self.report(watch(1, update("user:a")), delete, self.check(3)), "entries 1\nfindings 0\nverdict clean\n")
        nothing = delete | {"response": {**delete["response"], "relationshipsDeletedCount": "0"}}
        self.report(nothing, self.check(3, reply="NO"))

    def test_a_deletion_among_calls_that_are_told_is_refused(self):
        """A stale reply behind it would be right. The watch stream has what was deleted."""
        delete = {"request": {"relationshipFilter": {"resourceType": "doc"}}, "response": {"deletedAt": {"token": token_text(3)}}}
        stale = test_spicedb.check(3)
        found = self.refused(*self.words(written(1, update("user:a")), delete, stale))
        self.assertEqual([line.split(",")[0] for line in found], ["log:2: this DeleteRelationships wrote"])
        gone = watch(3, update("user:a", operation="DELETE"))
        self.assertIn("F10 wrong reply", self.report(watch(1, update("user:a")), written(1, update("user:a")), delete, gone, stale))

    def test_a_deletion_that_the_watch_stream_does_not_have_is_refused(self):
        """As where the stream was cut. Of one that does not say how much it deleted it is not known whether it has to be there."""
        response = {"deletedAt": {"token": token_text(3)}, "relationshipsDeletedCount": "1"}
        delete = {"request": {"relationshipFilter": {"resourceType": "doc"}}, "response": response}
        self.assertEqual(self.refused(*self.words(watch(1, update("user:a")), delete, test_spicedb.check(3))), [
            "log:2: this DeleteRelationships deleted something, and the log has no change of its revision: give the whole watch stream"])
        gone = watch(3, update("user:a", operation="DELETE"))
        self.assertIn("F10 wrong reply", self.report(watch(1, update("user:a")), delete, gone, test_spicedb.check(3)))

    def test_changes_of_some_types_are_refused(self):
        seen = watch(1, update("user:a"))
        found = self.refused(*self.words({"request": {"optional_object_types": ["doc"]}, "response": seen}, test_spicedb.check(1)))
        self.assertEqual(found, ["log:1: the request of these changes has `optionalObjectTypes`, and an audit needs all changes: ask without it"])
        self.assertEqual(self.report({"request": {"optionalObjectTypes": []}, "response": seen}, test_spicedb.check(1)),
                         "entries 1\nfindings 0\nverdict clean\n")

    def test_a_stream_that_begins_behind_what_the_log_has_is_refused(self):
        """What was written between is in no line, so that a stale reply would be right."""
        def asked(start, *seen):
            return [{"request": {"optionalStartCursor": {"token": token_text(start)}}, "response": one} for one in seen]
        first, second, checkpoint = watch(3, update("user:a")), watch(7, update("user:b")), watch(5, isCheckpoint=True)
        words = "spicedb", "--schema", "schema.zed", "--base", "base", "--base-at", "2", "log"
        self.put("base", "doc:1#viewer@user:c\n")
        said = ["the watch stream begins behind all that the log has before it, by the `optionalStartCursor` of its request, and what was written "
                "between is not there: give the whole stream, or a base state of where it begins"]
        for wanted, log in (([], asked(2, first, second)), ([], asked(1, first, second)), (["log:1"], asked(3, second)),
                            ([], [*asked(2, first), *asked(3, second)]), (["log:2"], [*asked(2, first), *asked(6, second)]),
                            ([], [*asked(2, first, checkpoint), *asked(5, second)]), (["log:2"], [*asked(2, first), *asked(5, second, checkpoint)]),
                            ([], [first, *asked(3, second)]), (["log:1"], [*asked(4, second), written(8, update("user:a"))])):
            self.put("schema.zed", SCHEMA % VIEW)
            self.put("log", [*log, self.check(9, "user:c")])
            if wanted:
                self.assertEqual(self.refused(*words), ["%s: %s" % (place, said[0]) for place in wanted])
            else:
                self.imported(*words)
                self.assertIn("findings 0\n", self.audited())
                self.forget()
        # Of a store that was empty at first it is the premise that the first stream begins there.
        self.assertIn("findings 0\n", self.report(*asked(3, second), self.check(9, "user:b")))

    def test_what_a_status_says(self):
        asked = {"request": self.check(1)["request"]}
        fine = [self.check(1, status=status) for status in ("OK", 200, "200 OK", {"code": 0}, {"code": "OK"}, {"code": "Ok"})]
        failed = [{**asked, "status": status} for status in ("UNAVAILABLE", "2", "503 late", {"code": 14})]
        self.assertEqual(self.report(watch(1, update("user:a")), *fine, *failed), "entries 6\nfindings 0\nverdict clean\n")
        self.assertEqual(self.said.count("failed request"), 4)
        for status in "InvalidArgument", "Code(17)", "NOT_FOUND", "failed", "404":
            self.report(watch(1, update("user:a")), {**asked, "status": status})
            self.assertIn("passed over 1: failed request (%s)\n" % status, self.said)

    def test_a_status_of_which_it_is_not_known_what_it_says(self):
        """A write that was taken for one that failed would make a stale reply right."""
        wrote = written(1, update("user:a"))
        self.assertIn("F10 wrong reply", self.report({**wrote, "status": "Success"}, self.check(1, reply="NO")))
        self.forget()
        self.assertEqual(self.refused(*self.words({**wrote, "status": "done"}, self.check(1))), [
            "log:1: it is not known whether the `status` 'done' says that the call failed: give a number, or gRPC's name of a code"])

    def test_a_tuple_of_a_call_that_has_no_form_is_left_out(self):
        bad = written(1, update("user:a", optionalCaveat={"caveatName": "c"}))
        self.assertIn("left out 1: caveat, first at log:1: doc:1#viewer@user:a\n", self.imported(*self.words(bad)))

    def event(self, call, **data):
        return {"specversion": "1.0", "id": "1", "source": "/ps/one", "type": "/authzed.api.v1.PermissionsService/" + call,
                "time": AT % 1, "data": data}

    def test_calls_within_events_are_counted_as_others_are(self):
        asked = self.check(1)
        failed = {"request": asked["request"]}
        events = [self.event("WriteRelationships", **written(1, update("user:a"))), self.event("CheckPermission", **asked),
                  self.event("CheckPermission", **failed, error={"code": 7}), self.event("CheckPermission", **failed, status={"code": 8}),
                  self.event("CheckPermission", **failed, status="UNAVAILABLE"), self.event("ReadSchema", response={}),
                  self.event("ReadSchema"), self.event("ReadSchema", error="late")]
        self.assertEqual(self.report(*events), "entries 1\nfindings 0\nverdict clean\n")
        self.assertEqual([line for line in self.said.splitlines() if line.startswith("passed")], [
            "passed over 1: failed request (7)", "passed over 1: failed request (8)", "passed over 1: failed request (UNAVAILABLE)",
            "passed over 1: failed request (late)", "passed over 2: other call (ReadSchema)"])


class OpenFga(Case):
    check = staticmethod(test_openfga.check)

    def words(self, *lines):
        self.put("model.json", MODEL % THIS)
        self.put("log", list(lines))
        return "openfga", "--model", "model.json", "--from-empty", "log"

    @staticmethod
    def write(second, writes=(), deletes=()):
        keys = {side: {"tuple_keys": [{"user": user, "relation": "viewer", "object": "doc:1"} for user in users]}
                for side, users in (("writes", writes), ("deletes", deletes)) if users}
        return {"request": keys, "response": {}, **({} if second is None else {"time": AT % second})}

    def test_calls_that_wrote_are_changes_where_the_log_has_no_others(self):
        log = (self.write(1, ["user:a", "user:b"]), self.check(at=2), self.check("user:c", at=2, allowed=False),
               self.write(2, ["user:c"], ["user:a"]), self.check(at=4, allowed=False), self.check("user:c", at=AT % 2), self.check(at=AT % 1))
        self.assertEqual(self.report(*log), "entries 5\nfindings 0\nverdict clean\n")
        self.assertIn("F10 wrong reply", self.report(*log, self.check(at=4)))

    def test_where_the_log_has_changes_such_calls_are_counted(self):
        self.assertEqual(self.report(self.write(1, ["user:a"]), change("user:a"), self.check()), "entries 1\nfindings 0\nverdict clean\n")
        self.assertIn("passed over 1: other call (Write)\n", self.said)

    def test_a_log_whose_writes_have_no_time_and_no_changes_is_refused(self):
        self.assertEqual(self.refused(*self.words(self.write(None, ["user:a"]), self.check(at=0), self.write(None, ["user:b"]))), [
            "log:1: " + self.UNSEEN])

    UNSEEN = ("this Write wrote, and no line of the log says all of what: give the changes as ReadChanges answers them, or each "
              "line of Write its `time`, of which none may pass over what is there already")

    def test_one_write_among_others_whose_changes_are_not_known_is_refused(self):
        """A stale reply behind it would be right: a deletion without a time, and places of changes that were none."""
        written = self.write(1, ["user:a", "user:b"])
        stale = self.check(at=AT % 5)
        self.assertEqual(self.refused(*self.words(written, self.write(None, deletes=["user:a"]), stale)), ["log:2: " + self.UNSEEN])
        for side, key in ("writes", "on_duplicate"), ("deletes", "onMissing"):
            odd = self.write(2, ["user:d"], ["user:c"])
            odd["request"][side][key] = "ignore"
            self.assertEqual(self.refused(*self.words(written, odd, stale)), ["log:2: " + self.UNSEEN])
            shown = change("user:a"), change("user:b")
            self.assertEqual(self.report(written, odd, *shown, self.check()), "entries 1\nfindings 0\nverdict clean\n")
            self.forget()
            odd["request"][side][key] = "error"
            self.assertEqual(self.report(written, odd, self.check(at=AT % 1)), "entries 1\nfindings 0\nverdict clean\n")
            self.forget()

    def test_a_tuple_that_is_written_twice_says_that_a_change_is_missing(self):
        """A deletion between them, which made a stale reply right."""
        again, gone = change("user:a", at=AT % 5), change("user:a", at=AT % 3, operation="DELETE")
        said = ("this change writes a tuple that is stored already, and the service refuses that: a change before it is missing, or the base "
                "state is of another time")
        padding = [change("user:%d" % number, at=AT % 4) for number in range(9)]
        for between in (), padding, [self.check(at=1)] * 3 + padding:
            log = change("user:a"), *between, again
            self.assertEqual(self.refused(*self.words(*log, self.check(at=2 + len(between)))), ["log:%d: %s" % (len(log), said)])
            self.report(log[0], gone, *log[1:], self.check(at=1))
            self.forget()
        self.put("base", [{"key": {"user": "user:a", "relation": "viewer", "object": "doc:1"}}])
        self.put("model.json", MODEL % THIS)
        self.put("log", [again, self.check(at=5)])
        words = "openfga", "--model", "model.json", "--base", "base", "--base-at", "4", "log"
        self.assertEqual(self.refused(*words), ["log:1: " + said])
        # A page that was read twice is one.
        self.report(change("user:a"), change("user:a"), self.check(at=1))
        self.forget()

    def test_a_tuple_that_is_written_twice_in_two_blocks(self):
        lines = [change("user:%d" % number, at="2024-01-01T00:00:%02d.%03dZ" % (number // 500, number)) for number in range(500)]
        gone = change("user:7", at=AT % 1, operation="DELETE")
        for places in (450,), (450, 451), (3, 450):
            log = list(lines)
            for place in places:
                log[place] = {**log[7], "timestamp": log[place]["timestamp"]}
            # One deletion goes with one more write.
            for more, wanted in (((), True), ((gone,), len(places) > 1)):
                given = [*log[:400], *({**one, "timestamp": log[400]["timestamp"]} for one in more), *log[400:], *[self.check("user:9", at=20)] * 30]
                with mock.patch.object(located, "BLOCK", 4000):
                    status, said = self.run_import(*self.words(*given), "--jobs", "1")
                self.assertEqual((status, "this change writes a tuple that is stored already" in said), (2 if wanted else 0, wanted), places)
                if not wanted:
                    self.forget()

    def test_a_write_behind_the_changes_that_they_do_not_show(self):
        """A reply behind it may be stale, or right by what was written; what is certainly before it is audited."""
        shown = change("user:a", at=AT % 1), change("user:b", at=AT % 3)
        for written in self.write(9, ["user:c"]), self.write(9, deletes=["user:a"]):
            # It was made before it was logged.
            for later in self.check("user:c", at=AT % 9, allowed=False), self.check("user:c", at=AT % 6), self.check(
                    at=None, snapshot_between=[1, AT % 7]), self.check(at=1, token=AT % 8):
                before = self.check(at=2), self.check(at=AT % 3), self.check(at=AT % 5)
                told, = self.struck(*self.words(*shown, written, *before, later))
                self.assertTrue(told.endswith("may be behind the Write of log:3, which the changes do not show: read them once more behind it"), told)
                self.assertEqual(self.audited(), "entries 3\nfindings 0\nverdict clean\n")
        behind = change("user:c", at=AT % 9)
        self.assertIn("F10 wrong reply", self.report(*shown, self.write(9, ["user:c"]), behind, self.check("user:c", at=AT % 9, allowed=False)))

    def test_a_write_among_the_changes_that_they_do_not_show_is_refused(self):
        shown = change("user:a", at=AT % 1), change("user:b", at=AT % 4)
        told = "this Write is not among the changes, which go on behind its `time`: changes are missing; give all of them as ReadChanges answers them"
        for written in self.write(2, ["user:c"]), self.write(4, deletes=["user:a"]), self.write(0, ["user:c"]):
            for stale in self.check("user:c", at=AT % 5, allowed=False), self.check(at=1):
                self.assertEqual(self.refused(*self.words(*shown, written, stale)), ["log:3: " + told])
        again = change("user:a", at=AT % 3, operation="DELETE"), change("user:a", at=AT % 5)
        lines = shown[0], self.write(1, ["user:a"]), self.write(5, ["user:a"]), *again
        self.assertEqual(self.report(*lines, self.check(at=AT % 5)), "entries 1\nfindings 0\nverdict clean\n")
        self.forget()
        self.assertEqual(self.refused(*self.words(*lines[1:], self.check(at=1))), ["log:1: " + told])
        # A change that is read twice is one.
        self.assertEqual(self.refused(*self.words(*lines[:2], *lines[:1], self.write(2, ["user:a"]), again[0], self.check(at=1))), ["log:4: " + told])
        # Each line of a call may stand twice, and what the base state has may be written before.
        self.assertEqual(self.report(*lines, *lines[1:3], self.check(at=AT % 5)), "entries 1\nfindings 0\nverdict clean\n")
        self.put("base.jsonl", [{"key": change("user:c")["tuple_key"]}])
        words = ["openfga", "--model", "model.json", "--base", "base.jsonl", "--base-at", "0", "log"]
        self.put("log", [self.write(0, ["user:c"]), *shown, self.check("user:c", at=1)])
        self.imported(*words)
        self.assertEqual(self.audited(), "entries 1\nfindings 0\nverdict clean\n")

    def test_a_write_without_a_time_that_the_changes_do_not_show(self):
        """It may stand anywhere; what the base state has may be written before, or behind all changes."""
        shown, written = change("user:a", at=AT % 3), self.write(None, ["user:a"])
        self.assertEqual(self.report(shown, written, self.check(at=AT % 4)), "entries 1\nfindings 0\nverdict clean\n")
        told, = self.struck(*self.words(shown, written, written, self.check(at=AT % 3), self.check(at=AT % 4)))
        self.assertIn("log:5: check without one snapshot: snapshot %s may be behind the Write of log:2" % (AT % 4), told)
        self.forget()
        gone = self.write(None, deletes=["user:a"])
        self.assertEqual(self.refused(*self.words(shown, gone, self.check(at=1))), [
            "log:2: this Write has no `time`, and is not among the changes: read them once more behind it, or give each line of Write its `time`"])
        self.put("base.jsonl", [])
        words = ["openfga", "--model", "model.json", "--base", "base.jsonl", "--base-at", "0", "log"]
        self.put("log", [gone, shown, self.check(at=1), self.check(at=AT % 4)])
        self.assertEqual(len(self.struck(*words)), 1)
        self.assertEqual(self.audited(), "entries 1\nfindings 0\nverdict clean\n")

    def test_a_write_that_failed_wrote_nothing(self):
        failed = self.write(2, deletes=["user:a"]) | {"response": {"code": "write_failed_due_to_invalid_input", "message": "no"}}
        self.assertEqual(self.report(self.write(1, ["user:a"]), failed, self.check(at=1)), "entries 1\nfindings 0\nverdict clean\n")

    def test_changes_from_a_time_on_are_refused(self):
        """What was changed before is not there, and the store was not as it seems; but where the base state has it."""
        page = {"changes": [change("user:a", at=AT % 5)], "continuation_token": ""}
        read = {"request": {"start_time": AT % 3, "page_size": 50}, "response": page}
        told = "log:1: the request of these changes has a `start_time`, and the log does not have those before: give all changes, or a base state of that time"
        self.assertEqual(self.refused(*self.words(read, self.check(at=1))), [told])
        self.put("base.jsonl", [])
        for at, found in ((2, [told]), (3, []), (4, [])):
            words = [*self.words(read, self.check(at=1))]
            words[words.index("--from-empty")] = "--base"
            words[words.index("--base") + 1:words.index("--base") + 1] = ["base.jsonl", "--base-at", AT % at]
            if found:
                self.assertEqual(self.refused(*words), found)
            else:
                self.imported(*words)
                self.assertEqual(self.audited(), "entries 1\nfindings 0\nverdict clean\n")

    def test_a_page_of_changes_that_is_missing_is_refused(self):
        """Each page begins behind one that the log has; the first one does where the base state ends, or with the store."""
        def page(asked, given, *changes, **more):
            return {"request": {**({"continuation_token": asked} if asked else {}), "page_size": 1, **more},
                    "response": {"changes": list(changes), "continuation_token": given}}
        pages = [page("", "1", change("user:a", at=AT % 1)), page("1", "1"), page("1", "2", change("user:b", at=AT % 2)),
                 page("2", "3", change("user:a", at=AT % 3, operation="DELETE"), start_time=AT % 1), page("3", "3")]
        stale = self.check(at=3)
        for log in pages, pages + pages[2:], pages[:2] * 2 + pages[2:]:
            self.assertIn("F10 wrong reply", self.report(*log, stale))
            self.forget()
        told = ("these changes go on from a `continuation_token` that no page of the log gives: a page of changes is missing; give all pages from "
                "the first on, or from the base state on")
        self.assertEqual(self.refused(*self.words(*pages[:2], *pages[3:], self.check(at=2))), ["log:3: " + told])
        self.assertEqual(self.refused(*self.words(*pages[2:], self.check(at=2))), ["log:1: " + told])
        self.assertEqual(self.refused(*self.words(*pages[2:], *pages[:2], stale)), ["log:1: " + told])
        self.assertEqual(self.refused(*self.words(pages[1], stale)), ["log:1: " + told])
        self.put("base.jsonl", [{"key": change("user:a")["tuple_key"], "timestamp": AT % 1}])
        words = ["openfga", "--model", "model.json", "--base", "base.jsonl", "--base-at", "1", "log"]
        self.put("log", [*pages[1:], self.check(at=2)])
        self.imported(*words)
        self.assertEqual(self.audited(), "entries 1\nfindings 0\nverdict clean\n")
        self.forget()
        self.put("log", [*pages[1:3], *pages[4:], self.check(at=2)])
        self.assertEqual(self.refused(*words), ["log:3: " + told])
        odd = page("1", "2", change("user:b", at=AT % 2), continuation_token=[1])
        self.assertEqual(self.refused(*self.words(pages[0], odd, self.check(at=1))), ["log:2: a `continuation_token` is no text"])

    def test_one_page_may_begin_behind_changes_that_have_no_request(self):
        """A page between others is missing all the same, and one behind the first that does."""
        def page(asked, given, *changes):
            return {"request": {**({"continuation_token": asked} if asked else {}), "page_size": 1},
                    "response": {"changes": list(changes), "continuation_token": given}}
        users = [change("user:%s" % user, at=AT % at) for at, user in enumerate("abcde", 1)]
        read = [page(str(at) if at else "", str(at + 1), one) for at, one in enumerate(users)] + [page("5", "5")]
        stale, told = self.check(at=5, allowed=False), "these changes go on from a `continuation_token` that no page of the log gives: a page of "

        def numbered(lines):
            return [{**one, "sequence": number} for number, one in enumerate(lines)]
        for bare in [users[0]], [read[0]["response"]], users[:1] * 2:
            lines = [*bare, *read[1:], *read[1:], *read[2:4], stale]
            self.assertIn("F10 wrong reply", self.report(*lines))
            self.assertIn("F10 wrong reply", self.report(*numbered(lines)))
            self.forget()
            for log, line in (read[1:2] + read[3:], 2), (read[2:] + read[1:2], 5):
                lines = [*bare, *log, self.check(at=4)]
                for given in lines, numbered(lines):
                    refused, = self.refused(*self.words(*given))
                    self.assertTrue(refused.startswith("log:%d: %s" % (len(bare) + line, told)), refused)
        refused, = self.refused(*self.words(*read[2:], *users[:2], self.check(at=5)))
        self.assertTrue(refused.startswith("log:1: " + told), refused)
        # values over many lines
        texts = [json.dumps(one, indent=1) for one in (users[0], read[1], *read[3:])]
        words = self.words()
        self.put("log", "\n".join(texts))
        refused, = self.refused(*words)
        self.assertTrue(refused.startswith("log:%d: %s" % (sum(text.count("\n") + 1 for text in texts[:2]) + 1, told)), refused)
        self.put("log", "\n".join(texts[:2]))
        self.imported(*words)

    def test_changes_of_one_type_are_refused(self):
        """A change of another type between them is not there, and the places are others."""
        page = {"changes": [change("user:a")], "continuation_token": ""}
        self.assertEqual(self.refused(*self.words({"request": {"type": "doc", "page_size": 50}, "response": page}, self.check(at=1))), [
            "log:1: the request of these changes has `type`, and an audit needs all changes: ask without it"])
        none = {"request": {"type": "doc"}, "response": {"changes": []}}
        for request in {"type": "", "page_size": 50}, {}:
            self.assertEqual(self.report({"request": request, "response": page}, none, self.check(at=1)), "entries 1\nfindings 0\nverdict clean\n")

    def test_tokens_tell_which_changes_were_read_twice(self):
        """Also where one tuple is written and deleted at one timestamp, as in a database that keeps seconds."""
        def page(behind, ends, *changes):
            return {"request": {"store_id": "s", "continuation_token": behind}, "response": {"changes": list(changes), "continuation_token": ends}}
        first, second, third = change("user:a", at=AT % 1), change("user:a", at=AT % 1, operation="DELETE"), change("user:b", at=AT % 1)
        checks = self.check(at=1), self.check(at=2, allowed=False), self.check("user:b", at=3)
        for pages, count in (([page("", "t2", first, second), page("", "t2", first, second), page("t2", "t3", third)], 2),
                             ([page("", "t2", first, second), page("", "t3", first, second, third), page("t2", "t3", third)], 3),
                             ([page("", "t1", first), page("t1", "t2", second), page("t1", "t3", second, third)], 1)):
            self.assertEqual(self.report(*pages, *checks), "entries 3\nfindings 0\nverdict clean\n")
            self.assertIn("passed over %d: change that was read twice\n" % count, self.said)
        self.assertEqual(self.report(*pages, self.check(at=2), self.check("user:b", at=3, allowed=False)).splitlines()[-2], "findings 2")

    def test_a_page_of_changes_that_was_read_twice_is_seen(self):
        page = [change("user:a", at=AT % 1), change("user:b", at=AT % 1), change("user:a", at=AT % 2, operation="DELETE"),
                change("user:a", at=AT % 3)]
        checks = self.check(at=3, allowed=False), self.check(at=4), self.check("user:b", at=AT % 1)
        for lines in ([*page, *page], [{"changes": page}, {"changes": page}], [*page[:2], *page[:2], *page[2:]], [*page, *page[2:]]):
            self.assertEqual(self.report(*lines, *checks), "entries 3\nfindings 0\nverdict clean\n")
            self.assertIn(": change that was read twice\n", self.said)
        again = [change("user:a", at=AT % 1), change("user:a", at=AT % 1, operation="DELETE"), change("user:a", at=AT % 1)]
        self.assertEqual(self.report(*again, self.check(at=3), self.check(at=2, allowed=False)), "entries 2\nfindings 0\nverdict clean\n")
        self.assertNotIn("read twice", self.said)
