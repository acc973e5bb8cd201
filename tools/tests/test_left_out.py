"""Tuples that a trace has no form for: they stop no import, what rests on them is not audited, and every other check is."""
import json
import os
import re

from new_enemy_tools.coverage import coverage_in
from new_enemy_tools.importing import causes
from tests.random_traits import TRAITS, RandomLog, events, openfga_files, spicedb_files
from tests.support import Case
from tests.test_openfga import change, check as fga_check
from tests.test_round_trips import token_text
from tests.test_spicedb import check as zed_check
from tests.test_spicedb import thing, update, watch
from tests.test_trace_maker import check as own_check
from tests.test_trace_maker import rel
from tests.test_trace_maker import write as own_write

RANDOM_TRAITS = int(os.environ.get("RANDOM_TRAITS", "40"))
STRUCK = "check that hangs on a tuple or rule that was left out"
RULES = {"event": "rules", "namespaces": [{"name": "doc", "relations": [{"name": "viewer"}, {"name": "banned"}, {"name": "view", "rewrite": {
    "exclusion": {"base": {"computed": "viewer"}, "subtract": {"computed": "banned"}}}}]}]}
SCHEMA = """caveat c(day int) { day == 1 }
definition user {}
definition doc {
  relation viewer: user | user with c | user with expiration
  relation banned: user with c | user with expiration
  permission view = viewer - banned
}
"""
MODEL = """model
  schema 1.1
type user
type doc
  relations
    define viewer: [user, user with c]
    define banned: [user with c]
    define view: viewer but not banned
condition c(day: int) {
  day == 1
}
"""


def asked(at, permission="view", reply="HAS", of="doc:1", subject="user:a", **more):
    return zed_check(at, subject, permission, reply, {"resource": thing(of)}, **more)


class LeftOut(Case):
    def day(self, *words):
        return self.run_tool("day", "--program", os.path.abspath(os.environ["NEW_ENEMY"]), "--html", "days", *words)

    def looked_at(self, *words):
        """How many checks stand in the trace, how many hang on what was left out, and what the program finds."""
        self.said = self.imported(*words)
        coverage = coverage_in(self.get("trace.jsonl").encode())
        self.assertLessEqual(set(coverage.not_audited), {STRUCK})
        return coverage.checks, sum(coverage.not_audited.values()), self.audited().splitlines()[:-3]


class OfSpiceDb(LeftOut):
    def words(self, *log, base=None):
        self.put("schema.zed", SCHEMA)
        self.put("log", list(log))
        self.put("base", base or "")
        return ("spicedb", "--schema", "schema.zed", *(("--from-empty",) if base is None else ("--base", "base", "--base-at", token_text(10))), "log")

    def test_a_schema_with_caveats_is_taken_where_no_tuple_has_one(self):
        log = watch(1, update("user:a")), asked(1)
        for words in (), ("--refuse-unmapped",):
            self.assertEqual(self.looked_at(*self.words(*log), *words), (1, 0, []))
            self.assertNotIn("left out", self.said)
        self.assertEqual(self.looked_at(*self.words(*log[:1], asked(1, reply="NO"))), (1, 0, ["line 3: F10 wrong reply"]))

    def test_a_tuple_with_a_caveat_under_an_exclusion_is_never_clean(self):
        for name, trait in TRAITS.items():
            for reply in "HAS", "NO":
                log = watch(1, update("user:a")), watch(2, update("user:a", "banned", **trait)), asked(2, reply=reply), asked(2, "viewer")
                self.assertEqual(self.looked_at(*self.words(*log)), (1, 1, []))
                self.assertIn("left out 1: %s, first at log:2: doc:1#banned@user:a\n" % name, self.said)

    def test_a_touch_that_gives_a_stored_tuple_a_caveat_and_one_that_takes_it_away(self):
        touched = watch(2, update("user:a", **TRAITS["caveat"])), watch(3, update("user:a")), watch(4, update("user:a", operation="DELETE"))
        for reply in "HAS", "NO":
            log = [watch(1, update("user:a"))]
            for at, one in enumerate(touched, 2):
                log += [one, asked(at, reply=reply)]
            self.assertEqual(self.looked_at(*self.words(*log, asked(4, reply="NO", of="doc:2"))), (1, 3, []))

    def test_a_deletion_that_tells_of_a_caveat_takes_a_plain_tuple_away(self):
        log = watch(1, update("user:a")), watch(2, update("user:a", operation="DELETE", **TRAITS["caveat"]))
        self.assertEqual(self.looked_at(*self.words(*log, asked(2, reply="NO"))), (1, 0, []))
        self.assertEqual(self.looked_at(*self.words(*log, asked(2)))[2], ["line 4: F10 wrong reply"])

    def test_a_base_state_of_such_tuples_alone_is_no_empty_store(self):
        """Versions may have been saved before it."""
        log = watch(20, update("user:b", resource="doc:2")), asked(20, of="doc:2", subject="user:b", version="old"), asked(20)
        self.assertEqual(self.looked_at(*self.words(*log, base="doc:1#viewer@user:a[c]\n")), (1, 1, []))
        self.assertIn("audited in part 1: %s" % causes.VERSION_UNKNOWN, self.said)

    def test_a_commit_of_which_all_is_left_out_is_one_that_came_between(self):
        log = watch(1, update("user:a")), watch(2, update("user:b", resource="doc:2", **TRAITS["caveat"]))
        saved = asked(1, content={"version": "v", "token": token_text(1)})
        self.assertIn("line 4: F3 not latest, see line 3", self.looked_at(*self.words(*log, saved))[2])

    def test_a_tuple_without_the_caveat_that_the_schema_demands(self):
        log = watch(1, update("user:a")), watch(2, update("user:a", "banned")), asked(2), asked(2, "viewer")
        self.assertEqual(self.looked_at(*self.words(*log)), (1, 1, []))
        self.assertIn("left out 1: tuple without the condition that the rules demand, first at log:2", self.said)

    def test_it_is_refused_where_that_is_asked_for(self):
        words = self.words(watch(1, update("user:a", **TRAITS["caveat"])), asked(1))
        self.assertEqual(self.refused(*words, "--refuse-unmapped"), ["log:1: caveat: doc:1#viewer@user:a"])
        self.assertEqual(self.hinted, ["log:1: caveat: doc:1#viewer@user:a (without --refuse-unmapped it is left out)"])
        self.assertEqual(self.looked_at(*words, "--skip-unmapped"), self.looked_at(*words))

    def test_days_and_their_pages_count_it(self):
        log = [watch(1, update("user:a")), watch(2, update("user:a", "banned", **TRAITS["caveat"])), asked(2), asked(2, "viewer")]
        run = self.day(*self.words(*log))
        self.assertEqual((run.returncode, run.stdout.splitlines()[-1]), (6, "verdict incomplete"))
        self.assertEqual(json.loads(self.get("days/day000001/summary.json"))["coverage"]["not_audited"], {STRUCK: 1})
        self.assertIn("not audited 1: " + STRUCK, self.get("days/day000001/report.html"))
        self.assertEqual(self.day(*self.words(watch(3, update("user:z")), asked(3, reply="NO"), asked(3, "viewer"))).returncode, 6)
        self.assertEqual(self.day(*self.words(watch(4, update("user:y")), asked(4, "viewer"))).returncode, 0)
        self.assertEqual(self.day(*self.words(watch(5, update("user:x", **TRAITS["caveat"]))), "--refuse-unmapped").returncode, 2)


class OfOpenFga(LeftOut):
    def words(self, *log, model=MODEL):
        self.put("model.fga", model)
        self.put("log", list(log))
        return "openfga", "--model", "model.fga", "--from-empty", "log"

    def test_a_model_with_conditions_is_taken_where_no_tuple_has_one(self):
        log = change("user:a"), fga_check(relation="view", at=1)
        for words in (), ("--refuse-unmapped",):
            self.assertEqual(self.looked_at(*self.words(*log), *words), (1, 0, []))
        self.assertEqual(self.looked_at(*self.words(log[0], fga_check(relation="view", at=1, allowed=False))), (1, 0, ["line 3: F10 wrong reply"]))

    def test_a_tuple_with_a_condition_under_an_exclusion_is_never_clean(self):
        odd = change("user:a", "banned", at="2024-01-01T00:00:02Z", condition={"name": "c", "context": {}})
        for allowed in True, False:
            log = change("user:a"), odd, fga_check(relation="view", at=2, allowed=allowed), fga_check(at=2)
            self.assertEqual(self.looked_at(*self.words(*log)), (1, 1, []))
        self.assertIn("left out 1: condition on a tuple, first at log:2: doc:1#banned@user:a\n", self.said)

    def test_it_is_refused_where_that_is_asked_for(self):
        log = change("user:a"), change("user:b", condition={"name": "c"}), fga_check(at=2)
        self.assertEqual(self.refused(*self.words(*log), "--refuse-unmapped"), ["log:2: condition on a tuple: doc:1#viewer@user:b"])

    def test_a_change_that_is_missing_is_seen_beside_tuples_with_conditions(self):
        log = change("user:b", condition={"name": "c"}), change("user:a"), change("user:a", at="2024-01-01T00:00:02Z")
        found, = self.refused(*self.words(*log))
        self.assertTrue(found.startswith("log:3: this change writes a tuple that is stored already"), found)

    def test_a_page_that_was_read_twice_moves_no_place(self):
        odd = change("user:b", thing="doc:9", at="2024-01-01T00:00:02Z", condition={"name": "c", "context": {}})
        page = {"changes": [change("user:a"), odd], "continuation_token": "t"}
        log = page, page, change("user:c", at="2024-01-01T00:00:03Z"), fga_check("user:c", at=3), fga_check("user:c", at=2, allowed=False)
        self.assertEqual(self.looked_at(*self.words(*log)), (2, 0, []))
        self.assertIn("passed over 2: change that was read twice\nleft out 1: condition on a tuple, first at log:1", self.said)

    def test_a_tuple_without_the_condition_that_a_later_model_demands(self):
        """Whether the service sees it is not documented."""
        strict = {"schema_version": "1.1", "id": "strict", "type_definitions": [{"type": "user"}, {
            "type": "doc", "relations": {"viewer": {"this": {}}}, "metadata": {"relations": {"viewer": {
                "directly_related_user_types": [{"type": "user", "condition": "c"}]}}}}]}
        named = {"authorization_model_id": "strict"}
        for allowed in True, False:
            log = (change("user:a"), fga_check(at=1, request={"authorization_model_id": "wide"}), {"authorization_model": strict},
                   fga_check(at=1, allowed=allowed, request=named), fga_check(thing="doc:2", at=1, allowed=False, request=named))
            self.assertEqual(self.looked_at(*self.words(*log)), (2, 1, []))

    def test_a_tuple_that_no_model_takes_says_that_another_one_was_in_force(self):
        """So no check that names none is said to be right."""
        log = change("user:a"), change("robot:a", thing="doc:3", at="2024-01-01T00:00:02Z")
        self.looked_at(*self.words(*log, fga_check(at=2)))
        self.assertIn("checks: 1 whole\nnot known what was left out: the log has tuples that none of its rules take", self.said)
        self.looked_at(*self.words(*log, fga_check(thing="doc:2", at=2, allowed=False, request={"authorization_model_id": "m"})))
        self.assertNotIn("checks:", self.said)


class OfOwnEvents(LeftOut):
    def log(self, name):
        return [RULES, own_write(1, rel()), own_write(2, rel(relation=name)), own_check(2, name == "baned", rel(relation="view"))]

    def test_a_mistyped_relation_is_not_green_in_any_form(self):
        self.put("log", self.log("banned"))
        self.assertEqual(self.run_import("events", "--from-empty", "log")[0], 0)
        self.put("log", self.log("baned"))
        said = self.imported("events", "--from-empty", "log")
        self.assertIn("left out 1: tuple of a relation that the rules do not have, first at log:3: doc:1#baned@user:a\n", said)
        other = "the log has tuples that none of its rules take, so other rules were in force: give those too"
        self.put("report", self.audited())
        for form in "text", "html", "jsonl", "sarif", "junit", "annotations":
            run = self.run_tool("report", "--form", form, "trace.jsonl", "report")
            self.assertEqual((run.returncode, other in run.stdout), (6, True), form)
        run = self.day("events", "--from-empty", "log")
        self.assertEqual((run.returncode, run.stdout.splitlines()[-1]), (6, "verdict incomplete"))
        self.assertEqual(json.loads(self.get("days/day000001/summary.json"))["coverage"]["unknown"], other)

    def test_a_userset_that_has_nobody_is_told(self):
        self.put("log", [RULES, own_write(1, rel(user="2", user_type="doc", user_relation="viewr")), own_check(1, False)])
        self.assertIn("log:2: nobody is in doc:2#viewr, a relation that the rules do not have\n", self.imported("events", "--from-empty", "log"))


class RandomLogs(Case):
    def of_openfga(self, log):
        model, base, lines = openfga_files(log)
        self.put("model.json", json.dumps(model))
        self.put("base", base)
        return lines, ("openfga", "--model", "model.json", *(("--base", "base", "--base-at", "0") if base else ("--from-empty",)), "log")

    def of_spicedb(self, log):
        schema, base, lines = spicedb_files(log)
        self.put("schema.zed", schema)
        self.put("base", base)
        return lines, ("spicedb", "--schema", "schema.zed", *(("--base", "base", "--base-at", "10") if base else ("--from-empty",)), "log")

    def of_recorder(self, log):
        return events(log), ("events", "log")

    def report(self, words, lines):
        """The lines of the log that an audit calls wrong, and those that are audited."""
        self.put("log", lines)
        self.imported(*words)
        rows = {number: int(row["from"].rsplit(":", 1)[1]) for number, row in enumerate(self.rows("trace.jsonl"), 1) if "goal" in row}
        report = self.audited()
        self.assertLessEqual(set(re.findall(r" (F\d+) ", report)), {"F10"}, report)
        return {rows[int(line)] for line in re.findall(r"^line (\d+): F10", report, re.M)}, set(rows.values())

    def days(self, words, lines, folder):
        """The lines of a log in three days that these call wrong, and of how many checks they tell."""
        wrong, told, third = set(), 0, len(lines) // 3 + 1
        for day, start in enumerate(range(0, len(lines), third), 1):
            self.put("log", lines[start:start + third])
            run = self.run_tool("day", "--program", os.path.abspath(os.environ["NEW_ENEMY"]), "--at-least", "0", folder, *words)
            self.assertIn(run.returncode, (0, 1, 6), run.stderr)
            report, path = self.get("%s/day%06d/report.txt" % (folder, day)), "%s/day%06d/summary.json" % (folder, day)
            wrong |= {start + int(line) for line in re.findall(r"^line \d+: F10 .*\(log:(\d+)\)$", report, re.M)}
            coverage = json.loads(self.get(path))["coverage"]
            told += coverage["checks"] + sum(coverage.get("not_audited", {}).values())
        return wrong, told

    def test_days_say_of_a_log_in_three_what_one_import_says(self):
        for seed in range(RANDOM_TRAITS // 10):
            log = RandomLog(seed, True)
            lines, words = self.of_spicedb(log)
            places = [place for place, line in enumerate(lines, 1) if "request" in line]
            self.assertEqual(self.days(words, lines, "right%d" % seed), (set(), len(places)), "seed %d" % seed)
            flipped = [self.flipped(line) if "request" in line else line for line in lines]
            wrong, told = self.days(words, flipped, "wrong%d" % seed)
            self.assertLessEqual({place for place, tainted in zip(places, log.tainted) if not tainted}, wrong, "seed %d" % seed)
            self.assertEqual(told, len(places))

    def look_at(self, words_of, has_touch, seed):
        log = RandomLog(seed, has_touch)
        lines, words = words_of(log)
        places = [place for place, line in enumerate(lines, 1) if "request" in line or line.get("event") == "check"]
        wanted = {place for place, tainted in zip(places, log.tainted) if not tainted}
        self.assertEqual(self.report(words, lines), (set(), wanted), "seed %d" % seed)
        flipped = [self.flipped(line) if place in places else line for place, line in enumerate(lines, 1)]
        self.assertEqual(self.report(words, flipped), (wanted, wanted), "seed %d" % seed)
        return len(wanted), len(places)

    @staticmethod
    def flipped(line):
        text, pairs = json.dumps(line), (('"allowed": true', '"allowed": false'), ("_HAS_", "_NO_"), ('"reply": true', '"reply": false'))
        return json.loads(next(text.replace(*((a, b) if a in text else (b, a))) for a, b in pairs if a in text or b in text))

    def test_what_may_hang_on_a_trait_is_not_audited_and_of_all_else_each_wrong_reply_is_found(self):
        for words_of, has_touch in (self.of_openfga, False), (self.of_spicedb, True), (self.of_recorder, True):
            if os.path.exists(self.path("ids.jsonl")):
                os.remove(self.path("ids.jsonl"))
            counts = [self.look_at(words_of, has_touch, seed) for seed in range(RANDOM_TRAITS)]
            audited, asked = map(sum, zip(*counts))
            self.assertTrue(0.2 < audited / asked < 0.9, (audited, asked))
