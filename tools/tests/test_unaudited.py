"""What was not looked at is counted and told, and is never green: by the commands as they are documented, on logs of which something is lost."""
import hashlib
import json
import os
import re
import shutil
import subprocess
import sys
import xml.etree.ElementTree

from new_enemy_tools.ids import locked
from new_enemy_tools.importing import causes
from new_enemy_tools.parting.blocks import BLOCK
from tests.support import TOOLS, Case
from tests.test_trace_maker import RULES, check, content, rel, write

BEGUN = {"event": "gap", "from": None, "to": "2024-01-01T00:00:00Z", "reason": "the log begins", "time": "2024-01-01T00:00:00Z"}
LOST = {"event": "gap", "from": "2024-01-01T00:00:02Z", "to": "2024-01-01T00:00:03Z", "reason": "the recorder did not follow", "lost": 40,
        "time": "2024-01-01T00:00:03Z"}
CONTEXTUAL = {"event": "unmapped", "reason": "contextual tuples"}


class Unaudited(Case):
    def audit(self, *words):
        """A report of the program on the trace, in a file; what `ne report` then says in a form."""
        self.put("report.txt", self.audited())
        return self.run_tool("report", *words, "trace.jsonl", "report.txt")

    def day(self, *words, log="log"):
        run = self.run_tool("day", *words, "--program", os.path.abspath(os.environ["NEW_ENEMY"]), "--jobs", "1", "days", "events", "--from-empty", log)
        return run

    def summary(self, number):
        return json.loads(self.get("days/day%06d/summary.json" % number))


class Rows(Unaudited):
    """What was seen of the tools before: each of these logs was clean, or was refused as a whole."""

    def test_versions_from_before_the_log(self):
        """500 checks name versions that were saved before the recorder came, and 50 of them are answered wrongly."""
        log = [RULES, BEGUN, write(1, *[rel(str(one)) for one in range(500)], base=True)]
        log += [check(1, one % 10 > 0, rel(str(one)), version="v%d" % one) for one in range(500)]
        self.put("log", log)
        said = self.imported("events", "log")
        self.assertIn("checks: 0 whole, 500 in part\n", said)
        self.assertEqual(self.audited().splitlines()[-3:], ["entries 500", "findings 50", "verdict dirty"])
        self.assertEqual(self.audited().count("F10 wrong reply"), 50)

    def test_a_day_whose_checks_were_lost(self):
        self.put("log", [RULES, write(1, rel()), check(1), LOST])
        run = self.day()
        self.assertEqual((run.returncode, run.stdout.splitlines()), (6, [
            "entries 1", "checks: 1 whole, 40 lost in gaps", "lost in gaps 40: the recorder did not follow", "findings 0", "verdict incomplete"]))
        summary = self.summary(1)
        self.assertEqual((summary["status"], summary["verdict"], summary["coverage"]["lost"]), (6, "incomplete", {"the recorder did not follow": 40}))

    def test_a_gap_of_which_nobody_knows_the_length_is_below_no_percent(self):
        """A recorder that was killed may not know since when, and a clock that was put back may end a gap before it begins."""
        known = {"event": "gap", "from": "2026-11-26T00:00:01Z", "to": "2026-11-26T00:00:02Z", "reason": "the recorder did not follow"}
        first, last = ({**check(1), "time": "2026-11-26T%s:00:00Z" % hour} for hour in ("00", "23"))
        odd = {"event": "gap", "to": "2026-11-26T12:00:00Z", "reason": "the recorder was killed"}
        for gap, status in ((known, 0), (odd, 6), ({**odd, "from": "2026-11-26T13:00:00Z"}, 6)):
            self.put("log", [RULES, write(1, rel()), first, known, gap, last])
            run = self.run_tool("import", "events", "--from-empty", "--allow-unaudited", "1", "log")
            self.assertEqual(run.returncode, status, (gap, run.stderr))

    def test_a_day_whose_checks_all_were_lost_is_refused_by_its_least_count_and_else_incomplete(self):
        self.put("log", [RULES, write(1, rel()), LOST])
        self.assertEqual(self.day().returncode, 2)
        self.assertEqual(self.day("--at-least", "0").returncode, 6)

    def test_a_bound_on_what_is_lost(self):
        self.put("log", [RULES, write(1, rel()), *[check(1)] * 99, {**LOST, "lost": 1}])
        self.assertEqual(self.day("--allow-unaudited", "1").returncode, 0)
        shutil.rmtree(self.path("days"))
        self.assertEqual(self.day("--allow-unaudited", "0.9").returncode, 6)
        self.assertEqual([self.run_import("events", "--from-empty", "--allow-unaudited", bound, "log")[0] for bound in ("0.9", "1", "101", "x")],
                         [6, 0, 3, 3])

    def test_the_page_of_a_log_without_checks_is_not_green(self):
        self.put("log", [RULES, write(1, rel()), LOST])
        self.imported("events", "--from-empty", "log")
        run = self.audit("--form", "html", "--out", "page.html")
        page = self.get("page.html")
        self.assertEqual(run.returncode, 6)
        self.assertNotIn('class="verdict clean"', page)
        self.assertIn('<span class="verdict incomplete">', page)
        self.assertIn("<li>lost in gaps 40: the recorder did not follow</li>", page)
        self.put("log", [RULES, write(1, rel())])
        self.imported("events", "--from-empty", "log")
        self.audit("--form", "html", "--out", "page.html")
        self.assertIn('<span class="verdict empty">empty: nothing was audited</span>', self.get("page.html"))

    def test_a_finding_that_does_not_fail_or_is_not_told_hides_no_loss_from_a_pipeline(self):
        log = [RULES, write(1, rel()), write(2, rel("2")), content(1, "v", token=1)]
        for more, status in (([LOST], 6), ([], 0)):
            self.put("log", [*log, *more])
            self.imported("events", "--from-empty", "log")
            run = self.audit()
            self.assertEqual((run.returncode, run.stdout.count('"effect":"none"')), (0, 1))
            self.put("known", run.stdout)
            self.put("ignore", [{"finding": "F3", "reason": "it is known", "until": "2099-12-31"}])
            for words in (["--fail-on", "possible"], ["--baseline", "known"], ["--ignore", "ignore"], ["--baseline", "known", "--fail-on", "none"]):
                self.assertEqual(self.audit(*words).returncode, status, (words, more))
            self.assertEqual(self.audit("--fail-on", "none").returncode, 1)
            self.assertEqual(self.audit("--fail-on", "possible", "--allow-unaudited", "99").returncode, 0)

    def test_every_form_says_what_was_lost(self):
        self.put("log", [RULES, write(1, rel()), check(1), LOST])
        self.imported("events", "--from-empty", "log")
        lost = "lost in gaps 40: the recorder did not follow"
        self.assertIn(lost, self.audit("--form", "text").stdout)
        self.assertEqual(json.loads(self.audit().stdout)["coverage"], {
            "state": "incomplete", "checks": 1, "whole": 1, "lost": {"the recorder did not follow": 40}})
        ran = json.loads(self.audit("--form", "sarif").stdout)["runs"][0]["invocations"][0]
        self.assertIn({"level": "warning", "message": {"text": lost}}, ran["toolExecutionNotifications"])
        suite = xml.etree.ElementTree.fromstring(self.audit("--form", "junit").stdout)[0]
        self.assertEqual((suite.get("skipped"), suite[1].find("skipped").get("message")), ("1", "checks: 1 whole, 40 lost in gaps"))
        self.assertIn("::warning title=new_enemy::" + lost, self.audit("--form", "annotations").stdout)
        self.assertEqual({self.audit("--form", form).returncode for form in ("text", "jsonl", "sarif", "junit", "annotations")}, {6})
        self.assertEqual(self.audit("--allow-unaudited", "98").returncode, 0)
        run = self.run_tool("lint", "trace.jsonl")
        self.assertEqual((run.returncode, run.stdout), (6, "nothing odd\nchecks: 1 whole, 40 lost in gaps\n%s\n" % lost))

    def test_one_odd_check_costs_no_day(self):
        """Contextual tuples, and a label that is saved again behind another commit."""
        self.put("log", [RULES, write(1, rel()), content(1, "v", token=1), CONTEXTUAL, write(2), content(2, "v", token=2),
                         check(2, False, token=2, version="v")])
        run = self.day()
        self.assertEqual((run.returncode, self.get("days/day000001/report.txt").splitlines()), (1, [
            "line 6: F10 wrong reply (log:7)", "entries 3", "checks: 1 whole, 2 in part, 1 not audited",
            "audited in part 1: %s; not looked for: F3, F5" % causes.LABEL_AGAIN, "audited in part 1: %s; not looked for: F2" % causes.LABEL_TWICE,
            "not audited 1: contextual tuples", "findings 1", "verdict dirty"]))
        self.put("log", [write(3), check(3, token=3)])
        self.assertEqual(self.day().returncode, 0)

    def test_a_tuple_that_has_no_form_costs_no_day(self):
        """What hangs on it is not audited, on later days too; what does not is."""
        unmapped = {"event": "unmapped", "reason": "caveat", "userset": ["doc", "1", "viewer"]}
        self.put("log", [RULES, write(1, rel(), rel("2", "parent", "1", "doc"), rel("3")), unmapped, check(1), check(1, goal=rel("3"))])
        run = self.day()
        self.assertEqual((run.returncode, run.stdout.splitlines()[1]), (6, "checks: 1 whole, 1 not audited"))
        self.put("log", [write(2), check(2, False, rel("2", "reader")), check(2, goal=rel("3", "reader")), check(2)])
        run = self.day()
        self.assertEqual((run.returncode, run.stdout.splitlines()[1]), (6, "checks: 1 whole, 2 not audited"))

    def test_faults_of_usage_are_told_by_the_day(self):
        self.put("log", [RULES, write(1, rel()), check(1)])
        run = self.run_process("day", "days", "events", "--skew", "x", "log")
        self.assertEqual(run.returncode, 3)
        self.assertIn("usage: ne import", run.stderr)
        run = self.run_tool("day", "--program", os.path.abspath(os.environ["NEW_ENEMY"]), "days", "events", "--from-empty", "--skip-unmapped", "log")
        self.assertEqual((run.returncode, run.stdout.splitlines()[-1]), (0, "verdict clean"))

    def test_a_window_of_too_many_changes_costs_one_check(self):
        log = [RULES, *[write(at, rel(user="u%d" % at)) for at in range(1, 1202)]]
        wide = check(0) | {"snapshot": None, "snapshot_between": [1, 1201]}
        self.put("log", [*log, wide, check(1201, goal=rel(user="u1"))])
        self.assertIn("not audited 1: %s\n" % causes.TOO_WIDE, self.imported("events", "--from-empty", "log"))
        self.assertEqual(self.audited(), "entries 1\nfindings 0\nverdict clean\n")


class Tables(Unaudited):
    """The table of ids belongs to what the next day goes on from."""

    def begin(self):
        self.put("log", [RULES, write(1, rel(user="anne"), remove=[rel(user="bob")]), check(1, goal=rel(user="anne"))])
        self.assertEqual(self.day().returncode, 0)
        self.put("next", [write(2), check(2, goal=rel(user="bob")), check(2, goal=rel(user="anne"))])

    def test_a_table_of_a_kept_day_that_is_gone(self):
        self.begin()
        table = self.path("days/day000001/ids.jsonl")
        os.rename(table, self.path("kept"))
        run = self.day(log="next")
        self.assertEqual((run.returncode, run.stdout), (2, ""))
        self.assertRegex(run.stderr, "work/ids.jsonl is not there or cut short: .*left goes with a table of [0-9]+ bytes")
        self.assertFalse(os.path.exists(self.path("days/day000002")))
        os.rename(self.path("kept"), table)
        self.assertIn("\nline 5: F10 wrong reply: check of doc:1#viewer@user:bob at snapshot", self.day(log="next").stdout)

    def test_a_table_of_a_kept_day_that_is_another(self):
        self.begin()
        table = "days/day000001/ids.jsonl"
        rows = self.rows(table)
        rows[0]["id"], rows[1]["id"] = rows[1]["id"], rows[0]["id"]
        self.put(table, "".join(json.dumps(row, separators=(",", ":")) + "\n" for row in rows))
        run = self.day(log="next")
        self.assertEqual(run.returncode, 2)
        self.assertIn("is another table than that of", run.stderr)

    def test_what_a_day_goes_on_from_that_is_gone(self):
        self.begin()
        os.remove(self.path("days/day000001/left"))
        run = self.day(log="next")
        self.assertEqual((run.returncode, run.stderr), (2, "day: the file `left` of day 1 is not there, and without it nothing goes on from that day\n"))

    def test_another_table_for_an_import_that_goes_on(self):
        self.put("log", [RULES, write(1, rel(user="anne")), check(1, goal=rel(user="anne"))])
        self.imported("events", "--from-empty", "--go-on", "left", "log")
        self.put("next", [write(2), check(2, goal=rel(user="bob"))])
        self.put("others", '{"kind":"user","type":"user","id":"bob","number":1,"service":"events"}\n')
        before = self.get("left")
        for table in ("others", "nothing"):
            status, said = self.run_import("events", "--go-on", "left", "--ids", table, "--trace", "other", "next")
            self.assertEqual(status, 2)
            self.assertIn("with --ids", said)
            self.assertEqual((os.path.exists(self.path("other")), self.get("left")), (False, before))
        self.imported("events", "--go-on", "left", "--trace", "other", "next")

    def test_two_imports_into_one_table(self):
        self.put("log", [RULES, write(1, rel(user="anne")), check(1, goal=rel(user="anne"))])
        with locked(self.path("ids.jsonl")):
            status, said = self.run_import("events", "--from-empty", "log")
            self.assertEqual((status, os.path.exists(self.path("trace.jsonl"))), (2, False))
            self.assertIn("another import adds to ids.jsonl", said)
        self.imported("events", "--from-empty", "log")
        self.assertFalse(os.path.exists(self.path("ids.jsonl.lock")))


class Chains(Unaudited):
    """The files of a recorder, which are a chain of hashes."""

    def chain(self, *files):
        """Files of a chain, with their texts; the last is not closed where it is None behind its lines."""
        before, names = None, []
        for number, lines in enumerate(files, 1):
            head = {"event": "log", "number": number, **({"before": before} if before else {}), "service": "openfga"}
            text = "".join(json.dumps(line, separators=(",", ":")) + "\n" for line in [head, *[line for line in lines if line]])
            before = hashlib.sha256(text.encode()).hexdigest()
            if lines[-1] is not None:
                text += json.dumps({"event": "closed", "count": text.count("\n"), "sha256": before}) + "\n"
            self.put("%06d.jsonl" % number, text)
            names.append("%06d.jsonl" % number)
        return names

    FIRST = [RULES, write(1, rel(), base=True), check(1)]

    def test_where_a_log_ends(self):
        names = self.chain(self.FIRST, [write(2), check(2)], [write(3), check(3)])
        self.assertIn("the log ends with file 3, which is closed\n", self.imported("events", *names))
        self.assertIn("the log ends with file 1, which is closed\n", self.imported("events", *names[:1]))
        self.put("report.txt", self.audited())
        self.assertEqual(json.loads(self.run_tool("report", "trace.jsonl", "report.txt").stdout)["coverage"]["last_file"], 1)
        names = self.chain(self.FIRST, [write(2), check(2), None])
        status, said = self.run_import("events", *names)
        self.assertEqual((status, self.run_import("events", "--allow-unaudited", "1", *names)[0]), (6, 0))
        self.assertIn("the log is open: its last file, 2, is not closed, or full, so more may follow\n", said)

    def test_a_chain_cannot_be_stepped_round(self):
        """What would make of a recorder's file a log of no chain, and an edited reply a clean one."""
        names = self.chain(self.FIRST)
        text = self.get(names[0]).replace('"reply":true', '"reply":false')
        head, rest = text.split("\n", 1)
        for made in (text, "\n" + text, " " + text, text.replace('"number":1', '"number":"1"'), rest, head.replace("log", "place") + "\n" + rest,
                     text + json.dumps(check(1)) + "\n", text + "\n"):
            self.put(names[0], made)
            self.assertEqual(self.run_import("events", names[0])[0], 2, made)

    def test_a_day_misses_files_that_vanish(self):
        names = self.chain(self.FIRST, [write(2), check(2)], [write(3), check(3)])
        run = self.run_tool("day", "--program", os.path.abspath(os.environ["NEW_ENEMY"]), "days", "events", names[0])
        self.assertEqual(run.returncode, 0, run.stderr)
        self.assertEqual(self.summary(1)["coverage"]["last_file"], 1)
        self.assertEqual(json.loads(self.get("days/day000001/left").splitlines()[0])["chain"][::2], [1, 4])
        run = self.run_tool("day", "--program", os.path.abspath(os.environ["NEW_ENEMY"]), "days", "events", names[0], names[2])
        self.assertEqual(run.returncode, 2)
        self.assertIn("file 2 of the log, between it and the last file of the day before, is missing", run.stderr)
        run = self.run_tool("day", "--program", os.path.abspath(os.environ["NEW_ENEMY"]), "days", "events", names[0])
        self.assertEqual((run.returncode, run.stderr), (8, "day: no file of the log is new and complete\n"))


class Told(Unaudited):
    """What the forms tell of a finding."""

    def test_one_story_a_reply(self):
        """A check that was wrong at each of 31 states, in which it may have been answered, is one reply."""
        log = [RULES, *[write(at, rel(user="u%d" % at)) for at in range(1, 61)]]
        for user in ("x", "y"):
            wide = check(0, goal=rel(user=user)) | {"snapshot_between": [10, 40]}
            del wide["snapshot"]
            log.append(wide)
        self.put("log", [*log, check(60, goal=rel(user="z"))])
        self.imported("events", "--from-empty", "log")
        self.assertEqual(self.audited().splitlines()[-2], "findings 63")
        sums, *rows = [json.loads(line) for line in self.audit().stdout.splitlines()]
        self.assertEqual((sums["sums"]["wrong"], sums["coverage"]["checks"], sums["told"], len(rows)), (3, 3, 3, 3))
        self.assertIn("not told: 60 of the same checks at other states", sums["sums"]["text"])
        self.audit("--form", "html", "--out", "page.html")
        self.assertEqual(self.get("page.html").count('<details class="story"'), 3)

    def test_times_of_a_request_and_of_the_change_that_it_ignored(self):
        at = "2024-05-06T09:%02d:00.5+01:00"
        self.put("log", [RULES, write(1, rel(), time=at % 1), content(1, "one", token=1, time=at % 2), write(2, remove=[rel()], time=at % 3),
                         content(2, "two", goal=rel(), token=2, time=at % 4) | {"reply": False, "version": None},
                         content(2, "three", goal=rel(user="b"), token=2, time=at % 4) | {"reply": False, "version": None},
                         check(1, token=2, time=at % 5)])
        self.imported("events", "--from-empty", "log")
        sums, row = [json.loads(line) for line in self.audit().stdout.splitlines()]
        self.assertEqual((row["finding"], row["effect"], row["time"], row["ignored_since"]),
                         ("F1", "changed", "2024-05-06T08:05:00.5Z", "2024-05-06T08:03:00.5Z"))
        self.assertEqual((sums["coverage"]["from"], sums["coverage"]["to"]), ("2024-05-06T08:02:00.5Z", "2024-05-06T08:05:00.5Z"))
        self.assertIn("asked 2024-05-06T08:05:00.5Z, ignored a change of 2024-05-06T08:03:00.5Z", self.audit("--form", "text").stdout)
        self.audit("--form", "html", "--out", "page.html")
        self.assertIn("log:7, asked 2024-05-06T08:05:00.5Z", self.get("page.html"))

    def test_evidence_with_a_space_behind_its_colon_is_evidence(self):
        self.put("log", [RULES, write(1, rel()), check(1)])
        self.imported("events", "--from-empty", "log")
        self.put("evidence", json.dumps({"line": 3, "steps": [{"yes": "doc:1#viewer@1"}]}) + "\n")
        said = self.run_tool("explain", "--evidence", "evidence", "trace.jsonl", "3").stdout
        self.assertNotIn("F7", said)

    def test_keys_of_strangers_say_nothing_of_checks(self):
        """A namespace line's `version` is no version that a check names."""
        self.put("trace.jsonl", '{"kind":"namespace","name":"doc","relations":[{"name":"viewer"}],"version":"7"}\n'
                 '{"kind":"check","goal":"doc:a#viewer@1","snapshot":1,"reply":false}\n')
        sums = json.loads(self.audit().stdout)
        self.assertEqual(sums["with_version"], 0)
        self.assertIn("no check names the content version", sums["note"])

    def test_a_carriage_return_within_a_line(self):
        lines = [json.dumps(one, separators=(",", ":")) for one in [RULES, write(1, rel()), *[check(1, time="2024-01-01T00:00:0%dZ" % at) for at in range(9)]]]
        self.put("log", "\n".join(lines[:-2] + [line.replace(',"time"', ',\r"time"') for line in lines[-2:]]) + "\n")
        self.imported("events", "--from-empty", "log")
        self.assertEqual(self.audited(), "entries 9\nfindings 0\nverdict clean\n")

    def test_texts_of_strangers_reach_no_terminal(self):
        self.put("log", [RULES, write(1, rel()), check(1, goal=rel("1", "gone\x1b[2J\u202e\x07"))])
        run = self.run_tool("import", "events", "--from-empty", "log")
        self.assertIn("gone\\u001b[2J\\u202e\\u0007", run.stderr)
        self.assertNotIn("\x1b", run.stderr)

    def test_a_fault_of_the_tool_itself_is_no_finding(self):
        code = "import sys; sys.path.insert(0, %r)\nfrom new_enemy_tools.commands.running import run\nrun(lambda: 1 // 0)" % TOOLS
        run = subprocess.run([sys.executable, "-c", code], capture_output=True, text=True, timeout=300)
        self.assertEqual((run.returncode, run.stderr.splitlines()[-1]), (7, "ZeroDivisionError: integer division or modulo by zero"))

    def test_a_page_a_day_and_one_over_all_days(self):
        self.put("log", [RULES, write(1, rel(), time="2024-05-06T08:00:00Z"), content(1, "one", token=1, time="2024-05-06T08:01:00Z"),
                         check(1, token=1, version="one", time="2024-05-06T08:02:00Z")])
        self.assertEqual(self.day("--html").returncode, 0)
        self.put("log", [write(2, remove=[rel()]), check(2, time="2024-05-07T08:02:00Z"), LOST])
        self.assertEqual(self.day("--html").returncode, 1)
        self.put("log", [write(3), check(3, False)])
        self.assertEqual(self.day().returncode, 0)
        self.put("log", [write(4), LOST])
        self.assertEqual(self.day("--html", "--at-least", "0").returncode, 6)
        page = self.get("days/day000002/report.html")
        self.assertIn('<span class="verdict dirty">dirty</span> of 1 check in <code>day 2</code>', page)
        self.assertEqual(page.count('<details class="story"'), 1)
        self.assertIn("user:a was let in: F10 wrong reply", page)
        listed = self.get("days/index.html")
        self.assertEqual([part.split('"')[0] for part in listed.split('<a href="')[1:]],
                         ["day000004/report.html", "day000002/report.html", "day000001/report.html"])
        self.assertEqual(re.findall('<span class="verdict ([a-z]+)">([a-z]+)<', listed), [
            ("incomplete", "incomplete"), ("incomplete", "clean"), ("dirty", "dirty"), ("clean", "clean")])
        self.assertIn("<td>2024-05-06T08:01:00Z</td>", listed)
        self.assertEqual(self.summary(1)["looked"], {"checks": 1, "with_version": 1, "with_token": 1, "with_unknown": 0})


class CutShort(Unaudited):
    """A trace that an import wrote is not taken for one that was written by hand where its last line, with the sum, is gone."""

    def test_a_trace_that_goes_on(self):
        self.put("log", [RULES, write(1, rel()), check(1)])
        self.imported("events", "--from-empty", "--go-on", "left", "--trace", "first", "log")
        self.assertEqual(self.audit_window("first").returncode, 0)
        self.put("next", [check(1), write(2), check(2), check(2)])
        self.imported("events", "--go-on", "left", "--state", "state", "--trace", "second", "next")
        self.assertEqual(self.audit_window("second", is_last=True).returncode, 0)
        self.put("cut", "".join(line + "\n" for line in self.get("second").splitlines()[:-1]))
        run = self.audit_window("cut", is_last=True)
        self.assertEqual((run.returncode, run.stdout.splitlines()[-1]), (6, "verdict incomplete"))
        self.assertIn("not known what was left out: the trace does not say what its import left out; import the logs again\n", run.stdout)

    def test_a_trace_of_many_blocks(self):
        self.put("log", [RULES, write(1, rel()), *[check(1)] * 6000])
        self.imported("events", "--from-empty", "log")
        self.assertGreater(os.path.getsize(self.path("trace.jsonl")), 2 * BLOCK)
        self.assertEqual(self.audit_window("trace.jsonl").returncode, 0)
        self.put("cut", "".join(line + "\n" for line in self.get("trace.jsonl").splitlines()[:-1]))
        run = self.audit_window("cut", is_first=True)
        self.assertEqual((run.returncode, run.stdout.splitlines()[-1]), (6, "verdict incomplete"))
