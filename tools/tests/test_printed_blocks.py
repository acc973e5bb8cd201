"""Logs as servers print them, of a world that knows each reply: read by processes and shapes as by one process in full."""
import json
import os
import re
import subprocess
import sys
from itertools import islice
from random import Random
from unittest import mock

from new_enemy_tools.importing import block, carried, feed, located, printed, trace_maker
from new_enemy_tools.importing.carried import Blocks, Carrying, step_in
from new_enemy_tools.importing.printed import steps_of
from new_enemy_tools.importing.spool import Facts
from tests.support import TOOLS, Case
from tests.test_blocks import BlockCase

sys.path.append(os.path.join(TOOLS, "dev"))

from speeding.printed_logs import FORMS, OpenFga  # noqa: E402
from speeding.world import Check, World  # noqa: E402

EVENTS = 160


class PrintedCase(BlockCase):
    def log_of(self, name, seed=1, events=EVENTS, wrong=None):
        """The lines of a form; with `wrong` the reply of that check, counted from 0, is turned round."""
        form, checks, lines = FORMS[name](seed), 0, []
        lines += form.begin()
        for event in islice(World(seed).events(), events):
            if isinstance(event, Check) and not event.is_content:
                event = event._replace(reply=event.reply != (checks == wrong))
                checks += 1
            lines += form.lines(event)
        self.put("rules", form.rules())
        self.form = form
        return lines

    def texts(self, lines):
        return [json.dumps(line, separators=(",", ":")) for line in lines]

    def compare(self, texts):
        """What an import says and writes, the same by shapes and in full, by one process and many, and in small blocks."""
        self.put("log", "".join(text + "\n" for text in texts))
        words = [*self.form.words(), "log"]
        with mock.patch.object(block, "MOST", 0), mock.patch.object(Blocks, "read", in_turn), mock.patch.object(
                trace_maker.Core, "_taken_ahead", lambda *_: None):
            wanted = self.outcome(words, 1, 1 << 20)
        for jobs, size in ((1, 1 << 20), (1, 2000), (3, 6000)):
            self.assertEqual(self.outcome(words, jobs, size), wanted)
        return wanted


def in_turn(blocks):
    """All blocks by one process, whose requests wait in it."""
    yield from blocks.source.blocks()
    blocks.left = blocks.joining.left()


class Logs(PrintedCase):
    def test_each_form_is_clean_and_one_wrong_reply_is_found(self):
        for name in FORMS:
            for wrong in None, 100:
                status, said, trace, _ = self.compare(self.texts(self.log_of(name, wrong=wrong)))
                self.assertEqual(status, 0, said)
                found = re.findall("F[0-9]+ .*", self.audited())
                self.assertEqual(found, ["F10 wrong reply"] if wrong else [], name)
                checks = sum(line.startswith('{"kind":"check"') for line in trace.splitlines())
                self.assertEqual(checks, sum(isinstance(one, Check) and not one.is_content for one in islice(World(1).events(), EVENTS)))

    def test_calls_that_wrote_beside_the_changes(self):
        """As OpenFGA prints them; what is left of a block without them is still one."""
        lines = []
        for line in self.log_of("openfga_log", wrong=100):
            sides = {}
            for change in line.get("changes", ()):
                side = "writes" if change["operation"].endswith("WRITE") else "deletes"
                sides.setdefault(side, {"tuple_keys": []})["tuple_keys"].append(change["tuple_key"])
            lines += [*([self.form.printed("Write", sides, {})] if sides else []), line]
        with mock.patch.object(feed, "_add_block", wraps=feed._add_block) as blocks:
            status, said, _, _ = self.compare(self.texts(lines))
        self.assertEqual((status, "other call (Write)" in said, blocks.called), (0, True, True))
        self.assertEqual(re.findall("F[0-9]+ .*", self.audited()), ["F10 wrong reply"])

    def test_hardly_a_line_is_read_in_full(self):
        """But those that teach a shape."""
        for name in set(FORMS) - {"events_of_clocks"}:
            texts = self.texts(self.log_of(name, events=3000))
            self.put("log", "".join(text + "\n" for text in texts))
            self.put("ids.jsonl", "")
            with mock.patch.object(located, "line_value", side_effect=located.line_value) as read:
                self.imported(*self.form.words(), "--jobs", "1", "log")
            self.assertLess(read.call_count, 150, name)

    def test_odd_lines_among_printed_ones(self):
        for name in FORMS:
            for seed in 1, 2:
                random, texts = Random("%s %d" % (name, seed)), self.texts(self.log_of(name, seed))
                for _ in range(6):
                    place = random.randrange(1, len(texts))
                    text, at = texts[place], random.randrange(len(texts[place]))
                    texts[place] = random.choice([
                        text[:at] + random.choice('"}x \\1,\t') + text[at + random.randint(0, 1):], "", " %s\t\r" % text,
                        text.replace('":', '" :', 1), text.replace("requestID", "requestId"), text.replace('"d', '"\\u0064'),
                        text.replace("finished call", "finished"), text.replace('"allowed":true', '"allowed":1'), text.replace("null", "{}"),
                        text.replace("team-", "*"), text.replace('"u-', '"*'), text.replace("member", "*")])
                self.compare(texts)


class InSequence(PrintedCase):
    """Lines whose sequence rises are taken as they stand; these are the answers of sorting them."""

    def sorted_outcome(self, words, jobs, size):
        def note(facts, sequence):
            facts.is_rising = False
        with mock.patch.object(Facts, "note_sequence", note):
            return self.outcome(words, jobs, size)

    def test_files_in_any_order_and_interleaved(self):
        statuses = []
        for seed in range(4):
            random, texts = Random("sequence %d" % seed), self.texts(self.log_of("events_in_sequence", seed))
            if seed % 4 == 1:
                random.shuffle(texts)
            elif seed % 4 == 2:
                # one stands twice, and one has none, so that numbers are missing
                texts[70] = texts[70].replace('"sequence":70', '"sequence":69')
                texts[90] = texts[90].replace('"sequence":90,', "") if seed else texts[90]
            elif seed % 4 == 3:
                texts[30] = texts[30].replace('"sequence":30', '"sequence":30.5')
            halves = [texts[:100], texts[100:]] if seed % 2 else [texts[::2], texts[1::2]]
            for parts in ([texts], halves, halves[::-1]):
                names = ["log%d" % number for number in range(len(parts))]
                for name, part in zip(names, parts):
                    self.put(name, "".join(text + "\n" for text in part))
                words = [*self.form.words(), *names]
                wanted = self.sorted_outcome(words, 1, 1 << 20)
                for jobs, size in ((1, 1 << 20), (2, 3000)):
                    self.assertEqual(self.outcome(words, jobs, size), wanted)
                statuses.append(wanted[0])
        self.assertEqual(set(statuses), {0, 2, 6})


class Joined(PrintedCase):
    def test_calls_that_are_under_way_at_once(self):
        """Their lines lie apart, over many blocks; some lack a line, and some ids stand twice."""
        for seed in range(3):
            random, lines = Random("joined %d" % seed), self.log_of("spicedb_log", seed)
            calls = [lines[at:at + 3] for at in range(0, len(lines), 3)]
            if seed % 3 == 2:
                calls = [[one for one in call if random.random() < 0.97] for call in calls]
            if seed % 2:
                calls[50] = [{**line, "requestID": calls[40][0]["requestID"]} for line in calls[50]]
            mixed, waiting = [], []
            while calls or waiting:
                if calls and len(waiting) < random.randint(1, 9):
                    waiting.append(calls.pop(0))
                    continue
                call = random.choice(waiting)
                mixed += call[:1]
                del call[:1]
                waiting = [call for call in waiting if call]
            self.compare(self.texts(mixed))

    def test_what_letters_say_of_a_line(self):
        for line in self.log_of("spicedb_log"):
            for text in json.dumps(line), json.dumps(line, separators=(",", ":")):
                self.assertEqual([step_in(text.encode())], steps_of(line))
        for more in ({"grpc.method_type": "server_stream"}, {"grpc.service": "grpc.health.v1.Health"}, {"message": "finished"}, {"requestID": 7}):
            for line in self.log_of("spicedb_log")[:3]:
                found = step_in(json.dumps({**line, **more}).encode())
                self.assertEqual([] if found is None else [found], steps_of({**line, **more}))

    def test_letters_that_lie(self):
        """Then one process reads the rest, and the answers are the same."""
        lines = self.log_of("spicedb_log")
        lines[200] = {**lines[200], "extra": {"requestID": "another"}}
        texts = self.texts(lines)
        texts[200] = '{"extra":{"requestID":"another"},' + texts[200][1:].replace(',"extra":{"requestID":"another"}', "")
        self.compare(texts)

    def test_a_new_schema_among_them(self):
        lines = self.log_of("spicedb_log")
        schema = {"schema": self.form.rules().replace("permission owner", "permission other = owner_of\n  permission owner")}
        change = list(self.form.asked("SchemaService", "WriteSchema", schema, {"written_at": self.form.token(10_000)}))
        again = list(self.form.check(Check(10_000, ("document", "report-2024-000001", "other", "user", "nobody", None), False)))
        for texts in (self.texts(lines + change + again), self.texts(change[:2] + lines)):
            for pools in 1, 8:
                with mock.patch.object(carried, "POOLS", pools):
                    self.compare(texts)

    def test_what_blocks_leave(self):
        lines = self.log_of("spicedb_log")[:30]
        data = "".join(text + "\n" for text in self.texts(lines[:1] + lines[3:])).encode()
        self.put("log", data)
        with mock.patch.object(located, "BLOCK", 700):
            carrying, places = Carrying(), list(located.Source(self.path("log")).placed())
            found = list(carrying.carried(places))
        self.assertGreater(len(found), 5)
        self.assertEqual(carrying.left(), [(1, "WriteRelationships")])
        self.assertTrue(any(one.waiting for one in found))
        with mock.patch.object(printed, "ANSWERED", 3):
            carrying = Carrying()
            list(carrying.carried(places))
            self.assertLessEqual(len(carrying.answered), 3)


class Rules(PrintedCase):
    def test_rules_whose_key_is_written_in_another_way(self):
        for name, line in (("events", {"event": "rules", "namespaces": []}), ("openfga", {"authorization_model": json.loads(OpenFga(1).rules())})):
            texts = self.texts(self.log_of(name))
            text = json.dumps(line).replace('"rules"', '"r\\u0075les"').replace('"authorization_model"', '"authorization\\u005fmodel"')
            self.compare([*texts[:90], text, *texts[90:]])

    def test_processes_begin_anew_behind_a_model(self):
        """So that a log which begins with its model is read by all of them."""
        lines = self.log_of("openfga")
        named = {"authorization_model": json.loads(OpenFga(1).rules())}
        pools = []
        for texts, count in ((self.texts(lines), 1), (self.texts([named, *lines]), 2), (self.texts(lines[:100] + [named] + lines[100:]), 2)):
            self.compare(texts)
            self.put("log", "".join(text + "\n" for text in texts))
            pools.clear()

            def noted(*words):
                pools.append(words)
                return shared(*words)
            shared = carried.shared
            with mock.patch.object(carried, "shared", noted), mock.patch.object(located, "BLOCK", 4000):
                self.run_import(*self.form.words(), "--jobs", "1", "log")
            self.assertEqual(len(pools), count)


class Measuring(Case):
    def measured(self, *tools):
        words = [os.path.join(TOOLS, "dev", "import_speed"), "--megabytes", "0.02", "--form", "events", "--form", "spicedb_log", "--folder", self.room]
        return subprocess.run([*words, *tools], capture_output=True, text=True, timeout=300)

    def test_two_folders_of_tools(self):
        run = self.measured(TOOLS, TOOLS)
        self.assertEqual((run.returncode, run.stderr), (0, ""))
        self.assertEqual(run.stdout.count("status 0, the same\n"), 4, run.stdout)

    def test_what_writes_something_else_is_told(self):
        os.mkdir(self.path("other"))
        with open(self.path("other/ne"), "w", encoding="utf-8") as file:
            file.write("#!/bin/sh\necho other >&2\n")
        os.chmod(self.path("other/ne"), 0o755)
        run = self.measured(TOOLS, self.path("other"))
        self.assertEqual((run.returncode, run.stdout.count("NOT THE SAME")), (1, 2), run.stdout)
