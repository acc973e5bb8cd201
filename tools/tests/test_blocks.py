"""The same answers by one process or many, with a quicker reader of JSON or without, in one block or many."""
import json
import re
import unittest
from random import Random
from unittest import mock

from new_enemy_tools.importing import causes, located, spool
from tests import openfga_service
from tests.test_round_trips import OpenFga, SpiceDb
from tests.test_trace_maker import RULES, CoreCase, check, content, rel, write

PIECES = ['{', '}', '[', ']', ':', ',', '"a"', '"b"', '"a":1', '"b":"x"', '"\\u0041"', '"\\ud800"', '"a" :2', ' ', '1.0', '1e5', '-0',
          '12345678901234567890', '123456789012345678901234567890', 'NaN', 'true', 'null', '"é"', '"\\""', '\t', '"a:b"', '{}']
GOOD = ['{"a":1,"b":[true,null,"x"]}', '{"a": 1, "b": {"c": "d:e"}}', '{"a":1,"a":2}', '{"a": 1, "a": 2}', '{"a" : 1, "a": 1}',
        '{"a":123456789012345678901234567890}', '{"a": 1.50}', '{"a":-0}', '{"a": "\\u00e9"}', '{"a":NaN}', '{"a":"\\ud800"}',
        '{"a":' * 130 + "1" + "}" * 130, "[" * 2000, '{"a": 18446744073709551616}', '{"a":1e400}', '{"k":{"a": 1, "a": 2}}']


def read(text):
    """The value of a line and how its numbers are kept, or why there is none."""
    try:
        value = located.line_value(text.encode("utf-8", "surrogatepass"))
        return value, json.dumps(value), str(value)
    except ValueError as fault:
        return "not JSON" if isinstance(fault, json.JSONDecodeError) else str(fault)


class Readers(CoreCase):
    @unittest.skipIf(located.orjson is None, "there is one reader alone")
    def test_lines_by_both_readers(self):
        random, kinds = Random(8), set()
        texts = GOOD + ["".join(random.choice(PIECES) for _ in range(random.randint(1, 9))) for _ in range(4000)]
        for number in range(3000):
            value = {random.choice("abc"): random.choice([1, "x", [1, {"a": "b"}], {"a": {"b": 2.5}}, None]) for _ in range(3)}
            text = json.dumps(value, separators=random.choice([(",", ":"), (", ", ": "), (" ,", " : ")]))
            texts.append(text.replace('"b"', '"a"') if number % 3 == 0 else text)
        for text in texts:
            quick = read(text)
            with mock.patch.object(located, "orjson", None):
                self.assertEqual(read(text), quick, text)
            kinds.add(type(quick))
        self.assertEqual(len(kinds), 2)

    def test_what_is_no_text(self):
        self.put("log", b'{"event":"rules","namespaces":[]}\n\xff\xfe\n{"a":1}\n')
        self.assertEqual(self.refused("events", "--from-empty", "log")[0], "log:2: the bytes are no UTF-8")


class Pipes(CoreCase):
    def test_a_log_that_comes_by_a_pipe(self):
        self.given(RULES, write(1, rel()), check(1))
        for text in (self.get("log"), "[" + self.get("log").replace("}\n{", "}\n,{") + "]"):
            run = self.run_process("import", "events", "--from-empty", "/dev/stdin", stdin=text)
            self.assertIn("commits 1, checks 1" if text[0] == "{" else "`event` is none of", run.stderr)


class BlockCase(CoreCase):
    def outcome(self, words, jobs, size):
        for name in ("trace.jsonl", "ids.jsonl"):
            self.put(name, "") if name == "ids.jsonl" else None
        with mock.patch.object(located, "BLOCK", size), mock.patch.object(spool, "BATCH", max(2, size // 100)):
            status, said = self.run_import(*words, "--jobs", str(jobs))
        return status, said, self.get("trace.jsonl") if status == 0 else None, self.get("ids.jsonl")


class Blocks(BlockCase):
    def same(self, *words):
        first = self.outcome(words, 1, 1 << 20)
        for jobs, size in ((1, 700), (2, 3000)):
            self.assertEqual(self.outcome(words, jobs, size), first)
        return first

    def test_events(self):
        lines = [RULES, write(1, rel(user="a"), base=True), write(1, rel("2", user="b"), base=True)]
        for at in range(2, 60):
            lines += [write(at, rel(str(at % 7), user="u %d" % at)), check(at, False, goal=rel("x", user="@%d" % at), token=at - 1),
                      content(at, "v%d" % at if at % 2 else None, goal=rel(str(at % 7), user="u %d" % at), token=at)]
        self.given(*lines)
        self.assertEqual(self.same("events", "log")[0], 0)
        self.given(*lines, check(5) | {"verison": "x"}, write(3))
        self.assertEqual(self.same("events", "log")[1].splitlines()[-3:], [
            'log:178: unknown key "verison"; is "version" meant?',
            "log:179: its revision 3 is not later than that of log:175, 59", "refused 2"])

    def test_a_version_that_is_saved_behind_its_check(self):
        """It may have been saved before the log, too; that does not hang on where blocks end."""
        goal = rel(user="a")
        named = [check(2, goal=goal, token=2, version=label) for label in ("a", "late")]
        self.given(RULES, write(1, goal, base=True), write(2, rel("2")), content(2, "a", goal=goal, token=2), *[named[0]] * 60,
                   named[1], named[0], content(2, "late", goal=goal, token=2), named[1], *[named[0]] * 20)
        status, said, _, _ = self.same("events", "log")
        self.assertEqual(status, 6)
        self.assertIn("checks: 84 whole, 1 in part", said)
        self.assertIn("verdict clean", self.audited())

    def test_a_version_that_is_saved_again_twice_in_a_later_block(self):
        goal = rel(user="a")
        named = check(2, goal=goal, token=2, version="v")
        self.given(RULES, write(1, goal), write(2, rel("2")), content(2, "v", goal=goal, token=2), *[named] * 60,
                   *[content(2, "v", goal=goal, token=1)] * 2, named, write(3, rel("3")), *[named] * 20)
        status, said, _, _ = self.same("events", "--from-empty", "log")
        self.assertEqual((status, said.splitlines()[2]), (6, "checks: 61 whole, 23 in part"))

    def test_services(self):
        for kind, more in ((OpenFga, {}), (SpiceDb, {})):
            service = kind(Random("blocks"))
            log, states = [], []
            for at in range(1, 10):
                log.append(service.write(at))
                states.append((at, service.state()))
                for _ in range(10):
                    answer, line_for = service.check(*service.random.choice(states))
                    log.append(line_for(answer))
                log.append({"error": {"code": at % 3 + 1}})
            self.put("rules", service.rules)
            self.put("log", log)
            status, said, _, _ = self.same(*service.words)
            struck = set(re.findall("^not audited [0-9]+: (.*)$", said, re.M))
            self.assertEqual((status, said.splitlines()[0]), (6 if struck else 0, "passed over 3: failed request (1)"))
            self.assertEqual(struck - {causes.CIRCLE_TAKEN_AWAY}, set())
            log.insert(5, {"hello": "you"})
            self.put("log", log)
            self.assertIn("log:6: neither", self.same(*service.words)[1])

    def test_what_is_left_out(self):
        service = OpenFga(Random("left out in blocks"))
        openfga_service.allow(service.model, condition="weekday")
        log, states = [], []
        for at in range(1, 6):
            page = service.write(at)
            for change in page["changes"][::5]:
                change["tuple_key"]["condition"] = {"name": "weekday"}
            log.append(page)
            states.append((at, service.state()))
            log += [line_for(answer) for answer, line_for in (service.check(*service.random.choice(states)) for _ in range(20))]
        self.put("rules", json.dumps(service.model))
        self.put("log", log)
        self.assertIn("left out", self.same(*service.words)[1])
