"""Files that are not what a service writes: refused, and never a fault of the importer itself."""
import json
import os
import unittest
from random import Random

from new_enemy_tools import keys
from new_enemy_tools.importing import times, zedtokens
from new_enemy_tools.importing.located import Source
from tests.support import EXAMPLES, Case

STRANGE = [None, True, 0, -1, 1.5, "", "x", "a:b", "a:b#c", "*", [], [[]], {}, {"a": 1}, [None], {"token": []}]
ROUNDS = 120


def mutated_log(random, log):
    """The log with one of its lines changed."""
    place = random.randrange(len(log))
    return log[:place] + [mutated(random, log[place])] + log[place + 1:]


def mutated(random, value):
    """The value with one place of it changed, taken away or doubled."""
    if isinstance(value, dict) and value and random.random() < 0.85:
        key = random.choice(list(value))
        if random.random() < 0.1:
            return {one: inner for one, inner in value.items() if one != key}
        return {**value, key: mutated(random, value[key])}
    if isinstance(value, list) and value and random.random() < 0.85:
        place = random.randrange(len(value))
        if random.random() < 0.1:
            return value + [value[place]]
        return value[:place] + [mutated(random, value[place])] + value[place + 1:]
    return random.choice(STRANGE)


class Kept(unittest.TestCase):
    """What is kept of what was read has a bound, also where a stranger's text is as long as a line."""

    def test_a_key_a_time_or_a_token_is_kept_only_where_it_is_short(self):
        for read, kept, short in ((lambda text: keys.near(text, frozenset(("version",))), keys._near, "verison"),
                                  (times.nanoseconds, times._of_text, "2024-05-06T07:08:09.123456789+00:00"),
                                  (zedtokens.read_revision, zedtokens._known, "1700000000000000000.0000000001")):
            kept.cache_clear()
            found = read(short)
            self.assertIsNotNone(found)
            self.assertEqual([read("%s%d" % ("x" * (1 << 16), number)) for number in range(9)], [None] * 9)
            self.assertEqual((read(short), kept.cache_info().currsize), (found, 1))


class CutShort(Case):
    def test_a_log_that_is_cut_short_while_it_is_read_is_refused_wherever_its_lines_end(self):
        """As by `copytruncate` of logrotate. Of these lines the reader has no half when the first block ends."""
        line = b'{"x":"%s"}\n' % (b"a" * (8192 - 9))
        path = self.put("log", line * 400)
        blocks = Source(path).placed()
        next(blocks)
        os.truncate(path, 0)
        with self.assertRaisesRegex(OSError, "cut short while it was read"):
            list(blocks)


class StrangeInput(Case):
    def taken(self, *words):
        status, said = self.run_import(*words)
        self.assertIn(status, (0, 2, 6), said)
        for name in ("trace.jsonl", "ids.jsonl"):
            if os.path.exists(self.path(name)):
                self.assertIn(status, (0, 6))
                os.remove(self.path(name))
        if status == 2:
            self.assertRegex(said, r"(?m)^\S+:[0-9]+: ")

    def read(self, *names):
        with open(os.path.join(EXAMPLES, *names), encoding="utf-8") as file:
            return file.read()

    def test_openfga(self):
        random = Random(1)
        model = json.loads(self.read("openfga", "model.json"))
        log = [json.loads(line) for line in self.read("openfga", "log.jsonl").splitlines()]
        for number in range(ROUNDS):
            self.put("model", json.dumps(mutated(random, model) if number % 4 else model))
            self.put("log", mutated_log(random, log))
            self.taken("openfga", "--model", "model", "--from-empty", *(["--refuse-unmapped"] * (number % 3 == 0)), "log")

    def test_spicedb(self):
        random = Random(2)
        schema = self.read("spicedb", "schema.zed")
        base = self.read("spicedb", "relationships.txt")
        log = [json.loads(line) for line in self.read("spicedb", "log.jsonl").splitlines()]
        for number in range(ROUNDS):
            at = random.randrange(len(schema))
            cut = random.choice(["", "{", "}", "(", ")", "->", "+", "-", "with", "\"", "/*", "relation", "#", "*", ".all"])
            self.put("schema", schema[:at] + cut + schema[at + random.randrange(3):] if number % 2 else schema)
            at = random.randrange(len(base))
            self.put("base", base[:at] + random.choice("#@:[]*\t x") + base[at + 1:] if number % 5 == 0 else base)
            self.put("log", mutated_log(random, log))
            self.taken("spicedb", "--schema", "schema", "--base", "base", "--base-at", "1714986000000000000",
                       *(["--refuse-unmapped"] * (number % 3 == 0)), "log")

    def test_calls_of_openfga(self):
        random = Random(4)
        language = self.read("openfga", "model.fga")
        key = {"user": "user:anne", "relation": "viewer", "object": "document:1"}
        model = json.loads(self.read("openfga", "model.json"))
        log = [json.loads(self.read("openfga", "log.jsonl").splitlines()[0]),
               {"request": {"tuple_key": key}, "response": {"allowed": False}, "snapshot": 3, "token": 1, "version": "v"},
               {"request": {"tuple_key": key}, "response": {"allowed": False}, "snapshot_between": [0, 3]},
               {"request": {"checks": [{"tuple_key": key, "correlation_id": "1"}]}, "response": {"result": {"1": {"allowed": False}}},
                "snapshot": "2024-05-06T09:00:00.100Z"},
               {"request": {"type": "document", "relation": "viewer", "user": "user:x"}, "response": {"objects": ["document:1"]}, "snapshot": 1},
               {"request": {"object": {"type": "document", "id": "1"}, "relation": "viewer", "user_filters": [{}]},
                "response": {"users": [{"object": {"type": "user", "id": "a"}}, {"wildcard": {"type": "user"}}]}, "snapshot": 1},
               {"authorization_model": model}, {"request": {"tuple_key": key}, "error": {"code": 4}, "status": 500, "method": "a/Check"},
               {"request": {"tuple_key": key}, "response": {"allowed": False}, "snapshot": 3, "newest": True, "content": {}}]
        for number in range(ROUNDS):
            at = random.randrange(len(language))
            cut = random.choice(["", "[", "]", "(", ")", ":", "*", "#", " but not ", " or ", "\n", "define", "type", "{", "with"])
            text = language[:at] + cut + language[at + random.randrange(3):] if number % 2 else language
            store = "model: |\n%s\ntuples:\n  - user: user:a\n    relation: owner\n    object: document:1\n" % (
                "\n".join("  " + line for line in text.splitlines()))
            at = random.randrange(len(store))
            self.put("store.yaml", store[:at] + random.choice("|>-:\t'\"#[& \n") + store[at:] if number % 3 else store)
            self.put("model.fga", text)
            self.put("log", mutated_log(random, mutated_log(random, log)))
            rules = ["--model", "store.yaml", "--base", "store.yaml", "--base-at", "0"] if number % 3 == 0 else [
                "--model", "model.fga", "--from-empty"]
            self.taken("openfga", *rules, *(["--refuse-unmapped"] * (number % 4 == 0)), "log")

    def test_calls_of_spicedb(self):
        random = Random(5)
        schema = self.read("spicedb", "schema.zed")
        log = [json.loads(line) for line in self.read("spicedb", "postgres_log.jsonl").splitlines()]
        at, page = log[0]["response"]["checkedAt"], log[0]["request"]["resource"]
        subject = {"object": {"objectType": "wiki/user", "objectId": "fred"}}
        has = "LOOKUP_PERMISSIONSHIP_HAS_PERMISSION"
        log += [{"request": {"items": []}, "response": {"checkedAt": at, "pairs": [
                    {"request": log[0]["request"], "item": {"permissionship": "PERMISSIONSHIP_NO_PERMISSION"}}, {"request": {}, "error": {"code": 1}}]}},
                {"request": {"resourceObjectType": "wiki/page", "permission": "read", "subject": subject},
                 "response": [{"lookedUpAt": at, "resourceObjectId": "1", "permissionship": has}]},
                {"request": {"resource": page, "permission": "read", "subjectObjectType": "wiki/user"},
                 "response": {"result": {"lookedUpAt": at, "subject": {"subjectObjectId": "tom", "permissionship": has}}}},
                {"request": {"schema": schema}, "response": {"writtenAt": log[2]["result"]["changesThrough"]}},
                {"specversion": "1.0", "type": "x/CheckPermission", "time": "2024-01-01T00:00:00Z", "data": log[0]}]
        for number in range(ROUNDS):
            text = "schema: |\n%s\nrelationships: |\n  wiki/team:a#manager@wiki/user:b\n" % "\n".join("  " + line for line in schema.splitlines())
            at = random.randrange(len(text))
            self.put("valid.yaml", text[:at] + random.choice("|>-:\t'\"#[& \n+*") + text[at:] if number % 2 else text)
            self.put("log", mutated_log(random, mutated_log(random, log)))
            self.taken("spicedb", "--schema", "valid.yaml", "--base", "valid.yaml", "--base-at", "Gg4KDENPUUZFQUFvQVE9PQ==",
                       *(["--refuse-unmapped"] * (number % 3 == 0)), "log")

    def test_events(self):
        random = Random(3)
        events = [
            {"event": "rules", "namespaces": [{"name": "doc", "relations": [{"name": "v"}, {"name": "w", "rewrite": {"union": [
                {"computed": "v"}, {"exclusion": {"base": {"this": {}}, "subtract": {"tuple_to": {
                    "tupleset": "v", "computed": "v"}}}}]}}]}]},
            {"event": "write", "revision": 1, "add": [["doc", "1", "v", "user", "a"]], "remove": [["doc", "1", "v", "doc", "2", "v"]]},
            {"event": "content", "goal": ["doc", "1", "v", "user", "a"], "snapshot": 1, "reply": True, "token": 1, "version": "x"},
            {"event": "rules", "revision": 2, "namespaces": [{"name": "doc", "relations": [{"name": "v"}, {"name": "w"}]}]},
            {"event": "check", "goal": ["doc", "1", "w", "user", "a"], "snapshot": 2, "reply": False, "version": "x",
             "time": "2024-01-01T00:00:00Z", "sequence": 4, "clock": "a", "file": "f", "line": 3}]
        for number in range(ROUNDS):
            self.put("log", mutated_log(random, mutated_log(random, events)))
            self.taken("events", "--from-empty", *(["--skew", "5"] * (number % 3 == 0)),
                       *(["--refuse-unmapped"] * (number % 4 == 0)), "log")
