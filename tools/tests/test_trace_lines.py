"""Each quick look at a line, by its bytes, says what a reader of JSON says, or leaves the line to it; and no other module looks at their form."""
import glob
import json
import os
import re
from collections import Counter
from random import Random
from typing import NamedTuple

from new_enemy_tools import strictjson
from new_enemy_tools.parting.placing import line_of, object_of
from new_enemy_tools.trace import Refusal, Trace
from new_enemy_tools.trace_lines import (OBJECTS, RECORDS, OtherForm, check_lines, check_start, commit_line, counted_in, entry_line, ids_in, is_imported,
                                         kind_of, look_text, may_issue, quick_commit, quick_entry, quick_fields, quick_touch, refuse_other_keys, snapshots_in,
                                         source_keys, strata_in, times_of, within_quotes)
from new_enemy_tools.windowing.beginning import Keep, begun
from new_enemy_tools.windowing.carries import carry_of, declaration
from new_enemy_tools.windowing.state import NOTHING, State
from tests.support import TOOLS, Case
from tests.test_trace_maker import RULES, check, content, rel, write
from tests.test_unaudited import BEGUN

ROUNDS = 4000
PLAIN = ["a", "", "é", "kind", "at", "again", "a:1"]
TEXT = ["a", "", "é", "\u2028", "kind", "at", "\\", '"', "again", "x" * 130, "a:1"]
GOALS = ["doc:a#viewer@1", "doc:é#viewer@18446744073709551615", "doc:a#viewer@01", "doc:a#viewer@group:g#member", "n_1:~2#n_3@4", "doc:a\\u0062#viewer@1"]
TUPLES = [*GOALS, "doc:a#viewer@group:g#...", "doc:\"#viewer@1", "doc:a#viewer@2"]
ZOOKIES = ["z1-0000000000000001", "z2-c0000000000000001", "z3", None]
NUMBERS = [0, 1, 7, 2 ** 63, 2 ** 64 - 1, 2 ** 64, -1, 1.5, "1", None]
KINDS = ("check", "content", "commit", "namespace")


class Pools(NamedTuple):
    """What the values of a line are chosen from: in a plain line such as importers write, in a wild one anything."""

    texts: list
    goals: list
    tuples: list
    zookies: list
    numbers: list
    replies: list


WILD = Pools(TEXT, GOALS, TUPLES, ZOOKIES, NUMBERS, [True, False, None])
TAME = Pools(PLAIN, GOALS[:1] + GOALS[4:5], GOALS[:1] + TUPLES[6:7] + TUPLES[8:], ZOOKIES[:2], NUMBERS[:3], [True, False])


def entry(random, kind, pools):
    row = {"kind": kind, "goal": random.choice(pools.goals), "snapshot": random.choice(pools.numbers), "reply": random.choice(pools.replies)}
    if random.random() < 0.5:
        row["zookie"] = random.choice(pools.zookies)
    if kind == "check" and random.random() < 0.5 or kind == "content" and row["reply"]:
        row["version"] = random.choice([text for text in pools.texts if text or pools is WILD])
    return row


def commit(random, pools):
    row = {"kind": "commit", "at": random.choice(pools.numbers)}
    for key in ("add", "remove"):
        if random.random() < 0.6:
            row[key] = random.sample(pools.tuples, random.choice([1, 1, 2] if pools is TAME else [0, 1, 1, 2]))
    return row


def line(random):
    """A line of a kind of a trace; half of all have something that importers do not write. Its text."""
    is_wild = random.random() < 0.5
    pools = WILD if is_wild else TAME
    kind = random.choice(KINDS[:3])
    row = commit(random, pools) if kind == "commit" else entry(random, kind, pools)
    for key in ("revision", "from", "time", "part", "named"):
        if random.random() < 0.3:
            row[key] = random.choice(pools.texts)
    if random.random() < 0.15:
        row["again"] = random.choice([True, False, 1]) if is_wild else True
    items = list(row.items())
    if not is_wild:
        return ("{%s}" % ",".join("%s:%s" % (json.dumps(key), json.dumps(value, ensure_ascii=False, separators=(",", ":"))) for key, value in items)).encode()
    return wilder(random, items).encode()


def wilder(random, items):
    """Keys and values as a text, with other keys, orders, spaces, escapes and ends."""
    if random.random() < 0.3:
        items.append((random.choice(["ids", "strata", "coverage", "odd", "version", "kind2"]), random.choice(
            [{"rows": 1}, [["doc", "viewer", 1]], {"checks": 1}, {"kind": "check", "at": 3}, "x", None, {"again": True}])))
    if random.random() < 0.2:
        random.shuffle(items)
    if random.random() < 0.2:
        items.insert(random.randrange(len(items) + 1), random.choice([("kind", "check"), ("at", 5), ("snapshot", 2), ("goal", GOALS[0]), ("version", "b")]))
    comma, colon = random.choice([(",", ":"), (",", ":"), (", ", ": "), (", ", ": "), (" ,", " :"), (",\r", ":")])
    is_ascii = random.random() < 0.3
    text = "{%s}" % comma.join("%s%s%s" % (json.dumps(key), colon, json.dumps(value, ensure_ascii=is_ascii, separators=(",", ":"))) for key, value in items)
    if random.random() < 0.05:
        text = text[:random.randrange(len(text))]
    return text + random.choice(["", "", "", "", " ", "\r", "x"])


def value_of(raw):
    """What the program reads: of a repeated key the last counts. None where it is no object."""
    try:
        value = strictjson.value_of(raw)
    except strictjson.NotJson:
        return None
    return value if isinstance(value, dict) else None


class Forms(Case):
    def lines(self):
        random = Random("forms of lines")
        return [line(random) for _ in range(ROUNDS)]

    def test_entries(self):
        seen = Counter()
        for raw in self.lines():
            value, fields, quick = value_of(raw), quick_fields(raw), quick_entry(raw)
            self.assertEqual(fields is None, quick is None, raw)
            seen[fields is not None] += 1
            if fields is None:
                continue
            self.assertIn(value["kind"], ("check", "content"), raw)
            kind, of, thing, relation, user, snapshot, reply, zookie, version, revision, source, time, part, again = fields
            told = [one if one is None else one.decode() for one in (zookie, version, revision, source, time, part)]
            self.assertEqual(told, [value.get(key) for key in ("zookie", "version", "revision", "from", "time", "part")], raw)
            self.assertEqual((b"%s:%s#%s@%s" % (of, thing, relation, user)).decode(), value["goal"], raw)
            self.assertEqual((kind.decode(), int(snapshot), reply == b"true", again is not None), (
                value["kind"], value["snapshot"], value["reply"], value.get("again") is True), raw)
            self.assertEqual(quick, (kind, b"%s:%s#%s" % (of, thing, relation), b"%s:%s" % (of, thing), reply, version), raw)
        self.assertGreater(min(seen.values()), ROUNDS // 20)

    def test_commits(self):
        seen = Counter()
        for raw in self.lines():
            value, quick, touch = value_of(raw), quick_commit(raw), quick_touch(raw)
            seen[quick is not None, touch is not None] += 1
            if quick is not None:
                listed = [[("%s@%s" % (of.decode(), user.decode())) for of, user in side] for side in (quick.add, quick.remove)]
                self.assertEqual((value["kind"], quick.at, *listed), ("commit", value["at"], value.get("add") or [], value.get("remove") or []), raw)
            if touch is not None:
                self.assertEqual(value["add" if touch[1] else "remove"], [touch[0].decode()], raw)
                self.assertEqual([], value.get("remove" if touch[1] else "add") or [], raw)
        self.assertGreater(seen[True, True], ROUNDS // 40)

    def test_what_windows_look_for(self):
        found = Counter()
        for raw in self.lines():
            value = value_of(raw)
            if value is not None and value.get("kind") in KINDS and "snapshot" in value:
                kind, snapshots = kind_of(raw), list(snapshots_in(raw))
                self.assertEqual(kind, value["kind"], raw)
                # A line of another form than an importer's may be passed over.
                self.assertTrue(snapshots in ([value["snapshot"]], []) or raw.count(b'"snapshot"') > 1, raw)
                if value["kind"] == "content" and value.get("version") is not None:
                    self.assertTrue(may_issue(raw), raw)
                found[bool(snapshots)] += 1
        self.assertGreater(found[True], ROUNDS // 40)

    def test_what_parts_look_for(self):
        placed = Counter()
        for raw in self.lines():
            (whole, thing, other), = OBJECTS.findall(raw + b"\n")
            wanted = object_of(raw)
            if whole:
                self.assertEqual(thing or None, wanted, raw)
            placed[bool(thing), bool(other)] += 1
        self.assertGreater(placed[True, False], ROUNDS // 40)
        random = Random("records")
        for _ in range(ROUNDS // 4):
            row = {"line": random.choice([1, 7, 2 ** 64, "1", None]), "steps": random.choice([[], [{"yes": "doc:a#b@1"}], [{"no": ["x", "y"]}], [{}], 3])}
            items = [*row.items(), *random.choice([[], [("line", 9)], [("x", 1)]])]
            raw = ("{%s}" % random.choice([",", ", "]).join("%s:%s" % (json.dumps(key), json.dumps(value)) for key, value in items)).encode()
            (whole, line, _), = RECORDS.findall(raw + b"\n")
            if whole:
                self.assertEqual(int(line) if int(line) < 2 ** 64 else None, line_of(raw), raw)

    def test_counts(self):
        lines = self.lines()
        for number in range(0, len(lines), 8):
            some = lines[number:number + 8]
            values = [value for value in map(value_of, some) if value is not None and value.get("kind") in ("check", "content")]
            # A line that the program does not take may be counted or not.
            if len([one for one in map(value_of, some) if one is not None and one.get("kind") in KINDS]) < len(some):
                continue
            found, checks = counted_in(b"\n".join(some)), [value for value in values if value["kind"] == "check"]
            self.assertEqual((found.checks, found.contents), (len(checks), len(values) - len(checks)), some)
            self.assertEqual([found.with_version, found.with_token, found.with_unknown],
                             [sum(value.get(key) is not None for value in checks) for key in ("version", "zookie", "named")], some)
            self.assertEqual((found.again, found.part), (sum(value.get("again") is True for value in values), Counter(
                value["part"] for value in values if isinstance(value.get("part"), str))), some)

    def test_times_of_lines_that_begin_as_commits(self):
        some = [raw for raw in self.lines() if raw.startswith(b'{"kind":"commit","at":') and value_of(raw) is not None]
        looked = 0
        for raw in some:
            try:
                refuse_other_keys(raw, 1, 1)
            except OtherForm:
                continue
            looked += 1
            self.assertIn(times_of([raw]), ([], [value_of(raw)["at"]]), raw)
        self.assertGreater(looked, 100)

    def test_what_is_taken_quickly_is_what_is_taken_in_full(self):
        head = b'{"kind":"namespace","name":"doc","relations":[{"name":"viewer"}]}'
        for raw in self.lines():
            outcomes = []
            for is_quick in (True, False):
                trace = Trace()
                trace.take(1, head)
                trace.take(2, b'{"kind":"commit","at":0,"add":["doc:z#viewer@9"]}')
                try:
                    if not (is_quick and trace.take_quickly(3, raw)):
                        trace.take(3, raw)
                    outcomes.append((list(trace.commits), dict(trace.entries.items()), trace.touches))
                except Refusal as fault:
                    outcomes.append((str(fault), fault.details))
            self.assertEqual(*outcomes, raw)


class Written(Case):
    """What an import writes is of the plain forms, so that it is read quickly."""

    def assert_plain(self, name):
        kinds = Counter()
        for raw in self.get(name).encode().splitlines():
            value = json.loads(raw)
            if value["kind"] == "namespace":
                continue
            kinds[value["kind"]] += 1
            kinds.update(key for key in ("part", "named", "again", "time", "ids", "coverage") if key in value)
            if value["kind"] == "commit":
                self.assertEqual(quick_commit(raw).at, value["at"], raw)
                continue
            self.assertIsNotNone(quick_fields(raw), raw)
            has_mark = "ids" in value or "coverage" in value
            self.assertEqual(list(snapshots_in(raw)), [value["snapshot"]], raw)
            self.assertEqual(bool(OBJECTS.findall(raw + b"\n")[0][1]), not has_mark, raw)
        return kinds

    def test_what_is_written_is_read_back(self):
        random = Random(5)
        for _ in range(500):
            goal, time = random.choice(["doc:a#viewer@1", "doc:é#viewer@18446744073709551615"]), random.choice([None, "2024-01-01T00:00:00Z"])
            zookie, version = random.choice([None, "z2-c0000000000000001"]), random.choice([None, "é\"\\"])
            revision, file, reply = random.choice(TEXT), random.choice(["log", "a\"b\\"]), random.choice([True, False])
            look = look_text(3, reply, zookie, version, revision, within_quotes(file))
            part, named, is_again = random.choice([None, "why"]), random.choice([None, "é"]), random.choice([True, False])
            said = {"kind": "check", "goal": goal, "snapshot": 3, "reply": reply, "zookie": zookie, "version": version, "revision": revision,
                    "from": file + ":7", "time": time}
            kept = {key: value for key, value in said.items() if value is not None}
            one = entry_line("check", goal, look, 7, time, part, named, is_again)
            more = {"part": part, "named": named, "again": is_again or None}
            self.assertEqual(list(json.loads(one).items()), [*kept.items(), *((key, value) for key, value in more.items() if value is not None)])
            thing, user = goal[4:].split("#")[0], goal.rpartition("@")[2]
            many = check_lines([check_start("doc")], [thing], ["viewer"], [user], [look], [7], None if time is None else [time])
            self.assertEqual(list(json.loads(many[0]).items()), list(kept.items()))
            at, source = random.randrange(9), source_keys(revision, within_quotes(file), 7, time)
            add, remove = random.choice([[], ["doc:a#viewer@1"], ["doc:a#viewer@1", "doc:é#viewer@2"]]), random.choice([[], ["doc:b#viewer@1"]])
            told = {"kind": "commit", "at": at, "add": add or None, "remove": remove or None, "revision": revision, "from": file + ":7", "time": time}
            self.assertEqual(list(json.loads(commit_line(at, add, remove, source)).items()),
                             [(key, value) for key, value in told.items() if value is not None])
        line = entry_line("check", "doc:a#viewer@1", look_text(3, True, None, None, "r", "\"log"), 7, None, None, None, False).encode()[:-1]
        self.assertEqual(quick_fields(line)[:9], (b"check", b"doc", b"a", b"viewer", b"1", b"3", b"true", None, None))

    def test_a_trace_and_one_that_goes_on(self):
        at = "2024-05-06T09:00:0%d.5Z"
        wide = {key: value for key, value in check(0, goal=rel(user="x")).items() if key != "snapshot"} | {"snapshot_between": [1, 3], "time": at % 4}
        log = [RULES, BEGUN, write(1, rel(), time=at % 1), content(1, "v", token=1, time=at % 2), write(2, rel("2")), write(3, rel("3", user="b"), remove=[rel("2")]),
               check(3, version="old", token=3, time=at % 3), check(3, version="v", token=3), wide, check(3, False, rel("2")), check(3)]
        self.put("log", log)
        self.imported("events", "--from-empty", "--go-on", "left", "--trace", "first", "log")
        found = self.assert_plain("first")
        for key in ("commit", "check", "content", "part", "named", "again", "time", "coverage"):
            self.assertGreater(found[key], 0, key)
        for day in ([check(3), write(4, rel("4"))], [write(5, rel("5")), check(5)], [content(5, "w", token=5), check(5)]):
            self.put("log", day)
            self.imported("events", "--go-on", "left", "--trace", "next", "log")
            self.assertEqual(self.assert_plain("next")["ids"], 1)


class Marks(Case):
    """What an import says of the whole is believed where an import says it."""

    RULES = declaration(1, -1, b'{"kind":"namespace","name":"doc","relations":[{"name":"viewer"}]}')
    STATE = State(NOTHING.head, carry_of(1, 0, [RULES]), {}, None)

    def test_strata_of_a_stranger(self):
        strata = '"strata":[["doc","viewer",7]]'
        for more, wanted in ((strata, 0), ('"ids":7,' + strata, 0), ('"odd":{"ids":{"rows":1}},' + strata, 0), ('"ids":{"rows":1},' + strata, 7),
                             ('"ids":{"rows":1},"strata":[["doc","viewer"]]', 0), ('"ids":{"rows":1},"strata":7', 0)):
            raw = ('{"kind":"commit","at":3,"add":[],%s}' % more).encode()
            given = {(name, relation): stratum for name, relation, stratum in strata_in(raw)}
            rules = json.loads(next(begun(self.STATE, given, Keep()).rows).raw)
            self.assertEqual(rules["relations"][0].get("stratum", 0), wanted, raw)

    def test_where_an_import_wrote_the_first_line(self):
        for raw, wanted in ((b'{"kind":"commit","at":1,"ids":{"rows":2}}\n{}', True), (b'{"kind":"commit","at":1,"from":"\\"ids\\":{"}', False),
                            (b'{"kind":"commit","at":1}\n{"ids":{"rows":2}}', False), (b"", False), (b"{", False), (b'{"ids" : {"rows":1}}', True)):
            self.assertEqual(is_imported(raw), wanted, raw)
        self.assertEqual(ids_in(b'{"ids":{"rows":2},"x":1}'), {"rows": 2})

    def test_no_other_module_looks_at_the_form_of_lines(self):
        """A quoted key of a trace within a pattern of bytes, in another module than the one, or than what writes lines and reads services."""
        odd = []
        key = re.compile(r'''b"""?.*\\?"(?:kind|goal|snapshot|reply|zookie|version|part|again|coverage|strata|ids|steps)\\?"|b'[^']*"(?:%s)"''' % (
            "kind|goal|snapshot|reply|zookie|version|part|again|coverage|strata|ids|steps"))
        for path in glob.glob(os.path.join(TOOLS, "new_enemy_tools", "**", "*.py"), recursive=True):
            name = os.path.relpath(path, os.path.join(TOOLS, "new_enemy_tools"))
            if name.startswith(("recording", "importing")) or name in ("trace_lines.py", "windowing/carries.py", "parting/placing.py", "trace_pieces.py",
                                                                       "monitoring/holding.py"):
                continue
            with open(path, encoding="utf-8") as file:
                odd += ["%s:%d" % (name, number) for number, line in enumerate(file, 1) if key.search(line)]
        self.assertEqual(odd, [])
