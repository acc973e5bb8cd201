"""Lines that are read by the shape of one before: what is taken so, and that it changes no answer."""
import json
from random import Random
from unittest import mock

from new_enemy_tools.importing import block, located
from new_enemy_tools.importing.block import Reader
from new_enemy_tools.importing.events import read_events
from new_enemy_tools.importing.line_shapes import shape_of
from new_enemy_tools.importing.neutral import CHECK, USUAL
from new_enemy_tools.importing.openfga import OpenFgaLog
from new_enemy_tools.importing.packed_blocks import Indexer
from new_enemy_tools.importing.refusals import Refusals
from new_enemy_tools.importing.spicedb import SpiceDbLog
from tests.test_blocks import BlockCase
from tests.test_going_on import between
from tests.test_round_trips import (OpenFga, OpenFgaBetween, OpenFgaWithConditions, OpenFgaWithWildcards, SpiceDb, SpiceDbWithWildcards,
                                    time_text, token_text)
from tests.test_spicedb import update, watch
from tests.test_trace_maker import RULES, check, content, rel, write

IDS = ["1", "2", "d 3", "~7", "~x", "é", "a@b", "a:b", "*", "x" * 129, 'q"', "", "\n", "n_1"]
LABELS = ["v1", "v 2", "~1", "", "x" * 129, "é", None]
TIMES = ["2024-02-29T23:59:59.5Z", "2024-02-30T00:00:00Z", "2024-03-01t24:00:00Z", "2024-03-01T00:00:00+01:00", None, 5, "x"]
LOGS = 12


def shape(value, form=CHECK, **more):
    return shape_of(json.dumps(value, **more).encode(), form)


class Shapes(BlockCase):
    def test_what_a_shape_takes(self):
        known = shape(check(1, goal=rel("1", user="a"), token=2, version="v", time=TIMES[0]))
        for value, is_taken in ((check(7, False, rel("x:y", user="b@c"), token=0, version="v 2", time=time_text(9)), True),
                                (check(7, goal=rel("~7"), token=0, version="v", time=TIMES[0]), False),
                                (check(7, goal=rel("é"), token=0, version="v", time=TIMES[0]), False),
                                (check(7, goal=rel("a@b"), token=0, version="v", time=TIMES[0]), False),
                                (check(7, goal=rel(""), token=0, version="v", time=TIMES[0]), False),
                                (check(7, goal=rel("x" * 129), token=0, version="v", time=TIMES[0]), False),
                                (check(7, goal=rel(user='"'), token=0, version="v", time=TIMES[0]), False),
                                (check(7, token=-1, version="v", time=TIMES[0]), False),
                                (check(7, token=1.5, version="v", time=TIMES[0]), False),
                                (check(10 ** 18, token=0, version="v", time=TIMES[0]), False),
                                (check(7, token=None, version="v", time=TIMES[0]), False),
                                (check(7, token=0, version="~1", time=TIMES[0]), False),
                                (check(7, token=0, version="", time=TIMES[0]), False),
                                (check(7, token=0, version="v", time=TIMES[3]), False),
                                (check(7, version="v", token=0, time=TIMES[0]), False),
                                (check(7, token=0, version="v"), False)):
            self.assertEqual(known.match(json.dumps(value, ensure_ascii=False).encode()) is not None, is_taken, value)

    def test_what_has_no_shape(self):
        for value in (check(1, newest=False), check(1, sequence=-1), check(1, clock="a"), check(1, goal=rel(user_relation="viewer")),
                      check(1, goal=["doc", "1"]), check("1"), check(1, goal=rel("é")), check(1, snapshot_between=[1, 2])):
            self.assertIsNone(shape(value), value)
        self.assertIsNotNone(shape(check(1, token=None, version=None), separators=(" , ", " : ")))
        asked = {"request": {"resource": {"objectType": "doc", "objectId": "1"}, "permission": "view",
                             "subject": {"object": {"objectType": "user", "objectId": "a"}, "optionalRelation": ""}},
                 "response": {"checkedAt": {"token": "7"}, "permissionship": "PERMISSIONSHIP_HAS_PERMISSION"}}
        self.assertIsNotNone(shape(asked, SpiceDbLog.CHECK))
        printed = {"request": {**asked["request"], "context": None, "withTracing": False}, "response": {
            **asked["response"], "partialCaveatInfo": None, "debugTrace": None, "optionalExpiresAt": None}}
        self.assertIsNotNone(shape(printed, SpiceDbLog.CHECK), "as the gateway prints it")
        self.assertIsNone(shape({**asked, "response": {**asked["response"], "partialCaveatInfo": "x"}}, SpiceDbLog.CHECK))
        written = watch(1, update("user:a", optionalCaveat=None, optionalExpiresAt=None), schemaUpdated=False, isCheckpoint=False,
                        optionalTransactionMetadata=None, fullRevisionMetadata=[])
        self.assertIsNotNone(shape(written, SpiceDbLog.WRITE), "as the gateway prints it")
        self.assertIsNone(shape({"result": {**written["result"], "schemaUpdated": True}}, SpiceDbLog.WRITE))
        for part, key, value in (("request", "context", {}), ("request", "items", []), ("response", "pairs", None), ("response", "x", 1)):
            self.assertIsNone(shape({**asked, part: {**asked[part], key: value}}, SpiceDbLog.CHECK))
        both = {**asked["request"], "resource": {"objectType": "doc", "object_type": "doc", "objectId": "1"}}
        self.assertIsNone(shape({**asked, "request": both}, SpiceDbLog.CHECK))
        key = {"user": "user:a", "relation": "viewer", "object": "doc:1"}
        for user in ("user:*", "group:1#member", "user"):
            self.assertIsNone(shape({"request": {"tuple_key": {**key, "user": user}}, "response": {"allowed": True}, "snapshot": 1},
                                    OpenFgaLog.CHECK))

    def test_what_is_read_in_full(self):
        """Of lines of one shape those alone that teach it; of many shapes those beyond the most that are known."""
        def read_in_full(values):
            numbers = []

            def full(number, line):
                numbers.append(number)
                return list(read_events(located.line_values(number, line, "log", Refusals()), "log", Refusals()))
            data = "".join(json.dumps(value) + "\n" for value in values).encode()
            list(Reader("log", USUAL, Indexer()).pieces(located.Block(1, data), full))
            return numbers

        lines = [check(at % 9, at % 2 == 0, rel(str(at))) for at in range(50)]
        self.assertEqual(read_in_full(lines), [1])
        self.assertEqual(read_in_full(lines[:3] + [write(1, rel()), content(1, "v"), write(2, rel("2")), write(3, rel("2"), rel("3"))]),
                         [1, 4, 5, 7])
        self.assertEqual(read_in_full([content(1, "v"), content(1, "w", token=1), content(2, "x"), content(3, None, newest=False),
                                       content(3, None, newest=True)]), [1, 2, 4, 5])
        many = [{**check(1), "goal": rel(), "file": str(at)} for at in range(3)]
        self.assertEqual(read_in_full(many + many), [1, 2, 3, 4, 5, 6])
        states = [between(one, 0, at % 9 + 1, at % 2 == 0) for at, one in enumerate(lines)]
        self.assertEqual(read_in_full([*states, {**content(3, "v"), "snapshot_between": [3, 2]}]), [1, 2, 51])
        with mock.patch.object(block, "MOST", 1):
            self.assertEqual(read_in_full([check(1), check(1, token=1), check(2), check(1, token=1)]), [1, 2, 4])
        with mock.patch.object(block, "TRIES", 3):
            base = [write(0, *map(rel, str(at)), base=True) for at in range(5)]
            self.assertEqual(read_in_full([*base, *lines]), [1, 2, 3, 4, 5, 6])


class SameAnswers(BlockCase):
    """A log is read by shapes and in full, by one process and by four, with a quick reader of JSON and without."""

    def compare(self, *words):
        with mock.patch.object(block, "MOST", 0):
            wanted = self.outcome(words, 1, 1 << 20)
        reader = located.orjson
        for jobs, size, orjson in ((1, 1 << 20, reader), (1, 2000, None), (4, 5000, reader)):
            with mock.patch.object(located, "orjson", orjson):
                self.assertEqual(self.outcome(words, jobs, size), wanted)
        return wanted[0]

    def put_log(self, random, values, share):
        """The lines of a log, of which a share is spoilt."""
        separators = random.choice([(",", ":"), (", ", ": ")])
        texts = [json.dumps(value, separators=separators, ensure_ascii=random.random() < 0.5) for value in values]
        for place in range(len(texts)):
            if random.random() < share:
                at = random.randrange(len(texts[place]))
                text = texts[place]
                texts[place] = random.choice([text[:at] + random.choice('"}x \\1,\t') + text[at + random.randint(0, 1):], "",
                                              " %s\t\r" % text, text.replace('":', '" :', 1), text.replace("true", "True")])
        self.put("log", "\n".join(texts) + "\n" * random.randint(0, 1))

    def dressed(self, random, value, with_times):
        """A check of a service with what a recorder may add, which hardly ever is wrong."""
        if random.random() < 0.3 and "changes" not in value and "result" not in value:
            value = {**value, "version": random.choice(LABELS[:2] if random.random() < 0.9 else LABELS)}
        if with_times:
            value = {**value, "time": TIMES[0] if random.random() < 0.98 else random.choice(TIMES)}
        return value

    def events(self, random, odd):
        log = [RULES]
        for at in range(1, 60):
            some = [rel(random.choice(IDS[:3] if random.random() < 0.9 else IDS[:9]), user=random.choice("abc")) for _ in range(5)]
            log += [write(at, *some[:random.choice([1, 1, 2])][:1 + (some[0] != some[1])]), check(at, goal=some[2])]
            asked = rel(random.choice(IDS) if random.random() < odd else "1")
            log += [check(at, random.random() < 0.5, asked, token=random.randint(1, at)),
                    content(at, "v%d" % at, goal=some[3], token=at), check(at, goal=some[3], version="v%d" % at, token=at)]
            if random.random() < odd / 9:
                log.append(check(at, goal=rel(relation="missing")))
            if random.random() < odd / 9:
                log.append(write(at, rel(user="z")))
        return log

    def test_events_between_two_states(self):
        statuses = []
        for number in range(LOGS):
            random, share = Random("between %d" % number), number % 3 * 0.01
            log = self.events(random, 0.4 * (share > 0))
            for place, one in enumerate(log):
                if one["event"] in ("check", "content") and random.random() < 0.8:
                    at = one["snapshot"]
                    log[place] = between(one, at - random.randint(0, 3), at, random.random() < 0.5)
                    if random.random() < share:
                        log[place].update(random.choice([
                            {"snapshot_between": [at, at - 1]}, {"newest_between": [0, at], "snapshot_between": [0, at]},
                            {"newest": True}, {"newest": None}, {"snapshot": at}, {"newest_between": [0, at, at]}, {"newest_between": None}]))
            self.put_log(random, [self.dressed(random, one, number % 2) if one.get("event") == "check" else one for one in log], share)
            statuses.append(self.compare("events", "--from-empty", "log"))
        self.assertEqual(set(statuses), {2, 6})

    def test_events(self):
        statuses = []
        for number in range(LOGS):
            random, share = Random("events %d" % number), number % 3 * 0.01
            log = self.events(random, 0.4 * (share > 0))
            self.put_log(random, [self.dressed(random, one, number % 2) if one.get("event") == "check" else one for one in log], share)
            statuses.append(self.compare("events", "--from-empty", "log", *["--refuse-unmapped"] * (number % 4 == 3)))
        self.assertEqual(set(statuses), {0, 2, 6})

    def test_services(self):
        statuses = []
        for kind in (OpenFga, OpenFgaWithWildcards, OpenFgaWithConditions, OpenFgaBetween, SpiceDb, SpiceDbWithWildcards):
            for number in range(LOGS // 3):
                random = Random("%s %d" % (kind.__name__, number))
                service, log, states = kind(random), [], []
                for at in range(1, 8):
                    log.append(service.write(at))
                    states.append((at, service.state()))
                    for _ in range(20):
                        answer, line_for = service.check(*random.choice(states))
                        value = line_for(answer)
                        if kind in (SpiceDb, SpiceDbWithWildcards):
                            value["request"]["consistency"] = random.choice([
                                {"atLeastAsFresh": {"token": token_text(random.randint(1, at))}}, {"minimizeLatency": True}])
                        elif random.random() < 0.2:
                            value["token"] = random.choice([0, time_text(at)])
                        log.append(self.dressed(random, value, number % 2))
                self.put("rules", service.rules)
                self.put_log(random, log, number % 2 * 0.02)
                statuses.append(self.compare(*service.words))
        self.assertEqual(set(statuses), {0, 2, 6})
