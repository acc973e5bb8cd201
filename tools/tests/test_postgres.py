"""Tokens of SpiceDB on PostgreSQL: composed by hand, one for each branch; and orders of commits against a plain evaluator."""
import base64
from collections import Counter
from random import Random

from new_enemy_tools.importing import causes
from new_enemy_tools.importing.visibility import History
from new_enemy_tools.importing.zedtokens import Older, Revision, Snapshot, read_revision
from tests.support import Case
from tests.test_round_trips import CHECKS, MODELS, SpiceDb, token_text
from tests.test_spicedb import SCHEMA, VIEW, check, update, watch


def text_of(*data):
    return base64.b64encode(bytes(data)).decode()


def varint(number):
    data = []
    while number > 127:
        data.append(number & 127 | 128)
        number >>= 7
    return data + [number]


def revision(xmin, xmax, running=(), own=None):
    """A revision as SpiceDB's source writes it; token_text makes a token of it."""
    packed = [byte for one in sorted(running) for byte in varint(one - xmin)]
    data = [8, *varint(xmin), 16, *varint(xmax - xmin)]
    data += [26, *varint(len(packed)), *packed] if packed else []
    return text_of(*data, *([32, *varint(own)] if own is not None else []), 40, 1)


def seen(xmin, xmax, running=(), own=None):
    return Snapshot(xmin, xmax, frozenset(running), own)


class Decoder(Case):
    def read(self, *data):
        found = read_revision(token_text(text_of(*data)))
        return found and found.snapshot

    def test_each_field(self):
        self.assertEqual(self.read(8, 100, 16, 5, 26, 2, 2, 4, 32, 102), seen(100, 105, [102, 104], 102))
        self.assertEqual(self.read(8, 100), seen(100, 100))
        self.assertEqual(self.read(8, 100, 16, 0, 40, 9), seen(100, 100))
        self.assertEqual(self.read(8, 0xac, 0x02, 16, 0x80, 0x01, 26, 2, 0xff, 0x00), seen(300, 428, [427]))
        self.assertEqual(self.read(26, 1, 0, 8, 7, 26, 1, 1, 16, 2), seen(7, 9, [7, 8]))
        self.assertEqual(read_revision(token_text(text_of(8, 100, 16, 5, 26, 1, 2, 32, 103))),
                         Revision(None, seen(100, 105, [102], 103), "100:105:102+103"))

    def test_later_fields_are_ignored(self):
        self.assertEqual(self.read(8, 100, 48, 1, 58, 2, 7, 7, 65, 1, 2, 3, 4, 5, 6, 7, 8, 77, 1, 2, 3, 4), seen(100, 100))

    def test_what_is_malformed(self):
        for data in ((), (16, 5), (8, 0), (8,), (8, 0x80), (8, 100, 26, 9, 1), (8, 100, 11, 1), (8, 100, 24, 1), (8, 100, 65, 1),
                     (10, 1, 100), (8, 100, 16, 2, 26, 1, 2), (8, 100, 16, *[255] * 9, 1), (8, *[0x80] * 11, 1),
                     (8, 100, 26, 1, 0x80), (8, 100, 34, 0)):
            self.assertIsNone(self.read(*data), data)

    def test_the_older_form(self):
        for text in ("1234.1230", "5000000123.5000000100"):
            for given in (text, token_text(text)):
                self.assertRaises(Older, read_revision, given)
        self.assertEqual(read_revision("1700000000000000000.0000000001").number, 17 * 10 ** 27 + 1)

    def test_what_a_snapshot_sees(self):
        of = seen(100, 105, [102, 104], 107)
        self.assertEqual([one for one in range(98, 110) if of.sees(one)], [98, 99, 100, 101, 103, 107])

    def test_which_snapshots_see_all_of_another(self):
        random = Random(5)
        both = Counter()
        for _ in range(4000):
            pair = []
            for _ in range(2):
                xmin = random.randint(1, 6)
                xmax = xmin + random.randint(0, 4)
                running = [one for one in range(xmin, xmax) if random.random() < 0.4]
                pair.append(seen(xmin, xmax, running, random.choice([None, None, *range(1, 12)])))
            wanted = all(pair[0].sees(one) for one in range(20) if pair[1].sees(one))
            both[wanted] += 1
            self.assertEqual(pair[0].contains(pair[1]), wanted, pair)
        self.assertGreater(min(both.values()), 500)


class Orders(Case):
    def test_against_all_orders(self):
        """A number is given to what sees the first of the order, and to nothing else."""
        random = Random(6)
        taken = Counter()
        for _ in range(1500):
            stream = random.sample(range(1, 12), random.randint(0, 6))
            snapshots = Counter()
            for _ in range(random.randint(1, 6)):
                xmin = random.randint(1, 8)
                xmax = xmin + random.randint(0, 6)
                running = [one for one in range(xmin, xmax) if random.random() < 0.3]
                snapshots[seen(xmin, xmax, running, random.choice([None, None, None, *range(1, 12)]))] += random.randint(0, 2)
            history = History(stream, snapshots)
            order = history.order()
            self.assertEqual(sorted(order), sorted(stream))
            sets = {one: {transaction for transaction in stream if one.sees(transaction)} for one in snapshots}
            whole = []
            for one, visible in sets.items():
                is_first = visible == set(order[:len(visible)])
                self.assertEqual(history.number(one), len(visible) if is_first else None)
                whole += [visible] if is_first else []
                taken[is_first] += 1
                wider = [len(other) for two, other in sets.items() if history.number(two) is not None and visible <= other]
                self.assertEqual(history.least_with(one), min(wider, default=len(stream)))
            for before, behind in zip(order, order[1:]):
                if not any(before in visible and behind not in visible for visible in whole):
                    self.assertLess(stream.index(before), stream.index(behind))
            if all(a <= b or b <= a for a in sets.values() for b in sets.values()):
                self.assertEqual(len(whole), len(sets))
        self.assertGreater(min(taken.values()), 300)

    def test_one_odd_snapshot_does_not_move_the_others(self):
        snapshots = Counter([seen(number, number) for number in range(2, 6)] + [seen(1, 6, [1, 2, 3, 4])])
        history = History([1, 2, 3, 4, 5], snapshots)
        self.assertEqual(history.order(), [1, 2, 3, 4, 5])
        self.assertEqual([history.number(one) for one in snapshots], [1, 2, 3, 4, None])


class Imports(Case):
    def words(self, log, *more):
        self.put("schema.zed", SCHEMA % VIEW)
        self.put("base", "doc:1#viewer@user:base\n")
        self.put("log", list(log))
        return ("spicedb", "--schema", "schema.zed", *(more or ["--from-empty"]), "log")

    def test_a_commit_that_the_stream_has_late(self):
        """Transaction 11 is seen without 10, which stands before it in the stream."""
        log = [watch(revision(10, 10, own=10), update("user:a")), check(revision(10, 12, [10]), "user:b"),
               watch(revision(10, 11, [10], 11), update("user:b")), check(revision(12, 12), "user:a"),
               check(revision(10, 12, [10]), "user:a", reply="NO")]
        self.imported(*self.words(log))
        rows = self.rows("trace.jsonl")[2:]
        self.assertEqual([row.get("at", row.get("snapshot")) for row in rows], [1, 1, 2, 2, 1])
        self.assertEqual([row["from"] for row in rows], ["log:3", "log:2", "log:1", "log:4", "log:5"])
        self.assertEqual(self.audited().splitlines()[-1], "verdict clean")

    def test_tokens_that_are_demanded(self):
        """A write's token sees its own transaction, and not one that came to an end meanwhile."""
        demands = {"consistency": {"atLeastAsFresh": {"token": token_text(revision(10, 10, own=11))}}}
        log = [watch(revision(10, 10, own=10), update("user:a")), watch(revision(10, 10, own=11), update("user:b")),
               check(revision(11, 11), "user:a"), check(revision(11, 11), "user:a", request=demands),
               check(revision(12, 12), "user:b", request=demands)]
        self.imported(*self.words(log))
        self.assertEqual(self.audited().splitlines()[0], "line 6: F1 stale")
        self.assertEqual(self.audited().splitlines()[-2], "findings 1")

    def test_refusals(self):
        odd = revision(10, 12, [10, 11])
        log = [watch(revision(10, 10, own=10), update("user:a")), watch(revision(10, 10, own=11), update("user:b")),
               check(revision(11, 11)), check(revision(10, 13, [10])), check("1234.1230"),
               check(revision(12, 12), version="v",
                     request={"consistency": {"atLeastAsFresh": {"token": token_text(revision(10, 10, own=11))}}}),
               check(revision(12, 12), request={"consistency": {"atLeastAsFresh": {"token": token_text(7)}}}),
               watch(odd, update("user:c")), check(revision(11, 11), reply="NO", content={})]
        self.assertEqual(self.refused(*self.words(log)), ["log:8: the snapshot of `changesThrough` does not name the transaction that wrote"])
        self.assertEqual(self.struck(*self.words(log[:7])), [
            "log:4: %s: 10:13:10" % causes.NO_BEGINNING,
            "log:5: check that can't be read: `checkedAt` of the response is of SpiceDB on PostgreSQL in the older form xid.xmin, which does not "
            "say what it sees", "log:6: %s: 10:10:+11" % causes.TOKEN_NO_BEGINNING,
            "log:7: check that can't be read: the token is of another datastore than `checkedAt`"])
        self.forget()
        self.assertEqual(self.refused(*self.words([watch(revision(10, 10, own=10), update("user:a")), check(7)])), [
            "log:2: its revision 7 is a number, and that of log:1 a snapshot of PostgreSQL"])

    def test_the_base_state(self):
        log = [watch(revision(20, 20, own=20), update("user:a")), check(revision(20, 22, [20]), "user:base"),
               check(revision(21, 21)), check(revision(22, 22), "user:base")]
        words = ("--base", "base", "--base-at", token_text(revision(15, 18, [15, 16])))
        self.imported(*self.words(log, *words))
        self.assertEqual(self.audited().splitlines()[-1], "verdict clean")
        self.forget()
        log += [check(revision(17, 17)), watch(revision(17, 17, own=17), update("user:z"))]
        self.assertEqual(self.refused(*self.words(log[:4] + log[5:] + log[4:5], *words)), [
            "log:5: its revision 17:17:+17 is not later than that of the base state"])


class Simulated(SpiceDb):
    """Transactions that run side by side on tuples that no other of them touches; those that came to an end, in that order."""

    def __init__(self, random):
        super().__init__(random)
        self.next = 700
        self.open = {}
        self.ended = []
        self.lines = []
        self.moments = []

    def snapshot(self):
        running = sorted(self.open)
        return running[0] if running else self.next, self.next, tuple(running)

    def step(self):
        if self.open and (len(self.open) == 3 or self.random.random() < 0.5):
            own = self.random.choice(sorted(self.open))
            begun, line = self.open.pop(own)
            self.ended.append((own, line["result"]["updates"]))
            line["result"]["changesThrough"]["token"] = token_text(revision(*begun, own))
            self.lines.append(line)
            self.moments.append((revision(*begun, own), [one for one in self.ended if one[0] == own or self.sees(begun, one[0])]))
        else:
            touched = [str(one["relationship"]) for _, line in self.open.values() for one in line["result"]["updates"]]
            begun, before = self.snapshot(), set(self.service.relationships)
            line = self.write(0)
            line["result"]["updates"] = [one for one in line["result"]["updates"] if str(one["relationship"]) not in touched]
            self.service.relationships = before
            self.open[self.next] = begun, line
            self.next += 1
        self.service.relationships = self.state_of(self.ended)
        self.moments.append((revision(*self.snapshot()), list(self.ended)))

    @staticmethod
    def sees(begun, transaction):
        return Snapshot(begun[0], begun[1], frozenset(begun[2]), None).sees(transaction)

    @staticmethod
    def state_of(ended):
        """The relationships of some transactions, by the order in which they came to an end."""
        found = set()
        for _, updates in ended:
            for one in updates:
                given = one["relationship"]
                resource, subject = given["resource"], given["subject"]
                row = ("%s:%s" % tuple(resource.values()), given["relation"], "%s:%s" % tuple(subject["object"].values()),
                       subject["optionalRelation"])
                found = found | {row} if one["operation"] == "OPERATION_TOUCH" else found - {row}
        return found


class RoundTrips(Case):
    def rounds(self, with_own, is_shuffled):
        """Each check is logged with both replies; of those that are kept the audit refuses the wrong one alone."""
        kept = lost = 0
        for number in range(MODELS):
            random = Random("postgres %d %s" % (number, with_own))
            service = Simulated(random)
            while len(service.ended) < 10:
                service.step()
            log, right = list(service.lines), {}
            if is_shuffled:
                random.shuffle(log)
            moments = [one for one in service.moments if with_own or not self.is_own(one[0])]
            for _ in range(CHECKS):
                at, ended = random.choice(moments)
                answer, line_for = service.check(at, service.state_of(ended))
                for reply in (True, False):
                    log.append(line_for(reply))
                    right["log:%d" % len(log)] = reply == answer
            self.put("rules", service.rules)
            self.put("log", log)
            self.imported(*service.words[:-1], "--ids", "ids%d" % number, "log")
            rows = {line: row["from"] for line, row in enumerate(self.rows("trace.jsonl"), 1) if row["kind"] == "check"}
            wanted = ["line %d: F10 wrong reply" % line for line, source in rows.items() if not right[source]]
            self.assertEqual(self.audited().splitlines()[:-3], wanted, "model %d" % number)
            kept += len(rows)
            lost += len(right) - len(rows)
        self.assertEqual(kept + lost, 2 * MODELS * CHECKS)
        return lost

    @staticmethod
    def is_own(text):
        return read_revision(token_text(text)).snapshot.own is not None

    def test_snapshots_that_see_the_first_of_the_commits(self):
        self.assertEqual(self.rounds(False, False), 0)

    def test_a_stream_in_another_order(self):
        self.assertEqual(self.rounds(False, True), 0)

    def test_snapshots_of_writers_too(self):
        self.assertGreater(self.rounds(True, False), MODELS)
