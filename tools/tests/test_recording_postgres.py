"""The order of commits on PostgreSQL, as tools/record has it while they come."""
import json
from random import Random

from new_enemy_tools.importing.reading import Bad
from new_enemy_tools.importing.zedtokens import Snapshot
from new_enemy_tools.recording.transactions import REMEMBERED, Transactions
from tests.recorded import Client
from tests.stand_in_spicedb import DOZEN
from tests.support import Case
from tests.test_recording_spicedb import FULL, SpiceDb


def seen(xmin, xmax, *running, own=None):
    return Snapshot(xmin, xmax, frozenset(running), own)


class Order(Case):
    def made(self, *order):
        made = Transactions(seen(10, 10), 3)
        for one in order:
            made.add(one)
        return made

    def test_the_first_ones(self):
        made = self.made(11, 13, 12)
        self.assertEqual([made.number(one) for one in (seen(10, 10), seen(12, 12), seen(12, 14, 12), seen(14, 14), seen(14, 90, 50))],
                         [3, 4, 5, 6, 6])

    def test_what_is_no_beginning_or_before(self):
        made = self.made(11, 13, 12)
        for snapshot, why in ((seen(13, 13), "no beginning"), (seen(12, 13), "no beginning"), (seen(9, 9), "before the log")):
            with self.assertRaisesRegex(Bad, why):
                made.number(snapshot)

    def test_what_a_token_demands(self):
        made = self.made(11, 13, 12)
        self.assertEqual([made.demanded(one) for one in (seen(11, 11), seen(11, 11, own=13), seen(13, 13), seen(9, 9))], [3, 5, 6, 3])

    def test_when_all_has_come(self):
        made = self.made(11)
        made.watch(seen(11, 11, own=11))
        self.assertTrue(made.reaches(seen(12, 12)))
        self.assertFalse(made.reaches(seen(13, 13)))
        made.watch(seen(13, 13))
        self.assertTrue(made.reaches(seen(13, 13)))

    def test_many(self):
        """What is not remembered any more counts as seen, and a snapshot that may not see it is refused."""
        made = Transactions(seen(10, 10), 0)
        for one in range(11, 11 + 3 * REMEMBERED):
            made.add(one)
        last = 10 + 3 * REMEMBERED
        self.assertEqual(made.number(seen(last, last)), 3 * REMEMBERED - 1)
        with self.assertRaisesRegex(Bad, "too old"):
            made.number(seen(12, 12))

    def test_against_what_is_plain(self):
        """Random orders and snapshots, each against a list of all that it sees."""
        told = {True: 0, False: 0}
        for seed in range(300):
            random = Random(seed)
            order = random.sample(range(11, 31), 12) if random.random() < 0.5 else sorted(random.sample(range(11, 31), 12))
            made = self.made(*order)
            for _ in range(20):
                xmin = random.randint(11, 31)
                xmax = xmin + random.randint(0, 6)
                snapshot = seen(xmin, xmax, *[one for one in range(xmin, xmax) if random.random() < 0.4])
                flags = [snapshot.sees(one) for one in order]
                is_first = flags == sorted(flags, reverse=True)
                told[is_first] += 1
                if is_first:
                    self.assertEqual(made.number(snapshot), 3 + sum(flags))
                else:
                    self.assertRaises(Bad, made.number, snapshot)
        self.assertGreater(min(told.values()), 500)


class Late(SpiceDb):
    def test_what_answers_had_shown_while_the_changes_stand_still(self):
        """A check stands behind the answers before it, and so behind the content that it shows."""
        self.start_service("1", "planted", "--postgres")
        recorder = self.start_recorder()
        client = Client(self.port)
        self.prepare(client)
        for turn in range(2 * DOZEN):
            self.write(client, ("TOUCH", ("document:d%d" % turn, "viewer", "user:u2", "")))
        self.check(client, "u2", "view", "d1", FULL)
        self.wait_for(lambda: self.of_kind("check"))
        client.ask("/v1/control/pause", {})
        _, answer = self.write(client, ("TOUCH", ("document:d2", "viewer", "user:u3", "")))
        seen = {"X_Seen": answer["writtenAt"]["token"]}
        self.check(client, "u0", "edit", "d0", FULL, X_Content_Save="old", **seen)
        self.check(client, "u1", "view", "d0", FULL, X_Content_Version="old", **seen)
        self.check(client, "u1", "view", "d0", {"atLeastAsFresh": answer["writtenAt"]}, X_Content_Version="old")
        client.ask("/v1/control/go_on", {})
        client.close()
        self.wait_for(lambda: len(self.of_kind("check")) == 3)
        self.end(recorder)
        self.assertEqual([json.loads(row)[0] for row in self.get("planted").splitlines()], ["wrong", "old", "old", "stale"])
        self.import_log()
        found = [(self.row_at(place)["event"], *kinds) for place, kinds in self.found().items()]
        self.assertEqual(found, [("check", "F10 wrong reply"), ("content", "F3 not latest"), ("check", "F1 stale"), ("check", "F1 stale")])


class Again(SpiceDb):
    def test_a_recorder_that_starts_again(self):
        """Commits go on with their numbers, also where the last one had no place in the log yet."""
        self.start_service("--postgres")
        recorder = self.start_recorder()
        client = Client(self.port)
        self.prepare(client)
        self.check(client, "u1", "view", "d0", FULL)
        self.wait_for(lambda: self.of_kind("check"))
        client.close()
        recorder.kill()
        recorder.wait()
        self.wait_for(lambda: self.of_kind("closed") or self.of_kind("place"))
        for turn in range(3):
            recorder = self.start_recorder()
            client = Client(self.port)
            self.write(client, ("TOUCH", ("document:d%d" % turn, "viewer", "user:u2", "")))
            self.check(client, "u2", "view", "d%d" % turn, FULL)
            client.close()
            self.wait_for(lambda turn=turn: len(self.of_kind("check")) == turn + 2)
            self.end(recorder)
        writes = [row["revision"] for row in self.of_kind("write")]
        self.assertEqual(writes, list(range(len(writes))))
        self.import_log()
        self.assertEqual(self.found(), {}, self.said_of_audit)
