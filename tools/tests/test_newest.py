"""Content checks that are logged behind their evaluation, and say that they were evaluated at the newest state."""
from random import Random

from new_enemy_tools.importing import causes
from tests.test_openfga import MODEL, THIS, change
from tests.test_openfga import check as fga_check
from tests.test_trace_maker import RULES, CoreCase, check, content, rel, write


def second(number):
    return "2024-01-01T00:%02d:%09.6fZ" % divmod(number, 60)


class Newest(CoreCase):
    def kinds(self, *events, words=("--from-empty",)):
        return ["%s %s" % (row["kind"], row.get("at", row.get("snapshot"))) for row in self.lines(RULES, *events, words=words)]

    def test_it_stands_behind_the_commit_of_its_snapshot(self):
        late = [write(1, rel()), check(1), write(2), write(3), content(1, "v", token=1, newest=True)]
        self.assertEqual(self.kinds(*late), ["commit 1", "content 1", "check 1", "commit 2", "commit 3"])
        self.assertEqual(self.audited(), "entries 2\nfindings 0\nverdict clean\n")
        late[-1]["newest"] = False
        self.assertEqual(self.kinds(*late)[-1], "content 1")
        self.assertIn("F3 not latest", self.audited())

    def test_before_all_commits_and_at_the_end(self):
        self.assertEqual(self.kinds(write(2, rel()), content(1, None, newest=True), content(2, "v", newest=True)),
                         ["content 1", "commit 2", "content 2"])

    def test_not_above_a_check_of_its_version(self):
        self.assertEqual(self.kinds(write(1, rel()), check(1, version="v"), write(2), content(1, "v", newest=True)),
                         ["commit 1", "check 1", "content 1", "commit 2"])

    def test_a_later_commit_that_was_seen_before(self):
        told = ("log:5: a content check is said to be newest, and a later commit was visible before; %s. Give both lines the "
                "`time` of their evaluation, or leave out `newest`\n")
        late = [RULES, write(1, rel()), write(2), check(2), content(1, "v", token=1, newest=True), check(2, version="v")]
        self.assertEqual([row.get("part") for row in self.lines(*late)], [None, None, None, causes.NOT_NEWEST, causes.VERSION_LEFT_OUT])
        self.assertIn(told % "it was seen at log:4", self.said)
        late.pop()
        timed = [late[0], late[1], late[2], late[3] | {"time": second(5)}, late[4] | {"time": second(4)}]
        self.lines(*timed)
        self.assertEqual(self.audited(), "entries 2\nfindings 0\nverdict clean\n")

    def test_times_that_the_skew_compares(self):
        def log(at, clock):
            return [RULES, write(1, rel(), time=second(1)), write(2, time=second(2)), content(1, "v", newest=True, time=second(at), clock=clock)]
        self.lines(*log(2.04, "b"), words=("--from-empty", "--skew", "50"))
        self.assertIn("not audited 1: check that may have come before a line", self.said)
        self.lines(*log(2.5, "b"), words=("--from-empty", "--skew", "50"))
        self.assertIn("audited in part 1: %s; not looked for: F3, F5\n" % causes.NOT_NEWEST, self.said)

    def test_where_it_can_stand(self):
        self.put("model.json", MODEL % THIS)
        self.put("log", [change("user:a"), fga_check(newest=True), fga_check(newest="yes", content={}),
                         fga_check(at=None, snapshot_between=[0, 1], newest=True, content={"version": "v", "token": 1})])
        self.assertEqual(self.unaudited("openfga", "--model", "model.json", "--from-empty", "log"), [
            "not audited: %s, first at log:2: `newest` is said of a content check" % causes.UNREADABLE,
            "not audited: %s, first at log:3: `newest` is neither true nor false" % causes.UNREADABLE_CONTENT,
            "not audited 1: %s" % causes.UNREADABLE, "not audited 2: %s" % causes.UNREADABLE_CONTENT])
        self.forget()
        self.assertEqual(self.refusals(RULES, check(1, newest=1)), ["log:2: `newest` is neither true nor false"])


class Busy(CoreCase):
    """A service that does all right, at 50 writes a second, whose recorder logs each check when its reply is there."""

    def log(self, newest):
        random, lines, now, writes = Random(3), [], 0.0, []
        while len(writes) < 300:
            now += random.expovariate(50)
            writes.append(now)
            lines.append((now, write(len(writes), rel(user="u%d" % len(writes)), time=second(now))))
        for number in range(600):
            at = random.uniform(writes[0], writes[-1])
            seen = sum(one <= at for one in writes)
            goal = rel(user="u%d" % random.randint(1, 300))
            reply = int(goal[4][1:]) <= seen
            line = check(seen, reply, goal=goal, time=second(at), token=seen)
            if number % 2:
                line = content(seen, "v%d" % number if reply else None, goal=goal, time=second(at), token=seen, **newest)
            lines.append((at + random.uniform(0, 0.016), line))
        return [line for _, line in sorted(lines, key=lambda one: one[0])]

    def test_nothing_is_found_and_nothing_refused(self):
        self.lines(RULES, *self.log({}))
        found = self.audited().count("F3 not latest")
        self.assertGreater(found, 60)
        self.lines(RULES, *self.log({"newest": True}))
        self.assertEqual(self.audited(), "entries 600\nfindings 0\nverdict clean\n")
