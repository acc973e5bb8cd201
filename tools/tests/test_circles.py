"""Tuples through which a relation takes away what it rests on: they are left out, with the checks that hang on them, and nothing else is."""
import json
from random import Random

from tests.random_models import json_of
from tests.support import Case
from tests.test_openfga import change, check

LOGS = 30
THINGS = ["doc:%d" % number for number in range(6)]
USERS = ["user:a", "user:b"]
VIEWER = ("difference", ("union", [("this",), ("from", "parent", "viewer")]), ("computed", "banned"))
MODEL = json_of({"doc": {"parent": (["doc"], ("this",)), "banned": (["user", "doc#viewer"], ("this",)), "viewer": (["user"], VIEWER)}}, "m")


class Log:
    """A random log, and which of its documents have something to do with a ban that names viewers, by all tuples that ever were."""

    def __init__(self, seed):
        self.random = random = Random(seed)
        self.stored, self.ever, self.lines, self.checks = set(), set(), [], []
        for _ in range(random.randint(10, 40)):
            if random.random() < 0.5:
                self.write(len(self.ever) + sum("operation" in line for line in self.lines))
            else:
                self.checks.append(len(self.lines))
                self.lines.append((random.choice(THINGS), random.choice(USERS), frozenset(self.stored), sum("operation" in one for one in self.lines)))

    def write(self, second):
        kind = self.random.random()
        relation = "parent" if kind < 0.4 else "banned" if kind < 0.6 else "viewer"
        thing, other = self.random.choice(THINGS), self.random.choice(THINGS)
        user = other if relation == "parent" else self.random.choice(USERS)
        if relation == "parent" and other <= thing:
            return
        if relation == "banned" and self.random.random() < 0.3:
            user = other + "#viewer"
        given = thing, relation, user
        self.lines.append(change(user, relation, thing, at="2024-01-01T00:%02d:%02dZ" % divmod(second, 60),
                                 operation="DELETE" if given in self.stored else "WRITE"))
        self.stored ^= {given}
        self.ever.add(given)

    def is_struck(self, thing):
        return any(of == thing and (relation == "banned" and "#" in user or relation == "parent" and self.is_struck(user))
                   for of, relation, user in self.ever)

    def holds(self, thing, user, stored):
        return (thing, "banned", user) not in stored and ((thing, "viewer", user) in stored or any(
            self.holds(parent, user, stored) for of, relation, parent in stored if (of, relation) == (thing, "parent")))


class Circles(Case):
    def test_random_logs(self):
        self.put("model.json", json.dumps(MODEL))
        struck = 0
        for seed in range(LOGS):
            log = Log(seed)
            has_circle = any("#" in user for _, _, user in log.ever)
            wanted = [at for at in log.checks if has_circle and log.is_struck(log.lines[at][0])]
            audited = [at for at in log.checks if at not in wanted]
            planted = log.random.choice(audited) if audited else None
            for at in log.checks:
                thing, user, stored, place = log.lines[at]
                reply = at not in wanted and log.holds(thing, user, stored) != (at == planted)
                log.lines[at] = check(user, "viewer", thing, reply, place)
            self.put("log", log.lines)
            found = self.struck("openfga", "--model", "model.json", "--from-empty", "log")
            self.assertEqual([line.split(":")[1] for line in found], [str(at + 1) for at in wanted], "seed %d" % seed)
            report = self.audited()
            self.assertEqual((report.count("F10 wrong reply"), report.count("\nfindings 1\n")), (planted is not None,) * 2, "seed %d" % seed)
            struck += len(wanted)
        self.assertGreater(struck, LOGS)


BLOCKED = json_of({"group": {"member": (["user", "group#member"], ("this",))}, "doc": {
    "blocked": (["user", "group#member"], ("this",)), "viewer": (["user"], ("difference", ("this",), ("computed", "blocked"))),
    "editor": (["user", "group#member"], ("this",))}}, "m")
RING = (change("group:h#member", "member", "group:g"), change("group:g#member", "member", "group:h", at="2024-01-01T00:00:02Z"))


class CirclesThatAreTakenAway(Case):
    """The service's exclusion is false where the subtracted side reports a circle of groups; no rule of a trace says so."""

    def words(self, *lines):
        self.put("model.json", json.dumps(BLOCKED))
        self.put("log", lines)
        return "openfga", "--model", "model.json", "--from-empty", "log"

    def test_what_hangs_on_one_is_not_audited(self):
        log = (*RING, change("group:h#member", "blocked", "doc:1", at="2024-01-01T00:00:03Z"), change("user:a", at="2024-01-01T00:00:04Z"),
               change("user:a", thing="doc:2", at="2024-01-01T00:00:05Z"), check(allowed=False, at=5))
        others = check(thing="doc:2", at=5), check("user:a", "member", "group:g", False, 5), check("user:a", "blocked", allowed=False, at=5)
        self.assertEqual(self.struck(*self.words(*log, *others)), ["log:6: check by a rule that takes away what leads into a circle: doc:1#viewer@user:a"])
        self.assertEqual(self.audited(), "entries 3\nfindings 0\nverdict clean\n")

    def test_nor_is_it_in_a_log_of_the_recorder_of_such_a_service(self):
        def stored(thing, user):
            return [*thing.replace("#", ":").split(":"), *user.replace("#", ":").split(":")]
        rules = {"event": "rules", "namespaces": [{"name": "group", "relations": [{"name": "member"}]}, {"name": "doc", "relations": [
            {"name": "blocked"}, {"name": "viewer", "rewrite": {"exclusion": {"base": {"this": {}}, "subtract": {"computed": "blocked"}}}}]}]}
        add = [stored("group:g#member", "group:h#member"), stored("group:h#member", "group:g#member"), stored("doc:1#blocked", "group:g#member"),
               stored("doc:1#viewer", "user:a")]
        lines = [rules, {"event": "write", "revision": 0, "base": True, "add": add},
                 {"event": "check", "goal": stored("doc:1#viewer", "user:a"), "snapshot": 0, "reply": False}]
        for service, wanted in ("openfga", 1), ("spicedb", 0):
            self.put("log", [{"event": "log", "number": 1, "before": None, "service": service}, *lines])
            self.assertEqual(len(self.struck("events", "log")), wanted)

    def test_groups_in_groups_are_no_circle_nor_is_one_that_nothing_takes_away(self):
        chain = RING[0], change("group:h#member", "blocked", "doc:1", at="2024-01-01T00:00:03Z"), change("user:a", at="2024-01-01T00:00:04Z")
        self.assertEqual(self.struck(*self.words(*chain, check(allowed=False, at=3))), [])
        self.assertIn("F10 wrong reply", self.audited())
        given = (*RING, change("group:h#member", "editor", "doc:1", at="2024-01-01T00:00:03Z"), change("user:a", at="2024-01-01T00:00:04Z"))
        self.assertEqual(self.struck(*self.words(*given, check(at=4), check("user:a", "editor", allowed=False, at=4))), [])
        self.assertEqual(self.audited(), "entries 2\nfindings 0\nverdict clean\n")


GROUPS = ["group:g", "group:h", "group:k"]


class Ring:
    """A random log in which groups come into one another and leave, and an evaluator that knows nothing of the import: `states` has what is
    stored behind each change, and each check looks at one state, or at some from one to another."""

    def __init__(self, seed):
        self.random = random = Random(seed)
        self.states, self.changes, self.checks = [frozenset()], [], []
        for _ in range(random.randint(20, 50)):
            self.change()
            for _ in range(random.randint(0, 3)):
                high = random.randint(max(0, len(self.changes) - 4), len(self.changes))
                low = high if random.random() < 0.5 else random.randint(max(0, high - 3), high)
                self.checks.append((len(self.changes), random.choice(["doc:1", "doc:2"]), random.choice(USERS), low, high))

    def change(self):
        random, kind = self.random, self.random.random()
        if kind < 0.5:
            given = random.choice(GROUPS), "member", random.choice(GROUPS) + "#member"
        elif kind < 0.6:
            given = random.choice(GROUPS), "member", random.choice(USERS)
        elif kind < 0.8:
            given = random.choice(["doc:1", "doc:2"]), "blocked", random.choice([*GROUPS, GROUPS[0]]) + "#member"
        else:
            given = random.choice(["doc:1", "doc:2"]), random.choice(["viewer", "viewer", "blocked"]), random.choice(USERS)
        self.changes.append((given, given not in self.states[-1]))
        self.states.append(self.states[-1] ^ {given})

    def held(self, low, high):
        """All that is stored at some of these states."""
        return frozenset().union(*self.states[low:high + 1])

    @staticmethod
    def reached(stored, thing, relation, path=()):
        """The usersets that one leads to, and whether it leads into a circle."""
        node = thing, relation
        if node in path:
            return {node}, True
        found, is_circle = {node}, False
        for of, name, user in stored:
            if (of, name) == node and "#" in user:
                more, circles = Ring.reached(stored, *user.split("#"), (*path, node))
                found, is_circle = found | more, is_circle or circles
        return found, is_circle

    def is_struck(self, thing, stored):
        return self.reached(stored, thing, "blocked")[1]

    def holds(self, thing, user, stored):
        blocked, _ = self.reached(stored, thing, "blocked")
        return (thing, "viewer", user) in stored and not any((of, name, user) in stored for of, name in blocked)


class CirclesAtTheirTime(Case):
    def test_random_logs(self):
        self.put("model.json", json.dumps(BLOCKED))
        struck = kept = 0
        for seed in range(LOGS):
            ring = Ring(seed)
            lines, wanted, may, right = [], set(), set(), []
            at = [(place, None) for place in range(len(ring.changes))] + [(check[0] - 0.5, check) for check in ring.checks]
            for place, asked in sorted(at, key=lambda one: one[0]):
                if asked is None:
                    (thing, relation, user), live = ring.changes[place]
                    lines.append(change(user, relation, thing, at="2024-01-01T00:%02d:%02dZ" % divmod(place + 1, 60),
                                        operation="WRITE" if live else "DELETE"))
                    continue
                _, thing, user, low, high = asked
                number = len(lines) + 1
                if any(ring.is_struck(thing, state) for state in ring.states[low:high + 1]):
                    wanted.add(number)
                elif not ring.is_struck(thing, ring.held(low, high)):
                    right.append((number, asked))
                may |= {number} if ring.is_struck(thing, ring.held(low, high)) else set()
                reply = number not in wanted and ring.holds(thing, user, ring.states[high])
                made = check(user, "viewer", thing, reply, high)
                if low < high:
                    made["snapshot_between"] = [low, high]
                    del made["snapshot"]
                lines.append(made)
            singles = [number for number, (_, thing, user, low, high) in right if low == high]
            planted = ring.random.choice(singles) if singles else None
            if planted is not None:
                lines[planted - 1]["response"]["allowed"] ^= True
            self.put("log", lines)
            found = {int(line.split(":")[1]) for line in self.struck("openfga", "--model", "model.json", "--from-empty", "log")}
            self.assertEqual((wanted - found, found - may), (set(), set()), "seed %d" % seed)
            self.assertEqual(self.audited().count("F10 wrong reply"), planted is not None, "seed %d" % seed)
            ever = frozenset().union(*ring.states)
            struck += len(wanted)
            kept += sum(ring.is_struck(thing, ever) for number, (_, thing, *_) in right)
        # Of these some circle was there at another time.
        self.assertGreater(min(struck, kept), LOGS)
