"""Of random logs of which something is lost: all checks are in the sum, and each planted fault is a finding or in a counted cause."""
import json
import os
import re
import shutil
import subprocess
from collections import Counter
from random import Random

from new_enemy_tools.coverage import coverage_in, of_row
from new_enemy_tools.importing import causes
from tests.support import Case
from tests.test_trace_maker import RULES

# So many in each run of the tests; NEW_ENEMY_LOGS=2000 takes more.
LOGS = int(os.environ.get("NEW_ENEMY_LOGS", "200"))
THINGS, USERS = "123", "abc"


class StandIn:
    """A service whose answers are known: who may view a document, itself or by its parent, at each revision."""

    def __init__(self, random):
        self.random = random
        self.revision = 0
        self.viewers, self.parents = set(), {}
        self.states = []
        # the lines of the log; of each that is a check whether its reply is wrong, and whether it ignores its version's token
        self.log, self.wrong, self.old = [], {}, {}
        self.answered = 0
        self.labels = {}

    def change(self, is_base=False):
        self.revision += 1
        add, remove = [], []
        for _ in range(self.random.randint(1, 3)):
            thing, user = self.random.choice(THINGS), self.random.choice(USERS)
            row = ["doc", thing, "viewer", "user", user]
            if row in add or row in remove:
                continue
            if (thing, user) in self.viewers and not is_base:
                self.viewers.discard((thing, user))
                remove.append(row)
            else:
                self.viewers.add((thing, user))
                add.append(row)
        if not self.parents and self.random.random() < 0.3:
            self.parents["2"] = "1"
            add.append(["doc", "2", "parent", "doc", "1"])
        self.states.append((set(self.viewers), dict(self.parents)))
        self.log.append({"event": "write", "revision": self.revision, "add": add, **({"base": True} if is_base else {"remove": remove})})

    def holds(self, thing, user, at):
        viewers, parents = self.states[at - 1]
        seen = set()
        while thing is not None and thing not in seen:
            if (thing, user) in viewers:
                return True
            seen.add(thing)
            thing = parents.get(thing)
        return False

    def check(self, is_lost):
        """A check with its reply, which may be wrong, and what it names; of a content check it is the newest state's."""
        random, self.answered = self.random, self.answered + 1
        thing, user, relation = random.choice(THINGS), random.choice(USERS), "reader"
        is_save = random.random() < 0.3
        at = self.revision if is_save else random.randint(max(1, self.revision - 2), self.revision)
        right = self.holds(thing, user, at)
        is_wrong = random.random() < 0.2
        value = {"event": "check", "goal": ["doc", thing, relation, "user", user], "snapshot": at, "reply": right != is_wrong}
        known, is_old = [label for label, one in self.labels.items() if one[0] == thing], False
        if is_save:
            value["event"] = "content"
            if value["reply"]:
                again = known and random.random() < 0.2
                label = random.choice(known) if again else "v%d" % len(self.labels)
                value.update(version=label, token=at)
                self.labels.setdefault(label, (thing, at))
        elif known and random.random() < 0.6:
            label = random.choice(known)
            is_old = random.random() < 0.5
            value.update(version=label, **({} if is_old else {"token": max(at, self.labels[label][1])}))
        elif random.random() < 0.2:
            value["version"] = "before%d" % random.randint(1, 3)
        self.spoil(value)
        if is_lost:
            return
        self.log.append(value)
        self.wrong[len(self.log)] = is_wrong
        self.old[len(self.log)] = is_old

    def spoil(self, value):
        """Now and then a check is odd; what is wrong with it is not looked for then, and counted."""
        odd = self.random.random()
        if odd < 0.03:
            value["goal"][2] = "gone"
        elif odd < 0.05:
            value.clear()
            value.update({"event": "unmapped", "reason": "contextual tuples"})
        elif odd < 0.07 and value["event"] == "check":
            value["version"] = ""
        elif odd < 0.09 and value["event"] == "content":
            value.update({"reply": not value["reply"]})
            self.labels.pop(value.get("version"), None)

    def made(self):
        is_older = self.random.random() < 0.5
        self.change(is_older)
        for _ in range(self.random.randint(5, 30)):
            pick = self.random.random()
            if pick < 0.25:
                self.change()
            elif pick < 0.3:
                count = self.random.randint(1, 4)
                for _ in range(count):
                    self.check(True)
                self.log.append({"event": "gap", "from": "2024-01-01T00:00:00Z", "to": "2024-01-01T00:00:01Z", "reason": "lost", "lost": count})
            elif pick < 0.32:
                self.log.append({"event": "unmapped", "reason": "caveat", "userset": ["doc", self.random.choice(THINGS), "viewer"]})
            else:
                self.check(False)
        return [] if is_older else ["--from-empty"]

    def wrong_places(self, cuts):
        """The files and lines of wrong replies, in files that begin behind so many lines of the log and its rules."""
        for place, is_wrong in self.wrong.items():
            value = self.log[place - 1]
            # A content check whose reply was turned round is wrong where it was right.
            is_odd = value["event"] == "content" and value["reply"] != bool(value.get("version"))
            if is_wrong != is_odd:
                low = max(one for one in cuts if one <= place)
                yield "log%d:%d" % (low, place - low + 1)


class NothingIsLost(Case):
    def audit(self):
        run = subprocess.run([os.environ["NEW_ENEMY"], "audit", self.path("trace.jsonl"), "--make"], capture_output=True, text=True, timeout=300)
        self.assertIn(run.returncode, (0, 1), run.stderr)
        found = {}
        for line in run.stdout.splitlines()[:-3]:
            number, told = line.removeprefix("line ").split(": ", 1)
            found.setdefault(int(number), set()).add(told.split()[0])
        return found

    def test_each_check_is_in_the_sum_and_each_fault_is_found_or_counted(self):
        planted: Counter[str] = Counter()
        for number in range(LOGS):
            service = StandIn(Random("nothing is lost %d" % number))
            words = service.made()
            self.put("log", [RULES, *service.log])
            status, said = self.run_import("events", *words, "--jobs", "1", "log")
            self.assertIn(status, (0, 6), said)
            coverage = coverage_in(self.get("trace.jsonl").encode())
            lost = sum(coverage.lost.values())
            self.assertEqual(coverage.whole + sum(coverage.in_part.values()) + sum(coverage.not_audited.values()) + lost, service.answered, number)
            self.assertEqual(status, coverage.status())
            rows = {int(row["from"].split(":")[1]) - 1: (line, row) for line, row in enumerate(self.rows("trace.jsonl"), 1) if "goal" in row}
            self.assertEqual(len(service.wrong) - len(rows), sum(coverage.not_audited.values()), number)
            self.compare(service, rows, self.audit(), planted, number)
            os.remove(self.path("ids.jsonl"))
        self.assertGreater(min(planted[one] for one in ("wrong found", "wrong not audited", "old found", "old in part", "old not audited", "right")), LOGS // 30, planted)

    def compare(self, service, rows, found, planted, number):
        for place, is_wrong in service.wrong.items():
            if place not in rows:
                planted.update(["wrong not audited"] * is_wrong + ["old not audited"] * service.old[place])
                continue
            line, row = rows[place]
            kinds = found.get(line, set())
            is_odd = row.get("part") in (causes.CONTENT_ODD,)
            # A content check whose reply was turned round is wrong where it was right.
            self.assertEqual("F10" in kinds, is_wrong != is_odd if is_odd else is_wrong, (number, place, row))
            planted.update(["wrong found" if is_wrong else "right"])
            if service.old[place]:
                is_found = bool(kinds & {"F2", "F6"})
                self.assertTrue(is_found or "F2" in causes.not_looked_for(row.get("part")), (number, place, row))
                planted.update(["old found" if is_found else "old in part"])

    def test_days_say_the_sum_of_all(self):
        """A log that is cut into days at random lines: their sums are that of all, no right reply is accused, and a wrong one is found or counted."""
        for number in range(LOGS // 10):
            random = Random("days %d" % number)
            service = StandIn(random)
            words, log = service.made(), [RULES, *service.log]
            cuts = [0, *sorted(random.sample(range(2, len(log)), 2))]
            asked, not_audited, found = 0, 0, set()
            for day, (low, high) in enumerate(zip(cuts, [*cuts[1:], len(log)]), 1):
                self.put("log%d" % low, log[low:high])
                run = self.run_tool("day", "--at-least", "0", "--oldest-snapshot", "0", "--jobs", "1", "--program",
                                    os.path.abspath(os.environ["NEW_ENEMY"]), "days", "events", *words, "log%d" % low)
                self.assertIn(run.returncode, (0, 1, 6), run.stderr)
                summary = json.loads(self.get("days/day%06d/summary.json" % day))
                coverage = of_row(summary["coverage"])
                self.assertIsNone(coverage.unknown)
                not_audited += sum(coverage.not_audited.values())
                asked += coverage.checks + sum(coverage.lost.values())
                found |= set(re.findall(r"F10 wrong reply \((log[0-9]+:[0-9]+)\)", self.get("days/day%06d/report.txt" % day)))
            self.assertEqual(asked + not_audited + summary["held_over"], service.answered, number)
            wrong = set(service.wrong_places(cuts))
            self.assertLessEqual(found, wrong, number)
            self.assertLessEqual(len(wrong - found), not_audited + summary["held_over"], number)
            shutil.rmtree(self.path("days"))
