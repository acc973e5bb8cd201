"""Random stores of each service, imported and audited, against a plain evaluator of the service's own meaning."""
import base64
import json
from collections import Counter
from random import Random

from new_enemy_tools.importing import causes
from tests import openfga_service, spicedb_service
from tests.support import Case

MODELS = 20
WRITES = 12
CHECKS = 100
TRIES = 12


def time_text(at):
    return "2024-03-01T00:%02d:%02d.5Z" % divmod(at, 60)


def token_text(revision):
    """A ZedToken as SpiceDB encodes it."""
    digits = str(revision).encode()
    inner = b"\x0a" + bytes([len(digits)]) + digits
    return base64.b64encode(b"\x1a" + bytes([len(inner)]) + inner).decode()


class OpenFga:
    """A random store of OpenFGA, with what its log says."""

    words = ("openfga", "--model", "rules", "--from-empty", "log")

    def __init__(self, random):
        self.random = random
        self.model = openfga_service.model_of(random)
        self.service = openfga_service.Service(self.model)
        self.rules = json.dumps(self.model, indent=1)

    def write(self, at):
        """Adds some tuples and takes some away; the line of the log."""
        add = {openfga_service.tuple_of(self.random, self.model) for _ in range(8)} - self.service.tuples
        gone = {one for one in sorted(self.service.tuples) if self.random.random() < 0.15}
        self.service.tuples = (self.service.tuples | add) - gone
        keys = [(one, "WRITE") for one in sorted(add)] + [(one, "DELETE") for one in sorted(gone)]
        return {"changes": [{"tuple_key": dict(zip(("user", "relation", "object"), key)), "timestamp": time_text(at),
                             "operation": "TUPLE_OPERATION_" + operation} for key, operation in keys]}

    def state(self):
        return set(self.service.tuples)

    def check(self, at, state):
        """A random check at a state: its right answer, and the line for a reply."""
        now, self.service.tuples = self.service.tuples, state
        of = self.random.choice(list(openfga_service.OBJECTS))
        key = {"user": self.random.choice(openfga_service.USERS),
               "relation": self.random.choice(list(openfga_service.LEVELS)),
               "object": "%s:%s" % (of, self.random.choice(openfga_service.OBJECTS[of]))}
        answer = self.service.check(key["user"], key["relation"], key["object"])
        self.service.tuples = now
        return answer, lambda reply: {"request": {"tuple_key": key}, "response": {"allowed": reply},
                                      "snapshot": time_text(at)}


class OpenFgaWithWildcards(OpenFga):
    """A store whose tuples also name all users of a type."""

    def __init__(self, random):
        super().__init__(random)
        openfga_service.allow(self.model, wildcard={})
        self.rules = json.dumps(self.model)


class OpenFgaWithConditions(OpenFga):
    """A store that also has what a trace can't say."""

    def __init__(self, random):
        super().__init__(random)
        openfga_service.allow(self.model, condition="weekday")
        self.rules = json.dumps(self.model)

    def write(self, at):
        """Some tuples have a condition, which holds."""
        page = super().write(at)
        for change in page["changes"]:
            if change["operation"].endswith("WRITE") and self.random.random() < 0.1:
                change["tuple_key"]["condition"] = {"name": "weekday"}
        return page


class OpenFgaBetween(OpenFga):
    """A store whose checks were evaluated somewhere between two places of its feed."""

    def changes(self):
        """Single changes, with the state behind each; their timestamps say little."""
        states = [self.state()]
        log = []
        for at in range(1, WRITES // 2):
            for change in self.write(at // 2)["changes"]:
                key = tuple(change["tuple_key"].values())
                states.append(states[-1] | {key} if change["operation"].endswith("WRITE") else states[-1] - {key})
                log.append(change)
        return log, states

    def check_between(self, states):
        """A random check, the answers of all states in between, and the line for a reply."""
        low = self.random.randrange(len(states))
        high = min(len(states) - 1, low + self.random.choice([0, 1, 2, 5, 9]))
        seed = self.random.random()
        answers = set()
        for at in range(low, high + 1):
            self.random.seed(seed)
            answer, line_for = self.check(at, states[at])
            answers.add(answer)
        return answers, high - low + 1, lambda reply: {
            **{key: value for key, value in line_for(reply).items() if key != "snapshot"}, "snapshot_between": [low, high]}


class SpiceDb:
    """A random store of SpiceDB, with what its log says."""

    words = ("spicedb", "--schema", "rules", "--from-empty", "log")

    def __init__(self, random):
        self.random = random
        self.schema = spicedb_service.schema_of(random)
        self.service = spicedb_service.Service(self.schema)
        self.rules = spicedb_service.text_of(self.schema)

    def write(self, at):
        had = self.service.relationships
        add = {spicedb_service.relationship_of(self.random, self.schema) for _ in range(8)} - had
        gone = {one for one in sorted(had) if self.random.random() < 0.15}
        self.service.relationships = (had | add) - gone
        updates = [self.update(one, "TOUCH") for one in sorted(add)] + [self.update(one, "DELETE") for one in sorted(gone)]
        return {"result": {"updates": updates, "changesThrough": {"token": token_text(at)}}}

    @staticmethod
    def object_json(text):
        of, _, id_text = text.partition(":")
        return {"objectType": of, "objectId": id_text}

    def update(self, given, operation):
        thing, name, subject, relation = given
        return {"operation": "OPERATION_" + operation, "relationship": {
            "resource": self.object_json(thing), "relation": name,
            "subject": {"object": self.object_json(subject), "optionalRelation": relation}}}

    def state(self):
        return set(self.service.relationships)

    def check(self, at, state):
        now, self.service.relationships = self.service.relationships, state
        of = self.random.choice(spicedb_service.TYPES)
        thing = "%s:%s" % (of, self.random.choice(spicedb_service.OBJECTS[of]))
        name, user = self.random.choice(list(spicedb_service.LEVELS)), self.random.choice(spicedb_service.USERS)
        request = {"resource": self.object_json(thing), "permission": name, "subject": {"object": self.object_json(user)}}
        answer = self.service.check(thing, name, user)
        self.service.relationships = now
        return answer, lambda reply: {"request": request, "response": {
            "checkedAt": {"token": token_text(at)},
            "permissionship": "PERMISSIONSHIP_%s_PERMISSION" % ("HAS" if reply else "NO")}}


class SpiceDbWithWildcards(SpiceDb):
    """A store whose relationships also name all users of a type."""

    def __init__(self, random):
        super().__init__(random)
        spicedb_service.allow_wildcards(self.schema)
        self.rules = spicedb_service.text_of(self.schema)


class SpiceDbWithMixedOperators(SpiceDb):
    """A store whose schema has operators side by side, where SpiceDB needs no parentheses."""

    def __init__(self, random):
        super().__init__(random)
        self.rules = spicedb_service.text_of(self.schema, random)


class RoundTrips(Case):
    def rounds(self, make):
        """Each check is logged with both replies, and the audit has to refuse the wrong one alone."""
        right = {True: 0, False: 0}
        for number in range(MODELS):
            random = Random("%s %d" % (make.__name__, number))
            service = make(random)
            log, states, answers = [], [], []
            for at in range(1, WRITES + 1):
                log.append(service.write(at))
                states.append((at, service.state()))
            for turn in range(CHECKS):
                answer, line_for = self.wanted(service, states, turn % 2 == 0)
                right[answer] += 1
                for reply in (True, False):
                    log.append(line_for(reply))
                    answers.append(reply == answer)
            self.compare(service, log, answers, number)
        self.assertEqual(sum(right.values()), MODELS * CHECKS)
        self.assertGreater(min(right.values()), MODELS * CHECKS // 5, right)

    @staticmethod
    def wanted(service, states, want):
        """A random check whose right answer is the wanted one, where some tries find one."""
        for _ in range(TRIES):
            answer, line_for = service.check(*service.random.choice(states))
            if answer == want:
                break
        return answer, line_for

    def left_out(self, service, number):
        """The lines of the checks that are not audited, since a rule takes away what leads into a circle; these are few."""
        struck = self.struck(*service.words, "--ids", "ids%d.jsonl" % number)
        self.assertEqual({line.split(": ")[1] for line in struck} - {causes.CIRCLE_TAKEN_AWAY}, set())
        self.assertLess(len(struck), CHECKS)
        return {line.split(": ")[0] for line in struck}

    def compare(self, service, log, answers, number):
        self.put("rules", service.rules)
        self.put("log", log)
        out = self.left_out(service, number)
        answers = [is_right for line, is_right in enumerate(answers, len(log) - len(answers) + 1) if "log:%d" % line not in out]
        lines = self.get("trace.jsonl").splitlines()
        entries = [line for line, text in enumerate(lines, 1) if '"kind":"check"' in text[:20]]
        wanted = ["line %d: F10 wrong reply" % line for line, is_right in zip(entries, answers) if not is_right]
        report = self.audited().splitlines()
        self.assertEqual(report, wanted + ["entries %d" % len(answers), "findings %d" % len(wanted), "verdict dirty"],
                         "model %d" % number)

    def test_what_is_left_out_takes_its_checks_with_it(self):
        """A service that is right audits clean, whatever was left out."""
        kept = odd = 0
        for number in range(MODELS):
            random = Random("left out %d" % number)
            service = OpenFgaWithConditions(random)
            log, states = [], []
            for at in range(1, 4):
                log.append(service.write(at))
                states.append((at, service.state()))
            for _ in range(CHECKS):
                answer, line_for = service.check(*random.choice(states))
                log.append(line_for(answer))
            self.put("rules", service.rules)
            self.put("log", log)
            odd += "left out" in self.imported(*service.words)
            entries, *rest = self.audited().splitlines()
            self.assertEqual(rest, ["findings 0", "verdict clean"])
            kept += int(entries.split()[1])
        self.assertGreater(odd, MODELS // 2)
        self.assertGreater(kept, MODELS * CHECKS // 4)
        self.assertLess(kept, MODELS * CHECKS)

    def test_checks_between_two_places(self):
        """Each reply is right where some state in between has it; a wrong one is wrong at each."""
        both = 0
        for number in range(MODELS):
            service = OpenFgaBetween(Random("between %d" % number))
            log, states = service.changes()
            wrong, entries = {}, {}
            for _ in range(CHECKS):
                answers, count, line_for = service.check_between(states)
                both += len(answers) == 2
                for reply in (True, False):
                    log.append(line_for(reply))
                    entries["log:%d" % len(log)] = 1 if reply in answers else count
                    wrong.update({} if reply in answers else {"log:%d" % len(log): count})
            self.put("rules", service.rules)
            self.put("log", log)
            out = self.left_out(service, number)
            rows = self.rows("trace.jsonl")
            *findings, first, _, _ = self.audited().splitlines()
            self.assertEqual(first, "entries %d" % sum(count for line, count in entries.items() if line not in out))
            found = Counter(rows[int(line.split()[1].rstrip(":")) - 1]["from"] for line in findings)
            self.assertEqual({line.split(": ")[1] for line in findings}, {"F10 wrong reply"})
            self.assertEqual(found, {line: count for line, count in wrong.items() if line not in out}, "model %d" % number)
        self.assertGreater(both, MODELS)

    def test_openfga(self):
        self.rounds(OpenFga)

    def test_spicedb(self):
        self.rounds(SpiceDb)

    def test_spicedb_with_mixed_operators(self):
        self.rounds(SpiceDbWithMixedOperators)

    def test_openfga_with_wildcards(self):
        self.rounds(OpenFgaWithWildcards)

    def test_spicedb_with_wildcards(self):
        self.rounds(SpiceDbWithWildcards)
