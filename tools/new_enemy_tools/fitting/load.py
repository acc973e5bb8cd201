"""What a self-test asks: clients that write, save and show content, and check, at once.

There is one write at a time, and of each tuple long after the one before: of two changes at once nobody could know the order, and the
recorder would leave checks in doubt.
"""
from collections import Counter, deque
from random import Random
from threading import Lock, Thread
from typing import Callable, Optional

from new_enemy_tools.fitting.services import Service, Tuple
from new_enemy_tools.recording.asking import Asker, FeedFault

CLIENTS = 4
USERS = ["user:u%d" % number for number in range(6)]
OWNER = USERS[0]
DOCUMENTS = ["document:d%d" % number for number in range(6)]
FOLDER, GROUP, INNER = "folder:f", "group:g", "group:inner"
# What comes and goes, and what is stored from the beginning, of which the first tuples stay.
OTHERS = [(of, "member", one) for of in (GROUP, INNER) for one in USERS]
OTHERS += [(one, "viewer", subject) for one in [FOLDER, *DOCUMENTS] for subject in [*USERS, "user:*", GROUP + "#member"]]
OTHERS += [(one, "editor", subject) for one in DOCUMENTS for subject in [*USERS, INNER + "#member"]]
OTHERS += [(one, "banned", subject) for one in DOCUMENTS for subject in USERS] + [(one, "parent", FOLDER) for one in DOCUMENTS]
BASE = [(GROUP, "member", INNER + "#member"), *((one, "owner", OWNER) for one in DOCUMENTS), *OTHERS[::2]]
Decision = tuple[Tuple, bool]
# What clients ask: writes, checks before content is saved and as it is shown, several checks at once, lists, and other checks.
CALLS = ("write", "content", "version", "batch", "list", "check")


class Load:
    """`asked` is what the service decided, `calls` and `failed` count requests, and `stored` is what is written."""

    def __init__(self, service: Service, url: str, key: Optional[str], turns: int):
        self.service, self.url, self.key, self.turns = service, url, key, turns
        self.asked: Counter[Decision] = Counter()
        self.calls: Counter[str] = Counter()
        self.failed: Counter[str] = Counter()
        self.stored = set(BASE)
        self.coming = deque(Random(0).sample(OTHERS, len(OTHERS)))
        # of a document the label of a version, and the token of its content check
        self.versions: dict[str, tuple[str, Optional[str]]] = {}
        self.counting, self.writing = Lock(), Lock()

    def run(self) -> None:
        threads = [Thread(target=self._client, args=(number,), daemon=True) for number in range(CLIENTS)]
        for one in threads:
            one.start()
        for one in threads:
            one.join()
        if self.turns:
            # A service whose changes have no checkpoints tells by the next one alone that there was none before a check.
            self._tried(lambda: self._write(Asker(self.url, self.key), 1))

    def _client(self, number: int) -> None:
        asker, random = Asker(self.url, self.key), Random(number)
        plain = dict(asker.headers)
        for turn in range(self.turns):
            asker.headers = dict(plain)
            self._tried(lambda: self._turn(asker, random, "v%d.%d" % (number, turn)))
        asker.close()

    def _tried(self, ask: Callable[[], None]) -> None:
        try:
            ask()
        except (FeedFault, ValueError, KeyError, TypeError) as fault:
            with self.counting:
                self.failed[str(fault) if isinstance(fault, FeedFault) else "an answer without %s" % fault] += 1

    def _turn(self, asker: Asker, random: Random, label: str) -> None:
        form, thing, user = random.random(), random.choice(DOCUMENTS), random.choice(USERS)
        relation = random.choice(["can_view", "can_view", "can_edit", "can_share"])
        if form < 0.2:
            self._write(asker, random.choice([1, 1, 2]))
        elif form < 0.3:
            asker.headers["X-Content-Save"] = label
            self.versions[thing] = label, self._check(asker, "content", (thing, "can_edit", OWNER), None)
        elif form < 0.5 and thing in self.versions:
            asker.headers["X-Content-Version"], token = self.versions[thing]
            self._check(asker, "version", (thing, "can_view", user), token)
        elif form < 0.55:
            goals = [(thing, relation, one) for one in USERS]
            self._count("batch", list(zip(goals, self.service.check_all(asker, goals))))
        elif form < 0.6:
            self._count("list", [((one, relation, user), True) for one in self.service.listed(asker, relation, user)])
        else:
            self._check(asker, "check", (thing, relation, user), random.choice([None, self.versions.get(thing, ("", None))[1] or ""]))

    def _write(self, asker: Asker, count: int) -> None:
        with self.writing:
            changed = {self.coming.popleft() for _ in range(count)}
            self.coming.extend(sorted(changed))
            self.service.write(asker, sorted(changed - self.stored), sorted(changed & self.stored))
            self.stored ^= changed
        self._count("write", [])

    def _check(self, asker: Asker, call: str, goal: Tuple, token: Optional[str]) -> Optional[str]:
        reply = self.service.check(asker, goal, token)
        self._count(call, [(goal, reply.allowed)])
        return reply.token

    def _count(self, call: str, decisions: list[Decision]) -> None:
        with self.counting:
            self.calls[call] += 1
            self.asked.update(decisions)
