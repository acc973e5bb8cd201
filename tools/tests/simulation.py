"""A simulation of OpenFGA, its clients, the network and the clocks, which drives the recorder's core by a seed; and an oracle that knows
what happened.

Nothing here waits: time is a number, and what happens next is drawn. A commit gets its place in the feed before it comes, as on
PostgreSQL; changes may be shown late (a horizon); checks may be answered from a cache; faults are planted. Expected is what the truth
says: a right reply is never wrong at each state that the log leaves open, and a wrong one is, or is in no line.
"""
import heapq
import json
from collections import Counter
from functools import lru_cache
from itertools import count, product
from random import Random
from unittest import mock

from new_enemy_tools.importing.events import Relationship
from new_enemy_tools.importing.openfga import ModelReader
from new_enemy_tools.importing.refusals import Refusals
from new_enemy_tools.importing.times import nanoseconds
from new_enemy_tools.recording.core import Core, Now
from new_enemy_tools.recording.joining import Join
from new_enemy_tools.recording.lines import time_text
from new_enemy_tools.recording.messages import Beat, Bye, Ended, Started
from new_enemy_tools.recording.openfga import Base, Changes, OpenFga
from new_enemy_tools.recording.overlap import Change, Overlap
from new_enemy_tools.recording.own_events import own_of
from new_enemy_tools.recording.sketches import Given, Row
from new_enemy_tools.recording.stored import Stored

WALL = 1_700_000_000 * 10 ** 9
# A step of time, by which all that happens differs.
STEP = 1_000_000
# So far a clock may be set, which is longer than any run takes.
HOUR = 3600 * 10 ** 9
STORE = "S"
THIS, MEMBER, USER = {"this": {}}, {"type": "group", "relation": "member"}, {"type": "user"}
MODEL = {"schema_version": "1.1", "id": "M", "type_definitions": [
    {"type": "user"},
    {"type": "group", "relations": {"member": THIS}, "metadata": {"relations": {"member": {"directly_related_user_types": [USER]}}}},
    {"type": "document", "relations": {"viewer": THIS, "blocked": THIS, "reader": {"difference": {
        "base": {"computedUserset": {"relation": "viewer"}}, "subtract": {"computedUserset": {"relation": "blocked"}}}}},
     "metadata": {"relations": {"viewer": {"directly_related_user_types": [USER, MEMBER]}, "blocked": {"directly_related_user_types": [USER]},
                                "reader": {"directly_related_user_types": []}}}}]}
# One has a blank of Unicode in its id, which OpenFGA takes.
USERS, DOCUMENTS, GROUPS = ("a", "b"), ("d", "e\u00a0"), ("g",)
TUPLES = [("document", one, relation, "user", user, None) for one in DOCUMENTS for relation in ("viewer", "blocked") for user in USERS]
TUPLES += [("document", one, "viewer", "group", group, "member") for one in DOCUMENTS for group in GROUPS]
TUPLES += [("group", group, "member", "user", user, None) for group in GROUPS for user in USERS]
GOALS = [("document", one, relation, user) for one in DOCUMENTS for relation in ("viewer", "reader") for user in USERS]


# Stands in a state where the model is another one, by which a viewer that is blocked is a reader too; it bears on each question.
OPEN = ("group", None, "model", None, None, None)


def model_of(is_open, name):
    """The model above, or the open one."""
    model = json.loads(json.dumps({**MODEL, "id": name}))
    if is_open:
        model["type_definitions"][2]["relations"]["reader"] = {"computedUserset": {"relation": "viewer"}}
    return model


@lru_cache(None)
def rules(is_open=False, name="M"):
    """The rules of that model."""
    refusals = Refusals()
    found = ModelReader("the model", refusals).rules(model_of(is_open, name))
    assert not refusals.refused, refusals.refused
    return found, refusals


RULES = rules()


def holds(state, goal):
    """What the model of a state says of a goal, by its meaning."""
    kind, name, relation, user = goal
    viewer = ("document", name, "viewer", "user", user, None) in state or any(
        ("document", name, "viewer", "group", group, "member") in state and ("group", group, "member", "user", user, None) in state
        for group in GROUPS)
    return viewer and (relation == "viewer" or OPEN in state or ("document", name, "blocked", "user", user, None) not in state)


class Service:
    """Commits in their true order, each with its time and the state behind it; and the feed, in the order of its places."""

    def __init__(self, horizon):
        self.horizon = horizon
        self.times, self.states = [-10], [frozenset()]
        self.feed, self.changes = [], {}
        # when those commits came that the feed never shows, and those that it shows at once, whatever the horizon
        self.hidden, self.prompt = set(), set()
        self.places = count(1)
        self.busy = set()
        # when each model came, but for the first
        self.models = []

    def change_model(self, now):
        live = OPEN not in self.states[-1]
        self.times.append(now)
        self.states.append(self.states[-1] ^ {OPEN})
        self.changes[now] = [(OPEN, live)]
        self.models.append(now)

    def model(self, now):
        """The number of the newest model, and its rules."""
        number = sum(at <= now for at in self.models)
        return number, rules(number % 2 == 1, "M%d" % number)

    def commit(self, now, changes, place, stamped):
        state = set(self.states[-1])
        for number, (given, live) in enumerate(changes):
            (state.add if live else state.discard)(given)
            self.feed.append((place, number, given, live, now, stamped))
        self.feed.sort(key=lambda one: one[:2])
        self.times.append(now)
        self.states.append(frozenset(state))
        self.changes.setdefault(now, []).extend(changes)

    def state_at(self, now):
        return self.states[self.index(now)]

    def index(self, now):
        return max(place for place, at in enumerate(self.times) if at <= now)

    def page(self, now, cursor, size):
        """The changes behind a place that are shown at a time, at most so many, and the place of the last one."""
        shown = [one for one in self.feed if one[:2] > cursor and one[4] <= now and self._is_shown(one, now)][:size]
        return shown, shown[-1][:2] if shown else cursor

    def _is_shown(self, one, now):
        return one[4] not in self.hidden and (one[4] in self.prompt or one[5] + self.horizon <= now)


class Asked:
    """A check as it was: when it was passed on and answered, its reply, and the states that it may have had."""

    def __init__(self, number, goal, began, newest, save, world, shows=None):
        self.number, self.goal, self.began, self.newest, self.save = number, goal, began, newest, save
        # the recorder that it passes, and the content check whose version it shows
        self.world, self.shows = world, shows
        self.ended = self.reply = None
        self.is_planted = False


class World:
    """One run by a seed; `shape` gives how the service is, and what the recorder is told of it."""

    def __init__(self, seed, shape):
        self.random, self.shape = Random(seed), shape
        self.now, self.order, self.events = 10 * STEP, count(), []
        self.service = Service(shape.horizon)
        self.core = Core(OpenFga(STORE, shape.stale, shape.hold, shape.told_horizon), shape.hold / 1e9)
        self.overlap = Overlap(None, shape.back)
        self.numbers = count(1)
        self.checks, self.lines, self.drained_at = [], [], []
        # what was known from the readings, and from answers of writes: when, and of which commits; and of each commit until when it may
        # be known that it had not come
        self.known, self.since = [], {}
        self.last_began = 0
        # the commits of writes that passed the recorder; and when the base state was read, which stands before all
        self.whole, self.based = set(), -1 << 60
        self.tell_at = {"proxy": 0, "feed": 0}
        self.under_way, self.quiet_since = 0, 0
        # whether it takes no more, and whether it was killed
        self.is_over = self.is_killed = False
        # how many models were read
        self.model = 0
        # when the clock of the wall is set, and by how much
        self.set_at, self.set_by = 0, 0

    def set_clock(self, seed):
        """The clock of the wall is set back or forward, in each second run."""
        random = Random("clock %d" % seed)
        self.set_at, self.set_by = random.randint(5, self.shape.length) * STEP, random.choice((0, 0, -HOUR, HOUR))

    def wall(self, at=None):
        """What the clock of the wall says."""
        at = self.now if at is None else at
        return WALL + at + (self.set_by if at >= self.set_at else 0)

    def in_doubt(self):
        """The tuples of which the recorder knows that it does not know whether they are there."""
        return {tuple(one) for one in self.core.service.tainted if one is not None}

    def everything(self):
        """All checks, and the lines of the log."""
        return self.checks, [json.loads(one) for one in b"".join(self.lines).splitlines()]

    def _show(self, saved):
        """A version is shown by a check of its own."""
        goal = self.random.choice([one for one in GOALS if one[1] == saved.goal[1]])
        self._ask(Asked(next(self.numbers), goal, self.now, self.random.random() < 0.8, False, self, saved))

    # Time

    def later(self, least, most, work, *given):
        """Something of the clients or of the service happens."""
        self.under_way += 1
        self._put(self.now + STEP * self.random.randint(least, most), self._happens, work, *given)

    def _happens(self, work, *given):
        self.under_way -= 1
        self.quiet_since = self.now
        work(*given)

    def own(self, least, most, work, *given):
        """Something of the recorder itself happens."""
        self._put(self.now + STEP * self.random.randint(least, most), work, *given)

    def _put(self, at, work, *given):
        heapq.heappush(self.events, (at, next(self.order), work, given))

    def run(self):
        shape = self.shape
        self._begin_feed()
        for _ in range(shape.requests):
            self.later(3, shape.length, self._request)
        if shape.models:
            self.later(5, shape.length, self._change_model)
        self.own(5, 5, self._beat)
        while self.events:
            at, _, work, given = heapq.heappop(self.events)
            # Nothing happens at once.
            self.now = max(at, self.now + 1000)
            work(*given)
        self.core.take(Bye(1), self._at())
        self._drain()
        self.core.end_asked(self._at())
        self.core.end(self._at())
        self._drain()
        return self

    def _at(self):
        return Now(self.wall(), self.now)

    def _tell(self, way, message):
        """A message comes later, behind those of its way."""
        at = max(self.now + STEP * self.random.choice((0, 0, 1, self.shape.delay)), self.tell_at[way])
        self.tell_at[way] = at
        self._put(at, self._told, self.core, message)

    def _told(self, core, message):
        # What was told to a recorder that was killed meanwhile, or has ended, goes nowhere.
        if core is self.core and not self.is_over:
            core.take(message, self._at())
            self._drain()

    def _drain(self):
        self.lines.append(self.core.drained())
        self.drained_at.append(self.now)

    def _beat(self):
        self._tell("proxy", Beat(self.now))
        self.core.tick(self._at())
        self._drain()
        if self._has_more():
            self.own(5, 5, self._beat)

    def _has_more(self):
        """Whether something is still to come: a request, or what the feed shows of it."""
        if self.under_way or self.now < self.quiet_since + self.shape.horizon + 30 * STEP:
            return True
        return bool(self.core.held) and self.now < self.quiet_since + 2 * self.shape.hold

    # The feed

    def _begin_store(self):
        """What is stored is old, or was written right before the recorder begins."""
        at = self.now - self.random.choice((10, 100)) * STEP - self.shape.horizon
        for given in self.random.sample(TUPLES, self.random.choice((0, 0, 4))):
            self.service.commit(self.now - 5 * STEP, [(given, True)], next(self.service.places), at)

    def _begin_feed(self):
        began = self.now
        self._begin_store()
        listed, end = self.service.page(self.now, (0, 0), 100)
        changes, stored, cursor = [change_of(one) for one in listed], Stored(), (0, 0)
        for change in changes:
            stored.take(change)
        while changes and changes[0].time <= WALL + self.now - self.shape.back:
            cursor = listed[len(listed) - len(changes)][:2]
            del changes[0]
        self.known += [(self.now, one[4]) for one in listed]
        self.last_began = began
        self.now += STEP
        self.overlap = Overlap(cursor, self.shape.back)
        self.overlap.go_on(changes, [], (), end, self.now)
        self.model, found = self.service.model(self.now)
        self.known += [(self.now, at) for at in self.service.models[:self.model]]
        self.core.take(Base(STORE, None, stored, changes, str(cursor), *found, began, self.now), self._at())
        self._drain()
        self.own(1, 3, self._read, self.overlap)

    def _read(self, overlap):
        if overlap is self.overlap:
            self._page(overlap, self.now, overlap.cursor, [], 0)

    def _page(self, overlap, began, cursor, found, pages):
        listed, cursor = self.service.page(self.now, cursor, self.shape.page)
        found = found + listed
        # A page takes its time to come, before it is asked what comes behind it.
        if len(listed) == self.shape.page:
            self.own(0, 3, self._page, overlap, began, cursor, found, pages + 1)
        else:
            self.own(0, 3, self._has_read, overlap, began, cursor, found, pages + 1)

    def _has_read(self, overlap, began, cursor, found, pages):
        if overlap is not self.overlap:
            return
        read = overlap.take([change_of(one) for one in found], cursor, began, self.now)
        assert read is not None
        number, model = self.service.model(self.now)
        is_other, self.model = number != self.model, number
        self._tell("feed", Changes(began, self.now, pages == 1, read._replace(cursor=str(read.cursor)), model if is_other else None))
        self.known += [(self.now, at) for at in self.service.models[:number]]
        for at in self.service.models[:number]:
            self.since.setdefault(at, self.last_began)
        self.known += [(self.now, one[4]) for one in found]
        for one in found:
            self.since.setdefault(one[4], max(0, self.last_began - self.shape.horizon))
        self.last_began = began
        if self._has_more():
            self.own(0, self.shape.poll, self._read, overlap)

    # Requests

    def _request(self):
        if self.random.random() < self.shape.writes:
            self._write()
        else:
            self._check()

    def _change_model(self):
        """Once; one that comes and goes between two readings is not known to a recorder."""
        self.service.change_model(self.now)

    def _write(self):
        taken = self.random.sample(TUPLES, self.random.choice((1, 1, 1, 2)))
        if self.service.busy & set(taken):
            return
        self.service.busy.update(taken)
        is_ours = self.random.random() < self.shape.ours
        number = next(self.numbers)
        if is_ours:
            self._tell("proxy", Started(number, self.now, False, "write"))
        self.later(0, 2, self._place_write, number, taken, self.now, is_ours)

    def _place_write(self, number, taken, asked, is_ours):
        """The write has its place in the feed, and comes later."""
        state = self.service.states[-1]
        changes = [(given, given not in state) for given in taken]
        self.later(0, self.shape.race, self._commit_write, number, changes, asked, is_ours, next(self.service.places), self.now)

    def _commit_write(self, number, changes, asked, is_ours, place, stamped):
        self.service.commit(self.now, changes, place, stamped)
        self.service.busy.difference_update(given for given, _ in changes)
        if is_ours:
            self.later(0, 3, self._answer_write, number, changes, asked, self.now)

    def _answer_write(self, number, changes, asked, committed):
        body = {}
        for given, live in changes:
            body.setdefault("writes" if live else "deletes", {"tuple_keys": []})["tuple_keys"].append(key_of(given))
        self.known.append((self.now, committed))
        self.whole.add(committed)
        self._tell("proxy", Ended(number, "write", "/stores/S/write", self.wall(asked), self.wall(), self.now, None, None, None, 200,
                                  json.dumps(body).encode(), b"{}", None))

    def _check(self):
        random = self.random
        self._ask(Asked(next(self.numbers), random.choice(GOALS), self.now, random.random() < 0.6, random.random() < 0.25, self))

    def _ask(self, asked):
        self.checks.append(asked)
        self._tell("proxy", Started(asked.number, self.now, asked.save, "check"))
        self.later(0, 6, self._evaluate, asked)

    def _evaluate(self, asked):
        at = self.now
        if not asked.newest and not asked.save and self.shape.stale:
            at = max(10 * STEP, at - self.random.randint(0, self.shape.stale))
        asked.reply = holds(self.service.state_at(at), asked.goal)
        if self.random.random() < self.shape.faults:
            asked.is_planted = True
            asked.reply = self._wrong(asked, at)
        self.later(0, 6, self._answer, asked)

    def _wrong(self, asked, at):
        """The reply of an old state, of one between two, or another one than it is."""
        service, kind = self.service, self.random.random()
        place = service.index(at)
        if kind < 0.4:
            return holds(service.states[max(0, place - self.random.randint(0, 3))], asked.goal)
        if kind < 0.7:
            state = set(service.states[max(0, place - 1)])
            for given, live in self.random.sample(service.changes.get(service.times[place], []), place and 1):
                (state.add if live else state.discard)(given)
            return holds(state, asked.goal)
        return not asked.reply

    def _answer(self, asked):
        if self.is_killed:
            return
        asked.ended = self.now
        if asked.save and asked.reply and self.shape.shows:
            self.later(0, 8, self._show, asked)
        kind, name, relation, user = asked.goal
        body = {"tuple_key": {"user": "user:" + user, "relation": relation, "object": "%s:%s" % (kind, name)}}
        if asked.newest:
            body["consistency"] = "HIGHER_CONSISTENCY"
        self._tell("proxy", Ended(asked.number, "check", "/stores/S/check", self.wall(asked.began), self.wall(), self.now,
                                  "v%d" % asked.number if asked.save else None, asked.shows and "v%d" % asked.shows.number, None, 200,
                                  json.dumps(body).encode(), json.dumps({"allowed": asked.reply}).encode(), None))


class Apart(World):
    """No request passes the recorder, which has the changes alone; an application says what it asked."""

    def __init__(self, seed):
        super().__init__(seed, Shape(Random("shape %d" % seed)))
        self.core = Core(OpenFga(STORE, 0, self.shape.hold, self.shape.told_horizon, True), self.shape.hold / 1e9)
        self.said = [{"event": "own", "format": 1, "service": "openfga", "store": STORE, "time": time_text(WALL)}]

    def _tell(self, way, message):
        if way == "feed" or isinstance(message, Beat):
            super()._tell(way, message)
        elif isinstance(message, Ended) and message.call == "check":
            self._say(message)

    def _say(self, message):
        request = json.loads(message.request)
        key = request["tuple_key"]
        row = {"event": "asked", "began": time_text(message.begun), "ended": time_text(message.at), "reply": json.loads(message.response)["allowed"],
               "goal": [*key["object"].split(":"), key["relation"], *key["user"].split(":")], "newest": "consistency" in request}
        self.said.append({**row, **({"saves": message.save} if message.save else {}), **({"shows": message.version} if message.version else {})})

    def _answer_write(self, number, changes, asked, committed):
        """The recorder does not see it."""

    def everything(self):
        said = [*self.said, {"event": "over", "time": time_text(WALL + self.now), "asked": len(self.said) - 1}]
        own = own_of(Given("own", lambda: (Row("own", number, row) for number, row in enumerate(said, 1)), True))
        return self.checks, list(Join([given_of("log", self.lines)], 0, [own], self.shape.stale).lines())


def given_of(name, lines, service="openfga"):
    """A log as a join takes it."""
    head = {"event": "log", "number": 1, "service": service}
    rows = [head, *(json.loads(one) for one in b"".join(lines).splitlines())]
    return Given(name, lambda: (Row(name, number, row) for number, row in enumerate(rows, 1)), True)


def change_of(row):
    return Change(Relationship(*row[2]), row[3], WALL + row[5])


def key_of(given):
    user = "%s:%s" % given[3:5] + ("#" + given[5] if given[5] else "")
    return {"user": user, "relation": given[2], "object": "%s:%s" % given[:2]}


class Shape:
    """How a run is; times in nanoseconds, `requests` in number, `length` in steps."""

    def __init__(self, random):
        self.race = random.choice((0, 2, 8, 20))
        self.horizon = random.choice((0, 0, 0, 15)) * STEP
        self.told_horizon = self.horizon
        self.stale = random.choice((0, 0, 10)) * STEP
        self.back = 40 * STEP
        self.hold = 150 * STEP
        self.poll, self.page, self.delay = random.choice((1, 4)), random.choice((2, 50)), random.choice((0, 3, 10))
        self.requests, self.length = random.choice((6, 12, 25)), random.choice((20, 60, 150))
        self.shows = False
        self.models = False
        self.writes, self.ours, self.faults = random.choice((0.3, 0.6)), random.choice((1, 0.5, 0)), random.choice((0, 0.3))


class Verdict:
    """What the log says of a run, against what was."""

    def __init__(self, world):
        self.world = world
        self.checks, self.rows = world.everything()
        self.states = [frozenset()]
        self.entries = {}
        # the changes so far, and those before each entry
        self.changed, self.behind = [], {}
        # since when something may be lost, and the versions that are left out
        self.gaps, self.has_gap, self.left_out = [], False, set()
        self.saved, self.showing, self.doubts = {}, {}, set()
        self.lost = 0
        for row in self.rows:
            self._take(row)

    def _take(self, row):
        if row["event"] == "write":
            state = set(self.states[-1])
            self.changed += [(tuple(one), side) for side in ("add", "remove") for one in row.get(side, ())]
            for one in row.get("add", ()):
                state.add(tuple(one + [None] * (6 - len(one))))
            for one in row.get("remove", ()):
                state.discard(tuple(one + [None] * (6 - len(one))))
            if row.get("base"):
                self.states[-1] = frozenset(state)
            elif row["revision"] == len(self.states) - 1:
                # One more change of the commit before.
                self.states[-1] = frozenset(state)
            else:
                assert row["revision"] == len(self.states), "a revision is left out, or comes twice"
                self.states.append(frozenset(state))
        elif row["event"] == "rules" and "revision" in row:
            assert row["revision"] == len(self.states), "a revision is left out, or comes twice"
            is_open = "exclusion" not in json.dumps(row)
            self.states.append(self.states[-1] | {OPEN} if is_open else self.states[-1] - {OPEN})
            self.changed.append((("group", "model"), "add" if is_open else "remove"))
        elif row["event"] == "rules" and "exclusion" not in json.dumps(row):
            self.states[-1] |= {OPEN}
        elif row["event"] in ("check", "content"):
            assert row["time"] not in self.entries, "a check stands twice"
            self.entries[row["time"]] = (row, len(self.states) - 1)
            self.behind[row["time"]] = Counter(self.changed)
            if row["event"] == "content" and "version" in row:
                self.saved[row["goal"][1], row["version"]] = row
            elif "version" in row:
                self.showing[row["time"]] = self.saved.get((row["goal"][1], row["version"]))
        elif row["event"] == "gap":
            self.lost += row.get("lost", 0)
            self.has_gap |= row.get("from") is None
            self.gaps.append(nanoseconds(row.get("from")) or 0)
        elif row["event"] == "unmapped" and "userset" in row:
            self.doubts.add(tuple(row["userset"])[:2])
        elif row["event"] == "unmapped":
            self.lost += "detail" in row
            self.left_out.add(tuple(row["version"])[1:] if "version" in row else None)

    def faults(self):
        """What the log says that is not so, or does not say; none where it holds."""
        answered = [one for one in self.checks if one.ended is not None]
        found = list(self._of_counts(answered))
        if not self.states[-1] ^ self.world.service.states[-1] <= self.world.in_doubt() and not self.lost:
            found.append("the changes in the log leave another state than the service has")
        for one in answered:
            entry = self.entries.get(time_text((one.world or self.world).wall(one.ended)))
            # What hangs on a tuple that is in doubt is left out by an import.
            if entry is not None and not any(of == "group" or thing == one.goal[1] for of, thing in self.doubts):
                found += self._of_check(one, *entry)
        return found

    def _of_counts(self, answered):
        if len(self.entries) + self.lost != len(answered):
            yield "%d checks were answered, and %d stand in the log and %d are counted" % (len(answered), len(self.entries), self.lost)

    def _of_check(self, one, row, behind):
        low, high = row.get("newest_between") or row.get("snapshot_between") or (row["snapshot"],) * 2
        if row["event"] == "content" and behind > low:
            yield "a content check stands behind a commit that it need not have seen (check %d)" % one.number
        if row["event"] == "content" and self._known_before(one) - self.behind[row["time"]]:
            yield "a content check stands before a commit that was known (check %d)" % one.number
        if one.shows is not None:
            yield from self._of_version(one, row, high)
        if high > behind and row["event"] == "check":
            yield "a check stands before a commit that it may have seen (check %d)" % one.number
        is_passed = any(holds(self.states[at], one.goal) == one.reply for at in range(low, high + 1))
        service = self.world.service
        stale = 0 if one.newest or one.save else self.world.shape.stale
        first, last = service.index(max(0, one.began - stale)), service.index(one.ended)
        was_right = any(holds(service.states[at], one.goal) == one.reply for at in range(first, last + 1))
        if was_right and not is_passed and not one.is_planted and not self._saw_unanswered(one, service.times[first:last + 1]):
            yield "a right reply is called wrong (check %d)" % one.number
        if is_passed and not self._may_be(one, one.began - stale):
            yield "a wrong reply is called right (check %d)" % one.number

    def _saw_unanswered(self, one, times):
        """Whether a check that looked at one of some times saw what is shown late, and nobody could say so."""
        return False

    def _of_version(self, one, row, high):
        """What the log says of a check that shows a version: that is known, unless it may be lost, and no older state was demanded."""
        saved = self.showing[row["time"]]
        if saved is None:
            since = min(self.gaps, default=nanoseconds(row["time"]) + 1)
            if not self.has_gap and (one.goal[1], row["version"]) not in self.left_out and nanoseconds(row["time"]) < since:
                yield "a version that was saved is not known (check %d)" % one.number
        elif one.newest and not one.is_planted and not one.shows.is_planted:
            low = (saved.get("newest_between") or [saved["snapshot"]])[0]
            states = [at for at in range(low, len(self.states)) if holds(self.states[at], one.shows.goal)]
            if states and states[0] > high:
                yield "a right check is called older than its version (check %d)" % one.number

    def _known_before(self, one):
        """The changes that were known when a check began, by how often each came; but for those of tuples that came and went meanwhile, of
        which it is not known which write made which, and those that are never shown, and have no place."""
        known = {at for told, at in one.world.known if told <= one.began and at > self.world.based} - self.world.service.hidden
        changes = self.world.service.changes
        recent = Counter(given for at in changes if one.began - 40 * STEP < at <= one.began for given, _ in changes[at])
        return Counter((tuple(part for part in given if part is not None), "add" if live else "remove")
                       for at in known for given, live in changes[at] if recent[given] < 2)

    def _may_be(self, one, since):
        """Whether a reply may be right for all that is known: of the changes that bear on it all count that were known, and some of those
        that may have come before the answer. A write that passed the recorder counts whole."""
        service, world = self.world.service, one.world
        known = {at for told, at in world.known if told <= since}
        units = []
        for at in sorted(service.changes):
            changes = [change for change in service.changes[at] if change[0][0] == "group" or change[0][1] == one.goal[1]]
            if changes and world.since.get(at, at) <= one.ended:
                units += [(at, changes)] if at in world.whole else [(at, [change]) for change in changes]
        others = [unit for unit in units if unit[0] not in known]
        if len(others) > 12:
            # Too many to be tried.
            return True
        for chosen in product((False, True), repeat=len(others)):
            state, left = set(service.states[0]), iter(chosen)
            for at, changes in units:
                if at in known or next(left):
                    for given, live in changes:
                        (state.add if live else state.discard)(given)
            if holds(state, one.goal) == one.reply:
                return True
        return False


def run_apart(seed, **values):
    """The faults of one run where an application says what it asked, beside a log of the changes alone."""
    world = Apart(seed)
    for name, value in {"shows": True, **values}.items():
        setattr(world.shape, name, value)
    with mock.patch("new_enemy_tools.recording.openfga.TOLD", 0):
        return world, Verdict(world.run())


def run(seed, shape=None):
    """The faults of one run."""
    world = World(seed, shape or Shape(Random("shape %d" % seed)))
    world.set_clock(seed)
    world.run()
    return world, Verdict(world)
