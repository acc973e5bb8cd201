"""A simulation of SpiceDB and its clients, which drives the recorder's core and its reader of Watch by a seed; and an oracle that knows what
happened.

Time and what happens next are drawn as for OpenFGA (`simulation.py`). Each reply names the snapshot that it was computed on. So it is known
what each entry of a log has to say of it: the findings of the log are those of the truth, no more and no fewer, or the check is counted.
"""
import json
import os
import tempfile
from random import Random
from unittest import mock

from new_enemy_tools.importing.times import nanoseconds
from new_enemy_tools.recording import log_files
from new_enemy_tools.recording.core import Core
from new_enemy_tools.recording.lines import time_text
from new_enemy_tools.recording.joining import Join
from new_enemy_tools.recording.messages import Beat, Ended, Lost, Started, Writes
from new_enemy_tools.recording.own_events import own_of
from new_enemy_tools.recording.sketches import Given, Row
from new_enemy_tools.recording.spicedb import Feed, SpiceDb, Watched, revision_of
from tests.simulated_network import Clock
from tests.simulation import GOALS, OPEN, STEP, TUPLES, WALL, Asked, Shape, World, given_of, holds
from tests.stand_in_spicedb import FIRST, Numbers, Snapshots, relationship_of
from tests.stand_in_spicedb import STEP as NEXT

SCHEMA = """definition user {}
definition group {
	relation member: user
}
definition document {
	relation viewer: user | group#member
	relation blocked: user
	permission reader = viewer%s
}
"""
# What a revision has behind its point.
DECIMALS = 10 ** 10
# How a check may ask: for the newest state, for what a token saw, or for whatever is at hand.
FULL, LEAST, ANY = "full", "least", "any"


class Check(Asked):
    """A check with what it demands, and the place of the state that it was computed on."""

    def __init__(self, world, goal, kind, save=False, shows=None, demand=None):
        super().__init__(next(world.numbers), goal, world.now, kind == FULL, save, world, shows)
        self.kind, self.demand, self.at = kind, demand, None


class Tokens(World):
    """A service whose revisions are places in the order of its commits."""

    def __init__(self, seed, shape):
        super().__init__(seed, shape)
        self.core = Core(SpiceDb(), shape.hold / 1e9)
        self.tokens = Snapshots() if self.random.random() < 0.5 else Numbers()
        self.has_checkpoints = self.random.random() < 0.7
        # how late Watch shows what came
        self.lag = self.random.choice((0, 0, 15)) * STEP
        self.feed = Feed(self)
        self.base = 0
        # schemas that changed again before they were read: those have no line; and what waited until the schema before it was sure
        self.unread, self.waited = set(), {}

    def run(self):
        with mock.patch("new_enemy_tools.recording.spicedb.time") as clock:
            clock.monotonic_ns.side_effect = lambda: self.now
            return super().run()

    @property
    def head(self):
        """The place of the newest commit."""
        return len(self.service.states) - 1

    def token(self, place, is_write=False):
        return self.tokens.token_of(FIRST + place * NEXT, is_write)

    def place(self, token):
        return (self.tokens.revision_of({"token": token}) - FIRST) // NEXT

    def known_at(self, at, is_sure):
        """The newest commit that the changes or an answer had shown; what waits for its schema surely counts when that is sure."""
        shown = [(told, place) for told, place, is_change in self.known if not (is_sure and is_change)]
        if is_sure:
            shown += [(told, place) for place, told in self.waited.items()]
        return max((place for told, place in shown if told <= at), default=self.base)

    def _tell(self, way, message):
        """Watch is read in the keeper itself, so what it gives is taken before a check that begins then has its answer."""
        if way == "proxy":
            super()._tell(way, message)
        else:
            at = self.tell_at[way] = max(self.now + STEP * self.random.choice((0, 0, 1)), self.tell_at[way])
            self._put(at, self._told, self.core, message)

    def _change_model(self):
        """Now and then twice, so that the text of the first change may never be read."""
        super()._change_model()
        if self.random.random() < 0.5:
            self.later(0, 4, super()._change_model)

    # What the feed asks

    def schema(self):
        return SCHEMA % ("" if OPEN in self.service.states[-1] else " - blocked"), self.token(self.head)["token"]

    def relationships(self, of, token):
        return [relation_of(one) for one in self.service.states[self.place(token)] - {OPEN} if one[0] == of]

    def watch(self, token):
        """What came behind a token. A stream that is opened again may give what came before."""
        after = max(self.base, self.place(token) - self._again(token))
        head = max(after, self.service.index(max(0, self.now - self.lag)))
        for place in range(after + 1, head + 1):
            changes = self.service.changes[self.service.times[place]]
            updates = [{"operation": "OPERATION_TOUCH" if live else "OPERATION_DELETE", "relationship": relation_of(given)}
                       for given, live in changes if given != OPEN]
            self.known.append((self.now, place, True))
            yield {"updates": updates, "changesThrough": self.token(place, True), **({} if updates else {"schemaUpdated": True})}
        if after == head and self.has_checkpoints:
            # A number stands between those of the commits.
            token = self.token(after) if isinstance(self.tokens, Snapshots) else self.tokens.token_of(FIRST + after * NEXT + NEXT // 2)
            yield {"updates": [], "changesThrough": token, "isCheckpoint": True}

    def _again(self, token):
        """How many of the changes up to a token come again."""
        return self.random.choice((0, 0, 1))

    def _begin_feed(self):
        self._begin_store()
        self.base = self.head
        self.core.take(self.feed._base(None), self._at())
        self._drain()
        self.own(1, 3, self._read)

    def _read(self):
        for watched, read_at in self.feed._watched():
            for one in self.feed._sure(watched, read_at):
                self._tell("feed", one)
                if isinstance(one, Watched):
                    self.waited[self.place(one.token)] = self.now
                if isinstance(one, Watched) and self.token(self.place(one.token), True)["token"] == one.token and not one.updates and one.rules is None:
                    self.unread.add(self.place(one.token))
        if self._has_more():
            self.own(1, 1 + self.shape.poll, self._read)

    # Requests

    def _write(self):
        taken = self.random.sample(TUPLES, self.random.choice((1, 1, 1, 2)))
        number, is_ours = next(self.numbers), self.random.random() < self.shape.ours
        if is_ours:
            self._tell("proxy", Started(number, self.now, False, "write"))
        self.later(0, 3, self._commit, number, taken, self.now, is_ours)

    def _commit(self, number, taken, asked, is_ours):
        state = self.service.states[-1]
        self.service.commit(self.now, [(given, given not in state) for given in taken], next(self.service.places), self.now)
        if is_ours:
            self.later(0, 3, self._answer_write, number, asked, self.head)

    def _answer_write(self, number, asked, place):
        self.known.append((self.now, place, False))
        self._end(number, "write", "/v1/relationships/write", asked, {}, {"writtenAt": self.token(place, True)})

    def _end(self, number, call, path, asked, request, response, save=None, version=None):
        self._tell("proxy", Ended(number, call, path, WALL + asked, WALL + self.now, self.now, save, version, None, 200,
                                  json.dumps(request).encode(), json.dumps(response).encode(), None))

    def _check(self):
        random, goal = self.random, self.random.choice(GOALS)
        if random.random() < 0.3:
            self._ask(Check(self, goal, FULL, save=True))
        else:
            self._ask(Check(self, goal, random.choice((FULL, LEAST, ANY)), demand=random.randint(self.base, self.head)))

    def _show(self, saved):
        goal = self.random.choice([one for one in GOALS if one[1] == saved.goal[1]])
        self._ask(Check(self, goal, self.random.choice((FULL, LEAST, LEAST, ANY)), shows=saved, demand=saved.at))

    def _evaluate(self, asked):
        least = {FULL: self.head, LEAST: asked.demand, ANY: 0}[asked.kind]
        asked.at = self.random.randint(max(least, self.head - 3, 0), self.head)
        is_faulty = self.random.random() < self.shape.faults
        if is_faulty and self.random.random() < 0.7:
            asked.at = max(0, self.head - self.random.randint(0, 4))
        asked.reply = holds(self.service.states[asked.at], asked.goal) ^ (is_faulty and self.random.random() < 0.3)
        self.later(2, 6, self._answer, asked)

    def _answer(self, asked):
        asked.ended = self.now
        self.known.append((self.now, asked.at, False))
        if asked.save and asked.reply:
            self.later(0, 8, self._show, asked)
        kind, name, relation, user = asked.goal
        consistency = {FULL: {"fullyConsistent": True}, LEAST: {"atLeastAsFresh": asked.demand is not None and self.token(asked.demand)},
                       ANY: {"minimizeLatency": True}}[asked.kind]
        request = {"consistency": consistency, "resource": {"objectType": kind, "objectId": name}, "permission": relation,
                   "subject": {"object": {"objectType": "user", "objectId": user}}}
        response = {"checkedAt": self.token(asked.at), "permissionship": "PERMISSIONSHIP_%s_PERMISSION" % ("HAS" if asked.reply else "NO")}
        self._end(asked.number, "check", "/v1/permissions/check", asked.began, request, response, "v%d" % asked.number if asked.save else None,
                  asked.shows and "v%d" % asked.shows.number)


class Apart(Tokens):
    """No request passes the recorder, which has the changes alone; an application says what it asked, and what the answers saw."""

    def __init__(self, seed, shape):
        super().__init__(seed, shape)
        self.tokens, self.core = Numbers(), Core(SpiceDb(True), shape.hold / 1e9)
        self.feed = Feed(self, True)
        self.said = [{"event": "own", "format": 1, "service": "spicedb", "time": time_text(WALL)}]

    def _tell(self, way, message):
        if way == "feed" or isinstance(message, Beat):
            super()._tell(way, message)

    def _answer_write(self, number, asked, place):
        """Nobody says it."""

    def _end(self, number, call, path, asked, request, response, save=None, version=None):
        consistency = request["consistency"]
        row = {"event": "asked", "began": time_text(WALL + asked), "ended": time_text(WALL + self.now), "newest": "fullyConsistent" in consistency,
               "goal": [*request["resource"].values(), request["permission"], *request["subject"]["object"].values()],
               "reply": response["permissionship"] == "PERMISSIONSHIP_HAS_PERMISSION", "snapshot": response["checkedAt"]["token"]}
        demanded = (consistency.get("atLeastAsFresh") or {}).get("token") if save is None else None
        more = {"token": demanded, "saves": save, "shows": version}
        self.said.append({**row, **{key: one for key, one in more.items() if one is not None}})

    def run(self):
        with mock.patch("new_enemy_tools.recording.spicedb.TOLD", 0):
            super().run()
        said = [*self.said, {"event": "over", "time": time_text(WALL + self.now), "asked": len(self.said) - 1}]
        own = own_of(Given("own", lambda: (Row("own", number, row) for number, row in enumerate(said, 1)), True))
        lines = b"".join(self.lines).splitlines(True)
        if self.random.random() < 0.3:
            # The log is still written.
            first = next(place for place, one in enumerate(lines) if b'"event":"place"' in one)
            lines = lines[:self.random.randint(first + 1, len(lines))]
        self.lines = [json.dumps(row).encode() + b"\n" for row in Join([given_of("log", lines, "spicedb")], 0, [own]).lines()]
        return self


class Killed(Tokens):
    """The keeper is killed at any moment, and another goes on in its folder, which the proxy tells what it could not tell; or the proxy is killed
    with it, and nothing passes until another has begun. The schema stays."""

    def __init__(self, seed, shape, folder):
        super().__init__(seed, shape)
        self.folder, self.log, self.kills = folder, None, Random("kills %d" % seed)
        # what the proxy remembers, and what it could tell nobody; and when each keeper began, with the newest commit that the service had
        self.writes, self.untold, self.begun = Writes(), [], []
        # when a proxy was killed last, and whether there is none
        self.killed_at, self.is_down = 0, False

    def run(self):
        clock = Clock(self, None)
        with mock.patch.object(log_files, "time", clock), mock.patch.object(log_files, "LATER", 20 * STEP / 1e9):
            for _ in range(self.kills.choice((1, 1, 2))):
                self.later(5, self.shape.length, self.kills.choice((self._kill, self._kill_both)))
            super().run()
            self.log.close()
            os.close(self.log._lock)
        paths = [os.path.join(self.folder, name) for name in sorted(os.listdir(self.folder)) if name.endswith(".jsonl")]
        self.lines = []
        for path in paths:
            with open(path, "rb") as file:
                self.lines.append(file.read())
        return self

    def _open(self):
        self.log = log_files.LogFiles(self.folder, "spicedb", 1 << 20, 3600.0, self.shape.hold / 1e9)
        self.log.lock()
        self.core.left, self.core.is_first = self.log.recover(), self.log.is_first

    def _begin_feed(self):
        self._begin_store()
        self.base = self.head
        self._go_on()

    def _go_on(self):
        self._open()
        self.feed = Feed(self)
        self.core.take(self.feed._base(self.core.left), self._at())
        self._drain()
        self.begun.append((self.now, self.head))
        self.own(1, 3, self._read_of, self.feed)

    def _again(self, token):
        """A snapshot of PostgreSQL that names no transaction does not say which one was the last."""
        again = super()._again(token)
        revision = revision_of(token)
        return again if revision.snapshot is None or revision.snapshot.own is not None else 0

    def _lines(self):
        for name in sorted(os.listdir(self.folder)):
            if name.endswith(".jsonl"):
                with open(os.path.join(self.folder, name), "rb") as file:
                    yield from ((name, line) for line in file)

    def _read_of(self, feed):
        if feed is self.feed:
            self._read()

    def _read(self):
        feed = self.feed
        for watched, read_at in feed._watched():
            for one in feed._sure(watched, read_at):
                self._tell("feed", one)
        if self._has_more():
            self.own(1, 1 + self.shape.poll, self._read_of, feed)

    def _drain(self):
        data = self.core.drained()
        if data:
            self.log.until = self.core.until() if self.core.is_ready else None
            self.log.add(data, True)
            self.log.place = self.core.place

    def _kill(self):
        if self.log is None or self.feed is None:
            return
        os.close(self.log._lock)
        os.close(self.log.descriptor)
        self.feed, self.core = None, Core(SpiceDb(), self.shape.hold / 1e9)
        self.later(2, 30, self._start_again)

    def _kill_both(self):
        """What passes has no answer, and nobody remembers what had one."""
        if self.log is not None and self.feed is not None:
            self._kill()
            self.killed_at, self.is_down, self.writes, self.untold = self.now, True, Writes(), []

    def _start_again(self):
        self.is_down = False
        if self.untold:
            self.core.take(Lost(WALL + self.untold[0], WALL + self.now, len(self.untold), "the keeper of the log was gone"), self._at())
        for message in self.writes.kept:
            self.core.take(message, self._at())
        self.untold = []
        self._go_on()

    def _beat(self):
        if self.feed is not None:
            super()._beat()
        else:
            self.own(5, 5, self._beat)

    def _tell(self, way, message):
        if isinstance(message, Ended):
            self.writes.keep(message)
        if self.feed is None:
            self.untold += [self.now] if way == "proxy" and not self.is_down else []
        else:
            super()._tell(way, message)

    def known_at(self, at, is_sure):
        """What keepers before had from answers goes with them; the next asks what the service has by then."""
        began, head = max((one for one in self.begun if one[0] <= at), default=(0, self.base))
        if not is_sure:
            return max(head, super().known_at(at, is_sure))
        return max([head, *(place for told, place, is_change in self.known if not is_change and began <= told <= at)])

    def _write(self):
        ours = self.shape.ours
        self.shape.ours = 0 if self.is_down else ours
        super()._write()
        self.shape.ours = ours

    def _answer_write(self, number, asked, place):
        if asked > self.killed_at:
            super()._answer_write(number, asked, place)

    def _ask(self, asked):
        if not self.is_down:
            super()._ask(asked)

    def _answer(self, asked):
        if asked.began > self.killed_at:
            super()._answer(asked)


def relation_of(given):
    return relationship_of(("%s:%s" % given[:2], given[2], "%s:%s" % given[3:5], given[5] or ""))


class Verdict:
    """What the log says of a run, against what was."""

    def __init__(self, world):
        self.world = world
        self.answered = [one for one in world.checks if one.ended is not None]
        self.entries, self.lost = {}, 0
        # on PostgreSQL a revision is the number of a commit of the log
        self.numbered = [place for place in range(world.base, world.head + 1) if place not in world.unread]
        # the places of the commits so far, and the state behind each
        self.commits, self.states = [], {}
        self.saved = {}
        state = frozenset()
        for row in map(json.loads, b"".join(world.lines).splitlines()):
            if row["event"] in ("write", "rules"):
                state = frozenset(state - set(map(_tuple, row.get("remove", ()))) | set(map(_tuple, row.get("add", ()))))
                if row["event"] == "rules":
                    state = state - {OPEN} if "exclusion" in json.dumps(row) else state | {OPEN}
                place = world.base if row.get("base") or "revision" not in row else self.place(row["revision"])
                is_base = place == world.base
                self.commits += [] if is_base and self.commits else [place]
                self.states[place] = state
            elif row["event"] in ("check", "content"):
                self.entries[row["time"]] = row, list(self.commits)
                if row["event"] == "content" and "version" in row:
                    self.saved[row["version"]] = row
                elif "version" in row:
                    row["of"] = self.saved.get(row["version"])
            elif row["event"] == "gap":
                self.lost += row.get("lost", 0)
            elif row["event"] == "unmapped":
                self.lost += "detail" in row

    def place(self, revision):
        if not isinstance(self.world.tokens, Snapshots):
            return (revision // DECIMALS - FIRST) // NEXT
        # There are no more than the service has.
        return self.numbered[revision] if revision < len(self.numbered) else -1

    def faults(self):
        """What the log says that is not so, or does not say; none where it holds."""
        found = []
        if len(self.entries) + self.lost != len(self.answered):
            found.append("%d checks were answered, and %d stand in the log and %d are counted" % (len(self.answered), len(self.entries), self.lost))
        if self.commits != sorted(set(self.commits)):
            found.append("the commits come twice, or have another order than the service's")
        for one in self.answered:
            entry = self.entries.get(time_text(WALL + one.ended))
            if entry is not None:
                found += ["%s (check %d)" % (fault, one.number) for fault in self._of_check(one, *entry)]
        return found

    def _of_check(self, one, row, before):
        if self.place(row["snapshot"]) != one.at:
            yield "a check has another snapshot than its reply"
        if self._state(one.at) != self.world.service.states[one.at]:
            yield "the log has another state at a snapshot than the service"
        if before[-1] < one.at and any(one.at >= place > before[-1] for place in self.states):
            yield "a check stands before a commit that it saw"
        said = set(self._said(row, before))
        for finding in said - set(self._true(one, False)):
            yield "a right check is accused of %s" % finding
        for finding in set(self._true(one, True)) - said:
            yield "a check passes without %s" % finding
        if one.shows is not None and row["of"] is None and not self.lost:
            yield "a version that was saved is not known"

    def _state(self, place):
        return self.states[max(at for at in self.states if at <= place)]

    def _said(self, row, before):
        """The findings of an entry, by the log alone."""
        at, token = self.place(row["snapshot"]), self.place(row["token"]) if "token" in row else None
        if holds(self._state(at), (*row["goal"][:3], row["goal"][4])) != row["reply"]:
            yield "a wrong reply"
        if row["event"] == "check" and token is not None and any(at < place <= token for place in self.states):
            yield "a stale answer"
        if row["event"] == "content" and before[-1] > at:
            yield "content that is not of the latest state"
        if row.get("of") is not None and (token is None or any(token < place <= self.place(row["of"]["token"]) for place in self.states)):
            yield "an old token"

    def _true(self, one, is_sure):
        known = self.world.known_at(one.began, is_sure)
        if holds(self.world.service.states[one.at], one.goal) != one.reply:
            yield "a wrong reply"
        demanded = {FULL: known, LEAST: one.demand, ANY: 0}[one.kind]
        # A schema that changed again before it was read has no line.
        if any(place not in self.world.unread for place in range(one.at + 1, demanded + 1)):
            yield "content that is not of the latest state" if one.save else "a stale answer"
        if one.shows is not None and self.entries[time_text(WALL + one.ended)][0]["of"] is not None and one.kind == ANY:
            yield "an old token"


class OfKilled(Verdict):
    """Where a keeper is killed, what has no line has to be in a gap."""

    def faults(self):
        spans = [(nanoseconds(row.get("from")) or 0, nanoseconds(row["to"]) or 0) for row in map(json.loads, b"".join(
            self.world.lines).splitlines()) if row["event"] == "gap"]
        found, self.lost = [], 1
        if self.commits != sorted(set(self.commits)):
            found.append("the commits come twice, or have another order than the service's")
        for one in self.answered:
            entry = self.entries.get(time_text(WALL + one.ended))
            if entry is not None:
                found += ["%s (check %d)" % (fault, one.number) for fault in self._of_check(one, *entry)]
            elif not any(start - 1000 <= WALL + one.ended and WALL + one.began <= end + 1000 for start, end in spans):
                found.append("a check is neither in the log nor in a gap (check %d)" % one.number)
        return found


def run_killed(seed, shape=None):
    """The faults of one run whose keeper is killed."""
    shape = shape or Shape(Random("shape %d" % seed))
    shape.horizon = shape.stale = 0
    with tempfile.TemporaryDirectory(dir="/dev/shm" if os.path.isdir("/dev/shm") else None) as folder:
        world = Killed(seed, shape, folder)
        world.run()
        return world, OfKilled(world)


def _tuple(given):
    return tuple(given + [None] * (6 - len(given)))


def run_either(seed):
    """The faults of one run, where the schema changes if the seed is even."""
    shape = Shape(Random("shape %d" % seed))
    shape.models = seed % 2 == 0
    return run(seed, shape)


def run(seed, shape, kind=Tokens):
    """The faults of one run."""
    shape.horizon = shape.stale = 0
    world = kind(seed, shape).run()
    return world, Verdict(world)


def run_apart(seed):
    """The faults of one run where an application says what it asked, beside a log of the changes alone."""
    shape = Shape(Random("shape %d" % seed))
    shape.models = seed % 2 == 0
    return run(seed, shape, Apart)
