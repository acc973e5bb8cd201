"""The simulation of OpenFGA with the whole recorder in it: the proxy, which passes bytes of HTTP from clients to the service, what it tells
the keeper of the log, the files of that, and the feed, which asks the service for its changes.

Simulated are the sockets and the clocks. Requests and answers come in pieces and one behind the other. In a run with troubles some requests
can be read in two ways, and the service reads them in one of these; there are more clients than there may be; the disk is full for a while;
and keeper and proxy are killed, also in the midst of a line, or ended, and begun again with what they left.
"""
import errno
import gzip
import io
import json
import os
import tempfile
import types
from collections import Counter, deque
from contextlib import ExitStack
from functools import partial
from heapq import heappop
from random import Random
from unittest import mock
from urllib.parse import urlsplit

from new_enemy_tools.importing.chained import in_chain
from new_enemy_tools.importing.refusals import Refusals
from new_enemy_tools.importing.times import nanoseconds, text_of_time
from new_enemy_tools.recording import beside, bodies, core, http_reading, keeper, log_files, messages, openfga_feed, reader, relay
from new_enemy_tools.recording.asking import FeedFault
from new_enemy_tools.recording.beside import Word
from new_enemy_tools.recording.core import Faulty
from new_enemy_tools.recording.keeper import Keeper, Settings
from new_enemy_tools.recording.lines import time_text
from new_enemy_tools.recording.log_files import LogFault
from new_enemy_tools.recording.messages import Beat, Bye, Ended, Teller
from new_enemy_tools.recording.openfga import Base, OpenFga, call_of
from new_enemy_tools.recording.relay import Relay
from tests.simulated_network import Clock, Nobody, Pipe, Transport, Wire
from tests.simulation import GOALS, STEP, STORE, TUPLES, WALL, Asked, Shape, Verdict, World, holds, key_of, model_of

PATHS = (b"/stores/S/check", b"/stores/S/%63heck", b"/stores/%53/check#x", b"http://host/stores/S/check?x", b"/stores/S/./check")
# Not all services take these for checks; this one does.
LOOSE = (b"/stores/S/CHECK", b"/stores/S/check;x", b"/stores/S/check%20")
# Headers by which some say that a body of so many bytes follows, and others that none does.
STRANGE = (b"X: y\nContent-Length: %d", b"X: y\rContent-Length: %d", b"Content-Length: 0\r\nContent-Length: %d", b"Content-Length : %d",
           b"X: y\r\n Content-Length: %d", b"Content-Length: +%d", b"Content-Length: %d\r\nTransfer-Encoding: chunked")
WIRES = 3
OFTEN = {"strange": 0.2, "loose": 0.1, "odd": 0.1, "long": 0.05, "fails": 0.05, "cut": 0.05, "ends": 0.05}
# How many bytes of an answer are kept, and may wait at each place, in place of megabytes; how late things are given up, in steps.
BODY, ROOM, PIPE, AGAIN, LAST, LATER = 2000, 1500, 500, 20, 60, 20
STARVED = "the service can't be asked: Too many open files"
# How many files there may be open beside one for each client.
SPARE = 4


def label_of(asked):
    """Labels of which some differ in their last byte alone, and in one that is a blank where it is read as Latin-1."""
    return str(asked.number // 2) + ("\u00e0" if asked.number % 2 else "\u00c5")


def message(random, first, headers, body):
    """As bytes, with the length of the body or in chunks."""
    if random.random() < 0.5:
        return b"\r\n".join([first, *headers, b"Content-Length: %d" % len(body), b"", body])
    at = random.randint(1, len(body))
    chunks = b"".join(b"%x\r\n%s\r\n" % (len(one), one) for one in (body[:at], body[at:]) if one)
    return b"\r\n".join([first, *headers, b"Transfer-Encoding: chunked", b"", chunks + b"0\r\n\r\n"])


def bare(random, data):
    """Some ends of lines without their first sign, as the head's last one; some read them all the same."""
    ends = [place for place in range(len(data)) if data.startswith(b"\r\n", place)]
    taken = random.choice((ends, random.sample(ends, random.randint(1, len(ends))), [data.index(b"\r\n\r\n") + 2]))
    return b"".join(data[start:end] for start, end in zip([0, *(place + 1 for place in sorted(taken))], [*sorted(taken), len(data)]))


class Killed(BaseException):
    """The keeper is killed in what it does."""


class Gone(BaseException):
    """The proxy is gone, and its keeper waits for nothing more."""


class Thing:
    """A request that is no check."""

    is_cut, began = False, 0

    def __init__(self, body=b"{}"):
        self.body = body

    def answered(self):
        """It has its answer."""

    def let_go(self):
        """It never comes to the service."""


class Write(Thing):
    def __init__(self, world, taken):
        super().__init__()
        self.all, self.taken, self.asked, self.committed = world, taken, world.now, None
        # whether a keeper's log has that it was answered
        self.is_noted = False

    def answered(self):
        self.all.writes[self.all.now] = self

    def let_go(self):
        self.all.service.busy.difference_update(self.taken)


class Check(Asked, Thing):
    """`place` is where it is asked; `is_odd` says that the application says two things of it, `is_long` that its answer is too long, and
    `fails` that the service has none."""

    is_odd = is_long = fails = is_cut = is_elsewhere = False

    def answered(self):
        if not self.fails:
            self.ended = self.all.now
            if self.save and self.reply and not self.is_odd and not self.is_elsewhere:
                self.all.later(0, 8, self.all._show, self)


class Proxy:
    """A proxy's process."""

    def __init__(self, most, folder, now):
        self.teller, self.again_at, self.word, self.starts = Teller(None), None, Word(folder), 0
        self.word.leave(now)
        self.relay = Relay(urlsplit("http://service"), self.teller, call_of, most)
        self.relay.server = Nobody()


class Kept(Keeper):
    """A keeper without its threads, and what it knows, as a world has it."""

    def __init__(self, world, word, since):
        shape = world.shape
        seconds = [one / 1e9 for one in (shape.hold, shape.poll * STEP, shape.stale)]
        settings = Settings("openfga", "", world.folder, STORE, None, False, *seconds, world.random.choice((900, 1 << 20)), 3600.0,
                            shape.told_horizon / 1e9, shape.back / 1e9, word=word, since=since)
        service = OpenFga(STORE, shape.stale, shape.hold, shape.told_horizon, False, world.ignores)
        super().__init__(settings, service, openfga_feed.OpenFgaFeed(settings, Source(world)), Pipe(world, self))
        self.world, self.inbox = world, deque()
        self.is_open = self.is_busy = False
        # writes of which it has heard, and its log has nothing yet; and when it, or one before it, had learnt how late the changes are shown
        self.heard, self.learnt = [], None
        # when the last reading began that it took
        self.read_at = 0
        # as of a world; `read` is what was known from the readings
        self.known, self.read, self.since, self.whole, self.first, self.last_began = [], [], {}, set(), None, 0

    def say(self, text):
        self.world.said.append(text)

    def wall(self, at):
        return self.world.wall(at)

    def work(self):
        """Takes what has come."""
        if not self.is_open and self.inbox and isinstance(self.inbox[-1], Bye):
            self.world.own(LAST, LAST + 1, self._give_up)
        if self.is_busy or not self.is_open or self.world.is_held_up:
            return
        self.is_busy = True
        while self.inbox:
            message = self.inbox.popleft()
            self.read_at = getattr(message, "began", self.read_at)
            self._note(message)
            self._take([message], 0)
            self._write()
            self._has_noted(message)
            if self.learnt is None and self.core.service.horizon >= self.world.service.horizon:
                self.learnt = self.world.now
        self.is_busy = False
        if self.core.is_over and self.gone_at is None:
            self.core.end_asked(self.world._at())
            self.gone_at = self.world.now / 1e9
        if self.end.data or self.end.is_ended and not self.core.is_over:
            self.end.move()

    def look(self):
        """Takes the words of others."""
        if self.is_open and not self.is_busy:
            self.is_busy = True
            self._take_beside()
            self.is_busy = False

    def _give_up(self):
        """Another keeper has the folder still."""
        if self in self.world.nexts:
            self.world.nexts.remove(self)
            self._take(list(self.inbox), 0)
            self._leave()

    def _note(self, message):
        """Of a write that passed it is known that it came, when its answer is told, of which all can be read."""
        is_write = isinstance(message, Ended) and message.call == "write" and message.status == 200 and message.response is not None
        thing = self.world.writes.get(message.clock) if is_write else None
        if thing is not None and self.core.is_ready and thing.began >= self.first:
            self.known.append((message.clock, thing.committed))
            self.whole.add(thing.committed)

    def _has_noted(self, message):
        """The log has all that the keeper has heard of, when it has begun."""
        thing = self.world.writes.get(message.clock) if isinstance(message, Ended) else None
        self.heard += [thing] if thing is not None else []
        if self.core.is_ready:
            for thing in self.heard:
                thing.is_noted = True
            self.heard = []

    def is_done(self):
        return self.gone_at is not None and (not self.core.is_waiting() or self.world.now / 1e9 > self.gone_at + LAST * STEP / 1e9)

    def let_go(self):
        """Its process is gone."""
        self.is_open, self.end.is_broken = False, True
        for descriptor in {self.log._lock, self.log.descriptor} - {None}:
            os.close(descriptor)


class Source:
    """What the feed asks; each answer takes its time."""

    def __init__(self, world):
        self.world = world

    def changes(self, store, size, token):
        world = self.world
        if world.is_starved:
            world.found = []
            raise FeedFault(STARVED)
        world.wait(0, 3)
        *before, other = map(int, token.split(".")) if token else (0, 0, 0)
        listed, cursor = world.service.page(world.now, tuple(before), min(size, world.cap))
        if listed and world.empties.random() < world.often_empty:
            # Nothing, and another token.
            listed, cursor, other = [], tuple(before), other + 1
        world.found += listed
        world.wait(0, 2)
        return {"continuation_token": "%d.%d.%d" % (*cursor, other), "changes": [
            {"tuple_key": key_of(given), "operation": "TUPLE_OPERATION_" + ("WRITE" if live else "DELETE"), "timestamp": text_of_time(WALL + stamped)}
            for _, _, given, live, _, stamped in listed]}

    def model(self, store, size):
        self.world.model = sum(at <= self.world.now for at in self.world.service.models)
        return self.world.model, [model_of(number % 2 == 1, "M%d" % number) for number in range(self.world.model, -1, -1)][:size]

    def models(self, data):
        return data


class Whole(World):
    """One run by a seed, with troubles where `has_troubles`; the log's files are in a folder."""

    def __init__(self, seed, shape, folder, has_troubles):
        super().__init__(seed, shape)
        self.folder, self.has_troubles, self.said, self.faulty = folder, has_troubles, [], []
        self.ignores = self.random.random() < 0.5
        self.most = self.random.choice((2, 3, 100)) if has_troubles else 100
        # how often a request is strange, says two things, or gets an answer that is too long, a fault or is cut, and how often a side ends
        self.often = {name: has_troubles and self.random.choice((0, 0, often)) for name, often in OFTEN.items()}
        # more troubles, of which some runs have none; and how often the ends of lines are bare
        self.more = Random("more %d" % seed)
        # kills between two touches of the files, of a keeper that waits, and of a proxy whose keeper does not keep up
        self.moments, self.dies_in = Random("moments %d" % seed), 0
        self.often_bare = self.more.choice((0, 0, 0.1)) if has_troubles else 0
        self.wires, self.transports, self.soon, self.found = [], [], [], []
        # the proxies that run, the last of which gets all new clients; the keeper that has the folder, and those that wait for it
        self.proxies, self.kept, self.nexts, self.keepers = [], None, deque(), []
        self.is_full = self.is_starved = self.tears = self.is_ending = self.has_lost_keeper = self.is_left_open = self.is_held_up = False
        self.pipe = PIPE if has_troubles else 1 << 20
        # how many changes the service gives at most, and how often it gives none although there are some
        self.empties = Random("pages %d" % seed)
        self.cap, self.often_empty = self.empties.choice((1000, 1000, 1, 3)), self.empties.choice((0, 0, 0.2))
        # when the recorder refused a connection, or did not serve one; and writes by when they had their answers
        self.refused, self.writes = [], {}
        # the writes that pass the recorder; and how often the feed never shows one, or whether it is late and nobody said so
        self.ours, self.hidings, self.often_hidden = [], Random("hidden %d" % seed), 0
        if has_troubles and shape.ours == 1 and self.hidings.random() < 0.6:
            self._hide()

    def in_doubt(self):
        return super().in_doubt() | {tuple(key[0]) for made in self.core.service.made for key in made.keys if key is not None}

    def _hide(self):
        """Nothing but the writes that pass the recorder, of which it hears, tells what the feed does not show."""
        self.often_hidden = self.hidings.choice((0, 0.1, 0.4))
        if self.hidings.random() < 0.5:
            self.shape.told_horizon, self.service.horizon = 0, 15 * STEP
            self.shape.horizon = self.service.horizon
        self.often, self.often_bare, self.most = dict.fromkeys(self.often, 0), 0, 100

    # The devices around the recorder

    def run(self):
        nested, top = Clock(self, lambda seconds: self.advance(3 * STEP)), Clock(self, self._rest)
        rooms = {messages: ("ROOM", ROOM), core: ("ROOM", 10 * ROOM), bodies: ("BODY", BODY), http_reading: ("BODY", BODY), keeper: ("LAST", -1.0),
                 openfga_feed: ("PAGE", self.shape.page), log_files: ("LATER", LATER * STEP / 1e9)}
        with ExitStack() as stack:
            for module in (keeper, reader, messages, log_files, beside, openfga_feed):
                stack.enter_context(mock.patch.object(module, "time", top if module is openfga_feed else nested))
            for module, (name, value) in rooms.items():
                stack.enter_context(mock.patch.object(module, name, value))
            stack.enter_context(mock.patch.object(core, "TOGETHER", 10 * STEP))
            stack.enter_context(mock.patch.object(keeper, "TICK", 2 * STEP / 1e9))
            stack.enter_context(mock.patch.object(log_files, "_write_all", self._write_all))
            touched = {name: partial(self._touch, getattr(os, name)) for name in ("remove", "replace", "ftruncate", "fsync")}
            stack.enter_context(mock.patch.object(log_files, "os", types.SimpleNamespace(**{**vars(os), "open": self._open, **touched})))
            # A proxy has spare files for its word.
            stack.enter_context(mock.patch.object(beside, "os", types.SimpleNamespace(**{**vars(os), "remove": touched["remove"]})))
            stack.enter_context(mock.patch.object(relay.sys, "stderr", io.StringIO()))
            stack.enter_context(mock.patch.object(relay.asyncio, "get_running_loop", lambda: self))
            self._begin_store()
            self._start()
            self._schedule()
            while self.kept or self.nexts or not self.is_ending:
                self._live()
        for kept in self.keepers:
            # So much less well is known what a learnt horizon leaves open.
            learnt = max(0, kept.core.service.horizon - self.shape.horizon)
            kept.since = {at: since - learnt for at, since in kept.since.items()}
        return self

    def _schedule(self):
        for _ in range(self.shape.requests):
            self.later(-8 if self.random.random() < 0.1 else 3, self.shape.length, self._request)
        if self.shape.models:
            self.later(5, self.shape.length, self._change_model)
        for work in self.random.choices((self._kill_keeper, self._tear, self._kill_proxy, self._end_proxy, self._fill, self._kill_all),
                                        k=self.random.choice((0, 1, 2, 4)) if self.has_troubles else 0):
            self.later(5, self.shape.length + 20, work)
        moments = self._die_soon, self._hold_up, self._kill_waiting, self._take_over
        for random, works, counts in (self.more, (self._starve, self._take_over), (0, 0, 1, 2)), (self.moments, moments, (0, 0, 1, 3)):
            for work in random.choices(works, k=random.choice(counts) if self.has_troubles else 0):
                self.under_way += 1
                self._put(self.now + STEP * random.randint(5, self.shape.length + 20), self._happens, work)
        self.own(0, 0, self._beat)

    def advance(self, length):
        """What happens in a time."""
        until = self.now + length
        while self.events and self.events[0][0] <= until:
            at, _, work, given = heappop(self.events)
            # Nothing happens at once.
            self.now = max(at, self.now + 1000)
            work(*given)
        self.now = max(until, self.now + 1000)

    def wait(self, least, most):
        """The feed waits; the run may be over meanwhile."""
        self.advance(STEP * self.random.randint(least, most))
        if self.kept.is_done():
            raise Gone
        if not self.is_ending and not self._has_more():
            self.is_ending = True
            for proxy in list(self.proxies):
                self._close_proxy(proxy)

    def _rest(self, seconds):
        if round(seconds * 1e9) > self.shape.poll * STEP:
            self.faulty.append("the changes are read too seldom")
        self.wait(0, self.shape.poll)

    def _has_more(self):
        """Also until a reading has begun behind all."""
        return bool(self.nexts) or not self.core.is_ready or self.kept.last_began <= self.quiet_since + self.shape.horizon or super()._has_more()

    def _touch(self, work, *given):
        """Something is done to the files; it may be the last that the keeper does, or what it does no more."""
        if self.dies_in:
            self.dies_in -= 1
            if not self.dies_in:
                if self.moments.random() < 0.5:
                    work(*given)
                raise Killed
        return work(*given)

    def _write_all(self, descriptor, data):
        self._touch(self._write_some, descriptor, data)

    def _write_some(self, descriptor, data):
        if self.is_full or self.tears:
            os.write(descriptor, data[:self.random.randint(0, len(data) - 1)])
            if self.tears:
                self.tears = False
                raise Killed
            raise OSError(28, "No space left on device")
        os.write(descriptor, data)

    def go_on(self):
        soon, self.soon = self.soon, []
        for work in soon:
            work()

    # What asyncio's loop is to the proxy

    def call_soon(self, work):
        self.soon.append(work)

    def create_task(self, work):
        self.later(0, 4, self._work, self.proxies[-1], work)
        return Nobody()

    def _work(self, proxy, work):
        if proxy not in self.proxies:
            work.close()
            return
        try:
            while True:
                work.send(None)
        except StopIteration:
            self.go_on()

    @types.coroutine
    def create_connection(self, make, host, port, ssl=None, server_hostname=None):
        yield
        protocol = make()
        wire = protocol.other.transport.wire
        if self.is_starved or sum(one.wire.proxy is wire.proxy for one in self.transports) >= 2 * self.most + SPARE:
            self.refused.append(self.now)
            raise OSError(errno.EMFILE, "Too many open files")
        wire.service = Transport(self, protocol, wire)
        wire.service.wire = wire
        protocol.connection_made(wire.service)
        return wire.service, protocol

    # The recorder's processes

    def _start(self):
        """A recorder begins: its proxy listens, and its keeper waits for the folder."""
        self.proxies.append(Proxy(self.most, self.folder, self.wall()))
        self._start_keeper(self.proxies[-1])

    def _start_keeper(self, proxy):
        proxy.again_at = self.now + AGAIN * STEP if self.is_starved else None
        if self.is_starved:
            return
        kept = Kept(self, proxy.word.path, proxy.word.start if proxy.starts else None)
        proxy.starts += 1
        self.nexts.append(kept)
        proxy.teller.begin(kept.end)

    def _live(self):
        """The life of a keeper."""
        while not self.nexts:
            self.advance(STEP)
        kept, self.is_left_open = self.nexts.popleft(), False
        self.kept = kept
        self.keepers.append(kept)
        self.core, self.found = kept.core, []
        while self.is_starved:
            self.advance(STEP)
        try:
            kept.take_over()
            kept.is_open = True
            kept.work()
            self._read_feed(kept)
        except FeedFault as fault:
            self.faulty.append("the feed: %s" % fault)
            self.is_ending = True
        except Gone:
            self._end_keeper(kept)
        except (Killed, LogFault):
            # Or the disk was full, and the proxy gone.
            self._lose_keeper(kept)
        kept.let_go()
        self.before, self.kept = kept, None

    def _read_feed(self, kept):
        """As a thread of the keeper does."""
        while True:
            try:
                kept.feed.run(kept.core.left, self._put_read)
            except FeedFault as fault:
                if str(fault) != STARVED:
                    raise
                self._came(kept, Faulty(STARVED))
                self.wait(5, 10)

    def _end_keeper(self, kept):
        try:
            kept._end_log()
        except (Killed, LogFault):
            self._lose_keeper(kept)

    def _lose_keeper(self, kept, had_folder=True):
        self.has_lost_keeper = True
        self.is_left_open |= had_folder
        for proxy in self.proxies:
            if proxy.teller.end is kept.end:
                kept.end.is_broken = True
                proxy.word.leave(self.wall())
                proxy.teller.forget()
                proxy.again_at = self.now + AGAIN * STEP
        self._reveal()

    def _beat(self):
        self.own(2, 2, self._beat)
        for proxy in self.proxies:
            proxy.teller.catch_up()
            if proxy.teller.size > ROOM + BODY // 2 + proxy.teller.writes.size:
                self.faulty.append("more waits for the keeper than there is room for")
            if proxy.again_at is not None and self.now > proxy.again_at:
                self._start_keeper(proxy)
        if self.kept is not None and self.kept.is_open and not self.kept.is_busy and not self.is_held_up:
            self.kept.inbox.append(Beat(0))
            self.kept.work()
            self.kept.look()

    def _kill_keeper(self):
        if self.kept is not None and self.kept.is_open:
            raise Killed

    def _tear(self):
        """It is killed when it writes next, in the midst of that."""
        self.tears = True

    def _die_soon(self):
        """It is killed at one of the next times that it touches its files, before or behind that."""
        self.dies_in = self.moments.randint(1, 6)

    def _hold_up(self):
        """The keeper gets no processor for a while; behind that, or before, its proxy may be killed."""
        self.is_held_up = True
        self._reveal(True)
        self.later(2, 60, lambda: setattr(self, "is_held_up", False))
        if self.moments.random() < 0.5:
            self.later(2, 60, self._kill_proxy)

    def _kill_waiting(self):
        """A keeper that waits for the folder is killed, and its proxy with it or not."""
        if self.nexts and self.kept is not None:
            kept = self.nexts.pop()
            self._lose_keeper(kept, False)
            kept.let_go()
            if self.moments.random() < 0.5:
                self._kill_proxy()

    def _fill(self):
        self.is_full = True
        self._reveal(True)
        self.later(2, 60, lambda: setattr(self, "is_full", False))

    def _starve(self):
        """No process may open one more file."""
        self.is_starved = True
        self.later(2, 60, lambda: setattr(self, "is_starved", False))

    def _open(self, *given):
        if self.is_starved:
            raise OSError(errno.EMFILE, "Too many open files")
        return self._touch(os.open, *given)

    def _take_over(self):
        """A second proxy gets all new clients, while the first goes on with those that it has, until it is ended or killed; or the second is
        before."""
        if self.proxies and not self.is_ending:
            first = self.proxies[-1]
            self._start()
            for proxy in self.random.choice(([first], self.proxies[-2:], self.proxies[:-3:-1])):
                self.later(5, 60, self.random.choice((self._kill_proxy, self._end_proxy)), proxy)

    def _kill_proxy(self, proxy=None):
        proxy = proxy or self.proxies and self.proxies[-1]
        if proxy in self.proxies and not self.is_ending:
            self.proxies.remove(proxy)
            proxy.word.close()
            for one in [one for one in self.transports if one.wire.proxy is proxy]:
                self.transports.remove(one)
                one.kill()
            if proxy.teller.end is not None:
                proxy.teller.end.close()
            self.has_lost_keeper |= proxy.teller.end is None
            self._reveal()
            self._start_again()

    def _start_again(self):
        if not self.proxies:
            self.later(2, 20, self._start)

    def _kill_all(self):
        self._kill_proxy()
        self._kill_keeper()

    def _end_proxy(self, proxy=None):
        proxy = proxy or self.proxies and self.proxies[-1]
        if proxy in self.proxies and not self.is_ending and not proxy.relay.is_over:
            proxy.relay.stop()
            self.later(0, 30, self._close_proxy, proxy)

    def _close_proxy(self, proxy):
        if proxy not in self.proxies:
            return
        if not proxy.relay.is_over:
            proxy.relay.stop()
        closing = proxy.relay.close()
        try:
            closing.send(None)
        except StopIteration:
            self.proxies.remove(proxy)
        proxy.word.close()
        teller = proxy.teller
        if teller.end is None:
            # There is no keeper that could count.
            self.has_lost_keeper = True
        else:
            teller.end.room = 1 << 20
            teller.catch_up()
            teller.tell(Bye(self.wall()))
            teller.flush()
            if teller.end is not None:
                teller.end.close()
        self._reveal()
        if not self.is_ending:
            self._start_again()

    def _show_unheard(self, at, thing):
        """The feed shows a commit as it should of which no keeper with the folder is soon to hear."""
        kept = self.kept
        hears = thing is not None and kept is not None and kept.core.is_ready and thing.wire.proxy.teller.end is kept.end
        if not hears or self.is_held_up or self.is_full:
            self._reveal_one(at)
        else:
            # So long an answer takes at most; nobody has one that never comes.
            self.own(20, 20, lambda: thing.is_noted or self._reveal_one(at))

    def _reveal(self, any_proxy=False):
        """Of a write whose proxy is gone, and that no log has, nobody can know but by the feed, which shows it then as it should."""
        for thing in self.ours:
            if not thing.is_noted and thing.committed is not None and (any_proxy or thing.wire.proxy not in self.proxies):
                self._reveal_one(thing.committed)

    def _reveal_one(self, at):
        self.service.hidden.discard(at)
        self.service.prompt.add(at)

    # What the feed reads

    def _put_read(self, message):
        kept, found, self.found = self.kept, self.found, []
        known = [(self.now, at) for at in self.service.models[:self.model]] + [(self.now, one[4]) for one in found]
        if isinstance(message, Base):
            kept.first = message.received
            if message.left is None:
                self.based = message.received
            else:
                known = self.before.read + known
                kept.since = {**{one[4]: 0 for one in found}, **self.before.since}
                kept.learnt = self.before.learnt
        else:
            since = max(0, kept.last_began - self.shape.horizon)
            for at in self.service.models[:self.model]:
                kept.since.setdefault(at, kept.last_began)
            for one in found:
                kept.since.setdefault(one[4], since)
        kept.read += known
        kept.known += known
        kept.last_began = message.began
        at = max(self.now + STEP * self.random.choice((0, 0, 1, self.shape.delay)), self.tell_at["feed"])
        self.tell_at["feed"] = at
        self._put(at, self._came, kept, message)

    def _came(self, kept, message):
        kept.inbox.append(message)
        kept.work()

    # Requests and answers

    def _with_ends(self, data):
        return bare(self.more, data) if self.more.random() < self.often_bare else data

    def _is(self, name):
        return self.random.random() < self.often[name]

    def _wire(self):
        """A connection, which may be a new one; none where nobody listens."""
        if self.wires and (self.random.random() < 0.6 or len(self.wires) >= (6 if self.has_troubles else WIRES)):
            return self.random.choice(self.wires)
        if not self.proxies or self.is_starved and self.random.random() < 0.5:
            return None
        wire, is_over = Wire(self), self.proxies[-1].relay.is_over
        if not wire.client.is_open and not is_over:
            self.refused.append(self.now)
        return wire

    def _write(self):
        wire, taken = self._wire(), self.random.sample(TUPLES, self.random.choice((1, 1, 1, 2)))
        if self.service.busy & set(taken):
            return
        self.service.busy.update(taken)
        if wire is None or self.random.random() >= self.shape.ours:
            self.later(0, 2, self._place_write, next(self.numbers), taken, self.now, False)
            return
        body = {}
        for given in taken:
            part = "deletes" if given in self.service.states[-1] else "writes"
            body.setdefault(part, {"tuple_keys": []})["tuple_keys"].append(key_of(given))
        data = message(self.random, b"POST /stores/S/write HTTP/1.1", [b"Host: x"], json.dumps(body).encode())
        self.ours.append(Write(self, taken))
        wire.send(data, [(self.ours[-1], len(data), lambda thing: self._place_write(thing, thing.taken, thing.asked, True))])
        if self._is("strange"):
            self.later(0, 5, self._check_on, wire)

    def _commit_write(self, number, changes, asked, is_ours, place, stamped):
        at = self.now
        super()._commit_write(number, changes, asked, is_ours, place, stamped)
        if is_ours:
            number.committed = at
            if self.hidings.random() < self.often_hidden:
                self.service.hidden.add(at)
        if self.service.horizon > self.shape.told_horizon or at in self.service.hidden:
            self._show_unheard(at, number if is_ours else None)

    def _answer_write(self, thing, changes, asked, committed):
        self._reply(thing, b"{}")

    def _check(self):
        random = self.random
        self._ask(Check(next(self.numbers), random.choice(GOALS), self.now, random.random() < 0.6, random.random() < 0.25, self))

    def _show(self, saved):
        goal = self.random.choice([one for one in GOALS if one[1] == saved.goal[1]])
        self._ask(Check(next(self.numbers), goal, self.now, self.random.random() < 0.8, False, self, saved))

    def _ask(self, asked):
        random, wire = self.random, self._wire()
        asked.all = self
        if wire is None:
            return
        asked.is_elsewhere = random.random() < 0.05
        asked.is_odd, asked.is_long, asked.fails = map(self._is, ("odd", "long", "fails"))
        self.checks.append(asked)
        data = self._request_of(asked)
        if not self._is("strange"):
            wire.send(data, [(asked, len(data), self._evaluate)])
            if self._is("ends"):
                self.later(0, 10, wire.close)
            return
        line, has_body = random.choice(STRANGE), random.random() < 0.5
        inner = b"0\r\n\r\n" * (b"chunked" in line) + data
        head = b"GET /stores HTTP/1.1\r\nHost: x\r\n" + line % len(inner) + b"\r\n\r\n"
        self.later(0, 5, self._check_on, wire)
        if has_body:
            wire.send(head + inner, [(Thing(), len(head + inner), self._answer_thing)])
        else:
            end = len(head + inner)
            wire.send(head + inner, [(Thing(), end - len(data), self._answer_thing), (asked, end, self._evaluate)])

    def _check_on(self, wire):
        """A check behind what can be read in two ways."""
        kept, self._wire = self._wire, lambda: wire
        self._check()
        self._wire = kept

    def _request_of(self, asked):
        kind, name, relation, user = asked.goal
        body = {"tuple_key": {"user": "user:" + user, "relation": relation, "object": "%s:%s" % (kind, name)}}
        if asked.newest:
            body["consistency"] = "HIGHER_CONSISTENCY"
        headers = [b"Host: x"]
        if asked.save:
            headers.append(b"x-content-save: " + label_of(asked).encode())
        if asked.shows is not None:
            headers.append(b"X-Content-Version:" + label_of(asked.shows).encode() + b" ")
        if asked.is_odd:
            headers += self.random.choice(([b"X-Content-Version: a", b"X-Content-Version: b"], [b"X-Content-Save: a", b"X-Content-Version: b"]))
        path = self.random.choice(LOOSE if self._is("loose") else PATHS)
        if asked.is_elsewhere:
            path = path.replace(b"/S/", b"/T/").replace(b"/%53/", b"/%54/")
        data = message(self.random, b"POST %s HTTP/1.1" % path, headers, json.dumps(body).encode())
        return self._with_ends(data)

    def _answer(self, asked):
        self._reply(asked, json.dumps({"allowed": asked.reply, **({"resolution": "x" * 2 * BODY} if asked.is_long else {})}).encode(),
                    b"500 Internal Server Error" if asked.fails else b"200 OK", self._is("cut"))

    def _answer_thing(self, thing):
        self._reply(thing, thing.body)

    def _reply(self, thing, body, status=b"200 OK", is_cut=False):
        headers = [b"Content-Type: application/json"]
        if self.random.random() < 0.3:
            body, headers = gzip.compress(body), [*headers, b"Content-Encoding: gzip"]
        data = message(self.random, b"HTTP/1.1 " + status, headers, body)
        thing.wire.answer(data if body.startswith(b"\x1f") else self._with_ends(data), is_cut)
        if self._is("ends"):
            thing.wire.service.into.end()

    def everything(self):
        paths = [os.path.join(self.folder, name) for name in sorted(os.listdir(self.folder)) if name.endswith(".jsonl")]
        refusals = Refusals()
        if paths and in_chain(paths, refusals) is None or refusals.refused or refusals.open and not self.has_lost_keeper:
            self.faulty.append("the files are no chain, or one is not closed: %s" % refusals.lines())
        # Where the last keeper was killed its last line may be cut.
        return self.checks, [json.loads(line) for path in paths for line in open(path, encoding="utf-8") if line.endswith("}\n")]


class OfWhole(Verdict):
    """Also that each line is of the check that was answered then, that what has no line meets a gap, and that each change stands there once."""

    def __init__(self, world):
        self.spans, self.elsewhere, self.written = [], 0, Counter()
        super().__init__(world)
        if world.is_left_open:
            # By a clock that was set nobody knows when the last line was written.
            last = max((nanoseconds(row["time"]) for row in self.rows if "time" in row and row["event"] != "write"), default=0)
            self.spans.append((0 if world.set_by else last - world.shape.hold - (LATER + 1) * STEP, 1 << 62))

    def _take(self, row):
        super()._take(row)
        if row["event"] == "gap":
            # Where the clock had been set back when a recorder began, nobody knows how long it was before that.
            is_open = row.get("from") is None and self.world.set_by < 0
            self.spans.append(((nanoseconds(row.get("from")) or 0) - 1000, 1 << 62 if is_open else nanoseconds(row["to"]) + 1000))
        elif row["event"] == "elsewhere":
            self.elsewhere += row["count"]
        elif row["event"] == "write":
            self.written.update((tuple(one), side == "add") for side in ("add", "remove") for one in row.get(side, ()))

    def _is_in_gap(self, since, until):
        since, until = sorted((self.world.wall(since), self.world.wall(until)))
        return any(start <= until and since <= end for start, end in self.spans)

    def _of_counts(self, answered):
        world = self.world
        yield from world.faulty
        yield from self._of_lines({time_text(world.wall(one.ended)): one for one in answered})
        here = [one for one in answered if not one.is_elsewhere or not world.ignores]
        for one in here:
            if time_text(world.wall(one.ended)) not in self.entries and not self._is_in_gap(one.sent_at, one.ended):
                yield "a check is neither in the log nor in a gap (check %d)" % one.number
        elsewhere = [one for one in answered if one.is_elsewhere and world.ignores]
        surely = sum(not self._is_in_gap(one.sent_at, one.ended) for one in elsewhere)
        if not surely <= self.elsewhere <= len(elsewhere):
            yield "checks of other stores are not counted"
        if not all(self._is_in_gap(at, at) for at in world.refused):
            yield "a client was refused, and no gap says so"
        feed, later = (Counter((tuple(one for one in row[2] if one is not None), row[3]) for row in world.service.feed if row[4] > since)
                       for since in (-1 << 60, world.based))
        # What no reading showed before the end comes with the next recorder.
        later.subtract((tuple(one for one in row[2] if one is not None), row[3]) for row in world.service.feed if row[4] > world.based and (
            row[4] in world.service.hidden or max(row[4], row[5] + world.service.horizon) >= world.keepers[-1].read_at))
        if self.rows and (self.written - feed or +later - self.written and not world.is_left_open):
            yield "a change stands not in the log, or twice"
        if not world.has_troubles and len(self.entries) + self.lost + self.elsewhere != len(answered):
            yield "%d checks were answered, and %d stand in the log and %d are counted" % (len(answered), len(self.entries), self.lost + self.elsewhere)

    def _saw_unanswered(self, one, times):
        """Where changes come late and its keeper was told of no horizon, nor had learnt it: whether a check is right by
        none of its states as they are without the changes of which no answer had told."""
        world, kept, states, state = self.world, one.world, {}, set(self.world.service.states[0])
        if world.service.horizon <= world.shape.told_horizon or kept.learnt is not None and kept.learnt <= one.ended:
            return False
        told = {at for when, at in kept.known if when <= one.ended}
        told |= {thing.committed for when, thing in world.writes.items() if thing.is_noted and when <= one.ended}
        for at in world.service.times:
            for given, live in world.service.changes.get(at, ()) if at in told else ():
                (state.add if live else state.discard)(given)
            states[at] = frozenset(state)
        return not any(holds(states[at], one.goal) == one.reply for at in times)

    def _of_lines(self, answered):
        for time, (row, _) in self.entries.items():
            one = answered.get(time)
            if one is None or one.is_elsewhere or one.is_odd or one.is_long or (row["goal"], row["reply"]) != (
                    [*one.goal[:3], "user", one.goal[3]], one.reply):
                yield "a line is none of the check that was answered then"

    def _of_check(self, one, row, behind):
        if one.world is None:
            yield "a line is of a check that was told to no keeper (check %d)" % one.number
            return
        yield from super()._of_check(one, row, behind)
        named = one.shows or (one if one.save and one.reply else None)
        if row.get("version") != (named and label_of(named)):
            yield "a check has another label than the application said (check %d)" % one.number


def run_whole(seed, shape=None, has_troubles=None):
    """The faults of one run; there are troubles in each second one."""
    shape = shape or Shape(Random("shape %d" % seed))
    shape.shows = True
    with tempfile.TemporaryDirectory(dir="/dev/shm" if os.path.isdir("/dev/shm") else None) as folder:
        world = Whole(seed, shape, folder, seed % 2 == 1 if has_troubles is None else has_troubles)
        world.set_clock(seed)
        world.run()
        return world, OfWhole(world)
