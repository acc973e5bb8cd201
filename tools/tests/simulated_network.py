"""The network of a simulation: what asyncio and sockets are to the recorder's processes, with clients and a service at its ends. Bytes come in
pieces, in a time that is drawn, and each side may end or be killed.
"""
from collections import deque

from new_enemy_tools.recording.messages import SIZE, Bye, messages_from


class Clock:
    """The time of a world, as a module's `time`."""

    def __init__(self, world, sleep):
        self.world, self.sleep = world, sleep

    def time_ns(self):
        return self.world.wall()

    def monotonic_ns(self):
        return self.world.now

    def monotonic(self):
        return self.world.now / 1e9


class Way:
    """Bytes on their way to one side, which come in pieces, and the end behind them."""

    def __init__(self, world, come, ended):
        self.world, self.come, self.ended = world, come, ended
        self.data = bytearray()
        self.is_moving = self.is_paused = self.has_end = self.is_dead = False

    def send(self, data):
        self.data += data
        self.move()

    def end(self):
        self.has_end = True
        self.move()

    def move(self):
        if not (self.is_moving or self.is_paused or self.is_dead) and (self.data or self.has_end):
            self.is_moving = True
            self.world.later(0, 3, self._arrive)

    def _arrive(self):
        self.is_moving = False
        if self.is_dead or self.is_paused:
            return
        if not self.data:
            self.is_dead = True
            self.ended()
            return
        count = self.world.random.choice((len(self.data), self.world.random.randint(1, len(self.data))))
        data = bytes(self.data[:count])
        del self.data[:count]
        self.come(data)
        self.move()


class Transport:
    """The proxy's end of a connection, as asyncio has it. `peer` is the other end: `come`, `ended`, `passed` a count of bytes, and `last` and
    `behind` around the last piece of what it sent."""

    def __init__(self, world, protocol, peer):
        self.world, self.protocol, self.peer = world, protocol, peer
        self.into, self.out = Way(world, self._come, self._ended), Way(world, peer.come, peer.ended)
        self.is_open = True
        world.transports.append(self)

    def _come(self, data):
        if not self.is_open:
            return
        is_last = not self.into.data
        if is_last:
            self.peer.last()
        self.protocol.get_buffer(-1)[:len(data)] = data
        self.protocol.buffer_updated(len(data))
        self.world.go_on()
        if is_last:
            self.peer.behind()

    def _ended(self):
        if self.is_open and not self.protocol.eof_received():
            self.close()
        self.world.go_on()

    def write(self, data):
        if self.is_open:
            self.peer.passed(len(data))
            self.out.send(data)

    def write_eof(self):
        self.out.end()

    def can_write_eof(self):
        return True

    def is_closing(self):
        return not self.is_open

    def pause_reading(self):
        self.into.is_paused = True

    def resume_reading(self):
        self.into.is_paused = False
        self.into.move()

    def close(self):
        if self.is_open:
            self.is_open, self.into.is_dead = False, True
            self.out.end()
            self.world.own(0, 1, self._lost)

    def abort(self):
        self.out.data.clear()
        self.close()

    def _lost(self):
        if self in self.world.transports:
            self.world.transports.remove(self)
            self.protocol.connection_lost(None)
            self.world.go_on()

    def kill(self):
        """The proxy's process is gone."""
        self.is_open, self.into.is_dead = False, True
        self.out.data.clear()
        self.out.end()


class Ending:
    """The end of a connection at a client: its answers are of no interest."""

    def __init__(self, wire):
        self.ended = wire.close

    def come(self, data):
        """It reads."""

    passed = come

    def last(self):
        """Of a request nothing hangs on that."""

    behind = last


class Wire:
    """A client's connection, and what the service takes for requests in what was sent, each with up to where it goes and what the service does
    then."""

    def __init__(self, world):
        self.world = world
        self.asked, self.answering = deque(), None
        self.sent = self.went = self.got = self.free = 0
        self.is_open, self.is_leaving, self.service = True, False, None
        self.proxy = world.proxies[-1]
        self.client = Transport(world, self.proxy.relay.client(), Ending(self))
        self.client.wire = self
        world.wires.append(self)
        self.client.protocol.connection_made(self.client)
        world.go_on()

    # The client

    def send(self, data, things):
        for thing, end, work in things:
            thing.wire, thing.sent_at, thing.has_passed = self, self.world.now, False
            self.asked.append((thing, self.sent + end, work))
        self.sent += len(data)
        self.client.into.send(data)

    def close(self):
        """The client ends its side, and asks no more here."""
        if self in self.world.wires:
            self.world.wires.remove(self)
        self.client.into.end()
        for thing, end, _ in self.asked:
            if end > self.got and not self.client.is_open:
                thing.let_go()

    # The service

    def passed(self, count):
        self.went += count
        for thing, end, _ in self.asked:
            if end <= self.went and not thing.has_passed:
                thing.has_passed, thing.began, thing.world = True, self.world.now, self.proxy.teller.end and self.proxy.teller.end.keeper

    def come(self, data):
        self.got += len(data)
        self._serve()

    def ended(self):
        self.is_leaving = True
        self._serve()

    def _serve(self):
        if self.answering is not None:
            return
        if self.asked and self.got >= self.asked[0][1]:
            self.answering, _, work = self.asked.popleft()
            self.answering.began = max(self.answering.began, self.free)
            self.world.later(0, 6, work, self.answering)
        elif self.is_leaving:
            self.service.into.end()

    def answer(self, data, is_cut=False):
        self.free = self.world.now
        if is_cut:
            data, self.answering.is_cut = data[:self.world.random.randint(0, len(data) - 1)], True
        self.service.into.send(data)
        if is_cut:
            self.service.into.end()

    def last(self):
        if self.answering is not None and not self.answering.is_cut:
            self.answering.answered()

    def behind(self):
        self.answering = None
        self.world.later(0, 0, self._serve)


class Pipe:
    """The socket from a proxy to a keeper."""

    def __init__(self, world, kept):
        self.world, self.keeper = world, kept
        self.data, self.room = bytearray(), world.pipe
        self.is_broken = self.is_ended = False

    def send(self, data):
        if self.is_broken or self.is_ended:
            raise BrokenPipeError
        count = min(len(data), self.room - len(self.data))
        if count <= 0:
            raise BlockingIOError
        self.data += data[:count]
        self.move()
        return count

    def move(self):
        self.world.own(0, self.world.random.choice((0, 0, 1, self.world.shape.delay)), self._come)

    def _come(self):
        """Whole messages come, where the keeper reads."""
        if self.keeper.is_busy or self.is_broken:
            return
        if self.world.is_held_up:
            self.world.own(2, 4, self._come)
            return
        at, rest, self.coming = 0, self.data, b""
        while len(rest) >= at + SIZE.size and len(rest) >= (behind := at + SIZE.size + SIZE.unpack_from(rest, at)[0]):
            at = behind
        self.coming, self.data = bytes(rest[:at]), rest[at:]
        for batch in messages_from(self):
            self.keeper.inbox += batch
        if self.is_ended and not self.keeper.core.is_over:
            self.keeper.inbox.append(Bye(0))
        self.keeper.work()

    def recv(self, count):
        found, self.coming = self.coming, b""
        return found

    def close(self):
        self.is_ended = True
        self.move()


class Nobody:
    """What listens, and what waits for a connection."""

    def close(self):
        """It does."""

    def add_done_callback(self, work):
        """Nothing waits."""
