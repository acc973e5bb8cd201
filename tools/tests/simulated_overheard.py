"""The simulation of OpenFGA where nothing passes a recorder: beside a log of the changes alone the service's own log says what was asked, or the
taps of an Envoy before it. Their clocks may be apart from that of the recorder.
"""
import base64
import gzip
import json
from random import Random
from unittest import mock

from new_enemy_tools.importing.causes import UNREADABLE
from new_enemy_tools.importing.times import nanoseconds, text_of_time
from new_enemy_tools.recording.joining import Join
from new_enemy_tools.recording.lines import time_text
from new_enemy_tools.recording.overheard import CUT, CUT_SHORT, TOKEN, overheard
from new_enemy_tools.recording.sketches import Row
from tests.simulation import STEP, STORE, WALL, Apart, Verdict, given_of

# A request takes less.
TOOK = 20 * STEP
# Of a check that is counted so there is no line that names it.
UNNAMED = (UNREADABLE, CUT_SHORT, TOKEN)
PATHS = ("/stores/S/check", "/stores/S/%63heck", "/stores/%53/check?x", "/stores/S/./check")


class Overheard(Apart):
    """`apart` is how far the clocks may be apart, and `ahead` how far that of who tells is ahead."""

    took = 0

    def __init__(self, seed):
        super().__init__(seed)
        random = self.telling = Random("telling %d" % seed)
        self.apart = random.choice((0, 0, 3, 10)) * STEP
        self.ahead = random.choice((-1, 0, 1)) * self.apart
        self.told = []

    def _say(self, message):
        asked = next(one for one in self.checks if one.number == message.number)
        self.told += self._lines(message, asked)
        # What nobody can know better by what is told.
        asked.began, asked.ended = asked.ended - self.took - 2 * self.apart if self.took else asked.began - 2 * self.apart, asked.ended + 2 * self.apart

    def everything(self):
        rows = [Row("heard", number, row) for number, row in enumerate(self.told, 1)]
        own = [overheard("heard", rows, TOOK)] if rows else []
        return self.checks, list(Join([given_of("log", self.lines)], self.apart, own, self.shape.stale).lines())


class Logged(Overheard):
    """OpenFGA's own log, whose times are cut to milliseconds."""

    took = TOOK + CUT

    def __init__(self, seed):
        super().__init__(seed)
        self.times = set()

    def _say(self, message):
        super()._say(message)
        asked = next(one for one in self.checks if one.number == message.number)
        asked.ended = self.at - WALL - self.ahead + CUT + 2 * self.apart

    def _lines(self, message, asked):
        random = self.telling
        cut = (message.at + self.ahead) // CUT * CUT
        # No two lines have one time, by which they are known here.
        self.at = message.at + self.ahead if cut in self.times else cut
        self.times.add(self.at)
        line = {"level": "info", "timestamp": text_of_time(self.at), "msg": "grpc_req_complete", "grpc_code": 0, "store_id": STORE,
                "grpc_service": "openfga.v1.OpenFGAService", "grpc_method": "Check"}
        request, response = {"store_id": STORE, **json.loads(message.request)}, json.loads(message.response)
        if not response["allowed"] and random.random() < 0.5:
            response = {"resolution": ""}
        if message.version:
            line["version"] = message.version
        if message.save:
            line["content"] = {"version": message.save} if asked.reply else {}
        if random.random() < 0.1:
            line.update(random.choice(({"raw_response": response}, {"raw_request": request, "raw_response": response, "content": {**line.get("content", {}), "token": "x"}})))
        else:
            line.update(raw_request=request, raw_response=response)
        other = {**line, "raw_request": request, "raw_response": response}
        noise = ({"level": "info", "timestamp": text_of_time(self.at), "msg": "starting"}, {**other, "grpc_method": "Write"},
                 {**other, "grpc_code": 2000, "raw_response": None}, {**other, "raw_request": {**request, "store_id": "T"}})
        return [line, *random.choices(noise, k=random.choice((0, 0, 1)))]


class Tapped(Overheard):
    """Taps of an Envoy."""

    def _lines(self, message, asked):
        random, begun, ended = self.telling, message.begun + self.ahead, message.at + self.ahead
        named = {"x-content-save": message.save, "X-Content-Version": message.version}
        headers = [(name, value) for name, value in named.items() if value]
        if random.random() < 0.05:
            headers.append(("x-content-token", text_of_time(ended)))
        is_packed = random.random() < 0.2
        body = gzip.compress(message.response) if is_packed else message.response
        asks = self._part(begun, message.request, [(":method", "POST"), (":path", random.choice(PATHS)), *headers])
        answers = self._part(ended, body, [(":status", "200"), *([("Content-Encoding", "gzip")] if is_packed else [])])
        tap = {"http_buffered_trace": {"request": asks, "response": answers}}
        failed = {"http_buffered_trace": {"request": asks, "response": self._part(ended, b"{}", [(":status", "400")])}}
        return [tap, *([failed] if random.random() < 0.1 else [])]

    def _part(self, time, body, headers):
        random = self.telling
        listed = [{"key": name, **({"value": value} if random.random() < 0.7 else {"raw_value": base64.b64encode(value.encode()).decode()})}
                  for name, value in headers]
        text = {"as_bytes": base64.b64encode(body).decode()} if body[:1] != b"{" or random.random() < 0.5 else {"as_string": body.decode()}
        return {"headers": listed, "headers_received_time": text_of_time(time), "trailers": [], "body": {"truncated": random.random() < 0.03, **text}}


class OfHeard(Verdict):
    """By the true times, as they are known by what is told; and what was told and can't be taken is counted."""

    def _take(self, row):
        world = self.world
        if row["event"] in ("check", "content"):
            row = {**row, "time": time_text(nanoseconds(row["time"]) - world.ahead + 2 * world.apart)}
        super()._take(row)
        self.lost += row["event"] == "unmapped" and "detail" not in row and row.get("reason") in UNNAMED


def run_overheard(seed, kind=None, **values):
    """The faults of one run, by OpenFGA's log if the seed is odd, else by taps."""
    world = (kind or (Logged if seed % 2 else Tapped))(seed)
    for name, value in {"shows": True, **values}.items():
        setattr(world.shape, name, value)
    with mock.patch("new_enemy_tools.recording.openfga.TOLD", 0):
        return world, OfHeard(world.run())
