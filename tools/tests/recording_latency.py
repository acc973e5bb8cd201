"""How much later answers come through tools/record: recording_latency.py [SECONDS [RATE [CONNECTIONS [TOOLS ..]]]]

A service that answers every check at once, and a client that asks so many checks a second over 16 connections, each at its time
whether or not others have their answer; with a RATE of 0 each connection asks again as soon as it has its answer. It asks the service and
the recorder of each folder of tools (of this one alone where none is given) by turns, a second each, and prints all; also what a check costs in
processor time (a recorder's two processes together, and the service's), and its bytes in the log.
"""
import asyncio
import json
import os
import subprocess
import sys
import tempfile
import time

sys.path.insert(0, __file__.rsplit("/", 2)[0] if "/" in __file__ else "..")

from tests.ports import free_port

TOOLS = os.path.dirname(os.path.dirname(os.path.abspath(__file__)))
STORE = "01HVMMBCMGZNT3SED4Z17ECXCA"
MODEL = {"id": "M", "schema_version": "1.1", "type_definitions": [
    {"type": "user"}, {"type": "document", "relations": {"viewer": {"this": {}}},
                       "metadata": {"relations": {"viewer": {"directly_related_user_types": [{"type": "user"}]}}}}]}
CONNECTIONS = 16
# So many seconds the last checks may take until they are in the log.
PATIENCE = 120
ANSWERS = {b"/check": {"allowed": False, "resolution": ""}, b"/changes": {"changes": [], "continuation_token": ""},
           b"/authorization-models": {"authorization_models": [MODEL], "continuation_token": ""},
           b"/stores?": {"stores": [{"id": STORE}], "continuation_token": ""}}


class Service(asyncio.Protocol):
    """Answers each request by its path; a request comes in one piece on loopback."""

    def connection_made(self, transport):
        self.transport = transport

    def data_received(self, data):
        path = data.split(b" ", 2)[1]
        data = json.dumps(next(value for mark, value in ANSWERS.items() if mark in path)).encode()
        self.transport.write(b"HTTP/1.1 200 OK\r\nContent-Type: application/json\r\nContent-Length: %d\r\n\r\n%s" % (len(data), data))


async def serve():
    server = await asyncio.get_running_loop().create_server(Service, "127.0.0.1", 0)
    sys.stdout.write("%d\n" % server.sockets[0].getsockname()[1])
    sys.stdout.flush()
    await server.serve_forever()


class Connection(asyncio.Protocol):
    """One request at a time; the time of each goes to a list."""

    def __init__(self, free, times):
        self.free, self.times, self.data = free, times, b""

    def connection_made(self, transport):
        self.transport = transport
        self.free.append(self)

    def ask(self, number, at):
        self.at, self.data = at, b""
        body = json.dumps({"tuple_key": {"user": "user:u%d" % number, "relation": "viewer", "object": "document:d%d" % (number % 100)},
                           "consistency": "HIGHER_CONSISTENCY"}).encode()
        self.transport.write(b"POST /stores/%s/check HTTP/1.1\r\nHost: x\r\nContent-Type: application/json\r\nX-Content-Version: v1\r\n"
                             b"Content-Length: %d\r\n\r\n%s" % (STORE.encode(), len(body), body))

    def data_received(self, data):
        self.data += data
        if self.data.endswith(b"}"):
            self.times.append(time.perf_counter() - self.at)
            self.free.append(self)


async def load(port, times, seconds, rate, first, connections):
    """Asks at the given rate; requests for which no connection is free wait, and their time counts from when they were due."""
    free = []
    for _ in range(connections):
        await asyncio.get_running_loop().create_connection(lambda: Connection(free, times), "127.0.0.1", port)
    kept, start, number = list(free), time.perf_counter(), first
    while not rate and time.perf_counter() < start + seconds:
        while free:
            number += 1
            free.pop(0).ask(number, time.perf_counter())
        await asyncio.sleep(0)
    for number in range(int(seconds * rate)):
        due = start + number / rate
        while time.perf_counter() < due or not free:
            await asyncio.sleep(max(0, min(0.0005, due - time.perf_counter())))
        free.pop(0).ask(first + number, due)
    while len(free) < connections:
        await asyncio.sleep(0.001)
    for one in kept:
        one.transport.close()


def processor(process):
    """Waits for a process; the processor time of it and of those that it waited for, in seconds."""
    _, _, used = os.wait4(process.pid, 0)
    return used.ru_utime + used.ru_stime


def shown(times):
    listed = sorted(times)
    return "%d checks, p50 %.2f ms, p99 %.2f ms" % (len(listed), *(1000 * listed[int(len(listed) * part)] for part in (0.5, 0.99)))


class Recorder:
    """One of a folder of tools, in front of the service at a port, with what was asked through it."""

    def __init__(self, tools, service, room, number):
        self.tools, self.port, self.log, self.times = tools, free_port(), os.path.join(room, "log%d" % number), []
        self.process = subprocess.Popen([sys.executable, os.path.join(tools, "record"), "--openfga", "http://127.0.0.1:%d" % service, "--listen",
                                         "127.0.0.1:%d" % self.port, "--out", self.log], stderr=subprocess.PIPE, text=True)
        self.process.stderr.readline()

    def end(self):
        """How long each line of a check is, and the processor time of one in milliseconds."""
        recorded, until = [], time.monotonic() + PATIENCE
        while len(recorded) < len(self.times) and time.monotonic() < until:
            time.sleep(0.1)
            with open(os.path.join(self.log, "000001.jsonl"), encoding="utf-8") as file:
                recorded = [len(line) for line in file if '"event":"check"' in line]
        self.process.terminate()
        return recorded, 1000 * processor(self.process) / len(self.times)


def main(words):
    if words == ["serve"]:
        asyncio.run(serve())
        return
    seconds, rate, connections = map(int, [*words[:3], *("20", "1000", str(CONNECTIONS))[len(words):]])
    with tempfile.TemporaryDirectory() as room:
        service = subprocess.Popen([sys.executable, __file__, "serve"], stdout=subprocess.PIPE, text=True)
        port, recorders, times = int(service.stdout.readline()), [], []
        try:
            for number, tools in enumerate(words[3:] or [TOOLS]):
                recorders.append(Recorder(tools, port, room, number))
            for turn in range(seconds):
                for to, listed in ((port, times), *((one.port, one.times) for one in recorders)):
                    asyncio.run(load(to, listed, 1, rate, turn * (rate or 1_000_000), connections))
            ended = [one.end() for one in recorders]
        finally:
            service.terminate()
            used = processor(service)
            for one in recorders:
                one.process.kill()
    print("the service alone: %s" % shown(times))
    for one, (recorded, cost) in zip(recorders, ended):
        print("through the recorder of %s: %s" % (one.tools, shown(one.times)))
        print("asked %d, recorded %d, of %d bytes each" % (len(one.times), len(recorded), sum(recorded) / len(recorded)))
        print("processor time of a check: the service %.2f ms, the recorder %.2f ms" % (
            1000 * used / (len(times) + sum(len(one.times) for one in recorders)), cost))


if __name__ == "__main__":
    main(sys.argv[1:])
