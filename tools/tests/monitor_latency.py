"""How long it takes from a reply to an alert: monitor_latency.py PROGRAM [SECONDS [RATE [ENEMIES]]] [--spicedb]

The stand-in of OpenFGA with a cache, or that of SpiceDB, a recorder in front of it, a monitor beside that, and a
webhook. A client asks so many checks a second (RATE) over 16 connections, and each second lets so many new enemies in
(ENEMIES): a user is removed, a version is saved, and the user asks for it until a reply is from before. Printed is how
long after that reply the webhook had it, and what each process took.
"""
import asyncio
import json
import os
import subprocess
import sys
import tempfile
import threading
import time
from http.server import BaseHTTPRequestHandler, ThreadingHTTPServer

sys.path.insert(0, os.path.dirname(os.path.dirname(os.path.abspath(__file__))))

from tests.ports import free_port
from tests.recording_latency import MODEL, STORE, TOOLS, processor
from tests.stand_in_spicedb import object_of, relationship_of

CONNECTIONS = 16


class Connection(asyncio.Protocol):
    """One request at a time."""

    def __init__(self):
        self.answered = None

    def connection_made(self, transport):
        self.transport, self.data = transport, b""

    def data_received(self, data):
        self.data += data
        if self.data.endswith(b"}") and self.answered is not None and not self.answered.done():
            self.answered.set_result(json.loads(self.data.partition(b"\r\n\r\n")[2]))

    async def ask(self, path, body, **headers):
        self.data, self.answered = b"", asyncio.get_running_loop().create_future()
        data, more = json.dumps(body).encode(), "".join("%s: %s\r\n" % (name.replace("_", "-"), value) for name,
                                                        value in headers.items())
        head = "POST %s HTTP/1.1\r\nHost: x\r\nContent-Type: application/json\r\n%sContent-Length: %d\r\n\r\n"
        self.transport.write((head % (path, more, len(data))).encode() + data)
        return await self.answered


class OpenFga:
    """What is asked of it, as a path and a body."""

    name, stand_in = "openfga", ["stand_in_openfga_cache.py", "0", "model.json"]

    @staticmethod
    def check(user, relation, thing, is_newest=True):
        return "/stores/%s/check" % STORE, {
            "tuple_key": {"user": "user:" + user, "relation": "viewer", "object": "document:" + thing},
            "consistency": "HIGHER_CONSISTENCY" if is_newest else "MINIMIZE_LATENCY"}

    @staticmethod
    def write(is_added, *tuples):
        keys = [{"user": "user:" + user, "relation": "viewer", "object": "document:" + thing}
                for user, _, thing in tuples]
        return "/stores/%s/write" % STORE, {"writes" if is_added else "deletes": {"tuple_keys": keys}}

    @staticmethod
    def is_allowed(answer):
        return answer["allowed"]


class SpiceDb:
    name, stand_in = "spicedb", ["stand_in_spicedb.py", "0"]

    @staticmethod
    def check(user, relation, thing, is_newest=True):
        return "/v1/permissions/check", {
            "resource": object_of("document:" + thing), "permission": {"owner": "edit"}.get(relation, "view"),
            "subject": {"object": object_of("user:" + user)},
            "consistency": {"fullyConsistent" if is_newest else "minimizeLatency": True}}

    @staticmethod
    def write(is_added, *tuples):
        return "/v1/relationships/write", {"updates": [
            {"operation": "OPERATION_" + ("TOUCH" if is_added else "DELETE"),
             "relationship": relationship_of(("document:" + thing, relation, "user:" + user, ""))}
            for user, relation, thing in tuples]}

    @staticmethod
    def is_allowed(answer):
        return answer["permissionship"] == "PERMISSIONSHIP_HAS_PERMISSION"


async def let_in(service, connection, number, replied):
    """A new enemy by its number; when the reply was there that let it in."""
    user, thing = "enemy%d" % number, "early%d" % number
    mine = [(user, "viewer", thing), ("owner%d" % number, "owner", thing)]
    await connection.ask(*service.write(True, *mine))
    await connection.ask(*service.write(False, *mine[:1]))
    await connection.ask(*service.check(*mine[1]), X_Content_Save="v%d" % number)
    asked = service.check(*mine[0], False)
    while not service.is_allowed(await connection.ask(*asked, X_Content_Version="v%d" % number)):
        pass
    replied["document:" + thing] = time.time()


async def load(service, port, seconds, rate, enemies, replied):
    loop, free = asyncio.get_running_loop(), asyncio.Queue()
    connected = [(await loop.create_connection(Connection, "127.0.0.1", port))[1] for _ in range(CONNECTIONS + 1)]
    for one in connected[1:]:
        free.put_nowait(one)

    async def one_check(number):
        connection = await free.get()
        await connection.ask(*service.check("u%d" % (number % 1000), "viewer", "d%d" % (number % 100)))
        free.put_nowait(connection)

    async def plant():
        for number in range(int(seconds * enemies)):
            await asyncio.sleep(max(0, start + number / enemies - time.perf_counter()))
            await let_in(service, connected[0], number, replied)
    start, waiting = time.perf_counter(), []
    waiting.append(asyncio.ensure_future(plant()))
    for number in range(int(seconds * rate)):
        due = start + number / rate
        if due > time.perf_counter():
            await asyncio.sleep(due - time.perf_counter())
        waiting.append(asyncio.ensure_future(one_check(number)))
    await asyncio.gather(*waiting)
    return time.perf_counter() - start


class Hook(BaseHTTPRequestHandler):
    protocol_version = "HTTP/1.1"

    def do_POST(self):
        row = json.loads(self.rfile.read(int(self.headers["Content-Length"])))
        if row["kind"] == "finding":
            self.server.heard[row["object"]] = time.time()
        self.send_response(204)
        self.send_header("Content-Length", "0")
        self.end_headers()

    def log_message(self, *_):
        pass


def shown(times):
    listed = sorted(times)
    return "p50 %.0f ms, p99 %.0f ms, most %.0f ms" % (*(1000 * listed[int(len(listed) * part)]
                                                         for part in (0.5, 0.99)), 1000 * listed[-1])


def main(words):
    kind = SpiceDb if "--spicedb" in words else OpenFga
    words = [word for word in words if word != "--spicedb"]
    program, numbers = os.path.abspath(words[0]), [*words[1:], *("20", "1000", "2")[len(words) - 1:]]
    seconds, rate, enemies = map(float, numbers)
    hook = ThreadingHTTPServer(("127.0.0.1", 0), Hook)
    hook.heard = {}
    threading.Thread(target=hook.serve_forever, daemon=True).start()
    with tempfile.TemporaryDirectory() as room:
        with open(os.path.join(room, "model.json"), "w", encoding="utf-8") as file:
            json.dump(MODEL, file)
        service = subprocess.Popen([sys.executable, os.path.join(TOOLS, "tests", kind.stand_in[0]), *kind.stand_in[1:]],
                                   cwd=room, stdout=subprocess.PIPE, text=True)
        port, at, replied = int(service.stdout.readline().split()[-1]), free_port(), {}
        log = os.path.join(room, "log")
        recorder = subprocess.Popen([sys.executable, os.path.join(TOOLS, "record"), "--" + kind.name,
                                     "http://127.0.0.1:%d" % port, "--listen",
                                     "127.0.0.1:%d" % at, "--out", log], stderr=subprocess.PIPE, text=True)
        recorder.stderr.readline()
        monitor = subprocess.Popen([sys.executable, os.path.join(TOOLS, "ne"), "monitor", "--program", program,
                                    "--webhook",
                                    "http://127.0.0.1:%d/" % hook.server_port, log, os.path.join(room, "out")],
                                   stderr=subprocess.PIPE, text=True)
        monitor.stderr.readline()
        try:
            took = asyncio.run(load(kind, at, seconds, rate, enemies, replied))
            until = time.monotonic() + 60
            while len(hook.heard) < len(replied) and time.monotonic() < until:
                time.sleep(0.1)
            time.sleep(1)
        finally:
            monitor.terminate()
            used = [processor(monitor)]
            for one in (recorder, service):
                one.terminate()
                used.append(processor(one))
    late = [hook.heard[key] - at for key, at in replied.items() if key in hook.heard]
    print("%d checks asked in %.1f s (load %.1f); new enemies %d, heard %d: from the reply to the webhook %s" % (
        seconds * rate, took, os.getloadavg()[0], len(replied), len(late), shown(late)))
    print("processor time of a check: monitor %.2f ms, recorder %.2f ms, service %.2f ms" % tuple(
        1000 * one / (seconds * rate) for one in used))


if __name__ == "__main__":
    main(sys.argv[1:])
