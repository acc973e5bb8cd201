"""How long a recorder takes to begin in front of a store of OpenFGA that is large, and how much memory, beside how long it takes to ask the
service alone for all its changes: recording_base.py TUPLES ..

The service is a stand-in that answers each page of changes at once; a tuple was written each millisecond. Meanwhile a
client asks some 20 checks a second through the recorder: how many had their answer, how many of these the log has and
how many its gaps count, and how long the slowest took.
"""
import http.client
import json
import os
import subprocess
import sys
import tempfile
import threading
import time
from collections import Counter

TOOLS = os.path.dirname(os.path.dirname(os.path.abspath(__file__)))
sys.path.append(TOOLS)

from new_enemy_tools.recording.openfga_feed import PAGE  # noqa: E402
from tests.ports import free_port  # noqa: E402
from tests.stand_in import Handler  # noqa: E402

MODEL = {"schema_version": "1.1", "id": "M", "type_definitions": [
    {"type": "user"}, {"type": "document", "relations": {"viewer": {"this": {}}},
                       "metadata": {"relations": {"viewer": {"directly_related_user_types": [{"type": "user"}]}}}}]}


class Large(Handler):
    count = 0

    def do_POST(self):
        self.body()
        self.answer({"allowed": True})

    def do_GET(self):
        path, _, query = self.path.partition("?")
        given = dict(one.split("=") for one in query.split("&"))
        if path == "/stores":
            self.answer({"stores": [{"id": "S"}]})
        elif path.endswith("/authorization-models"):
            self.answer({"authorization_models": [MODEL]})
        else:
            first = int(given.get("continuation_token") or 0)
            last = min(self.count, first + int(given["page_size"]))
            changes = [{"tuple_key": {"user": "user:u%d" % (number % 5000), "relation": "viewer", "object": "document:d%d" % (number // 7)},
                        "operation": "TUPLE_OPERATION_WRITE", "timestamp": "2024-01-01T%02d:%02d:%02d.%03dZ" % (
                            number // 3600000 % 24, number // 60000 % 60, number // 1000 % 60, number % 1000)} for number in range(first, last)]
            self.answer({"changes": changes, "continuation_token": str(last)})


def served(count, port):
    from http.server import ThreadingHTTPServer
    Large.count = count
    ThreadingHTTPServer(("127.0.0.1", port), Large).serve_forever()


def most_bytes(parent):
    """The most memory that the keeper ever had."""
    with open("/proc/%d/task/%d/children" % (parent, parent), encoding="ascii") as file:
        child = file.read().split()[0]
    with open("/proc/%s/status" % child, encoding="ascii") as file:
        return next(int(line.split()[1]) << 10 for line in file if line.startswith("VmHWM"))


def seconds_alone(port, count):
    """How long a client takes that asks for each page, and looks at none; from when the service is there."""
    asker = http.client.HTTPConnection("127.0.0.1", port)
    while True:
        try:
            asker.connect()
            break
        except ConnectionRefusedError:
            time.sleep(0.1)
    began = time.monotonic()
    for first in range(0, count + 1, PAGE):
        asker.request("GET", "/stores/S/changes?page_size=%d&continuation_token=%d" % (PAGE, first))
        asker.getresponse().read()
    asker.close()
    return time.monotonic() - began


class Client(threading.Thread):
    """Asks checks until it is told that it is over."""

    def __init__(self, port):
        super().__init__(daemon=True)
        self.port, self.answered, self.slowest, self.is_over = port, 0, 0.0, False

    def run(self):
        asker, body = http.client.HTTPConnection("127.0.0.1", self.port), json.dumps({"tuple_key": {
            "user": "user:u1", "relation": "viewer", "object": "document:d1"}})
        while not self.is_over:
            began = time.monotonic()
            try:
                asker.request("POST", "/stores/S/check", body)
                asker.getresponse().read()
                self.answered, self.slowest = self.answered + 1, max(self.slowest, time.monotonic() - began)
            except ConnectionRefusedError:
                # It does not listen yet.
                asker.close()
            time.sleep(0.05)

    def end(self):
        self.is_over = True
        self.join()


def counted(folder):
    """How many checks a log has, and how many its gaps count."""
    found = Counter()
    for name in sorted(os.listdir(folder)):
        with open(os.path.join(folder, name), "rb") as file:
            for line in file:
                if line.startswith(b'{"event":"check"'):
                    found["recorded"] += 1
                elif line.startswith(b'{"event":"gap"'):
                    found["lost"] += json.loads(line).get("lost", 0)
    return found


def measured(count):
    port = free_port()
    service = subprocess.Popen([sys.executable, os.path.abspath(__file__), "--serve", str(count), str(port)])
    with tempfile.TemporaryDirectory() as room, open(os.path.join(room, "said"), "w+", encoding="utf-8") as said:
        alone, listens, began = seconds_alone(port, count), free_port(), time.monotonic()
        recorder = subprocess.Popen([sys.executable, os.path.join(TOOLS, "record"), "--openfga", "http://127.0.0.1:%d" % port, "--listen",
                                     "127.0.0.1:%d" % listens, "--out", os.path.join(room, "log")], stderr=said)
        client = Client(listens)
        client.start()
        try:
            while "recording" not in open(said.name, encoding="utf-8").read():
                time.sleep(0.1)
            took, size = time.monotonic() - began, most_bytes(recorder.pid)
            client.end()
            recorder.terminate()
            recorder.wait()
            log = sum(os.path.getsize(os.path.join(room, "log", name)) for name in os.listdir(os.path.join(room, "log")))
            print(json.dumps({"tuples": count, "alone": round(alone, 1), "seconds": round(took, 1), "bytes": size, "a tuple": round(size / count),
                              "log": log, "answered": client.answered, "slowest": round(client.slowest, 3), **counted(os.path.join(room, "log"))}))
        finally:
            recorder.kill()
            service.kill()
            service.wait()


def main(words):
    if words[0] == "--serve":
        served(int(words[1]), int(words[2]))
        return
    for count in map(int, words):
        measured(count)


if __name__ == "__main__":
    main(sys.argv[1:])
