"""What the tests of the recorder share: stand-ins and recorders as processes, clients that ask, and what an audit finds of the log."""
import glob
import http.client
import json
import os
import signal
import socket
import subprocess
import sys
import threading
import time
from collections import Counter
from random import Random
from typing import Any

from tests.ports import free_port
from tests.support import TOOLS, Case

# So many seconds what is waited for may take: what holds sooner is seen at once, and on a machine with much other work all takes long.
READY = 120


def keeper_of(recorder):
    """The process of the keeper that a recorder started."""
    for path in glob.glob("/proc/[0-9]*/stat"):
        try:
            with open(path, encoding="utf-8", errors="replace") as file:
                words = file.read().rpartition(")")[2].split()
        except OSError:
            continue
        if int(words[1]) == recorder.pid and words[0] != "Z":
            return int(path.split("/")[2])
    return None


def is_alive(number):
    """Whether a process runs; one that is dead may have nobody who waits for it."""
    try:
        with open("/proc/%d/stat" % number, encoding="utf-8", errors="replace") as file:
            return file.read().rpartition(")")[2].split()[0] != "Z"
    except OSError:
        return False


class Client:
    """A real client with one connection, which it opens again where it was closed."""

    def __init__(self, port, key=None):
        self.port, self.connection = port, None
        self.headers = {"Content-Type": "application/json", **({"Authorization": "Bearer " + key} if key else {})}

    def ask(self, path, body, **headers):
        """The status and the JSON of an answer; 0 where there is none."""
        try:
            self.connection = self.connection or http.client.HTTPConnection("127.0.0.1", self.port, timeout=READY)
            named = {name.replace("_", "-"): value for name, value in headers.items()}
            self.connection.request("POST", path, json.dumps(body), {**self.headers, **named})
            answer = self.connection.getresponse()
            return answer.status, json.loads(answer.read() or b"null")
        except (OSError, http.client.HTTPException, ValueError):
            self.close()
            return 0, None

    def close(self):
        if self.connection is not None:
            self.connection.close()
            self.connection = None


class Recorded(Case):
    """A test with processes, which all end with it. `RECORD` is the recorder: tools/record itself where it is the point when that gives up."""

    SERVICE = STAND_IN = ""
    CLIENT: Any = Client
    PYTHON = sys.executable
    RECORD = os.path.join(TOOLS, "tests", "patient_recorder.py")

    def setUp(self):
        super().setUp()
        self.processes = []
        self.addCleanup(self.end_all)

    def end_all(self):
        for one in self.processes:
            if one.poll() is None:
                one.kill()
            one.wait()
            for file in (one.stdout, one.stderr):
                if file is not None:
                    file.close()

    def start(self, *words, **more):
        more.setdefault("stdout", subprocess.DEVNULL)
        one = subprocess.Popen([self.PYTHON, *words], cwd=self.room, text=True, **more)
        self.processes.append(one)
        return one

    def start_service(self, *words, port=0):
        name, *first = self.STAND_IN.split()
        one = self.start(os.path.join(TOOLS, "tests", name), *first, str(port), *words, stdout=subprocess.PIPE)
        self.service_port = int(one.stdout.readline().split()[1])
        return one

    def start_recorder(self, *words, folder="log", is_ready=True, said="said", port=None, scheme="http"):
        """A recorder, which can be asked, at a port of its own or at a given one; its standard error goes to a file."""
        self.port = port or free_port()
        one = self.started(folder, "--listen", "127.0.0.1:%d" % self.port, *words, said=said, scheme=scheme)
        self.wait_for(lambda: not is_ready or "recording " in self.get(said), lambda: self.get(said))
        self.wait_for(self.is_listening, lambda: self.get(said))
        return one

    def started(self, folder, *words, said="said", scheme="http"):
        file = open(self.path(said), "w+", encoding="utf-8")
        self.addCleanup(file.close)
        return self.start(self.RECORD, "--" + self.SERVICE, "%s://127.0.0.1:%d" % (scheme, self.service_port), "--out", folder, *words, stderr=file)

    def certificate(self, name):
        """A certificate of its own authority, and its key."""
        subprocess.run(["openssl", "req", "-x509", "-newkey", "ec", "-pkeyopt", "ec_paramgen_curve:prime256v1", "-nodes", "-days", "2", "-subj",
                        "/CN=" + name, "-addext", "subjectAltName=DNS:localhost,IP:127.0.0.1", "-keyout", self.path(name + ".key"), "-out",
                        self.path(name + ".pem")], check=True, capture_output=True)

    def is_listening(self):
        with socket.socket() as one:
            return one.connect_ex(("127.0.0.1", self.port)) == 0

    def wait_for(self, holds, told=lambda: ""):
        until = time.monotonic() + READY
        while not holds():
            self.assertLess(time.monotonic(), until, "did not hold within %d seconds: %s" % (READY, told()))
            time.sleep(0.02)

    def end(self, one, status=0):
        one.send_signal(signal.SIGTERM)
        self.assertEqual(one.wait(READY), status, self.get("said") if os.path.exists(self.path("said")) else "")

    def files(self, folder="log"):
        return [os.path.join(folder, name) for name in sorted(os.listdir(self.path(folder))) if name.endswith(".jsonl")]

    def events(self, folder="log"):
        """Of a log that is still written, without a line that is there by half."""
        return [json.loads(line) for name in self.files(folder) for line in self.get(name).split("\n")[:-1]]

    def of_kind(self, kind, folder="log"):
        return [row for row in self.events(folder) if row["event"] == kind]

    def import_log(self, *words, folder="log"):
        return self.imported("events", *self.files(folder), *words)

    def found(self):
        """Of an audit of the trace, the findings of each recorded line."""
        self.said_of_audit = self.audited().splitlines()
        rows = self.rows("trace.jsonl")
        found = {}
        for one in self.said_of_audit[:-3]:
            line, finding = one.removeprefix("line ").split(": ", 1)
            found.setdefault(rows[int(line) - 1]["from"], set()).add(finding.split(",")[0])
        return found

    def row_at(self, place):
        """The recorded line that a trace names."""
        file, line = place.rsplit(":", 1)
        return json.loads(self.get(file).split("\n")[int(line) - 1])

    def run_clients(self, count, requests, work, key=None):
        """So many clients, each of which does so many things, one after the other; raises what one of them raised."""
        faults = []

        def run(number):
            client, random = self.CLIENT(self.port, key), Random("client %d" % number)
            try:
                for turn in range(requests):
                    work(client, random, number, turn)
            except Exception as fault:
                faults.append(fault)
            finally:
                client.close()
        threads = [threading.Thread(target=run, args=(number,)) for number in range(count)]
        for one in threads:
            one.start()
        for one in threads:
            one.join()
        for fault in faults:
            raise fault


def counted(values):
    """How often each of some lists of JSON stands among them."""
    return Counter(json.dumps(one) for one in values)
