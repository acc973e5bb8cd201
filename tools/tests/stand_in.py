"""What the stand-ins of both services share: a server of HTTP/1.1 as a process of its own, and the faults that it plants.

They were written from the services' public API documents, and have the calls alone that the recorder and its tests need.
"""
import json
import sys
import threading
import time
from http.server import BaseHTTPRequestHandler, ThreadingHTTPServer
from random import Random


class Faults:
    """Which checks are answered wrongly: a share of those that can be, and of each kind the first, so that none is left out by chance. Each is
    told on a line of a file."""

    def __init__(self, share, path):
        self.random, self.share = Random(7), share
        self.struck = set()
        self.file = open(path, "a", buffering=1, encoding="utf-8") if path else None
        self.lock = threading.Lock()

    def strikes(self, kind):
        with self.lock:
            is_first = kind not in self.struck and self.share > 0
            self.struck.add(kind)
            return self.random.random() < self.share or is_first

    def told(self, kind, goal):
        with self.lock:
            self.file.write(json.dumps([kind, goal]) + "\n")


class Handler(BaseHTTPRequestHandler):
    protocol_version = "HTTP/1.1"
    wbufsize = -1
    disable_nagle_algorithm = True
    service = None

    def log_message(self, *words):
        pass

    def body(self):
        is_chunked = self.headers.get("transfer-encoding", "").lower() == "chunked"
        data = self.chunks() if is_chunked else self.rfile.read(int(self.headers.get("content-length", 0)))
        return json.loads(data) if data else {}

    def handle_expect_100(self):
        is_good = super().handle_expect_100()
        self.wfile.flush()
        return is_good

    def chunks(self):
        data = b""
        while size := int(self.rfile.readline().split(b";")[0], 16):
            data += self.rfile.read(size)
            self.rfile.readline()
        while self.rfile.readline().strip():
            pass
        return data

    def answer(self, value, status=200):
        data = json.dumps(value).encode()
        self.send_response(status)
        self.send_header("Content-Type", "application/json")
        self.send_header("Content-Length", str(len(data)))
        self.end_headers()
        self.wfile.write(data)
        self.wfile.flush()

    def stream(self, values):
        """Values line by line, in chunks."""
        self.send_response(200)
        self.send_header("Content-Type", "application/json")
        self.send_header("Transfer-Encoding", "chunked")
        self.end_headers()
        for value in values:
            data = json.dumps({"result": value}).encode() + b"\n"
            self.wfile.write(b"%x\r\n%s\r\n" % (len(data), data))
            self.wfile.flush()
        self.wfile.write(b"0\r\n\r\n")
        self.wfile.flush()

    def do_GET(self):
        self.handle_call("GET")

    def do_POST(self):
        self.handle_call("POST")

    def do_DELETE(self):
        self.handle_call("DELETE")

    def handle_call(self, method):
        body = self.body()
        if self.service.key and self.headers.get("authorization") != "Bearer " + self.service.key:
            self.answer({"code": "unauthenticated", "message": "no key"}, 401)
            return
        self.service.call(self, method, self.path, body)


def key_in(words):
    """The key that a service asks for, which is taken out of the words; None where there is none."""
    if "--key" not in words:
        return None
    place = words.index("--key")
    key = words[place + 1]
    del words[place:place + 2]
    return key


def jitter(random, most=0.002):
    time.sleep(random.random() * most)


def serve(service, port):
    """Serves until the process ends; says so when it can be asked."""
    handler = type("Bound", (Handler,), {"service": service})
    ThreadingHTTPServer.request_queue_size = 256
    server = ThreadingHTTPServer(("127.0.0.1", port), handler)
    server.daemon_threads = True
    # A client that goes away is no fault.
    server.handle_error = lambda *words: None
    sys.stdout.write("ready %d\n" % server.server_address[1])
    sys.stdout.flush()
    server.serve_forever()
