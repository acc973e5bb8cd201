"""A small stand-in of OpenFGA as a process, after its public API documents: stand_in_openfga.py PORT MODEL [SHARE PLANTED] [--key KEY].

Of the share of checks that ask of a document called `fixed`, which no later write touches, the reply is a wrong one; of those that
ask of a document called `early`, the state before its last change is looked at, whatever the request demands. A check of the document
`held` has no answer; a line on standard output says that it came. One of the document `waits` has its answer when `control-answer` was
asked. A list for the user `broken` breaks off behind its first object. The feed never shows a change of the document `hidden`, and a change
of the document `slow`, with all behind it, half a second late. It can't be read between `control-pause` and `control-go-on`.
"""
import json
import re
import sys
import threading
import time
import urllib.parse
from datetime import datetime, timezone
from random import Random

sys.path.insert(0, __file__.rsplit("/", 2)[0])

from tests.openfga_service import Service
from tests.stand_in import Faults, jitter, key_in, serve

STORE = "01HVMMBCMGZNT3SED4Z17ECXCA"
# A store that was made later: all that is asked of it is allowed.
OTHER = "01HVMMBCMGZNT3SED4Z17ECXCB"
PATH = re.compile(r"/stores/([^/?]+)/([a-z-]+)")


class OpenFga:
    def __init__(self, model, faults, key):
        self.faults, self.key = faults, key
        self.models = [{"id": "01HMODEL0000000000000000%02d" % 1, **model}]
        self.feed = []
        self.written = []
        self.states = [frozenset()]
        self.lock = threading.Lock()
        self.random = Random(11)
        self.is_paused, self.is_answering = False, threading.Event()

    def call(self, handler, method, path, body):
        found = PATH.match(path)
        if path.split("?")[0] == "/stores":
            handler.answer({"stores": [{"id": STORE, "name": "shop"}], "continuation_token": ""})
        elif found and (found[1], found[2]) == (OTHER, "check"):
            handler.answer({"allowed": True, "resolution": ""})
        elif not found or found[1] != STORE:
            handler.answer({"code": "store_id_not_found", "message": "no such store"}, 404)
        else:
            query = dict(urllib.parse.parse_qsl(path.partition("?")[2]))
            getattr(self, found[2].replace("-", "_"))(handler, method, body, query)

    def authorization_models(self, handler, method, body, query):
        if method == "POST":
            with self.lock:
                self.models.append({**body, "id": "01HMODEL0000000000000000%02d" % (len(self.models) + 1)})
            handler.answer({"authorization_model_id": self.models[-1]["id"]}, 201)
        else:
            handler.answer({"authorization_models": self.models[::-1][:int(query.get("page_size", 50))], "continuation_token": ""})

    def write(self, handler, method, body, query):
        with self.lock:
            at = datetime.now(timezone.utc).strftime("%Y-%m-%dT%H:%M:%S.%fZ")
            state = set(self.states[-1])
            listed = [("WRITE", key) for key in body.get("writes", {}).get("tuple_keys", ())]
            listed += [("DELETE", key) for key in body.get("deletes", {}).get("tuple_keys", ())]
            keys = [(kind, (key["user"], key["relation"], key["object"])) for kind, key in listed]
            idle = [(kind == "WRITE") == (key in state) for kind, key in keys]
            if any(idle) and body.get("deletes", {}).get("on_missing") != "ignore":
                handler.answer({"code": "write_failed_due_to_invalid_input", "message": "is there, or is not"}, 400)
                return
            keys, listed = ([one for one, is_idle in zip(given, idle) if not is_idle] for given in (keys, listed))
            for (kind, key), (_, given) in zip(keys, listed):
                (state.add if kind == "WRITE" else state.discard)(key)
                self.written.append(time.monotonic())
                self.feed.append({"tuple_key": given, "operation": "TUPLE_OPERATION_" + kind, "timestamp": at})
            self.add_states(len(keys), state)
        handler.answer({})

    def add_states(self, count, state):
        """The state behind so many changes of a write, all at once: checks, which look at the last one, see none within a write."""
        if count:
            self.states += [None] * (count - 1) + [frozenset(state)]

    def control_pause(self, handler, method, body, query):
        self.is_paused = True
        handler.answer({})

    def control_answer(self, handler, method, body, query):
        self.is_answering.set()
        handler.answer({})

    def control_go_on(self, handler, method, body, query):
        self.is_paused = False
        handler.answer({})

    def changes(self, handler, method, body, query):
        if self.is_paused:
            handler.answer({"code": "internal", "message": "paused"}, 503)
            return
        with self.lock:
            first = int(query.get("continuation_token") or 0)
            end = min(first + int(query.get("page_size", 50)), self.last_shown())
            page, token = self.feed[first:end], str(end) if first < end else query.get("continuation_token", "")
        shown = [one for one in page if one["tuple_key"]["object"] != "document:hidden"]
        handler.answer({"changes": shown, "continuation_token": token})

    def last_shown(self):
        for place, (change, at) in enumerate(zip(self.feed, self.written)):
            if change["tuple_key"]["object"] == "document:slow" and at > time.monotonic() - 0.5:
                return place
        return len(self.feed)

    def check(self, handler, method, body, query):
        key = body["tuple_key"]
        if key["object"] == "document:held":
            sys.stdout.write("held\n")
            sys.stdout.flush()
            threading.Event().wait()
        if key["object"] == "document:waits":
            self.is_answering.wait()
        jitter(self.random)
        allowed = self.decided(key["user"], key["relation"], key["object"])
        jitter(self.random)
        handler.answer({"allowed": allowed, "resolution": ""})

    def batch_check(self, handler, method, body, query):
        jitter(self.random)
        state = self.states[-1]
        result = {one["correlation_id"]: {"allowed": self.holds(state, **one["tuple_key"])} for one in body["checks"]}
        handler.answer({"result": result})

    def list_objects(self, handler, method, body, query):
        state = self.states[-1]
        things = sorted({key[2] for key in state if key[2].startswith(body["type"] + ":")})
        handler.answer({"objects": [one for one in things if self.holds(state, body["user"], body["relation"], one)]})

    def streamed_list_objects(self, handler, method, body, query):
        state = self.states[-1]
        things = sorted({key[2] for key in state if key[2].startswith(body["type"] + ":")})
        found = ({"object": one} for one in things if self.holds(state, body["user"], body["relation"], one))
        if body["user"] != "user:broken":
            handler.stream(found)
            return
        try:
            handler.stream(first_and_fault(found))
        except BrokenPipeError:
            handler.close_connection = True

    def holds(self, state, user, relation, object):
        service = Service(self.models[-1])
        service.tuples = state
        return service.check(user, relation, object)

    def decided(self, user, relation, thing):
        allowed = self.holds(self.states[-1], user, relation, thing)
        name = thing.split(":")[1]
        if name.startswith("fixed") and self.faults.strikes("wrong"):
            self.faults.told("wrong", [user, relation, thing])
            return not allowed
        if name.startswith("early") and self.faults.strikes("stale"):
            stale = self.holds(self.before_last_change(thing), user, relation, thing)
            if stale != allowed:
                self.faults.told("stale", [user, relation, thing])
            return stale
        return allowed

    def before_last_change(self, thing):
        with self.lock:
            last = max(place for place, change in enumerate(self.feed) if change["tuple_key"]["object"] == thing)
            while self.states[last] is None:
                last -= 1
            return self.states[last]


def first_and_fault(values):
    yield next(values)
    raise BrokenPipeError


def main(words):
    key = key_in(words)
    with open(words[1], encoding="utf-8") as file:
        model = json.load(file)
    serve(OpenFga(model, Faults(float((words + ["0"] * 4)[2]), (words + [None] * 4)[3]), key), int(words[0]))


if __name__ == "__main__":
    main(sys.argv[1:])
