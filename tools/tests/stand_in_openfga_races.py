"""A small stand-in of OpenFGA on a datastore where changes get their places before they commit, as a process:
stand_in_openfga_races.py PORT MODEL RACE HORIZON [SHARE PLANTED].

A write has its place in the feed up to RACE seconds before it comes, and is shown HORIZON seconds behind its place. Paths are decoded, as
routers do. Of the share of checks of a document called `early` the state before its
last change is looked at, as by the stand-in that this one stands on.
"""
import itertools
import json
import sys
import time
import urllib.parse
from datetime import datetime, timezone

sys.path.insert(0, __file__.rsplit("/", 2)[0])

from tests.stand_in import Faults, serve
from tests.stand_in_openfga import OpenFga


class Raced(OpenFga):
    def __init__(self, model, faults, race, horizon):
        super().__init__(model, faults, None)
        self.race, self.horizon = race, horizon
        self.places = itertools.count(1)
        # each change with its place and when it got it
        self.placed = []

    def call(self, handler, method, path, body):
        named, _, query = path.split("#")[0].partition("?")
        super().call(handler, method, urllib.parse.unquote(named) + ("?" + query if query else ""), body)

    def write(self, handler, method, body, query):
        listed = [("WRITE", key) for key in body.get("writes", {}).get("tuple_keys", ())]
        listed += [("DELETE", key) for key in body.get("deletes", {}).get("tuple_keys", ())]
        with self.lock:
            places, stamped = [next(self.places) for _ in listed], time.monotonic()
            at = datetime.now(timezone.utc).strftime("%Y-%m-%dT%H:%M:%S.%fZ")
            wait = self.random.random() * self.race
        time.sleep(wait)
        with self.lock:
            state = set(self.states[-1])
            for place, (kind, given) in zip(places, listed):
                key = (given["user"], given["relation"], given["object"])
                (state.add if kind == "WRITE" else state.discard)(key)
                change = {"tuple_key": given, "operation": "TUPLE_OPERATION_" + kind, "timestamp": at}
                self.feed.append(change)
                self.placed.append((place, stamped, change))
            self.add_states(len(listed), state)
            self.placed.sort(key=lambda one: one[0])
        handler.answer({})

    def changes(self, handler, method, body, query):
        first, size = int(query.get("continuation_token") or 0), int(query.get("page_size", 50))
        with self.lock:
            until = time.monotonic() - self.horizon
            page = [one for one in self.placed if one[0] > first and one[1] <= until][:size]
        handler.answer({"changes": [one[2] for one in page], "continuation_token": str(page[-1][0]) if page else query.get("continuation_token", "")})


def main(words):
    with open(words[1], encoding="utf-8") as file:
        model = json.load(file)
    share, planted = (words[4:] + ["0", None])[:2]
    serve(Raced(model, Faults(float(share), planted), float(words[2]), float(words[3])), int(words[0]))


if __name__ == "__main__":
    main(sys.argv[1:])
