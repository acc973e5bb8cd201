"""A small stand-in of OpenFGA with a cache, as a process: stand_in_openfga_cache.py PORT MODEL.

A check that asks for HIGHER_CONSISTENCY is answered from the newest state, and any other one from the state before the last write, as a
cache may that has not heard of it.
"""
import json
import sys
from typing import TYPE_CHECKING, Any, Dict

sys.path.insert(0, __file__.rsplit("/", 2)[0])

from tests.stand_in import Faults, serve
from tests.stand_in_openfga import OpenFga

if TYPE_CHECKING:
    from tests.stand_in import Handler


class Cached(OpenFga):
    def check(self, handler: "Handler", method: str, body: Dict[str, Any], query: Dict[str, str]) -> None:
        key = body["tuple_key"]
        with self.lock:
            # A write of several tuples has a state for its last one alone.
            whole = [state for state in self.states if state is not None]
        state = whole[-1] if body.get("consistency") == "HIGHER_CONSISTENCY" else whole[-2:][0]
        handler.answer({"allowed": self.holds(state, key["user"], key["relation"], key["object"]), "resolution": ""})


if __name__ == "__main__":
    with open(sys.argv[2], encoding="utf-8") as file:
        model = json.load(file)
    serve(Cached(model, Faults(0, None), None), int(sys.argv[1]))
