"""Tells an audit what an application asked OpenFGA or SpiceDB, where no recorder stands in between. Copy this file; it needs Python 3.9 alone.

    events = Events("/var/log/app/events", store="01HVMMBCMGZNT3SED4Z17ECXCA")
    with events.asked("user:bob", "viewer", "document:plan", newest=True, shows="v2") as asked:
        asked.reply = client.check(...).allowed

Of SpiceDB there is no store, and each check says by which token it was answered:

    events = Events("/var/log/app/events")
    with events.asked("user:bob", "view", "document:plan", token=stored, shows="v2") as asked:
        answer = client.CheckPermission(...)
        asked.reply, asked.snapshot = answer.permissionship == 2, answer.checked_at.token

Each process has a file of its own in the folder, so make `Events` behind a fork. `ne record --changes-only` records the
changes meanwhile, and `ne join` puts both together; docs/RECORDING.md has the format. What fails here fails no request:
it is counted on the next line that can be written.
"""
import contextlib
import json
import os
import threading
import time
from datetime import datetime, timezone


def _text(at):
    """Nanoseconds since 1970 as a time of RFC 3339."""
    return datetime.fromtimestamp(at // 1_000_000_000, timezone.utc).strftime("%Y-%m-%dT%H:%M:%S") + ".%09dZ" % (at % 1_000_000_000)


class Asked:
    """A check under way; `reply` is to be true or false when it has its answer, and of SpiceDB `snapshot` the token `checked_at`. One without
    a reply records no decision, and one whose reply is something else is counted as lost."""

    reply = snapshot = None


class Events:
    def __init__(self, folder, store=None):
        os.makedirs(folder, exist_ok=True)
        self.folder, self.store, self.service = folder, store, "spicedb" if store is None else "openfga"
        self.lock, self.lost, self.since = threading.Lock(), 0, 0
        self._begin()

    @contextlib.contextmanager
    def asked(self, user, relation, object, newest=False, saves=None, shows=None, model=None, token=None):
        """Around one check. `newest` says that HIGHER_CONSISTENCY was asked for, or of SpiceDB fully_consistent; `saves` names the version
        that is saved after it, and `shows` the one that is shown by it; `model` is the authorization model that the request names, if it names
        one. `token` is what a request of SpiceDB demands, or with `saves` what is stored with the version, where that is not the snapshot. A
        check with contextual tuples or a context for conditions or caveats is not to be told."""
        one, began = Asked(), time.time_ns()

        def line():
            labels = [None if label is None else str(label) for label in (saves, shows)]
            # Where the clock went back it is not known when the check was asked.
            is_whole = began <= ended and isinstance(one.reply, bool) and "" not in labels and None in labels
            if not is_whole or one.snapshot is None and self.service == "spicedb":
                raise ValueError("no time, no snapshot, or what a line can't have")
            return {"event": "asked", "began": _text(began), "ended": _text(ended), "goal": [*object.split(":", 1), relation, *user.split(":", 1)],
                    "reply": one.reply, "newest": bool(newest), "saves": labels[0], "shows": labels[1], "model": model, "token": token,
                    "snapshot": one.snapshot}
        try:
            yield one
        finally:
            # Whatever the application does behind its answer, it had that.
            ended = time.time_ns()
            if one.reply is not None:
                self._tell(line, began, ended)

    def close(self):
        """Says that all was told; a file without that is one of a process that was killed. What is told later stands in another file."""
        with self.lock:
            if self.file is None:
                return
            now = time.time_ns()
            try:
                self._write({"event": "over", "time": _text(now), "asked": self.count}, now)
            finally:
                os.close(self.file)
                self.file = None

    def _begin(self):
        now = time.time_ns()
        self.path = os.path.join(self.folder, "%d-%d.events" % (now, os.getpid()))
        self.file, self.count = os.open(self.path, os.O_CREAT | os.O_EXCL | os.O_WRONLY | os.O_APPEND, 0o600), 0
        try:
            self._write({"event": "own", "format": 1, "service": self.service, "store": self.store, "time": _text(now)})
        except OSError:
            os.close(self.file)
            os.remove(self.path)
            self.file = None
            raise

    def _tell(self, line, began, ended):
        with self.lock:
            try:
                if self.file is None:
                    self._begin()
                self._write(line(), ended)
                self.count += 1
            except Exception:
                # Whatever it is, it fails no request.
                self.since = min(self.since, began) if self.lost else began
                self.lost += 1

    def _write(self, line, at=None):
        """Writes a line whole, behind what was lost up to a time; what was written of it by half is cut."""
        if at is not None and self.lost:
            self._write({"event": "lost", "from": _text(min(self.since, at)), "to": _text(max(self.since, at)), "count": self.lost})
            self.lost = 0
        data = json.dumps({key: value for key, value in line.items() if value is not None}, separators=(",", ":")).encode() + b"\n"
        size = os.fstat(self.file).st_size
        if os.write(self.file, data) != len(data):
            os.ftruncate(self.file, size)
            raise OSError("no room")
