"""Reads the changes of OpenFGA by ReadChanges, in a thread of its own; over HTTP, or by `grpc_asking.py`."""
import json
import time
from collections import deque
from typing import Any, Callable, Iterator, Optional, Protocol
from urllib.parse import quote

from new_enemy_tools.importing.openfga import OPERATIONS, ModelReader
from new_enemy_tools.importing.openfga_answers import relationship_of
from new_enemy_tools.importing.reading import Bad, get
from new_enemy_tools.importing.refusals import Refusals
from new_enemy_tools.importing.times import nanoseconds
from new_enemy_tools.recording.asking import Asker, FeedFault
from new_enemy_tools.recording.keeper import Settings
from new_enemy_tools.recording.log_files import Left
from new_enemy_tools.recording.openfga import Base, Changes, Rules
from new_enemy_tools.recording.overlap import Change, Overlap
from new_enemy_tools.recording.ruled import Unread, refuse_unread
from new_enemy_tools.recording.stored import Stored

PAGE = 100
# So many readings in turn may show less than before, as those of a replica may.
LESS = 100
# So many pages in turn may have nothing on them and end further on.
EMPTY = 1000


class Source(Protocol):
    """The recorder's own requests, over HTTP or gRPC; all raise FeedFault."""

    def stores(self) -> list[Any]:
        """Some of the stores."""

    def changes(self, store: str, size: int, token: Optional[str]) -> Any:
        """A page of ReadChanges behind a token."""

    def model(self, store: str, size: int) -> tuple[object, bytes]:
        """An answer with the latest models, and what tells it from others."""

    def models(self, data: bytes) -> list[Any]:
        """The models of an answer."""

    def use_key(self, key: str) -> None:
        """Takes another key for what is asked from now on."""


class OpenFgaOverHttp(Asker):
    def stores(self) -> list[Any]:
        return get(self.ask("GET", "/stores?page_size=10"), "stores") or []

    def changes(self, store: str, size: int, token: Optional[str]) -> Any:
        behind = "&continuation_token=" + quote(token, safe="") if token else ""
        return self.ask("GET", "/stores/%s/changes?page_size=%d%s" % (quote(store), size, behind))

    def model(self, store: str, size: int) -> tuple[object, bytes]:
        data = self.raw("GET", "/stores/%s/authorization-models?page_size=%d" % (quote(store), size))
        return data, data

    def models(self, data: bytes) -> list[Any]:
        return get(json.loads(data), "authorization_models") or []


class OpenFgaFeed:
    def __init__(self, settings: Settings, source: Source):
        self.settings = settings
        self.source = source
        self.store = settings.store or ""
        # how many changes a page had at most
        self.longest = 0
        self.overlap: Optional[Overlap] = None
        # what tells the latest model from others, and its id
        self.model_mark: object = None
        self.model_id: object = None

    def run(self, left: Optional[Left], put: Callable[[Any], None]) -> None:
        if self.overlap is None:
            self._begin(left, put)
        less = 0
        while True:
            began = time.monotonic_ns()
            changes = self._read(began)
            less = less + 1 if changes is None else 0
            if changes is not None:
                put(changes)
            elif less >= LESS:
                raise FeedFault("the changes do not show any more what they showed before")
            time.sleep(self.settings.poll)

    def use_key(self, key: str) -> None:
        self.source.use_key(key)

    def _begin(self, left: Optional[Left], put: Callable[[Any], None]) -> None:
        self.store = self.store or self._only_store()
        if left is not None and left.place.store not in (None, self.store):
            # Where little has changed lately, its changes would not tell.
            raise FeedFault("the log is of the store %s, and %s is to be recorded; begin a new log in another folder" % (
                left.place.store, self.store), True)
        began, back, stored = time.monotonic_ns(), int(self.settings.overlap * 1e9), Stored()
        if left is None:
            cursor, changes, end = self._take_all(stored, back)
        else:
            cursor = left.place.cursor
            changes, ends = self._changes(cursor)
            end = ends[-1][1] if ends else cursor
        mark, number, rules = self._model()
        if rules is None:
            raise FeedFault("the store has no authorization model yet")
        try:
            refuse_unread(*rules)
        except Unread as fault:
            raise FeedFault(str(fault)) from None
        received, overlap = time.monotonic_ns(), Overlap(cursor, back)
        new = overlap.go_on(changes, left.changes if left else [], left.place.apart if left else (), end, received)
        if new is None:
            raise FeedFault("the changes do not show what the log has of them; begin a new log in another folder")
        put(Base(self.store, left, stored, new, cursor, *rules, began, received))
        self.overlap, self.model_mark, self.model_id = overlap, mark, number

    def _take_all(self, stored: Stored, back: int) -> tuple[Optional[str], list[Change], Optional[str]]:
        """Stores all changes so far. Gives the token behind those that are so much older than the newest, by the times of the service; the
        others, before which a commit may still come; and the token at the end."""
        pages: deque[tuple[list[Change], Optional[str]]] = deque()
        newest, cursor, end = 0, None, None
        for page, end in self._pages(None):
            for change in page:
                stored.take(change)
                newest = max(newest, change.time)
            pages.append((page, end))
            while pages and pages[0][0][-1].time <= newest - back:
                cursor = pages.popleft()[1]
        return cursor, [change for page, _ in pages for change in page], end

    def _read(self, began: int) -> Optional[Changes]:
        """All changes that there are, and the model where it is another; None where it shows less than one before."""
        assert self.overlap is not None
        listed, ends = self._changes(self.overlap.cursor)
        mark, number, rules = self._model()
        skips = rules is not None and not self._has_known_model()
        received = time.monotonic_ns()
        read = self.overlap.take(listed, ends[-1][1] if ends else self.overlap.cursor, began, received)
        if read is None:
            return None
        self.model_mark, self.model_id = mark, number
        return Changes(began, received, len(ends) < 2, read, rules, skips)

    def _model(self) -> tuple[object, object, Optional[Rules]]:
        """What tells the latest model from others, its id, and its rules where it is another than before; None where there is none."""
        mark, data = self.source.model(self.store, 1)
        models = [] if mark == self.model_mark else self.source.models(data)
        refusals = Refusals()
        if not models:
            return mark, self.model_id, None
        return mark, get(models[0], "id"), (ModelReader("the model", refusals).rules(models[0]), refusals)

    def _has_known_model(self) -> bool:
        """Whether the model that was read before is one of the last two."""
        _, data = self.source.model(self.store, 2)
        return any(get(one, "id") == self.model_id for one in self.source.models(data))

    def _only_store(self) -> str:
        stores = self.source.stores()
        if len(stores) != 1:
            raise FeedFault("the service has %s stores; name one by --store" % (len(stores) or "no"), bool(stores))
        return str(stores[0]["id"])

    def _pages(self, cursor: Optional[str]) -> Iterator[tuple[list[Change], Optional[str]]]:
        """The changes behind a token to the end of the feed, page by page, each with the token at its end. The last page is shorter than
        another one: a service may give fewer than it was asked for. That what has come is read without an end is not waited for, since more
        comes meanwhile."""
        empty = 0
        while empty < EMPTY:
            page = self.source.changes(self.store, PAGE, cursor)
            listed, before = get(page, "changes") or [], cursor
            cursor = get(page, "continuation_token") or cursor
            if len(listed) >= PAGE and cursor == before:
                raise FeedFault("the changes do not go on: a whole page ends with the token that it was asked by")
            if listed:
                yield list(map(_change, listed)), cursor
            is_short, self.longest = 0 < len(listed) < self.longest, max(len(listed), self.longest)
            if is_short or cursor == before:
                return
            empty = 0 if listed else empty + 1
        raise FeedFault("the changes do not end: %d pages without one" % EMPTY)

    def _changes(self, cursor: Optional[str]) -> tuple[list[Change], list[tuple[int, Optional[str]]]]:
        """The changes behind a token to the end of the feed; and of each page how many there are up to its end, and the token there."""
        found: list[Change] = []
        ends: list[tuple[int, Optional[str]]] = []
        for page, end in self._pages(cursor):
            found += page
            ends.append((len(found), end))
        return found, ends


def _change(given: Any) -> Change:
    key, live, at = get(given, "tuple_key"), OPERATIONS.get(get(given, "operation")), nanoseconds(get(given, "timestamp"))
    if live is None or at is None:
        raise FeedFault("a change has no operation or no timestamp: %r" % (given,))
    try:
        return Change(relationship_of(key), live, at, "condition on a tuple" if get(key, "condition") else None)
    except Bad as fault:
        of, colon, name = str(get(key, "object")).partition(":")
        relation = get(key, "relation")
        userset = (of, name, relation) if colon and isinstance(relation, str) and relation else None
        return Change(None, live, at, "tuple that can't be read (%s)" % fault, userset)
