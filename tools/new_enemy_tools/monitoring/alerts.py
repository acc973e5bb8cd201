"""Alerts: each story that matters is told once, and later with a count while it goes on.

A story is what `ne report` calls a group: the requests of one question and reply that had the same effect, by the
same change that was ignored. It is known by texts of the service's own log, so that a run that begins anew finds it
again.
"""
import json
from hashlib import blake2b
from typing import Any, NamedTuple, Optional

from new_enemy_tools.audit_summary import Telling
from new_enemy_tools.effects import MEANT, RatedFinding
from new_enemy_tools.finding_stories import Event, Teller
from new_enemy_tools.meaning import Outgrown
from new_enemy_tools.monitoring.run import Run
from new_enemy_tools.report_forms import row_of, sentence
from new_enemy_tools.shown import plain
from new_enemy_tools.strictjson import filled

Row = dict[str, Any]


class Known(NamedTuple):
    """What stays of a story from run to run: the number and the id of its first alert, how many requests have it, and
    how many were told."""

    alert: int
    id: str
    requests: int
    told: int


class Story:
    """A story that goes on. `before` is what runs before this one counted."""

    def __init__(self, first: Known, now: float):
        self.alert, self.id, self.before, self.told, self.at = *first, now
        self.here = 0
        self.since: Optional[str] = None
        self.until: Optional[str] = None
        self._last: Optional[str] = None

    @property
    def count(self) -> int:
        return self.before + self.here

    def take(self, told: RatedFinding) -> None:
        """Counts a request once, whatever its findings are; these come one behind the other."""
        source = told.entry.source or str(told.entry.line)
        if source != self._last:
            self.here += 1
        self._last, time = source, told.entry.time
        self.since, self.until = self.since or time, time or self.until


class Alert(NamedTuple):
    """An alert as it is kept: its number, the story that it is of, and the object that receivers get."""

    number: int
    story: Optional[str]
    text: Row


class Stories:
    """Those that go on. `known` are those of the run before, and `told` those of which this run told before it was
    broken off."""

    def __init__(self, effects: frozenset[str], known: dict[str, Known], told: dict[str, Known], now: float):
        self.effects = effects
        self.stories = {key: Story(one, now) for key, one in known.items()}
        for key, one in told.items():
            story = self.stories.setdefault(key, Story(one, now))
            story.told = max(story.told, one.told)

    def take(self, run: Run, telling: Telling, number: int, begun: int, now: float) -> list[Alert]:
        """The alerts of some findings, numbered from there on, in a run by its number."""
        found: list[Alert] = []
        for told in telling.told:
            if told.effect.word not in self.effects:
                continue
            key = key_of(run, told)
            story = self.stories.get(key)
            if story is None:
                story = self.stories[key] = Story(Known(number + len(found), "%s.%d" % (key, begun), 0, 1), now)
                found.append(Alert(story.alert, key,
                                   {"alert": story.alert, "id": story.id, **text_of(run, telling, told)}))
            story.take(told)
        return found

    def again(self, number: int, every: float, now: float, is_end: bool = False) -> list[Alert]:
        """Alerts that tell how often stories were seen by now."""
        found: list[Alert] = []
        for key, story in self.stories.items():
            if story.count > story.told and (is_end or now - story.at >= every):
                found.append(Alert(number + len(found), key, self._again(story, number + len(found))))
                story.told, story.at = story.count, now
        return found

    @staticmethod
    def _again(story: Story, number: int) -> Row:
        said = "the story of alert %d goes on: %d requests by now" % (story.alert, story.count)
        return {"alert": number, "id": "%s-%d" % (story.id, story.count), "kind": "again", "first": story.alert,
                "first_id": story.id, "count": story.count, "more": story.count - story.told, "until": story.until,
                "said": said}

    def leave(self) -> dict[str, Known]:
        """Of the stories that this run had, what the next one knows."""
        return {key: Known(one.alert, one.id, one.count, one.told) for key, one in self.stories.items() if one.here}


def key_of(run: Run, told: RatedFinding) -> str:
    """What a story is known by in any run over the same log."""
    entry, change = told.entry, run.change_of(told)
    by = (change and change.revision) if told.outcome is not None else told.finding.finding
    parts = [entry.kind, run.names.tuple(entry.goal), entry.reply, told.effect.word, told.outcome, by]
    return blake2b(json.dumps(parts).encode(), digest_size=8).hexdigest()


def text_of(run: Run, telling: Telling, told: RatedFinding) -> Row:
    """What is told of a finding."""
    row = row_of(telling, told)
    row["asked"] = row.pop("kind")
    named, change = run.names.question(told.entry.goal), run.change_of(told)
    made: Row = {"kind": "finding", "title": _title(run, told, named.user),
                 "said": plain(sentence({**row, "kind": row["asked"]})), "count": 1, **row,
                 "user": named.user, "object": "%s:%s" % named[:2], "relation": named.relation,
                 "ignored_from": change and change.source}
    if told.outcome is not None:
        made["story"] = _story(run, told)
    return filled(made)


def _title(run: Run, told: RatedFinding, user: str) -> str:
    finding = "%s %s" % (told.finding.finding, told.finding.text)
    if told.outcome is None:
        return "%s: %s" % (finding, MEANT[told.effect.word])
    new = ", a new enemy," if told.is_new_enemy else ""
    return plain("%s%s was %s: %s %s" % (user, new, told.outcome, run.names.tuple(told.entry.goal), finding))


def _story(run: Run, told: RatedFinding) -> Row:
    teller = Teller(run.trace, run.names)
    try:
        story = teller.story(told)
    except Outgrown as fault:
        story = teller.short_story(told, str(fault))
    return {"question": plain(story.question), "events": [_event(one) for one in story.events],
            "remarks": [plain(one) for one in story.remarks]}


def _event(event: Event) -> Row:
    return filled({"mark": event.mark, "text": plain(event.text), "where": event.where or None,
                   "revision": event.revision or None, "time": event.time or None, "ignored": event.is_ignored or None})


def line_of(row: Row) -> str:
    return json.dumps(row, ensure_ascii=False, separators=(",", ":"))
