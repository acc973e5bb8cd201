"""The page of a monitor while it runs: what it told, what was looked at, and what waits. It asks for nothing from
elsewhere, and is made anew each time that it is asked for.
"""
from typing import Iterator, Mapping, NamedTuple, Sequence

from new_enemy_tools.importing.times import SECONDS, text_of_time
from new_enemy_tools.labels import Labels
from new_enemy_tools.monitoring.alerts import Row
from new_enemy_tools.monitoring.exposition import Before
from new_enemy_tools.monitoring.pure_monitor import Core, Unjoined
from new_enemy_tools.page import asset, color_of, head
from new_enemy_tools.shown import grouped, markup

# A monitor that has not looked for so long, in seconds, may hang.
SILENT = 30.0
# Between two looks of a browser.
AGAIN = 5
SAID = {"clean": "clean so far", "dirty": "dirty", "empty": "empty: nothing was audited so far",
        "incomplete": "incomplete: nothing was found, and not everything was looked at so far"}


class Live(NamedTuple):
    """How a monitor stood when it looked last."""

    logs: str
    wall: int
    run: int
    entries: int
    findings: Mapping[tuple[str, str], int]
    # what was not looked at whole, by cause, in all runs of this monitor; and of the run that goes on, as sentences
    missing: Mapping[str, int]
    coverage: tuple[str, ...]
    labels: Labels
    elsewhere: int
    # what is not settled, in words
    waiting: tuple[str, ...]
    lag: float
    # receivers that have not got all alerts, in words
    behind: tuple[str, ...]
    alerts: tuple[Row, ...]
    told: int


def live_of(core: Core, before: Before, logs: str, wall: int, is_caught_up: bool) -> Live:
    sums, run = before.plus(core), core.run
    missing = {"%s: %s" % (words, cause): count for words, causes in (
        ("in part", sums.in_part), ("not audited", sums.not_audited), ("lost in gaps", sums.lost))
               for cause, count in causes.items()}
    if sums.gaps:
        missing["gaps in which nobody counted"] = sums.gaps
    return Live(logs, wall, core.number, sums.entries, dict(core.counts), missing, tuple(run.coverage().lines(grouped)),
                sums.labels, sums.elsewhere, tuple(_waiting(core, is_caught_up)), core.lag(wall), tuple(_behind(core)),
                tuple(core.recent), sum(core.alerts.values()))


def _waiting(core: Core, is_caught_up: bool) -> Iterator[str]:
    unjoined: Unjoined = core.unjoined
    if not is_caught_up:
        yield "the log was not read to its end so far"
    for count, words in ((len(core.holding.lines), "%s lines of the log are held, since lines behind them may move them"),
                         (core.run.through.open, "%s checks wait for a commit that settles them"),
                         (core.run.waiting, "%s findings wait for the changes that their effect hangs on"),
                         (unjoined.checks, "%s checks wait for other logs: " + " and ".join(unjoined.logs).replace("%", "%%"))):
        if count:
            yield words % grouped(count)
    for folder in unjoined.unbegun:
        yield "%s has no base state so far, and nothing of it is looked at" % folder
    for name, is_passed in core.passed.items():
        if is_passed:
            yield "the bound of the %s is passed" % name


def _behind(core: Core) -> Iterator[str]:
    for receiver, sends in core.delivery.waiting.items():
        if sends:
            fault = core.delivery.faults.get(receiver)
            yield "%s has not got %s alerts%s" % (receiver, grouped(len(sends)), "" if fault is None else ": " + fault)


def verdict_of(live: Live) -> str:
    if sum(live.findings.values()):
        return "dirty"
    if live.missing or live.waiting:
        return "incomplete"
    return "clean" if live.entries else "empty"


def page_of(live: Live, age: float) -> str:
    """The page, so many seconds after the monitor has looked."""
    return "".join(_lines(live, age))


def _lines(live: Live, age: float) -> Iterator[str]:
    style, verdict = asset("page.css"), verdict_of(live)
    yield from head("new_enemy: the monitor", style, "", AGAIN)
    yield "<body><header><h1>The monitor of %s</h1>" % markup(live.logs)
    if age > SILENT:
        yield '<p class="wrong" id="silent">The monitor has not looked for %s seconds, and may hang: what stands here is ' \
              "of then.</p>" % grouped(int(age))
        verdict = "incomplete" if verdict == "clean" else verdict
    yield '<p><span class="verdict %s">%s</span> in run %d, at %sZ.</p></header>' % (
        color_of(verdict, live.labels, live.elsewhere), SAID[verdict], live.run, text_of_time(live.wall)[:SECONDS])
    yield from _sums(live)
    yield from _listed("waiting", "What waits, and bounds that are passed", live.waiting)
    yield from _listed("coverage", "What was looked at in this run", live.coverage)
    yield from _listed("missing", "What was not looked at whole since this monitor began",
                       ["%s %s" % (grouped(count), cause) for cause, count in sorted(live.missing.items())])
    yield from _listed("behind", "Who has not got all alerts", live.behind)
    yield from _alerts(live)
    yield "</body></html>"


def _sums(live: Live) -> Iterator[str]:
    yield '<ul class="sums"><li><strong>%s</strong> checks audited and settled</li>' % grouped(live.entries)
    yield "<li><strong>%s s</strong> the oldest reply waits</li>" % format(live.lag, ",.1f")
    for (finding, effect), count in sorted(live.findings.items()):
        yield '<li><strong class="%s">%s</strong> %s %s</li>' % tuple(
            map(markup, (effect, grouped(count), finding, effect)))
    yield "</ul>"
    if live.elsewhere:
        yield '<p id="elsewhere">%s checks were of other stores, and are not recorded.</p>' % grouped(live.elsewhere)
    if live.labels.note:
        yield '<p id="note">%s</p>' % markup(live.labels.note)


def _listed(name: str, title: str, lines: Sequence[str]) -> Iterator[str]:
    if lines:
        yield '<h2>%s</h2><ul id="%s">%s</ul>' % (title, name, "".join("<li>%s</li>" % markup(one) for one in lines))


def _alerts(live: Live) -> Iterator[str]:
    yield "<h2>Alerts</h2>"
    if live.told > len(live.alerts):
        yield '<p class="soft">The last %s of %s; all are in the reports of the days.</p>' % (grouped(len(live.alerts)), grouped(live.told))
    elif not live.alerts:
        yield '<p class="soft">None since this monitor began.</p>'
    for row in reversed(live.alerts):
        yield '<section class="story"><h3 class="%s">%s</h3> <span class="soft">alert %s%s</span><p>%s</p></section>' % tuple(
            map(markup, (row.get("effect", row["kind"]), row.get("title", row["kind"]), str(row["alert"]),
                         "".join(", " + str(row[key]) for key in ("time", "until", "state") if row.get(key)), row["said"])))
