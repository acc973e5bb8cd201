"""A report as pages for people: each is whole in itself, and asks for nothing from elsewhere.

The first page has the sums and the worst findings; where there are more than a thousand, the others follow in files beside it.
"""
import base64
import hashlib
import os
from typing import Callable, Iterator, NamedTuple, Optional

from new_enemy_tools.audit_summary import Telling
from new_enemy_tools.effects import EFFECTS, MEANT, RatedFinding
from new_enemy_tools.faults import naming
from new_enemy_tools.finding_stories import Event, Story, Teller
from new_enemy_tools.findings import FORMS
from new_enemy_tools.groups import Group, listed
from new_enemy_tools.importing.times import text_of_time
from new_enemy_tools.labels import Labels
from new_enemy_tools.meaning import Outgrown
from new_enemy_tools.picture import drawn
from new_enemy_tools.report_forms import place_of
from new_enemy_tools.shown import grouped, markup

PAGE = 1_000
VERDICTS = {"clean": "clean", "dirty": "dirty", "incomplete": "incomplete: nothing was found, and not everything was looked at",
            "empty": "empty: nothing was audited"}
# So many stories are open from the start.
OPEN = 10
HERE = os.path.dirname(os.path.abspath(__file__))
COLUMNS = ("Effect", "Finding", "Where", "Asked", "Question", "User", "Snapshot", "Reply", "Had to see", "Ignored a change of", "Version")


class Page(NamedTuple):
    """Its number, from 1, the findings that it shows, and the groups whose worst is among these."""

    number: int
    findings: list[RatedFinding]
    groups: list[Group]


def pages_of(telling: Telling) -> list[Page]:
    """At least one, also where nothing was found. The worst finding of each group stands before all others."""
    told, groups = list(listed(telling.groups)), telling.groups
    starts = range(0, max(1, len(told)), PAGE)
    return [Page(number, told[start:start + PAGE], groups[start:start + PAGE]) for number, start in enumerate(starts, 1)]


def path_of(path: str, number: int) -> str:
    """Where a page stands: the first at the path, the others beside it with their numbers."""
    if number == 1:
        return path
    stem, end = os.path.splitext(path)
    return "%s.%d%s" % (stem, number, end)


def asset(name: str) -> str:
    with open(os.path.join(HERE, name), encoding="utf-8") as file:
        return file.read()


def color_of(verdict: str, labels: Optional[Labels], elsewhere: int) -> str:
    """The class of a verdict. Clean is not green where stale answers could be looked for to no check, or that is not known, nor beside
    checks of other stores."""
    return "incomplete" if verdict == "clean" and (labels is None or labels.is_none or elsewhere) else verdict


def _counted(count: int, one: str, many: str) -> str:
    return "%s %s" % (grouped(count), one if count == 1 else many)


def _hash(text: str) -> str:
    return "'sha256-%s'" % base64.b64encode(hashlib.sha256(text.encode()).digest()).decode()


def head(title: str, style: str, script: str, again: int = 0) -> Iterator[str]:
    """The head of a page that asks for nothing from elsewhere, and runs no other script; it is looked at again after so many seconds."""
    policy = "default-src 'none'; style-src %s; script-src %s" % (_hash(style), _hash(script))
    yield '<!DOCTYPE html><html lang="en"><head><meta charset="utf-8">'
    yield '<meta http-equiv="Content-Security-Policy" content="%s">' % policy
    yield '<meta name="viewport" content="width=device-width, initial-scale=1">'
    if again:
        yield '<meta http-equiv="refresh" content="%d">' % again
    yield "<title>%s</title>" % title
    yield "<style>%s</style></head>" % style


class Writer:
    """Writes the pages of a telling; `path` is that of the first, for the links between them."""

    def __init__(self, telling: Telling, path: str):
        self.telling, self.path = telling, path
        self.pages = pages_of(telling)
        self.teller = Teller(telling.trace, telling.names)
        # of each finding that mattered the page with the story of its group, and the finding that this is of
        self._stories_of = {told.finding: (number // PAGE + 1, group.worst.finding) for number, group in enumerate(telling.groups)
                            if group.worst.outcome is not None for told in group.findings}
        self.style, self.script = asset("page.css"), asset("page.js")

    def lines(self, page: Page) -> Iterator[str]:
        yield from self._head(page)
        yield "<body>"
        yield '<a class="skip" href="#all">To the table of all findings</a>'
        yield from self._sums(page)
        if page.findings:
            yield from self._filters(page)
            yield from self._stories(page)
            yield from self._table(page)
        yield from self._links(page)
        yield "<script>%s</script>" % self.script if page.findings else ""
        yield "</body></html>"

    def _head(self, page: Page) -> Iterator[str]:
        title = "new_enemy: what the audit found%s" % ("" if page.number == 1 else ", page %d" % page.number)
        yield from head(title, self.style, self.script)

    def _sums(self, page: Page) -> Iterator[str]:
        report, sums = self.telling.report, self.telling.sums
        yield "<header><h1>What the audit found</h1>"
        verdict, coverage = self.telling.verdict, self.telling.coverage
        yield '<p>Verdict <span class="verdict %s">%s</span> of %s in <code>%s</code>, with %s.</p>' % (
            color_of(verdict, self.telling.labels, coverage.elsewhere), VERDICTS[verdict], _counted(coverage.checks, "check", "checks"),
            markup(self.telling.path), _counted(len(report.findings), "finding", "findings"))
        yield from self._about()
        yield '<p id="coverage">%s.</p>' % markup(coverage.counts(grouped).capitalize())
        missing = self.telling.unaudited(grouped)[0 if coverage.is_plain else 1:]
        if missing:
            yield '<ul id="unaudited">%s</ul>' % "".join("<li>%s</li>" % markup(one) for one in missing)
        yield '<p id="said">%s.</p>' % markup(self.telling.said)
        if self.telling.labels.note:
            yield '<p id="note">%s</p>' % markup(self.telling.labels.note)
        yield '<ul class="sums">'
        found, asked, has_stale = sums.distinct, sums.requests, sums.has_stale_count(self.telling.labels)
        if sums.new_enemies:
            yield '<li><strong class="wrong">%s</strong> let a new enemy in</li>' % grouped(sums.new_enemies)
        for count, requests, mark, words in (
                (found.wrong, asked.wrong, "wrong", "reply wrong" if found.wrong == 1 else "replies wrong"),
                (found.let_in if has_stale else None, asked.let_in, "changed", "stale, let someone in"),
                (found.kept_out if has_stale else None, asked.kept_out, "changed", "stale, kept someone out"),
                (found.undecided, asked.undecided, "undecided", "undecided"), (found.harmless, asked.harmless, "none", "harmless")):
            yield '<li><strong%s>%s</strong> %s%s</li>' % (
                ' class="%s"' % mark if count else "", "not looked for:" if count is None else grouped(count), words,
                "" if count is None or count == requests else ' <span class="soft">in %s</span>' % _counted(requests, "request", "requests"))
        yield "</ul>"
        if len(self.pages) > 1:
            yield '<p class="soft">Page %d of %d: findings %s to %s of %s, the worst first.</p>' % (
                page.number, len(self.pages), grouped((page.number - 1) * PAGE + 1),
                grouped((page.number - 1) * PAGE + len(page.findings)), grouped(len(self.telling.told)))
        yield "</header>"

    def _about(self) -> Iterator[str]:
        """Of which service the log is, and from when to when it goes."""
        coverage, service = self.telling.coverage, self.telling.service
        said = [] if service is None else ["Service <strong>%s</strong>" % markup(service)]
        if coverage.since is not None and coverage.until is not None:
            said.append("from <time>%s</time> to <time>%s</time>" % (text_of_time(coverage.since), text_of_time(coverage.until)))
        if said:
            text = ", ".join(said)
            yield '<p id="about">%s.</p>' % (text[0].upper() + text[1:])

    def _filters(self, page: Page) -> Iterator[str]:
        words = {told.finding.finding: FORMS[told.finding.finding][0] for told in page.findings}
        namespaces = sorted({self.telling.names.question(told.entry.goal).namespace for told in page.findings})
        choices = (("effect", "Effect", [(one, one) for one in EFFECTS]),
                   ("finding", "Finding", [(one, "%s %s" % (one, words[one])) for one in FORMS if one in words]),
                   ("kind", "Kind", [("check", "check"), ("content", "content check")]),
                   ("namespace", "Namespace", [(one, one) for one in namespaces]))
        # Without a script there is nothing to filter by.
        yield '<form hidden aria-label="Filters">'
        for name, label, options in choices:
            yield '<label>%s <select name="%s"><option value="">any</option>%s</select></label>' % (label, name, "".join(
                '<option value="%s">%s</option>' % (markup(value), markup(shown)) for value, shown in options))
        for name, label in (("object", "Object"), ("user", "User")):
            yield '<label>%s <input name="%s" type="search" placeholder="part of its name"></label>' % (label, name)
        yield '<button type="reset">Show all</button><output id="count" aria-live="polite"></output></form>'

    # Stories

    def _stories(self, page: Page) -> Iterator[str]:
        mattered = [group for group in page.groups if group.worst.outcome is not None]
        if not mattered:
            return
        yield '<main><h2 id="mattered">What mattered</h2>'
        for number, group in enumerate(mattered):
            try:
                story = self.teller.story(group.worst)
            except Outgrown as fault:
                story = self.teller.short_story(group.worst, str(fault))
            yield from self._story(group, story, number < OPEN)
        yield "</main>"

    def _story(self, group: Group, story: Story, is_open: bool) -> Iterator[str]:
        told = group.worst
        yield '<details class="story" id="story-%d-%s"%s %s><summary><h3>%s</h3> <span class="soft">%s</span></summary>' % (
            told.finding.line, told.finding.finding, " open" if is_open else "", self._data(told),
            markup(story.title) + (" (a new enemy)" if group.is_new_enemy else ""),
            markup(", ".join(one for one in (self._where(told), group.said) if one)))
        yield "<p>%s%s.</p>" % (markup(story.question), "; found too: %s" % markup(", ".join(group.others)) if group.others else "")
        yield '<ol class="timeline">'
        for event in story.events:
            yield self._event(event)
        yield "</ol>"
        for remark in story.remarks:
            yield "<p>%s</p>" % markup(remark)
        yield '<div class="pictures">'
        for picture in story.pictures:
            yield "<figure><figcaption>%s</figcaption>" % markup(picture.title)
            yield from drawn(picture.reason, self.telling.names, picture.title)
            yield "</figure>"
        yield "</div></details>"

    @staticmethod
    def _event(event: Event) -> str:
        where = ' <span class="soft">(%s)</span>' % markup(event.where) if event.where else ""
        ignored = ", <strong>ignored</strong>" if event.is_ignored else ""
        below = [one for one in dict.fromkeys((event.revision, event.time)) if one]
        return '<li class="%s%s"><time>%d%s</time><span class="dot"></span><span class="what">%s%s%s</span></li>' % (
            event.mark, " ignored" if event.is_ignored else "", event.at,
            "".join('<span class="soft">%s</span>' % markup(one) for one in below), markup(event.text), ignored, where)

    # The table

    def _data(self, told: RatedFinding) -> str:
        question = self.telling.names.question(told.entry.goal)
        return 'data-effect="%s" data-finding="%s" data-kind="%s" data-namespace="%s" data-object="%s" data-user="%s"' % (
            told.effect.word, told.finding.finding, told.entry.kind, markup(question.namespace), markup(question.object),
            markup(question.user))

    def _where(self, told: RatedFinding) -> str:
        place = place_of(self.telling, told.entry)
        return "%s:%d" % place if told.entry.source else "line %d" % told.finding.line

    def _table(self, page: Page) -> Iterator[str]:
        yield '<h2 id="all">All findings</h2><p class="soft">%s.</p>' % markup("; ".join("%s: %s" % one for one in MEANT.items()))
        yield '<div class="scroll" tabindex="0" role="region" aria-labelledby="all"><table>'
        yield "<thead><tr>%s</tr></thead><tbody>" % "".join('<th scope="col">%s</th>' % column for column in COLUMNS)
        for told in page.findings:
            yield self._row(told, page)
        yield "</tbody></table></div>"

    def _row(self, told: RatedFinding, page: Page) -> str:
        entry, finding, names = told.entry, told.finding, self.telling.names
        question = names.question(entry.goal)
        said = "%s %s" % (finding.finding, finding.text)
        said += ", see line %d" % finding.related if finding.related is not None else ""
        said += ", step %d" % finding.step if finding.step is not None else ""
        effect = told.effect.word + (", %s" % told.outcome if told.outcome else "")
        cells: list[Optional[str]] = [
            said, self._where(told), entry.time, "%s of %s:%s#%s" % (entry.kind, question.namespace, question.object, question.relation),
            question.user, str(entry.snapshot) + (" (%s)" % entry.revision if entry.revision else ""),
            "yes" if entry.reply else "no", None if told.effect.seen is None else str(told.effect.seen),
            self._ignored(told), None if entry.version is None else names.version(entry.version)]
        shown = markup(effect)
        if finding in self._stories_of:
            number, worst = self._stories_of[finding]
            place = "" if number == page.number else self._address(number)
            shown = '<a href="%s#story-%d-%s">%s</a>' % (place, worst.line, worst.finding, shown)
        return '<tr %s><td class="%s">%s</td>%s</tr>' % (
            self._data(told), told.effect.word, shown, "".join("<td>%s</td>" % markup(cell or "") for cell in cells))

    @staticmethod
    def _ignored(told: RatedFinding) -> Optional[str]:
        if told.change is None:
            return None
        return "%d%s" % (told.change.at, " (%s)" % told.change.time if told.change.time else "")

    def _links(self, page: Page) -> Iterator[str]:
        if len(self.pages) == 1:
            return
        yield '<nav class="pages" aria-label="Pages"><p>Pages:'
        for other in self.pages:
            yield "<strong>%d</strong>" % page.number if other is page else '<a href="%s">%d</a>' % (self._address(other.number), other.number)
        yield "</p></nav>"

    def _address(self, number: int) -> str:
        """That of a page, for a link."""
        return markup(_url(os.path.basename(path_of(self.path, number))))


def _url(name: str) -> str:
    return "./" + name.replace("%", "%25").replace("#", "%23").replace("?", "%3F")


def write_pages(telling: Telling, path: str, step: Callable[[int], None]) -> None:
    """Writes all pages, or none: each to a file beside its own, and then all in their places."""
    writer, done = Writer(telling, path), 0
    places = [(page, path_of(path, page.number)) for page in writer.pages]
    try:
        for page, place in places:
            with naming(place), open(place + ".part", "w", encoding="utf-8", newline="\n") as file:
                for line in writer.lines(page):
                    file.write(line + "\n")
            done += len(page.findings)
            step(done)
        for _, place in places:
            os.replace(place + ".part", place)
    finally:
        for _, place in places:
            if os.path.exists(place + ".part"):
                os.remove(place + ".part")
