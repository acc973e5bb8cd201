"""The page of a day, and one page over all days that are kept."""
from typing import Iterator, Optional

from new_enemy_tools.ids import Ids
from new_enemy_tools.page import VERDICTS, asset, color_of, head, write_pages
from new_enemy_tools.shown import markup
from new_enemy_tools.windowing.audited_window import Audited
from new_enemy_tools.windowing.days import Days, Summary, labels_of
from new_enemy_tools.windowing.own_lines import Own
from new_enemy_tools.windowing.window_effects import telling_in_full

COLUMNS = ("Day", "From", "To", "Verdict", "Findings", "Checks", "Not audited whole", "Held back", "Lost in gaps", "Name a version", "Carry a token", "Logs")


def write_day(found: Audited, own: Own, ids: Optional[Ids], number: int, path: str) -> None:
    """Writes the page of a day, with the stories of its findings, and more beside it where there are many."""
    write_pages(telling_in_full(found, own, ids)._replace(path="day %d" % number), path, lambda count: None)


def index(days: Days) -> Iterator[str]:
    """A row for each day, the newest first; a day that has a page is linked to it. As many rows as there are days."""
    yield from head("new_enemy: the days", asset("page.css"), "")
    yield '<body><header><h1>The days</h1></header><div class="scroll" tabindex="0" role="region" aria-label="The days"><table>'
    yield "<thead><tr>%s</tr></thead><tbody>" % "".join('<th scope="col">%s</th>' % one for one in COLUMNS)
    for number in reversed(days.numbers):
        yield "<tr>%s</tr>" % "".join("<td>%s</td>" % cell for cell in _cells(days, number, days.summary(number)))
    yield "</tbody></table></div></body></html>"


def _cells(days: Days, number: int, summary: Summary) -> Iterator[str]:
    covered, verdict = summary.coverage, summary.verdict or ("dirty" if summary.findings else "clean")
    checks, elsewhere = covered.get("checks", summary.entries), covered.get("other_stores", 0)
    if verdict == "clean" and not checks:
        verdict = "empty"
    yield '<a href="%s">%d</a>' % (days.page(number), number) if days.page(number) else str(number)
    yield from (markup(str(covered.get(key, ""))) for key in ("from", "to"))
    yield '<span class="verdict %s">%s</span>' % (color_of(verdict, labels_of(summary.looked), elsewhere), VERDICTS[verdict].partition(":")[0])
    yield from (str(summary.findings), "%d, and %d of other stores" % (checks, elsewhere) if elsewhere else str(checks))
    not_whole, lost = (str(sum(sum(covered.get(key, {}).values()) for key in keys)) for keys in (("in_part", "not_audited"), ("lost",)))
    yield from (not_whole, str(summary.held_over + summary.held_back), lost)
    yield from (str(summary.looked.get(key, "")) for key in ("with_version", "with_token"))
    yield markup(", ".join(summary.logs))
