"""A small drawing of why a goal holds or not, as SVG within a page: each userset on a row, below the one that leads to it."""
from typing import Iterator, NamedTuple, Optional

from new_enemy_tools.names import Names
from new_enemy_tools.reasons import Ground, Reason
from new_enemy_tools.shown import markup

# A letter is as wide as those of page.css, which has the size of the font.
ROW, STEP, LETTER, PAD = 34, 26, 7.9, 8
LONGEST = 64


class _Row(NamedTuple):
    depth: int
    # the row that leads here
    above: Optional[int]
    kind: str
    text: str
    small: str
    is_dashed: bool


def _short(text: str) -> str:
    """A text that fits, without its middle where it is long."""
    half = LONGEST // 2 - 1
    return text if len(text) <= LONGEST else text[:half] + "…" + text[-half:]


class _Rows:
    """The rows of a reason; how deep and how many there are is bounded by its own bounds."""

    def __init__(self, names: Names):
        self.names = names
        self.rows: list[_Row] = []

    def put(self, reason: Reason, depth: int, above: Optional[int], small: str, is_dashed: bool) -> None:
        said = {"above": "as above", "long": "and so on", "": "not declared"}[reason.cut] if not reason.grounds else ""
        place = len(self.rows)
        self.rows.append(_Row(depth, above, "in" if reason.holds else "out", self.names.userset(reason.of),
                              ", ".join(one for one in (small, said) if one), is_dashed))
        for ground in reason.grounds:
            self._ground(ground, depth + 1, place)
        if reason.more:
            self.rows.append(_Row(depth + 1, place, "out", "and %d more like these" % reason.more, "", False))

    def _ground(self, ground: Ground, depth: int, above: int) -> None:
        if ground.why is not None:
            small = "" if ground.stored is None else "by %s, since %s" % (self.names.tuple(ground.stored), ground.since)
            self.put(ground.why, depth, above, ", ".join(one for one in (small, _away(ground)) if one), ground.subtracted)
        elif ground.own is not None:
            is_stored = ground.touch is not None and ground.touch[1]
            said = "not stored" if ground.touch is None else "%s at %d" % ("added" if is_stored else "removed", ground.touch[0])
            self.rows.append(_Row(depth, above, "in" if is_stored else "out", self.names.tuple(ground.own),
                                  ", ".join(one for one in (said, _away(ground)) if one), ground.subtracted))
        elif ground.empty is not None:
            self.rows.append(_Row(depth, above, "out", self.names.userset(ground.empty), "nothing is stored", ground.subtracted))


def _away(ground: Ground) -> str:
    if not ground.subtracted:
        return ""
    return "takes it away" if ground.why is not None and ground.why.holds or ground.touch is not None and ground.touch[1] \
        else "would take it away"


def drawn(reason: Reason, names: Names, title: str) -> Iterator[str]:
    rows = _Rows(names)
    rows.put(reason, 0, None, "", False)
    width = max(2 * PAD + STEP * row.depth + LETTER * (len(_short(row.text)) + 4 + len(_short(row.small))) + 30 for row in rows.rows)
    yield '<svg class="way" role="img" aria-label="%s" width="%d" height="%d" viewBox="0 0 %d %d">' % (
        markup(title), width, ROW * len(rows.rows), width, ROW * len(rows.rows))
    for place, row in enumerate(rows.rows):
        yield from _drawn_row(place, row)
    yield "</svg>"


def _drawn_row(place: int, row: _Row) -> Iterator[str]:
    x, y = STEP * row.depth + 1, ROW * place
    if row.above is not None:
        yield '<path class="%s" d="M%d %dV%dH%d"/>' % (
            "link dashed" if row.is_dashed else "link", x - STEP + 12, ROW * row.above + ROW - 6, y + ROW // 2, x)
    text = _short(row.text)
    width = LETTER * (len(text) + 2) + 2 * PAD
    yield '<g class="%s"><title>%s</title><rect x="%d" y="%d" width="%d" height="%d" rx="5"/>' % (
        row.kind, markup(" ".join((row.text, row.small)).strip()), x, y + 4, width, ROW - 10)
    yield '<text x="%d" y="%d">%s %s</text></g>' % (x + PAD, y + ROW - 13, "✓" if row.kind == "in" else "✗", markup(text))
    if row.small:
        yield '<text class="small" x="%d" y="%d">%s</text>' % (x + width + PAD, y + ROW - 13, markup(_short(row.small)))
