"""Boxes, lines and words of a picture, as SVG that can be read on a light page and on a dark one."""
import colorsys
from html import escape
from typing import List, Sequence, Tuple

Point = Tuple[float, float]

GROUPS = 10


def _colour(hue: float, light: float, full: float) -> str:
    return "#%02x%02x%02x" % tuple(round(255 * part) for part in colorsys.hls_to_rgb(hue, light, full))


def _groups(light: float, edge: float) -> str:
    """A colour for each of some groups of boxes."""
    return "\n".join(".group%d { fill: %s; stroke: %s }" % (at, _colour(at / GROUPS, light, 0.55), _colour(at / GROUPS, edge, 0.45)) for at in range(GROUPS))


STYLE = """
.back { fill: #ffffff; stroke: #d0d7de }
text { fill: #1f2328; font: 13px system-ui, "DejaVu Sans", sans-serif }
.code { font-family: ui-monospace, "DejaVu Sans Mono", monospace; font-size: 12px }
.head { font-weight: 600 }
.soft { fill: #59636e; font-size: 12px }
.box { fill: #f6f8fa; stroke: #6e7781 }
.line { fill: none; stroke: #6e7781; stroke-width: 1.4 }
.tip { fill: #6e7781 }
.dash { stroke-dasharray: 5 4 }
.bad { fill: #c4281c } .bad.box { fill: #fdecea; stroke: #c4281c } .bad.line { fill: none; stroke: #c4281c }
.good { fill: #1a7f37 } .good.box { fill: #e6f6ea; stroke: #1a7f37 } .good.line { fill: none; stroke: #1a7f37 }
.main { fill: #0b5cad } .main.box { fill: #e7f1fb; stroke: #0b5cad } .main.line { fill: none; stroke: #0b5cad }
""" + _groups(0.92, 0.45) + """
@media (prefers-color-scheme: dark) {
.back { fill: #16181b; stroke: #41464d }
text { fill: #e6e8ea }
.soft { fill: #a4abb3 }
.box { fill: #23272c; stroke: #8b949e }
.line { stroke: #8b949e } .tip { fill: #8b949e }
.bad { fill: #ff8a80 } .bad.box { fill: #40211e; stroke: #ff8a80 } .bad.line { stroke: #ff8a80 }
.good { fill: #7fd69a } .good.box { fill: #1d3a28; stroke: #7fd69a } .good.line { stroke: #7fd69a }
.main { fill: #8ab4f8 } .main.box { fill: #1c2c44; stroke: #8ab4f8 } .main.line { stroke: #8ab4f8 }
""" + _groups(0.2, 0.6) + """
}
"""


def number(value: float) -> str:
    return ("%.1f" % value).rstrip("0").rstrip(".")


class Picture:
    def __init__(self, width: int, height: int, title: str, about: str) -> None:
        self.width, self.height = width, height
        self.title, self.about = title, about
        self.parts: List[str] = []

    def text(self, x: float, y: float, words: str, kind: str = "", anchor: str = "start") -> None:
        kept = ' class="%s"' % kind if kind else ""
        side = ' text-anchor="%s"' % anchor if anchor != "start" else ""
        self.parts.append('<text x="%s" y="%s"%s%s>%s</text>' % (number(x), number(y), kept, side, escape(words)))

    def box(self, x: float, y: float, width: float, height: float, lines: Sequence[str] = (), kind: str = "", words: str = "") -> None:
        """A box with lines in its middle."""
        self.parts.append('<rect class="%s" x="%s" y="%s" width="%s" height="%s" rx="5"/>'
                          % (("box " + kind).strip(), number(x), number(y), number(width), number(height)))
        first = y + height / 2 + 5 - 8.5 * (len(lines) - 1)
        for place, line in enumerate(lines):
            self.text(x + width / 2, first + 17 * place, line, words if place == 0 else "soft", "middle")

    def circle(self, x: float, y: float, radius: float, kind: str = "") -> None:
        self.parts.append('<circle class="%s" cx="%s" cy="%s" r="%s"/>' % (("box " + kind).strip(), number(x), number(y), number(radius)))

    def line(self, points: Sequence[Point], kind: str = "", has_tip: bool = True) -> None:
        """A line through points, with a tip at its end."""
        places = " ".join("%s%s %s" % ("M" if place == 0 else "L", number(x), number(y)) for place, (x, y) in enumerate(points))
        self.parts.append('<path class="%s" d="%s"/>' % (("line " + kind).strip(), places))
        if has_tip:
            self.tip(points[-2], points[-1], kind)

    def curve(self, points: Sequence[Point], kind: str = "") -> None:
        """A line that leaves and enters each point straight up or down."""
        drawn = ["M%s %s" % (number(points[0][0]), number(points[0][1]))]
        for (x, y), (to_x, to_y) in zip(points, points[1:]):
            middle = (y + to_y) / 2
            drawn.append("C%s %s %s %s %s %s" % tuple(map(number, (x, middle, to_x, middle, to_x, to_y))))
        self.parts.append('<path class="%s" d="%s"/>' % (("line " + kind).strip(), " ".join(drawn)))
        end = points[-1]
        self.tip((end[0], end[1] + (-9 if points[-2][1] < end[1] else 9)), end, kind)

    def tip(self, before: Point, end: Point, kind: str = "") -> None:
        x, y = end[0] - before[0], end[1] - before[1]
        length = (x * x + y * y) ** 0.5 or 1
        x, y = 7 * x / length, 7 * y / length
        corners = (end, (end[0] - x - y * 0.5, end[1] - y + x * 0.5), (end[0] - x + y * 0.5, end[1] - y - x * 0.5))
        colour = " ".join(word for word in kind.split() if word != "dash")
        self.parts.append('<path class="%s" d="M%s Z"/>' % (("tip " + colour).strip(), " L".join("%s %s" % (number(a), number(b)) for a, b in corners)))

    def svg(self) -> str:
        return ('<svg xmlns="http://www.w3.org/2000/svg" width="%d" height="%d" viewBox="0 0 %d %d" role="img" aria-labelledby="title about">\n'
                '<title id="title">%s</title>\n<desc id="about">%s</desc>\n<style>%s</style>\n'
                '<rect class="back" x="0.5" y="0.5" width="%d" height="%d" rx="8"/>\n%s\n</svg>\n'
                % (self.width, self.height, self.width, self.height, escape(self.title), escape(self.about), STYLE,
                   self.width - 1, self.height - 1, "\n".join(self.parts)))
