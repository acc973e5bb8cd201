"""What the rules say of a goal and what the service said, as a Graphviz text: the usersets that the goal leads to."""
import subprocess
from typing import Iterator, NamedTuple, Optional

from new_enemy_tools.entries import Entry
from new_enemy_tools.faults import DeviceFault
from new_enemy_tools.meaning import Link, Settled
from new_enemy_tools.names import Names
from new_enemy_tools.reasons import Reason, Reasons
from new_enemy_tools.shown import plain
from new_enemy_tools.texts import Tuple, Userset
from new_enemy_tools.trace import Trace

# Of a goal that leads to more usersets, the way that shows the answer is drawn, and then as many as there is room for.
NODES = 500
SECONDS = 60
YES, NO = "palegreen", "white"


class NoDrawing(DeviceFault):
    """Why Graphviz gave no drawing."""


def _quoted(text: str) -> str:
    return '"%s"' % plain(text).replace("\\", "\\\\").replace('"', '\\"')


def _lines(*texts: str) -> str:
    """A label of several lines, in which nothing is taken for an entity of HTML."""
    return '"%s"' % "\\n".join(_quoted(text.replace("&", "&amp;"))[1:-1] for text in texts)


class _Way(NamedTuple):
    """The usersets and the edges of the way that shows the answer."""

    nodes: dict[Userset, None]
    edges: set[tuple[Userset, Userset]]


def _follow(reason: Reason, way: _Way) -> _Way:
    way.nodes[reason.of] = None
    for ground in reason.grounds:
        if ground.why is not None:
            way.edges.add((reason.of, ground.why.of))
            _follow(ground.why, way)
    return way


class Drawing:
    """The drawing of an entry's goal, at its snapshot or at another timestamp."""

    def __init__(self, trace: Trace, entry: Entry, names: Names, at: Optional[int]):
        self.trace, self.entry, self.names = trace, entry, names
        self.at = entry.snapshot if at is None else at
        self.settled = Settled(trace.rules, trace.store, entry.goal, self.at)
        self.way = _follow(Reasons(self.settled, entry.goal.set).of_goal(), _Way({}, set()))

    def lines(self) -> Iterator[str]:
        """A node for each userset, filled where the user is in it; an edge for each that its rule reads, dashed where it is
        subtracted. The way that shows the answer is bold; what the service said stands before it."""
        cone = self.settled.cone or {self.entry.goal.set: []}
        shown = set(list(dict.fromkeys([*(of for of in self.way.nodes if of in cone), *cone]))[:NODES])
        yield "digraph goal {"
        yield "  label=%s;" % _lines(*self._title())
        yield "  rankdir=LR; node [shape=box, fontname=monospace]; edge [fontname=monospace];"
        yield from self._reply()
        for of in cone:
            if of in shown:
                yield "  %s [label=%s, style=filled, fillcolor=%s%s];" % (
                    _quoted(str(of)), self._label(of), YES if self.settled.known.get(of) else NO,
                    ", penwidth=2" if of in self.way.nodes else "")
        for of, links in cone.items():
            for link in dict.fromkeys(links):
                if of in shown and link.to in shown:
                    yield self._edge(of, link)
        if len(cone) > len(shown):
            yield "  more [shape=plaintext, label=%s];" % _lines("and %d usersets more" % (len(cone) - len(shown)))
        yield "}"

    def _title(self) -> list[str]:
        entry, goal = self.entry, self.entry.goal
        return ["%s at %d" % (self.names.tuple(goal), self.at),
                "line %d, the service looked at %d and said %s" % (entry.line, entry.snapshot, _word(entry.reply)),
                "green: by the rules, %s is in it" % self.names.user(self.settled.user)]

    def _reply(self) -> Iterator[str]:
        """What the service said, beside what the rules say at the drawing's timestamp."""
        is_right = self.settled.holds() == self.entry.reply
        # At another timestamp than the snapshot the reply is not called wrong.
        said = "right" if is_right else "wrong" if self.at == self.entry.snapshot else "another answer at %d" % self.at
        color = "" if is_right else ", color=red, penwidth=2"
        yield "  reply [shape=note, style=filled, fillcolor=%s, label=%s%s];" % (
            YES if self.entry.reply else NO,
            _lines("the service said %s" % _word(self.entry.reply), "the rules say %s" % _word(self.settled.holds())), color)
        yield "  reply -> %s [label=%s%s];" % (_quoted(str(self.entry.goal.set)), _quoted(said), color)

    def _label(self, of: Userset) -> str:
        is_stored = self.trace.store.has(Tuple(of, self.settled.user), self.at)
        return _lines(self.names.userset(of), *(["(stored)"] if is_stored else []))

    def _edge(self, of: Userset, link: Link) -> str:
        style = ", style=dashed" if link.strict else ""
        return "  %s -> %s [label=%s%s%s];" % (_quoted(str(of)), _quoted(str(link.to)), _quoted(self._form(link.form)), style,
                                               ", penwidth=2" if (of, link.to) in self.way.edges else "")

    def _form(self, form: str) -> str:
        kind, *names = form.split()
        return " ".join([kind] + [self.names.relation(name) for name in names])


def _word(answer: bool) -> str:
    return "yes" if answer else "no"


def svg(text: str) -> str:
    """What Graphviz draws; raises NoDrawing."""
    try:
        run = subprocess.run(["dot", "-Tsvg"], input=text.encode(), capture_output=True, timeout=SECONDS, check=False)
    except FileNotFoundError:
        raise NoDrawing("Graphviz is not installed: there is no program `dot`; without --form svg its text is written") from None
    except subprocess.TimeoutExpired:
        raise NoDrawing("Graphviz took more than %d seconds" % SECONDS) from None
    if run.returncode:
        raise NoDrawing("Graphviz refused the drawing: %s" % run.stderr.decode("utf-8", "replace").strip()[:200])
    return run.stdout.decode()
