"""The pictures that follow from files: the crates and what they use, and what the headline's proof cites."""
import glob
import os
import re
from typing import Dict, List, Set, Tuple

from drawing.ranks import Arrows, Node, placed, reduced
from drawing.svg import Picture

HEADLINE = ("findings", "right_and_fresh_without_findings")


def read(path: str) -> str:
    with open(path, encoding="utf-8") as file:
        return file.read()


def listed(top: str) -> "Dict[str, Dict[str, List[str]]]":
    """The headings of crates.txt, each with its crates and what of this workspace they use."""
    found: Dict[str, Dict[str, List[str]]] = {}
    for line in read(os.path.join(top, "crates.txt")).splitlines():
        if line.startswith("#"):
            heading = found[line.lstrip("# ")] = {}
        elif line:
            name, _, used = line.partition(":")
            heading[name] = used.split()
    own = {name for crates in found.values() for name in crates}
    return {title: {name: [one for one in used if one in own] for name, used in crates.items()} for title, crates in found.items()}


def drawn(arrows: Arrows, title: str, about: str, kinds: Dict[str, str], labelled: List[Tuple[str, str]], wide: int, step: int,
          below: List[Tuple[str, str]]) -> Picture:
    rows, ways = placed(arrows)
    width, height = 860, 40 + step * len(rows) + 22 * len(below)
    picture = Picture(width, height, title, about)
    place: Dict[Node, Tuple[float, float]] = {}
    for at, row in enumerate(rows):
        sizes = [wide if len(node) == 1 else 30 for node in row]
        gap = (width - 40 - sum(sizes)) / (len(row) + 1)
        x = 20.0
        for node, size in zip(row, sizes):
            x += gap
            place[node] = (x + size / 2, 24 + step * (len(rows) - 1 - at))
            x += size
    for pair, way in ways.items():
        points = [place[node] for node in way]
        points = [(points[0][0], points[0][1] + 28), *[(x, y + 14) for x, y in points[1:-1]], (points[-1][0], points[-1][1] - 1)]
        picture.curve(points)
    for at, pair in enumerate(labelled, 1):
        (x, y), (to_x, to_y) = (place[node] for node in ways[pair][:2])
        picture.circle((x + to_x) / 2, (y + 28 + to_y) / 2, 10)
        picture.text((x + to_x) / 2, (y + 28 + to_y) / 2 + 4, str(at), "soft", "middle")
    for node, (x, y) in place.items():
        if len(node) == 1:
            picture.box(x - wide / 2, y, wide, 28, [node[0]], kinds.get(node[0], ""), "code")
    for at, (kind, words) in enumerate(below):
        y = height - 22 * (len(below) - at)
        if kind:
            picture.box(40, y - 6, 26, 14, (), kind)
        picture.text(76 if kind else 40, y + 5, words, "soft")
    return picture


def layers(top: str) -> Picture:
    headings = {title: crates for title, crates in listed(top).items() if not title.startswith("Tests")}
    arrows = reduced({name: used for crates in headings.values() for name, used in crates.items()})
    kinds = {name: "group%d" % at for at, crates in enumerate(headings.values()) for name in crates}
    return drawn(arrows, "The crates, and what each uses",
                 "Each crate of new_enemy is a box. An arrow leads from a crate to one that it uses; what follows over other arrows is left out.",
                 kinds, [], 124, 58, [("group%d" % at, title) for at, title in enumerate(headings)])


def _imports(path: str) -> List[Tuple[str, str, str]]:
    """Of a proof what it imports: the crate, `specs` or `proofs`, and the module."""
    return re.findall(r"^use Rattle\.(\w+)\.(proofs|specs)\.(\w+(?:\.\w+)*)", read(path), re.MULTILINE)


def _law_calls(top: str, crate: str, law: str) -> List[Tuple[str, str]]:
    """The laws that a law's body calls, each with its crate."""
    text = read(os.path.join(top, "crates", crate, "src", "laws.rt"))
    named = {name: other for other, names in re.findall(r"^use (\w+)::laws::(\{[^}]*\}|\w+);", text, re.MULTILINE) for name in re.findall(r"\w+", names)}
    found = re.search(r"^pub fn %s\b.*?^\{(.*?)\}$" % law, text, re.MULTILINE | re.DOTALL)
    body = found[1] if found else ""
    calls = [(named[name], name) for name in re.findall(r"\b(\w+)\(", body) if name in named]
    return calls + re.findall(r"\b(\w+)::laws::(\w+)", body)


class Followed:
    """What a law's proof cites of other crates, from file to file."""

    def __init__(self, top: str) -> None:
        self.top = top
        self.seen: Set[str] = set()
        self.cited: Dict[Tuple[str, str], Set[str]] = {}

    def cite(self, crate: str, other: str, what: str) -> None:
        if crate != other:
            self.cited.setdefault((crate, other), set()).add(what)

    def law(self, crate: str, name: str) -> None:
        if "%s::%s" % (crate, name) in self.seen:
            return
        self.seen.add("%s::%s" % (crate, name))
        for other, law in _law_calls(self.top, crate, name):
            self.cite(crate, other, law)
            self.law(other, law)
        for path in sorted(glob.glob(os.path.join(self.top, "crates", crate, "proofs", "laws", name, "*.antt"))):
            self.proof(crate, path)

    def proof(self, crate: str, path: str) -> None:
        if path in self.seen:
            return
        self.seen.add(path)
        for other, kind, module in _imports(path):
            words = module.split(".")
            ends = [os.path.join(self.top, "crates", other, kind, *words[:count]) + ".antt" for count in range(len(words), 0, -1)]
            found = next((end for end in ends if os.path.exists(end)), None)
            if kind == "proofs" and found:
                self.cite(crate, other, os.path.basename(found)[:-len(".antt")])
                self.proof(other, found)


def headline(top: str) -> Picture:
    followed = Followed(top)
    for path in glob.glob(os.path.join(top, "crates", "audit", "src", "*.rt")):
        if re.search(r"^use %s::laws::.*\b%s\b" % HEADLINE, read(path), re.MULTILINE):
            followed.cite("audit", *HEADLINE)
    followed.law(*HEADLINE)
    arrows: Arrows = {}
    for crate, other in sorted(followed.cited):
        arrows.setdefault(crate, []).append(other)
        arrows.setdefault(other, [])
    order = sorted(followed.cited)
    return drawn(arrows, "What the proof of the headline cites",
                 "Crates as boxes. An arrow leads from a crate to one whose laws or lemmas its proof cites. The list below names these laws, and the files of lemmas.",
                 {"audit": "main"}, order, 140, 78,
                 [("", "%d  %s, from %s: %s" % (at, pair[0], pair[1], ", ".join(_said(word) for word in sorted(followed.cited[pair])))) for at, pair in enumerate(order, 1)])


def _said(word: str) -> str:
    """A law is a function, and lemmas stand in a file."""
    return ("the law " if word[0].islower() else "lemmas of ") + word
