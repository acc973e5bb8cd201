"""Reads the worked cases of rows/.

Each is a file `rows/FOLDER/NAME.txt`, and stands as `FOLDER/NAME` in `rows/order`, which says in what order they run. To add one:
copy the file of a case that is near, say in it what is given and what has to come, and put its line into `rows/order`.

    $ new_enemy audit t e --workers 2    the words of a run; one that is empty, or has a space or an unseen letter, as a string of JSON
    status 1                             the exit status, and below it perhaps the keys that follow
    -- file t --                         a file of the folder that the program runs in
    {"kind":"commit","at":5}
    -- stdin --                          and so `stdout` and `stderr`, what has to stand there. A part that is left out is empty
    -- stdout anything --                any bytes may stand there; so with `stderr`
    -- wrote c --                        what has to stand in a file of the folder when the run has ended
    -- then --                           a second run follows in the same folder, and begins with its words

The keys, each on a line of its own:

    room 10       standard output is a file that takes so many bytes and no more
    unreadable    standard input is a folder
    any_order     lines may come in another order
    heavy         the case is run only where it is named
    save e        in a second run: what the first wrote is given to it in this file

A part is lines of UTF-8 that can be seen, each with its newline. Other bytes stand between them:

    -- no newline --                          the line above has none
    -- text " \r\n" --                        a string of JSON: spaces that end a line, unseen letters, a line that begins with `-- `
    -- hex eda080 --                          bytes
    -- repeat 1000 "ab" --                    a text so many times
    -- count 1 to 9 "n%d" between "," --      a text with each number at its %d, and perhaps another between two of them
    -- made --                                what the first of two runs wrote on standard output
"""
import os
import re
from typing import Dict, List, NamedTuple, Optional, Tuple

from worked.made_bytes import QUOTED, Made, Piece, given, piece_of, unquoted

ROWS = os.path.join(os.path.dirname(os.path.realpath(__file__)), "..", "..", "..", "rows")
WORD = r'(?:%s|[^ "][^ ]*)' % QUOTED
# What may stand behind each key of a run.
KEYS = {"status": "[0-9]{1,9}", "room": "[0-9]{1,9}", "save": WORD, "unreadable": "", "any_order": "", "heavy": ""}


class CaseFault(Exception):
    """A file of the worked cases that is not as they are written, with its name and its line."""


class Run(NamedTuple):
    """What a run of the program is given, and what has to come. Of what may be anything, None has to come."""
    words: List[str]
    files: Dict[str, List[Piece]]
    stdin: List[Piece]
    stdout: Optional[bytes]
    stderr: Optional[bytes]
    wrote: Dict[str, bytes]
    status: int
    room: Optional[int]
    is_unreadable: bool
    is_any_order: bool
    save: Optional[str]


class Case(NamedTuple):
    """A worked case, and perhaps a second run in the folder of the first."""
    name: str
    run: Run
    then: Optional[Run]
    is_heavy: bool


class _Lines:
    """The lines of a file, read from the first to the last."""

    def __init__(self, rows: str, name: str) -> None:
        self.name = name
        self.at = 0
        with open(os.path.join(rows, name), "rb") as file:
            data = file.read()
        if not data.endswith(b"\n"):
            self.at = data.count(b"\n")
            raise self.fault("the last newline is missing")
        self.lines: List[str] = []
        for self.at, line in enumerate(data[:-1].split(b"\n")):
            self.lines.append(self._seen(line))
        self.at = 0

    def _seen(self, line: bytes) -> str:
        try:
            text = line.decode()
        except UnicodeDecodeError:
            raise self.fault("not UTF-8") from None
        if not text.isprintable() or text.endswith(" "):
            raise self.fault("a letter that cannot be seen, or a space at the end: write it as -- text \"..\" --")
        return text

    def fault(self, what: str) -> CaseFault:
        return CaseFault("rows/%s: line %d: %s" % (self.name, self.at + 1, what))

    def line(self) -> Optional[str]:
        """The next line, which is not yet taken; None at the end."""
        return self.lines[self.at] if self.at < len(self.lines) else None

    def said(self) -> Optional[str]:
        """What the next line says between `-- ` and ` --`; None where it is text, or at the end."""
        line = self.line()
        if line is None or not line.startswith("-- "):
            return None
        if not line.endswith(" --") or len(line) < 7:
            raise self.fault("begins with -- and does not end with it")
        return line[3:-3]

    def word(self, text: str) -> str:
        """A word as it stands, or as a string of JSON says it."""
        try:
            return unquoted(text) if text.startswith('"') else text
        except ValueError:
            raise self.fault("not a string of JSON: %s" % text) from None


def _head(lines: _Lines) -> Tuple[List[str], Dict[str, str]]:
    """The words of a run, and the keys below them with what stands behind each."""
    found = re.fullmatch(r"\$ new_enemy((?: %s)*)" % WORD, lines.line() or "")
    if not found:
        raise lines.fault("not `$ new_enemy` and the words of a run")
    words = [lines.word(word) for word in re.findall(" (%s)" % WORD, found[1])]
    keys: Dict[str, str] = {}
    lines.at += 1
    line = lines.line()
    while line is not None and lines.said() is None:
        key, _, value = line.partition(" ")
        if key not in KEYS or not re.fullmatch(KEYS[key], value) or key in keys:
            raise lines.fault("no key of a run, or one that was there before: %s" % line)
        keys[key] = lines.word(value)
        lines.at += 1
        line = lines.line()
    if "status" not in keys:
        raise lines.fault("no status above this line")
    return words, keys


def _piece(lines: _Lines) -> Optional[Piece]:
    """What the next line stands for within a part; None where it is none of it."""
    said = lines.said()
    if said is None:
        return "{}\n".format(lines.line()).encode()
    try:
        return piece_of(said)
    except ValueError as fault:
        raise lines.fault("not a text that can be given: %s" % fault) from None


def _pieces(lines: _Lines, may_be_made: bool) -> List[Piece]:
    """What stands in a part, up to the next line that is none of it. Bytes that stand side by side are one piece."""
    pieces: List[Piece] = []
    is_text = False
    while lines.line() is not None:
        said, last = lines.said(), pieces[-1] if pieces else b""
        if said == "no newline":
            if not is_text or not isinstance(last, bytes):
                raise lines.fault("no line of text above")
            pieces[-1] = last[:-1]
        else:
            piece = _piece(lines)
            if piece is None or isinstance(piece, Made) and not may_be_made:
                break
            if isinstance(piece, bytes) and isinstance(last, bytes):
                pieces[-1:] = [last + piece]
            else:
                pieces.append(piece)
        is_text = said is None
        lines.at += 1
    return pieces


class _Parts(NamedTuple):
    """The files of a run, what it has to write to others, and its standard streams; None for one that may be anything."""
    files: Dict[str, List[Piece]]
    wrote: Dict[str, bytes]
    streams: Dict[str, Optional[List[Piece]]]


def _parts(lines: _Lines, is_second: bool) -> _Parts:
    files: Dict[str, List[Piece]] = {}
    wrote: Dict[str, bytes] = {}
    streams: Dict[str, Optional[List[Piece]]] = {}
    said = lines.said()
    while said is not None and said != "then":
        found = re.fullmatch("(file|wrote) (%s)|(stdin|stdout|stderr)|(stdout|stderr) anything" % WORD, said)
        if not found:
            raise lines.fault("no part of a run: %s" % said)
        file, stream = found[2] and lines.word(found[2]), found[3] or found[4]
        there = file in wrote if found[1] == "wrote" else file in files
        if there or stream in streams or file is not None and re.fullmatch(r"\.{0,2}|.*[/\0].*", file, re.DOTALL):
            raise lines.fault("a part that was there before, or no name of a file: %s" % said)
        lines.at += 1
        pieces = _pieces(lines, is_second and stream == "stdin")
        if file is not None and found[1] == "wrote":
            wrote[file] = given(pieces)
        elif file is not None:
            files[file] = pieces
        elif found[4] and pieces:
            raise lines.fault("something stands above where anything may")
        else:
            streams[stream] = None if found[4] else pieces
        said = lines.said()
    return _Parts(files, wrote, streams)


def _run(lines: _Lines, is_second: bool) -> Tuple[Run, bool]:
    """A run, and whether it is heavy."""
    words, keys = _head(lines)
    if ("save" in keys and not is_second) or ("heavy" in keys and is_second):
        raise lines.fault("`save` above this line is of a second run, and `heavy` of a first")
    files, wrote, streams = _parts(lines, is_second)
    out, err = (None if part is None else given(part) for part in (streams.get("stdout", []), streams.get("stderr", [])))
    run = Run(words, files, streams.get("stdin") or [], out, err, wrote, int(keys["status"]), int(keys["room"]) if "room" in keys else None,
              "unreadable" in keys, "any_order" in keys, keys.get("save"))
    return run, "heavy" in keys


def read_case(rows: str, name: str) -> Case:
    """The case that stands in a folder of rows as FOLDER/NAME."""
    lines = _Lines(rows, name + ".txt")
    run, is_heavy = _run(lines, False)
    then = None
    if lines.line() is not None:
        lines.at += 1
        then, _ = _run(lines, True)
    if lines.line() is not None:
        raise lines.fault("a case has no third run")
    return Case(os.path.basename(name), run, then, is_heavy)


def read_cases(rows: str = ROWS) -> List[Case]:
    """All worked cases, in their order."""
    order = _Lines(rows, "order")
    folders = [folder.name for folder in os.scandir(rows) if folder.is_dir()]
    stand = {"%s/%s" % (folder, name) for folder in folders for name in os.listdir(os.path.join(rows, folder)) if name.endswith(".txt")}
    names = set()
    for order.at, line in enumerate(order.lines):
        if line + ".txt" not in stand:
            raise order.fault("no file rows/%s.txt" % line)
        if os.path.basename(line) in names:
            raise order.fault("a case of this name stands above")
        names.add(os.path.basename(line))
    left = sorted(stand - {line + ".txt" for line in order.lines})
    if left:
        raise CaseFault("rows/%s: not in rows/order" % left[0])
    return [read_case(rows, line) for line in order.lines]
