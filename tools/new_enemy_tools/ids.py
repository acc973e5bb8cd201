"""The table `ids.jsonl`: what a trace calls user ids, and the names, object ids and labels that its grammar does not take.

A row is {"kind":K,"type":T,"id":ID,"number":N}, on line N; the first also says the `service` whose table it is. Rows are added at the
end and never changed, so that what a number stands for can be read back from its line. A trace says on its first line how many rows
its table had, and their checksum.
"""
import fcntl
import json
import os
import re
from contextlib import contextmanager
from functools import lru_cache
from typing import Any, BinaryIO, Iterator, Optional, Sequence, Union

from new_enemy_tools import limits, texts
from new_enemy_tools.faults import ToolFault, naming
from new_enemy_tools.keys import unread

KEYS = frozenset(("kind", "type", "id", "number"))
SERVICE = "service"
BLOCK = 1 << 20
# So many rows are written at once.
AT_ONCE = 1 << 12
KINDS = ("user", "namespace", "relation", "object", "version")
NAME = re.compile(r"n_([1-9][0-9]*)")
ID = re.compile(r"~([1-9][0-9]*)")
# A row without escapes, as it is written here.
PLAIN = r'([^"\\\x00-\x1f]*)'
ROWS = re.compile(r'^\{"kind":"(%s)","type":"%s","id":"%s","number":([1-9][0-9]*)(?:,"service":"%s")?\}$'
                  % ("|".join(KINDS), PLAIN, PLAIN, PLAIN.replace("*", "+")), re.MULTILINE)
encode = json.JSONEncoder(separators=(",", ":")).encode


class TableFault(ToolFault):
    """What is wrong with the table, with its file and line."""


def _row(value: object, number: int) -> tuple[str, str, str]:
    for key in unread(value, KEYS | {SERVICE} if number == 1 else KEYS):
        raise TableFault(key.said())
    if not isinstance(value, dict) or value.get("kind") not in KINDS or value.get("number") != number \
            or not all(isinstance(value.get(key), str) for key in ("type", "id")) or not isinstance(value.get(SERVICE, ""), str):
        raise ValueError
    return value["kind"], value["type"], value["id"]


def _are_plain(rows: Sequence[tuple[Any, ...]]) -> bool:
    """Whether JSON has the texts of rows as they are."""
    text = "".join([of + id_text for _, of, id_text, *_ in rows])
    return text.isascii() and text.isprintable() and '"' not in text and "\\" not in text


def _row_lines(rows: list[tuple[str, str, str, int]], more: dict[str, str]) -> bytes:
    """Rows with their numbers as the file has them."""
    if _are_plain(rows) and not more:
        return "".join(['{"kind":"%s","type":"%s","id":"%s","number":%d}\n' % row for row in rows]).encode()
    return "".join([encode({**dict(zip(("kind", "type", "id", "number"), row)), **more}) + "\n" for row in rows]).encode()


# Most objects are asked for often.
@lru_cache(1 << 16)
def is_kept(id_text: str) -> bool:
    """Whether a trace has an object id as it is."""
    return texts.is_object_id(id_text) and not (id_text[0] == "~" and ID.fullmatch(id_text))


def _digest_of(path: str, size: int) -> Optional[str]:
    """The checksum of so many bytes of a file; None where it has fewer, or is not there."""
    from hashlib import blake2b
    made, left = blake2b(digest_size=16), size
    if not os.path.exists(path):
        return made.hexdigest() if size == 0 else None
    with open(path, "rb") as file:
        while left and (data := file.read(min(left, BLOCK))):
            made.update(data)
            left -= len(data)
    return None if left else made.hexdigest()


def mark_of_file(path: str) -> list[Union[int, str]]:
    """The length and the checksum of a table's file."""
    size = os.path.getsize(path) if os.path.exists(path) else 0
    return [size, _digest_of(path, size) or ""]


def refuse_other_file(path: str, mark: Sequence[Union[int, str]], what: str) -> None:
    """Raises TableFault where a table does not begin with the bytes of one that was marked."""
    size = int(mark[0])
    found = _digest_of(path, size)
    if found is None:
        raise TableFault("%s is not there or cut short: %s goes with a table of %d bytes; give that one with --ids" % (path, what, size))
    if found != mark[1]:
        raise TableFault("%s is another table than that of %s: its first %d bytes are others; give that one with --ids" % (path, what, size))


@contextmanager
def locked(path: str) -> Iterator[None]:
    """For one import at a time that adds to a table; raises TableFault where another does. The lock goes with its process."""
    lock = path + ".lock"
    # As often as another run takes its lock away just now.
    while True:
        descriptor = os.open(lock, os.O_CREAT | os.O_RDWR, 0o600)
        try:
            fcntl.flock(descriptor, fcntl.LOCK_EX | fcntl.LOCK_NB)
            if os.path.exists(lock) and os.path.samestat(os.stat(lock), os.fstat(descriptor)):
                break
        except BlockingIOError:
            os.close(descriptor)
            raise TableFault("another import adds to %s: wait until it ends, or give this one a table of its own with --ids" % path) from None
        except FileNotFoundError:
            pass
        os.close(descriptor)
    try:
        yield
    finally:
        os.remove(lock)
        os.close(descriptor)


class Ids:
    def __init__(self, path: Optional[str] = None):
        self.path = path
        self.rows: list[tuple[str, str, str]] = []
        # by kinds and types, and then by ids
        self.numbers: dict[tuple[str, str], dict[str, int]] = {}
        self.saved = 0
        # whether all is numbered: each process that makes lines of a trace has the table for itself
        self.is_closed = False
        self.service: Optional[str] = None
        self._names: dict[tuple[str, str, str], str] = {}
        if path and os.path.exists(path):
            self._read(path)

    def _read(self, path: str) -> None:
        with open(path, "rb") as file:
            if not self._reads_quickly(file.read()):
                file.seek(0)
                self._read_in_full(path, file)
        self.saved = len(self.rows)

    def _reads_quickly(self, data: bytes) -> bool:
        """Takes rows as they are written here; False where one has another form, or may be at fault."""
        try:
            found = ROWS.findall(data.decode())
        except UnicodeDecodeError:
            return False
        rows = [(kind, of, id_text) for kind, of, id_text, _, _ in found]
        numbers = dict[tuple[str, str], dict[str, int]]()
        for number, (kind, of, id_text) in enumerate(rows, 1):
            numbers.setdefault((kind, of), {})[id_text] = number
        if len(rows) != data.count(b"\n") or not data.endswith(b"\n") or sum(map(len, numbers.values())) != len(rows) \
                or [number for _, _, _, number, _ in found] != list(map(str, range(1, len(rows) + 1))) or any(service for *_, service in found[1:]):
            return False
        self.rows, self.numbers, self.service = rows, numbers, found[0][4] or None
        return True

    def _read_in_full(self, path: str, file: BinaryIO) -> None:
        for number, line in enumerate(file, 1):
            try:
                value = json.loads(line)
                row = _row(value, number)
                self.service = value.get(SERVICE) if number == 1 else self.service
            except TableFault as fault:
                raise TableFault("%s:%d: %s" % (path, number, fault)) from None
            except ValueError:
                raise TableFault("%s:%d: no row of the table, or not number %d" % (path, number, number)) from None
            known = self.known(*row)
            if known is not None:
                raise TableFault("%s:%d: this row stands on line %d too" % (path, number, known))
            if not line.endswith(b"\n"):
                raise TableFault("%s:%d: the line has no end" % (path, number))
            self.rows.append(row)
            self.numbers.setdefault(row[:2], {})[row[2]] = number

    def take_for(self, service: str) -> None:
        """Says whose table it is; raises TableFault where it is another's. A table may be older than that rows say so."""
        if self.rows and self.service not in (None, service):
            raise TableFault("%s:1: the table is of %s, and the logs are of %s; give each service a table of its own with --ids"
                             % (self.path, self.service, service))
        self.service = None if self.rows and self.service is None else service

    def forget(self) -> None:
        """Takes the rows back that are not in the file."""
        for kind, of, id_text in self.rows[self.saved:]:
            del self.numbers[kind, of][id_text]
        self.numbers = {key: table for key, table in self.numbers.items() if table}
        del self.rows[self.saved:]
        self._names.clear()

    def mark(self) -> dict[str, object]:
        """What a trace says of its table."""
        return {"rows": len(self.rows), "checksum": self._checksum(len(self.rows))}

    def _checksum(self, count: int) -> str:
        # It takes long to load, and not every table is compared.
        from hashlib import blake2b
        digest = blake2b(digest_size=16)
        for at in range(0, count, AT_ONCE):
            rows = self.rows[at:min(at + AT_ONCE, count)]
            plain = '["%s", "%s", "%s"]\n' if _are_plain(rows) else None
            digest.update("".join([plain % row for row in rows] if plain else [json.dumps(row) + "\n" for row in rows]).encode())
        return digest.hexdigest()

    def refuse_other(self, mark: object) -> None:
        """Raises TableFault where a trace was written with another table, or with one that had more rows."""
        rows, checksum = (mark.get("rows"), mark.get("checksum")) if isinstance(mark, dict) else (None, None)
        if not isinstance(rows, int) or not isinstance(checksum, str):
            return
        if rows > len(self.rows):
            raise TableFault("%s has %d rows, and the table of this trace has %d or more: it is another table, or cut short"
                             % (self.path, len(self.rows), rows))
        if self._checksum(rows) != checksum:
            raise TableFault("%s is another table than that of this trace: its first %d rows are others" % (self.path, rows))

    def known(self, kind: str, of: str, id_text: str) -> Optional[int]:
        """The number of a row; None where there is no such row."""
        return self.numbers.get((kind, of), {}).get(id_text)

    def number(self, kind: str, of: str, id_text: str) -> int:
        """The number of a row, which is added where it is new."""
        table = self.numbers.get((kind, of))
        if table is None:
            table = self.numbers[kind, of] = {}
        number = table.get(id_text)
        if number is None:
            if self.is_closed:
                raise KeyError((kind, of, id_text))
            self.rows.append((kind, of, id_text))
            number = table[id_text] = len(self.rows)
        return number

    def add(self, kind: str, of: str, ids: list[str]) -> None:
        """Gives numbers to rows of one kind and type, in their order."""
        table = self.numbers.setdefault((kind, of), {})
        new = list(dict.fromkeys([id_text for id_text in ids if id_text not in table]))
        table.update(zip(new, range(len(self.rows) + 1, len(self.rows) + len(new) + 1)))
        self.rows += [(kind, of, id_text) for id_text in new]

    def has(self, goal: tuple[str, ...]) -> bool:
        """Whether the user and the object of a goal were seen; its parts are those of a tuple of a service."""
        return self.known("user", goal[3], goal[4]) is not None and (is_kept(goal[1]) or self.known("object", goal[0], goal[1]) is not None)

    def note(self, goal: tuple[str, ...]) -> None:
        self.number("user", goal[3], goal[4])
        self.object(goal[0], goal[1])

    def name(self, kind: str, name: str) -> str:
        """What a trace calls a namespace or a relation: its own name where the grammar takes it."""
        known = self._names.get((kind, "", name))
        if known is None:
            stays = texts.is_name(name) and not NAME.fullmatch(name)
            known = self._names[kind, "", name] = name if stays else "n_%d" % self.number(kind, "", name)
        return known

    def object(self, of: str, id_text: str) -> str:
        return id_text if is_kept(id_text) else "~%d" % self.number("object", of, id_text)

    def version(self, label: str) -> str:
        stays = len(label.encode()) <= limits.VERSION_BYTES and not ID.fullmatch(label)
        return label if stays else "~%d" % self.number("version", "", label)

    def append(self) -> None:
        """Writes the new rows behind those of the file."""
        if self.path and len(self.rows) > self.saved:
            with naming(self.path), open(self.path, "ab") as file:
                for at in range(self.saved, len(self.rows), AT_ONCE):
                    rows = [(*row, number) for number, row in enumerate(self.rows[at:at + AT_ONCE], at + 1)]
                    said = {} if at or self.service is None else {SERVICE: self.service}
                    file.write(_row_lines(rows[:1] if said else [], said) + _row_lines(rows[1:] if said else rows, {}))
            self.saved = len(self.rows)

    def _of(self, number: int, kind: str) -> Optional[tuple[str, str, str]]:
        row = self.rows[number - 1] if 1 <= number <= len(self.rows) else None
        return row if row and row[0] == kind else None

    def _text_of(self, found: Optional[re.Match[str]], kind: str, text: str) -> str:
        row = self._of(int(found[1]), kind) if found else None
        return row[2] if row else text

    def user_of(self, number: int) -> str:
        """The user that a number stands for; the number itself where the table has none."""
        row = self._of(number, "user")
        return "%s:%s" % row[1:] if row else str(number)

    def name_of(self, kind: str, name: str) -> str:
        return self._text_of(NAME.fullmatch(name), kind, name)

    def id_of(self, kind: str, text: str) -> str:
        """The object id (`object`) or label (`version`) that stands in the service for one in the trace."""
        return self._text_of(ID.fullmatch(text), kind, text)

    def userset_of(self, of: texts.Userset) -> str:
        relation = of.relation if of.relation == texts.NO_RELATION else self.name_of("relation", of.relation)
        return "%s:%s#%s" % (self.name_of("namespace", of.namespace), self.id_of("object", of.id), relation)

    def tuple_of(self, given: texts.Tuple) -> str:
        user = given.user
        shown = self.userset_of(user) if isinstance(user, texts.Userset) else self.user_of(user)
        return "%s@%s" % (self.userset_of(given.set), shown)
