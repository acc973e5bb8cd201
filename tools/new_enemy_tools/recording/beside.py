"""Words in a log's folder for the recorder that has it: of what passed through others meanwhile, of which no line can be theirs.

A proxy that has no keeper with the folder keeps a word there that has no end, and a lock on it as long as it lives. What becomes of it and of
its keeper, some other recorder tells of it: no word goes before the log has its gap.
"""
import fcntl
import json
import os
import re
import time
from typing import Iterable, NamedTuple, Optional

from new_enemy_tools.importing.refusals import Refusals

NAME = re.compile(r"beside-[0-9]+-[0-9a-f]+")
PASSED = "requests that another recorder passed"


class Beside(NamedTuple):
    """What passed a recorder that had no folder: how much, as far as that is known, from and to when; the end is 0 as long as it may go on."""

    amount: int
    start: int
    end: int


class Word:
    """That of a proxy; `path` is None where it has none, as where the folder can't be written."""

    def __init__(self, folder: str):
        self.folder, self.start = folder, 0
        self.path: Optional[str] = None
        self._descriptor: Optional[int] = None

    def leave(self, start: int) -> None:
        """Since a time no keeper has the folder, unless that stands there already."""
        if self.path is not None and os.path.exists(self.path):
            return
        self.close()
        self.path, self.start, path = None, start, _new_path(self.folder)
        try:
            os.makedirs(self.folder, exist_ok=True)
            self._descriptor = os.open(path + ".new", os.O_CREAT | os.O_TRUNC | os.O_WRONLY, 0o600)
            fcntl.flock(self._descriptor, fcntl.LOCK_EX)
            os.write(self._descriptor, json.dumps(Beside(0, start, 0)).encode())
            os.replace(path + ".new", path)
            self.path = path
        except OSError:
            # The keeper says what is the matter with the folder.
            pass

    def close(self) -> None:
        """Nothing keeps it any more."""
        if self._descriptor is not None:
            os.close(self._descriptor)
            self._descriptor = None


class Words:
    """The words in a folder."""

    def __init__(self, folder: str):
        self.folder = folder
        # those that are told, and could not be taken away
        self._told: set[str] = set()

    def leave(self, given: Beside) -> None:
        """Leaves word for the recorder that has the folder; raises OSError."""
        path = _new_path(self.folder)
        descriptor = os.open(path + ".new", os.O_CREAT | os.O_TRUNC | os.O_WRONLY, 0o600)
        with open(descriptor, "w", encoding="utf-8") as file:
            json.dump(given, file)
        os.replace(path + ".new", path)

    def found(self) -> dict[str, Beside]:
        """What others left that are over, by the files; what can't be read is looked for again."""
        try:
            paths = [os.path.join(self.folder, name) for name in os.listdir(self.folder) if NAME.fullmatch(name)]
        except OSError:
            return {}
        words = {path: _word_of(path) for path in sorted(paths) if path not in self._told}
        return {path: word for path, word in words.items() if word is not None}

    def let_go(self, paths: Iterable[str]) -> None:
        """Takes words away of which the log tells now."""
        for path in paths:
            self._told.add(path)
            try:
                os.remove(path)
            except OSError:
                # The next recorder tells it once more.
                pass


def tell_words(paths: Iterable[str], refusals: Refusals) -> None:
    """Says what words beside the files of a log tell that no line of these does: of recorders that were killed while they waited for the folder,
    or that pass requests still."""
    for folder in sorted({os.path.dirname(path) for path in paths}):
        try:
            words = untold(folder)
        except OSError as fault:
            refusals.gap(folder, "gap beside the log: whether others passed requests is not known, since %s can't be listed: %s" % (
                folder or ".", fault.strerror))
            continue
        for path, found in words.items():
            refusals.gap(path, said_of(path), found.start)
            refusals.lose(PASSED, found.amount or None, max(0, found.end - found.start))


def untold(folder: str) -> dict[str, Beside]:
    """The words in a folder, by their files; of one that can't be read nothing is known. Raises OSError."""
    found = {}
    for name in sorted(filter(NAME.fullmatch, os.listdir(folder or "."))):
        path = os.path.join(folder, name)
        try:
            with open(path, encoding="utf-8") as file:
                found[path] = Beside(*json.load(file))
        except (OSError, ValueError, TypeError):
            found[path] = Beside(0, 0, 0)
    return found


def said_of(path: str) -> str:
    return ("gap beside the log: %s tells that another recorder passed requests that it did not record; the next one in "
            "that folder writes down from when to when" % path)


def _new_path(folder: str) -> str:
    return os.path.join(folder, "beside-%d-%s" % (time.time_ns(), os.urandom(4).hex()))


def _word_of(path: str) -> Optional[Beside]:
    try:
        with open(path, encoding="utf-8") as file:
            fcntl.flock(file, fcntl.LOCK_SH | fcntl.LOCK_NB)
            found = Beside(*json.load(file))
    except (OSError, ValueError, TypeError):
        return None
    return found if found.end else found._replace(end=time.time_ns())
