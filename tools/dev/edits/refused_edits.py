"""Edits that were refused, kept on this machine by the checksums of all that they were tried over, so that the next run need not try them."""
import hashlib
import json
import os
import subprocess

from edits.built import below, uses

PARTS = ("src", "specs", "proofs")


def folder():
    """Where they are kept."""
    return os.path.join(os.environ.get("XDG_CACHE_HOME") or os.path.join(os.path.expanduser("~"), ".cache"), "new_enemy", "edits")


def add_files(to, top, *within):
    """Adds the names and the bytes of the files of a folder, in order."""
    for place, folders, files in os.walk(os.path.join(top, *within)):
        folders.sort()
        for name in sorted(files):
            path = os.path.join(place, name)
            with open(path, "rb") as file:
                content = file.read()
            to.update(("%s %d\n" % (os.path.relpath(path, top), len(content))).encode())
            to.update(content)


def tried_over(top, name):
    """A checksum of what an edit of a crate is tried over: the kit, how it is tried, and the sources of the crate and of those below."""
    found = hashlib.sha256(subprocess.run(["rt", "version"], stdout=subprocess.PIPE).stdout)
    own = os.path.dirname(os.path.abspath(__file__))
    for it in sorted(os.listdir(own)):
        if it.endswith(".py"):
            add_file(found, os.path.join(own, it))
    add_file(found, os.path.join(top, "crates.txt"))
    for crate in [*below(uses(top), name), name]:
        for part in PARTS:
            add_files(found, top, "crates", crate, part)
    return found.hexdigest()


def add_file(to, path):
    with open(path, "rb") as file:
        to.update(file.read())


class Kept:
    """What was kept of the edits of one crate."""

    def __init__(self, top, name):
        self.over = tried_over(top, name)

    def path(self, edit):
        key = hashlib.sha256(self.over.encode())
        add_file(key, edit.path)
        return os.path.join(folder(), key.hexdigest())

    def line(self, edit):
        """The line that refused the edit, or None where it was not refused, or not here."""
        try:
            with open(self.path(edit), encoding="utf-8") as file:
                return str(json.load(file)["line"])
        except (OSError, ValueError, KeyError, TypeError):
            return None

    def keep(self, edit, line):
        """Keeps that it was refused. Where there is no room for that, it is tried again the next time."""
        path = self.path(edit)
        try:
            os.makedirs(folder(), exist_ok=True)
            with open("%s.%d" % (path, os.getpid()), "w", encoding="utf-8") as file:
                json.dump({"line": line}, file)
            os.replace("%s.%d" % (path, os.getpid()), path)
        except OSError:
            pass
