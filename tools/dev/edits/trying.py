"""A copy of the repository, in which the edits of a crate are tried."""
import os
import shutil
import subprocess

from edits.built import command
from edits.edit_texts import apply, edit_of, groups_of, modules_of
from edits.refused_edits import PARTS, Kept
from edits.verdicts import NAMED, REFUSED, UNREAD, UNTOLD, is_unknown, verdicts


def copied(top, room):
    """Copies what a check of the crates reads."""
    for name in ("crates.txt", "HANDLES"):
        shutil.copy(os.path.join(top, name), room)
    for crate in os.listdir(os.path.join(top, "crates")):
        for part in PARTS:
            whole = os.path.join(top, "crates", crate, part)
            if os.path.isdir(whole):
                shutil.copytree(whole, os.path.join(room, "crates", crate, part))


class Trial:
    """The edits of one crate, in a copy of the repository in the folder `room`."""

    def __init__(self, top, room, name, paths, jobs):
        self.top, self.name, self.jobs = top, name, jobs
        self.crate, self.copy = os.path.join(top, "crates", name), os.path.join(room, "crates", name)
        self.kept, self.seed = os.path.join(self.copy, "out", "incremental"), os.path.join(room, "seed-" + name)
        self.edits = [edit_of(it, self.crate) for it in paths]
        # of the processor, by its checks until now
        self.seconds = 0.0
        # how many were refused in an earlier run, over the same sources
        self.kept_before = 0

    def run(self, *words):
        how = {"cwd": self.copy, "stdout": subprocess.PIPE, "stderr": subprocess.STDOUT, "errors": "replace", "text": True}
        with subprocess.Popen(words, env={**os.environ, **({"RT_JOBS": self.jobs} if self.jobs else {})}, **how) as process:
            said = process.stdout.read()
            _, status, used = os.wait4(process.pid, 0)
            process.returncode = os.waitstatus_to_exitcode(status)
        self.seconds += used.ru_utime + used.ru_stime
        return process.returncode, said

    def checked(self):
        return self.run("rt", "check", *self.jobs_given())

    def jobs_given(self):
        return ["--jobs", self.jobs] if self.jobs else []

    def begin(self):
        """Proves the crate as it stands, and keeps that for each check to begin with. What is said where it is not proved."""
        status, said = self.checked()
        if status:
            return said
        shutil.copytree(self.kept, self.seed)
        return ""

    def said_of(self, edits):
        """What a check with these edits says."""
        shutil.rmtree(self.kept)
        shutil.copytree(self.seed, self.kept)
        return self.checked()[1]

    def check(self, edits):
        """A word for each of these edits by its path, and the line that it goes by."""
        self.put_back()
        apply(edits, self.copy)
        found = verdicts(edits, self.said_of(edits))
        self.put_back()
        others = [it for it in edits if found[it.path][0] == UNTOLD]
        if others and len(others) < len(edits) and any(word == UNREAD for word, _ in found.values()):
            found.update(self.check(others))
        return found

    def put_back(self):
        for part in PARTS:
            if os.path.isdir(os.path.join(self.crate, part)):
                shutil.rmtree(os.path.join(self.copy, part))
                shutil.copytree(os.path.join(self.crate, part), os.path.join(self.copy, part))

    def alone(self, edits):
        """The same by `rt must-fail`, which tries each edit by itself."""
        folder = os.path.join(self.copy, "must-fail")
        os.makedirs(folder)
        for edit in edits:
            shutil.copy(edit.path, folder)
        said = self.run("rt", "must-fail", self.name)[1].split("\n")
        shutil.rmtree(folder)
        return {edit.path: word_of(said, "must-fail %s/%s.edit: " % (self.name, edit.name)) for edit in edits}

    def results(self, is_alone):
        """Gives each edit with a word and the line that it goes by."""
        good = [it for it in self.edits if not it.fault]
        found = {it.path: (UNREAD, it.fault) for it in self.edits if it.fault}
        for group in [] if is_alone else groups_of(good):
            found.update(self.check(group))
        left = [it for it in good if found.get(it.path, (UNTOLD, ""))[0] == UNTOLD]
        if left:
            found.update(self.alone(left))
        return [(it, *found[it.path]) for it in self.edits]


class OverBuilt(Trial):
    """The same over the libraries that `rt ci` built: since the crate is proved as it stands, a check proves no more than the functions
    that the edits change, and those that they call. Where they change none, it is of the whole crate."""

    def begin(self):
        return ""

    def results(self, is_alone):
        """The same, but for edits that an earlier run refused over these sources."""
        kept, every = Kept(self.top, self.name), self.edits
        lines = {it.path: kept.line(it) for it in every if not it.fault}
        self.edits = [it for it in every if lines.get(it.path) is None]
        found = {edit.path: (word, line) for edit, word, line in super().results(is_alone)}
        for edit in self.edits:
            if found[edit.path][0] == REFUSED:
                kept.keep(edit, found[edit.path][1])
        self.kept_before, self.edits = len(every) - len(self.edits), every
        return [(it, *found.get(it.path, (REFUSED, lines.get(it.path)))) for it in every]

    def said_of(self, edits):
        said = self.check_of({it.path for edit in edits for it in edit.functions})
        if is_unknown(said):
            said = self.check_of({"::".join(modules_of(edit.file)) for edit in edits})
        return said

    def check_of(self, paths):
        only = [word for it in sorted(paths) for word in ("--only", it)]
        return self.run(*command(self.top, self.name), "--incremental", self.kept, *self.jobs_given(), *only)[1]

    def alone(self, edits):
        return {path: word for edit in edits for path, word in self.check([edit]).items()}


def word_of(said, label):
    """What `rt must-fail` came to for the edit that this label names."""
    line = next((it.partition(label)[2] for it in said if label in it), "")
    word, _, rest = line.partition(": ")
    if not word.startswith("refused"):
        return word or UNTOLD, rest
    return (NAMED if "only because a proof file names" in line else REFUSED), rest
