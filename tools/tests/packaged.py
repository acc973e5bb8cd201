"""Packages that tests look at, made once of a repository that holds what stands here, as if the gate had passed it."""
import functools
import os
import shutil
import subprocess
import sys
import tempfile
from typing import NamedTuple, Optional

from tests.support import TOP

# A kit that does nothing but say which it is.
KIT = '#!/bin/sh\necho "$SAYS"\n'
PASSED = '. dist/provenance && write_proved dist "$(sources_sum .)" %s'
HAS_DEB = shutil.which("dpkg-deb") is not None
NO_DEB = "dpkg-deb is not installed"
LEFT_OUT = shutil.ignore_patterns(".git", "out", "__pycache__", "GATE")


def plain(**more: str) -> dict[str, str]:
    """The environment of a user who has no kit and no settings."""
    folders = [folder for folder in os.environ["PATH"].split(os.pathsep) if not os.path.exists(os.path.join(folder, "rt"))]
    path = os.pathsep.join([*folders, "/usr/sbin", "/sbin"])
    return {"PATH": path, "HOME": "/nonexistent", "LC_ALL": "C.UTF-8", "TZ": "UTC", **more}


def run(words: list[str], folder: str, **more: str) -> subprocess.CompletedProcess[str]:
    return subprocess.run(words, cwd=folder, stdin=subprocess.DEVNULL, capture_output=True, text=True, timeout=300, env=plain(**more))


def done(words: list[str], folder: str, **more: str) -> str:
    """What a command prints that has to work."""
    ended = run(words, folder, **more)
    assert ended.returncode == 0, (words, ended.stdout, ended.stderr)
    return ended.stdout


def kit_line() -> str:
    """The line of the kit by which the program that is tested was built."""
    for folder in os.path.dirname(os.environ["NEW_ENEMY"]), os.path.join(TOP, "dist"):
        path = os.path.join(folder, "PROVED")
        if os.path.exists(path):
            with open(path, encoding="utf-8") as file:
                return next(line[4:].strip() for line in file if line.startswith("kit "))
    raise AssertionError("nothing says by which kit the program was built")


def passed(top: str, by: str = "./check") -> None:
    """Writes of a repository's dist/ what is written when it is proved."""
    kit = os.path.join(top, "..", "kit")
    os.makedirs(kit, exist_ok=True)
    with open(os.path.join(kit, "rt"), "w", encoding="utf-8") as file:
        file.write(KIT)
    os.chmod(os.path.join(kit, "rt"), 0o755)
    done(["bash", "-c", PASSED % by], top, SAYS=kit_line(), PATH=kit + os.pathsep + plain()["PATH"])


def commit(top: str) -> None:
    """Commits all, at a time that is always the same."""
    done(["git", "add", "-A"], top)
    when = "2026-03-04T05:06:07Z"
    done(["git", "-c", "user.name=someone", "-c", "user.email=someone@localhost", "commit", "-q", "--allow-empty", "-m", "a commit"], top,
         GIT_AUTHOR_DATE=when, GIT_COMMITTER_DATE=when)


def package(top: str, out: str, **more: str) -> subprocess.CompletedProcess[str]:
    words = [sys.executable, os.path.join(top, "tools", "dev", "package"), *([] if HAS_DEB else ["--without-deb"]), out]
    return run(words, os.path.dirname(top), **more)


class Made(NamedTuple):
    """A repository, and the paths of the packages that were made of it."""

    top: str
    out: str
    tarball: str
    deb: Optional[str]


# One for all tests, and gone with the process.
ROOM = tempfile.TemporaryDirectory()


@functools.cache
def made() -> Made:
    top, out = os.path.join(ROOM.name, "repository"), os.path.join(ROOM.name, "out")
    shutil.copytree(TOP, top, symlinks=True, ignore=LEFT_OUT)
    shutil.copy(os.environ["NEW_ENEMY"], os.path.join(top, "dist", "new_enemy"))
    passed(top)
    done(["git", "init", "-q"], top)
    commit(top)
    ended = package(top, out)
    assert ended.returncode == 0, (ended.stdout, ended.stderr)
    found = {name.rpartition(".")[2]: os.path.join(out, name) for name in os.listdir(out)}
    return Made(top, out, found["gz"], found.get("deb"))
