"""What a commit holds, and whether its program is the one that the gate passed."""
import io
import os
import subprocess
import tarfile
from typing import NamedTuple, Optional

from packing.package_faults import PackageFault


class File(NamedTuple):
    """A file's bytes and whether it may be executed, or where a link leads."""

    data: bytes
    is_program: bool = False
    link: Optional[str] = None


class Commit(NamedTuple):
    """Its name, its time in seconds, and its files by path."""

    name: str
    seconds: int
    files: dict[str, File]


def _git(top: str, *words: str) -> bytes:
    run = subprocess.run(["git", "-C", top, *words], stdin=subprocess.DEVNULL, capture_output=True, timeout=600)
    if run.returncode:
        raise PackageFault("no commit can be read here: git %s: %s" % (words[0], run.stderr.decode(errors="replace").strip()))
    return run.stdout


def read_commit(top: str) -> Commit:
    """The commit that a clone stands on."""
    files = {}
    with tarfile.open(fileobj=io.BytesIO(_git(top, "archive", "--format=tar", "HEAD"))) as archive:
        for member in archive:
            if member.issym():
                files[member.name] = File(b"", link=member.linkname)
            elif member.isfile():
                content = archive.extractfile(member)
                assert content is not None
                files[member.name] = File(content.read(), bool(member.mode & 0o100))
    name = _git(top, "rev-parse", "HEAD").decode().strip()
    return Commit(name, int(_git(top, "log", "-1", "--format=%ct")), files)


def refuse_changed(top: str, commit: Commit) -> None:
    """Raises PackageFault where a file of the commit stands here otherwise: the tools that make the package are of here."""
    changed = _git(top, "status", "--porcelain", "--untracked-files=no").decode().splitlines()
    if changed:
        raise PackageFault("%d files here are not as commit %s has them, the first %s; commit them, or take them back"
                           % (len(changed), commit.name, changed[0][3:]))


def written(files: dict[str, File], folder: str) -> None:
    """Writes files below a folder that is there."""
    for path, file in files.items():
        whole = os.path.join(folder, path)
        os.makedirs(os.path.dirname(whole), exist_ok=True)
        if file.link is not None:
            os.symlink(file.link, whole)
            continue
        with open(whole, "wb") as out:
            out.write(file.data)
        os.chmod(whole, 0o755 if file.is_program else 0o644)


# The functions by which ./new_enemy and ./check compare too.
CHECK = """
. dist/provenance || exit 5
why=$(unproved_because dist "$(sources_sum .)")
[ -n "$why" ] || [ "$(proved_value dist/PROVED by)" = ./check ] || why="it was built by $(proved_value dist/PROVED by), and not by ./check"
printf %s "$why"
"""


def refuse_unproved(commit: Commit, room: str) -> None:
    """Raises PackageFault where the commit's dist/ holds no program that the gate passed for the commit's sources."""
    folder = os.path.join(room, "sources")
    os.mkdir(folder)
    wanted = ("crates/", "dist/", "crates.txt", "HANDLES")
    written({path: file for path, file in commit.files.items() if path.startswith(wanted)}, folder)
    run = subprocess.run(["bash", "-c", CHECK], cwd=folder, stdin=subprocess.DEVNULL, capture_output=True, text=True, timeout=600)
    if run.returncode:
        raise PackageFault("dist/provenance cannot be run: %s" % run.stderr.strip())
    if run.stdout:
        raise PackageFault("dist/new_enemy of commit %s was not passed by the gate: %s" % (commit.name, run.stdout))


def words_of(text: bytes) -> dict[str, str]:
    """The lines of a file PROVED or GATE, a word and its value each."""
    lines = [line.split(" ", 1) for line in text.decode().splitlines() if " " in line and not line.startswith("#")]
    return {word: value for word, value in lines}
