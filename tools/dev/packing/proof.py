"""The text PROVED of a package, and the sums of its files."""
import hashlib
from datetime import datetime, timezone
from typing import Optional

from packing.package_faults import PackageFault
from packing.sources import Commit, File, words_of

GATE = "dist/GATE"
TEXT = """new_enemy {version}, as it was packaged

commit    {commit}
          of {day}
sources   {sources}
          the checksum of all sources that the program stands on
kit       {kit}
          the Rattle kit that proved them and built the program
program   {program}
          the SHA-256 of the program new_enemy
libc      {libc}
gate      {gate}

What is proved are the sources of the program new_enemy; that the program is what they compile to rests on the gate, which
builds it anew and compares. What a clean verdict means stands in README.md, and docs/PROMISES.md names each promise. The
tools beside it are in Python, tested and not proved.

How to check it again

- The files: `sha256sum -c SHA256SUMS`{where}. That says that they are those of this package, and not who made it.
- The program: clone the repository at the commit above. `./new_enemy --provenance` compares the checksum of all sources
  and that of dist/new_enemy with those above; `sha256sum dist/new_enemy` has to be that of the program here.
- The proof: in that clone, with a kit of the logic named above, `./check`. It proves the sources from nothing, tries wrong
  bodies, runs all tests, and builds the program. With the very kit named above it compares it with dist/new_enemy, byte
  for byte. docs/GATE.md says how long that takes. Its last line is `N passed, M failed`, and M has to be 0.
- The package: in that clone, `tools/dev/package FOLDER` writes this package again, byte for byte.
"""
NO_GATE = """the commit holds no record of the gate's last line (dist/GATE). dist/PROVED says that the
          program was built by ./check. To see the last line, run ./check at the commit above"""


def _gate_of(commit: Commit) -> str:
    """The gate's last line and when it came, of the record that tools/dev/release keeps."""
    record: Optional[File] = commit.files.get(GATE)
    if record is None:
        return NO_GATE
    words = words_of(record.data)
    missing = [word for word in ("commit", "sources", "ended", "last") if word not in words]
    if missing:
        raise PackageFault("%s has no line %s" % (GATE, missing[0]))
    if not words["last"].endswith(" passed, 0 failed"):
        raise PackageFault("%s says that the gate failed: %s" % (GATE, words["last"]))
    if words["sources"] != proved_of(commit)["sources"]:
        raise PackageFault("%s is of other sources than dist/PROVED" % GATE)
    return "%s\n          the last line of ./check on commit %s,\n          at %s" % (words["last"], words["commit"], words["ended"])


def proved_of(commit: Commit) -> dict[str, str]:
    return words_of(commit.files["dist/PROVED"].data)


def proved_text(commit: Commit, version: str, where: str) -> str:
    words = proved_of(commit)
    return TEXT.format(version=version, commit=commit.name, day=datetime.fromtimestamp(commit.seconds, timezone.utc).strftime("%Y-%m-%d %H:%M UTC"),
                       sources=words["sources"], kit=words["kit"], program=words["program"], libc=words["libc"], gate=_gate_of(commit), where=where)


def sums(files: dict[str, File], algorithm: str = "sha256") -> bytes:
    """A line for each file that is no link, as sha256sum and md5sum write and check them."""
    return b"".join(b"%s  %s\n" % (hashlib.new(algorithm, file.data).hexdigest().encode(), path.encode())
                    for path, file in sorted(files.items()) if file.link is None)
