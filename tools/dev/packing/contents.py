"""The files of each package, of those of a commit and of texts that are made of them."""
import os
import re

from packing import completions, man
from packing.archives import gzipped
from packing.command_shapes import Shape, program_shape, tools_shape
from packing.proof import proved_text, sums
from packing.sources import Commit, File, written

# What of tools/ a user runs.
TOOLS = re.compile(r"tools/((?:ne|record)|(?:new_enemy_tools|parts\.d)/.+)")
DOCUMENTS = re.compile(r"(?:README|CHANGELOG|SECURITY|CONTRIBUTING|ARCHITECTURE)\.md|LICENSE|docs/.+|examples/.+")
VERSION = re.compile(rb'^VERSION = "([^"]+)"$', re.MULTILINE)
# In Debian ne is an editor.
DEBIAN_NAME = "new-enemy-tools"
DEBIAN_DOCUMENTS = "usr/share/doc/new-enemy/"
# These run the recorder and the monitor, once they are enabled for a service by name.
UNITS = {"recorder": "new-enemy-recorder@.service", "monitor": "new-enemy-monitor@.service"}
COPYRIGHT = """Format: https://www.debian.org/doc/packaging-manuals/copyright-format/1.0/
Upstream-Name: new_enemy

Files: *
Copyright: the authors of new_enemy
License: Apache-2.0
 On Debian systems the text of this licence is in /usr/share/common-licenses/Apache-2.0; it is in LICENSE beside this file too.
"""
CONTROL = """Package: new-enemy
Version: {version}
Architecture: amd64
Maintainer: the authors of new_enemy <none@localhost>
Installed-Size: {size}
Depends: libc6 (>= {libc})
Recommends: python3 (>= 3.9)
Suggests: python3-grpcio, python3-orjson, python3-yaml, graphviz, zstd
Section: admin
Priority: optional
Description: proved auditor for authorization services that work as Zanzibar does
 It reads what a service recorded: its rules, its changes of access, and its
 replies. It says, line by line, which replies ignored a newer change or are
 wrong. The program is proved; the tools beside it, in Python, are tested.
"""
# What Python keeps of the tools beside them, where root runs them.
BEFORE_REMOVAL = """#!/bin/sh
set -e
find "${DPKG_ROOT:-}/usr/lib/new_enemy" -depth -type d -name __pycache__ -exec rm -rf {} \\;
"""


def version_of(commit: Commit) -> str:
    found = VERSION.search(commit.files["tools/new_enemy_tools/__init__.py"].data)
    assert found is not None, "the tools have no version"
    return found[1].decode()


def _picked(commit: Commit, pattern: re.Pattern[str]) -> dict[str, File]:
    return {path: file for path, file in commit.files.items() if pattern.fullmatch(path)}


def shapes_of(commit: Commit, room: str, tools: str) -> tuple[Shape, Shape]:
    """What the commit's program takes, and what its tools take below a name. It runs that program."""
    written({"new_enemy": commit.files["dist/new_enemy"]}, room)
    return program_shape(os.path.join(room, "new_enemy")), tools_shape(tools)


def completion_files(shapes: tuple[Shape, Shape], bash: str, zsh: str, fish: str) -> dict[str, File]:
    """The completions of commands, in the folders of each shell."""
    files = {}
    for shape in shapes:
        files[bash + shape.name] = File(completions.bash(shape).encode())
        files[zsh + "_" + shape.name] = File(completions.zsh(shape).encode())
        files[fish + shape.name + ".fish"] = File(completions.fish(shape).encode())
    return files


def manual_files(commit: Commit, shapes: tuple[Shape, Shape], folder: str, documents: str) -> dict[str, File]:
    program, tools = shapes
    version = version_of(commit)
    return {folder + "new_enemy.1": File(man.program_page(program, version, commit.seconds, tools.name, documents).encode()),
            folder + tools.name + ".1": File(man.tools_page(tools, version, commit.seconds, documents).encode())}


def tarball_files(commit: Commit, room: str) -> dict[str, File]:
    """As a clone has them, so that what the documents say of new_enemy and tools/ne holds there too."""
    shapes = shapes_of(commit, room, "ne")
    files = {**_picked(commit, TOOLS), **_picked(commit, DOCUMENTS), "new_enemy": commit.files["dist/new_enemy"]}
    files.update(manual_files(commit, shapes, "man/man1/", "docs/"))
    files.update(completion_files(shapes, "completions/bash/", "completions/zsh/", "completions/fish/"))
    files["PROVED"] = File(proved_text(commit, version_of(commit), "").encode())
    files["SHA256SUMS"] = File(sums(files))
    return files


def debian_files(commit: Commit, room: str) -> dict[str, File]:
    """Where Debian has each kind of file, and its control files below DEBIAN/."""
    shapes = shapes_of(commit, room, DEBIAN_NAME)
    files = {"usr/lib/new_enemy/" + path.partition("/")[2]: file for path, file in _picked(commit, TOOLS).items()}
    files.update({DEBIAN_DOCUMENTS + path: file for path, file in _picked(commit, DOCUMENTS).items()})
    files["usr/bin/new_enemy"] = commit.files["dist/new_enemy"]
    files.update({"usr/lib/systemd/system/" + unit: commit.files["examples/%s/%s" % (folder, unit)] for folder, unit in UNITS.items()})
    files["usr/bin/" + DEBIAN_NAME] = File(b"", link="../lib/new_enemy/ne")
    manual = manual_files(commit, shapes, "usr/share/man/man1/", "/" + DEBIAN_DOCUMENTS)
    files.update({path + ".gz": File(gzipped(file.data)) for path, file in manual.items()})
    files.update(completion_files(shapes, "usr/share/bash-completion/completions/", "usr/share/zsh/vendor-completions/",
                                  "usr/share/fish/vendor_completions.d/"))
    files[DEBIAN_DOCUMENTS + "copyright"] = File(COPYRIGHT.encode())
    files[DEBIAN_DOCUMENTS + "PROVED"] = File(proved_text(commit, version_of(commit), " in the folder /, with the path of SHA256SUMS").encode())
    files[DEBIAN_DOCUMENTS + "SHA256SUMS"] = File(sums(files))
    return {**files, **_control_files(commit, files)}


def _control_files(commit: Commit, files: dict[str, File]) -> dict[str, File]:
    libc = re.search(r"GLIBC_([0-9.]+)", commit.files["dist/PROVED"].data.decode())
    assert libc is not None, "dist/PROVED names no C library"
    size = sum(len(file.data) + 1023 >> 10 for file in files.values())
    control = CONTROL.format(version=version_of(commit), size=size, libc=libc[1])
    return {"DEBIAN/control": File(control.encode()), "DEBIAN/md5sums": File(sums(files, "md5")), "DEBIAN/prerm": File(BEFORE_REMOVAL.encode(), True)}
