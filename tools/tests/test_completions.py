"""Completions, in the shells that are installed: each is loaded, and offers what the command takes."""
import glob
import os
import shlex
import shutil
import subprocess
import tarfile
import unittest
from typing import Sequence

from new_enemy_tools import VERSION
from new_enemy_tools.commands import ne
from tests.packaged import made, plain
from tests.support import Case

# Words of a command line, the last one not yet whole, and what is offered for it.
BASH = ((("ne", "rep"), {"report"}), (("ne", "report", "--form", "s"), {"sarif"}), (("ne", "import", ""), {"openfga", "spicedb", "events"}),
        (("ne", "import", "openfga", "--mod"), {"--model"}), (("ne", "import", "openfga", "--model", ""), set()),
        (("ne", "parts", "cut", "--j"), {"--jobs"}), (("ne", "lint", ""), set()), (("new_enemy", ""), {"audit", "make", "history", "follow"}),
        (("new_enemy", "audit", "--w"), {"--workers"}), (("new_enemy", "make", "--l"), {"--list"}), (("new_enemy", "history", "--l"), set()))
# A function `of` gets the words, and prints what is offered.
BASH_SCRIPT = """
for name in ne new_enemy; do source "$FOLDER/bash/$name"; complete -p "$name" >&2 || exit 1; done
of() { COMP_WORDS=("$@") COMP_CWORD=$(($# - 1)); "_$1"; printf '%s\\n' "${COMPREPLY[@]}"; }
"""
# What offers is replaced, since zsh completes on a terminal alone.
ZSH_SCRIPT = """
fpath=($FOLDER/zsh $fpath)
autoload -Uz compinit && compinit -u -D
[[ $_comps[ne] == _ne && $_comps[new_enemy] == _new_enemy ]] || exit 1
_describe() { local last=$argv[-1]; print -rl -- ${(P)last%%:*} }
_files() { print FILES }
compadd() { shift; print -rl -- $@ }
of() { words=("$@") CURRENT=$#; _$1 }
"""
ZSH = ((("ne", "rep"), set(ne.COMMANDS)), (("ne", "draw", "--form", ""), {"dot", "svg"}),
       (("ne", "import", ""), {"openfga", "spicedb", "events"}), (("ne", "lint", "-"), {"-h", "--help"}), (("ne", "lint", ""), {"FILES"}),
       (("ne", "import", "openfga", "--model", ""), {"FILES"}), (("new_enemy", "make", "-"), {"--list", "-h", "--help"}))
FISH = ((("ne", "rep"), {"report"}), (("ne", "report", "--form", "s"), {"sarif"}), (("ne", "import", ""), {"openfga", "spicedb", "events"}),
        (("ne", "import", "openfga", "--mod"), {"--model"}), (("ne", "parts", "cut", "--j"), {"--jobs"}),
        (("new_enemy", ""), {"audit", "make", "history", "follow"}), (("new_enemy", "audit", "--w"), {"--workers"}))


class Completions(Case):
    def setUp(self) -> None:
        super().setUp()
        with tarfile.open(made().tarball) as archive:
            archive.extractall(self.room)
        self.folder = self.path("new_enemy-%s-x86_64-linux/completions" % VERSION)

    def assert_offered(self, shell: list[str], script: str, cases: Sequence[tuple[Sequence[str], set[str]]]) -> None:
        """Of each case what a script offers that begins with `script`, which names a function `of`."""
        calls = "".join("of %s; echo '==';\n" % " ".join(map(shlex.quote, words)) for words, _ in cases)
        # Each shell looks for settings of its own in HOME.
        ended = subprocess.run([*shell, script + calls], cwd=self.room, stdin=subprocess.DEVNULL, capture_output=True, text=True, timeout=300,
                               env=plain(FOLDER=self.folder, HOME=self.room))
        self.assertEqual(ended.returncode, 0, (ended.stdout, ended.stderr))
        offered = [{line.split("\t")[0] for line in part.splitlines() if line} for part in ended.stdout.split("==\n")[:-1]]
        self.assertEqual(dict(zip([words for words, _ in cases], offered)), dict(cases))

    def test_bash(self) -> None:
        self.assert_offered(["bash", "--norc", "-c"], BASH_SCRIPT, BASH)

    @unittest.skipUnless(shutil.which("zsh"), "zsh is not installed")
    def test_zsh(self) -> None:
        self.assert_offered(["zsh", "-f", "-c"], ZSH_SCRIPT, ZSH)

    @unittest.skipUnless(shutil.which("fish"), "fish is not installed")
    def test_fish(self) -> None:
        script = "for file in $FOLDER/fish/*; source $file; or exit 1; end; function of; complete -C \"$argv\"; end;\n"
        self.assert_offered(["fish", "--no-config", "-c"], script, FISH)

    def test_files(self) -> None:
        self.assertEqual(sorted(os.path.relpath(path, self.folder) for path in glob.glob(os.path.join(self.folder, "*", "*"))),
                         ["bash/ne", "bash/new_enemy", "fish/ne.fish", "fish/new_enemy.fish", "zsh/_ne", "zsh/_new_enemy"])
