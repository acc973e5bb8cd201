"""Packages: that they are the same each time, of nothing that the gate did not pass, and work where nothing else of the project is."""
import os
import re
import shutil
import subprocess
import sys
import tarfile
import tempfile
import textwrap
import unittest
import zipfile

from new_enemy_tools import VERSION
from packing.package_faults import PackageFault
from packing.proof import proved_text
from packing.sources import Commit, File
from tests.documents import read, transcripts
from tests.installed import python_with
from tests.packaged import HAS_DEB, NO_DEB, commit, done, made, package, passed, plain, run
from tests.support import Case

FORCED = ["--force-not-root", "--force-script-chrootless", "--force-depends", "--force-bad-path"]


def files_below(folder: str) -> list[str]:
    return sorted(os.path.relpath(os.path.join(at, name), folder) for at, folders, names in os.walk(folder) for name in [*folders, *names])


class Bytes(Case):
    def test_the_same_each_time(self) -> None:
        """In another folder, at another time of the files, by a user of other habits."""
        done(["git", "clone", "-q", made().top, self.path("another place")], self.room)
        clone = self.path("another place")
        for path in files_below(clone):
            os.utime(os.path.join(clone, path), (10 ** 9, 10 ** 9), follow_symlinks=False)
        words = ["sh", "-c", 'umask 077; exec "$@"', "sh", sys.executable, os.path.join(clone, "tools", "dev", "package"),
                 *([] if HAS_DEB else ["--without-deb"]), self.path("out")]
        done(words, self.room, TZ="Asia/Tokyo", LC_ALL="C", PYTHONHASHSEED="7", TMPDIR=self.room)
        names = sorted(os.listdir(made().out))
        self.assertEqual(names, sorted(os.listdir(self.path("out"))))
        self.assertEqual(len(names), 2 + HAS_DEB)
        for name in names:
            with open(os.path.join(made().out, name), "rb") as one, open(self.path("out/" + name), "rb") as other:
                self.assertTrue(one.read() == other.read(), name)

    def test_the_sums_beside_them(self) -> None:
        self.assertNotIn("FAILED", done(["sha256sum", "-c", "SHA256SUMS"], made().out))

    def test_their_names(self) -> None:
        self.assertEqual(os.path.basename(made().tarball), "new_enemy-%s-x86_64-linux.tar.gz" % VERSION)
        if made().deb is not None:
            self.assertEqual(os.path.basename(made().deb), "new-enemy_%s_amd64.deb" % VERSION)


class WhatIsRefused(Case):
    """On one clone, of which each test takes back what it changed."""

    @classmethod
    def setUpClass(cls) -> None:
        room = tempfile.TemporaryDirectory()
        cls.addClassCleanup(room.cleanup)
        cls.clone = os.path.join(room.name, "clone")
        done(["git", "clone", "-q", made().top, cls.clone], room.name)

    def setUp(self) -> None:
        super().setUp()
        self.addCleanup(done, ["git", "reset", "-q", "--hard", "origin/HEAD"], self.clone)

    def assert_refused(self, why: str) -> None:
        ended = package(self.clone, self.path("out"))
        self.assertEqual((ended.returncode, ended.stdout), (1, ""), ended.stderr)
        self.assertRegex(ended.stderr, why)
        self.assertFalse(os.path.exists(self.path("out")))

    def change(self, name: str, old: bytes, new: bytes) -> None:
        path = os.path.join(self.clone, name)
        with open(path, "rb") as file:
            data = file.read()
        self.assertIn(old, data)
        with open(path, "wb") as file:
            file.write(data.replace(old, new, 1))

    def test_other_sources(self) -> None:
        self.change("crates/zookie/src/token.rt", b"19", b"18")
        commit(self.clone)
        self.assert_refused("not passed by the gate: PROVED is of other sources than stand here\n$")

    def test_another_program(self) -> None:
        self.change("dist/new_enemy", b"verdict clean", b"verdict dirty")
        commit(self.clone)
        self.assert_refused("not passed by the gate: the program is not the one that PROVED names\n$")

    def test_no_gate(self) -> None:
        passed(self.clone, "'./new_enemy --prove'")
        commit(self.clone)
        self.assert_refused("it was built by ./new_enemy --prove, and not by ./check\n$")

    def test_files_that_are_not_committed(self) -> None:
        self.change("README.md", b"# new_enemy", b"# new enemy")
        self.assert_refused("1 files here are not as commit [0-9a-f]{40} has them, the first README.md; commit them, or take them back\n$")

    def test_no_repository(self) -> None:
        os.rename(os.path.join(self.clone, ".git"), os.path.join(self.clone, "git"))
        self.addCleanup(os.rename, os.path.join(self.clone, "git"), os.path.join(self.clone, ".git"))
        self.assert_refused("no commit can be read here: git ")


class Gate(Case):
    """What PROVED says of the gate's last line."""

    PROVED = b"# a comment\nsources 5\nkit k\nprogram p\nlibc l\nby ./check\n"

    def text(self, *lines: str) -> str:
        files = {"dist/PROVED": File(self.PROVED)}
        if lines:
            files["dist/GATE"] = File("".join(line + "\n" for line in lines).encode())
        return proved_text(Commit("c", 0, files), "1.2.3", "")

    def test_what_it_was(self) -> None:
        self.assertIn("gate      11 passed, 0 failed\n          the last line of ./check on commit 9,\n          at 2026-11-26T13:00:00Z\n",
                      self.text("commit 9", "sources 5", "ended 2026-11-26T13:00:00Z", "last 11 passed, 0 failed"))
        self.assertIn("gate      the commit holds no record of the gate's last line", self.text())

    def test_what_is_refused(self) -> None:
        for lines, why in ((["commit 9", "sources 5", "ended now", "last 10 passed, 1 failed"], "dist/GATE says that the gate failed: 10 passed, 1 failed"),
                           (["commit 9", "sources 6", "ended now", "last 11 passed, 0 failed"], "dist/GATE is of other sources than dist/PROVED"),
                           (["commit 9", "sources 5", "last 11 passed, 0 failed"], "dist/GATE has no line ended")):
            with self.assertRaisesRegex(PackageFault, why):
                self.text(*lines)


class Used(Case):
    """What holds of files that are unpacked or installed."""

    def assert_shown(self, folder: str, *names: str) -> None:
        """What a document shows, run in a folder, prints what the document says."""
        shown = transcripts(read(*names))
        self.assertTrue(shown)
        for command, lines in shown:
            with self.subTest(command=command):
                printed = subprocess.run(command, shell=True, cwd=folder, stdin=subprocess.DEVNULL, stdout=subprocess.PIPE, stderr=subprocess.STDOUT,
                                         text=True, timeout=300, env=plain()).stdout
                self.assertEqual(printed.splitlines(), lines)

    def assert_page(self, path: str, words: list[str]) -> None:
        """A manual page that man sets without a warning, and that has some words."""
        if shutil.which("man") is None:
            self.skipTest("man is not installed")
        set_by_man = subprocess.run(["man", "--warnings", "-l", path], env=plain(MANWIDTH="200", MAN_KEEP_FORMATTING=""), stdin=subprocess.DEVNULL,
                                    capture_output=True, text=True, timeout=300)
        self.assertEqual((set_by_man.returncode, set_by_man.stderr), (0, ""))
        page = re.sub(".\b", "", set_by_man.stdout)
        for word in words:
            self.assertIn(word, page)


PROGRAM_WORDS = ["new_enemy audit", "new_enemy make", "new_enemy history", "new_enemy follow", "--workers", "--early", "--list", "--heartbeat", "/dev/stdin",
                 "EXIT STATUS", "a device failed"]


class Tarball(Used):
    def setUp(self) -> None:
        super().setUp()
        with tarfile.open(made().tarball) as archive:
            self.members = archive.getmembers()
            for member in self.members:
                self.assertFalse(member.name.startswith("/") or ".." in member.name.split("/"), member.name)
            archive.extractall(self.room)
        [top] = os.listdir(self.room)
        self.assertEqual(top, "new_enemy-%s-x86_64-linux" % VERSION)
        self.top = self.path(top)

    def test_owners_and_modes(self) -> None:
        programs = {member.name.partition("/")[2] for member in self.members if member.isfile() and member.mode == 0o755}
        self.assertEqual(programs, {"new_enemy", "tools/ne", "tools/record", "tools/parts.d/parallel", "tools/parts.d/slurm"})
        for member in self.members:
            self.assertEqual((member.uid, member.gid, member.uname, member.gname), (0, 0, "root", "root"))
            self.assertIn(member.mode, (0o755, 0o644))
            # The time of the commit.
            self.assertEqual(member.mtime, 1772600767)

    def test_what_is_in_it(self) -> None:
        here = os.listdir(self.top)
        for name in ("new_enemy", "LICENSE", "README.md", "PROVED", "SHA256SUMS", "CHANGELOG.md", "SECURITY.md", "docs", "examples", "tools", "man", "completions"):
            self.assertIn(name, here)
        self.assertEqual(sorted(os.listdir(os.path.join(self.top, "tools"))), ["ne", "new_enemy_tools", "parts.d", "record"])
        self.assertFalse([path for path in files_below(self.top) if "__pycache__" in path or path.startswith("crates")])

    def test_sums(self) -> None:
        checked = done(["sha256sum", "-c", "SHA256SUMS"], self.top).splitlines()
        files = [path for path in files_below(self.top) if os.path.isfile(os.path.join(self.top, path))]
        self.assertEqual(sorted(checked), sorted("%s: OK" % path for path in files if path != "SHA256SUMS"))

    def test_proved(self) -> None:
        with open(os.path.join(self.top, "PROVED"), encoding="utf-8") as file:
            text = file.read()
        with open(os.path.join(made().top, "dist", "PROVED"), encoding="utf-8") as file:
            words = dict(line.strip().split(" ", 1) for line in file if not line.startswith("#"))
        for word in ("sources", "kit", "program", "libc"):
            self.assertRegex(text, r"(?m)^%s +%s$" % (word, re.escape(words[word])))
        self.assertIn("commit    " + done(["git", "rev-parse", "HEAD"], made().top), text)
        self.assertIn(words["program"] + "  new_enemy\n", done(["sha256sum", "new_enemy"], self.top))
        self.assertIn("the commit holds no record of the gate's last line", text)

    def test_what_documents_show(self) -> None:
        self.assert_shown(self.top, "README.md")
        self.assert_shown(self.top, "docs", "REPORTS.md")

    def test_manual_pages(self) -> None:
        self.assert_page(os.path.join(self.top, "man", "man1", "new_enemy.1"), PROGRAM_WORDS)
        self.assert_page(os.path.join(self.top, "man", "man1", "ne.1"),
                         ["ne import openfga", "ne parts cut", "ne report", "--fail-on EFFECT", "ne record", "--listen ADDRESS", "EXIT STATUS"])


@unittest.skipUnless(HAS_DEB and shutil.which("dpkg"), NO_DEB)
class Debian(Used):
    def setUp(self) -> None:
        super().setUp()
        self.root = self.path("root")
        os.makedirs(os.path.join(self.root, "var/lib/dpkg/info"))
        os.makedirs(os.path.join(self.root, "var/lib/dpkg/updates"))
        for name in ("status", "available"):
            self.put("root/var/lib/dpkg/" + name, "")

    def dpkg(self, *words: str) -> str:
        ended = run(["dpkg", "--root=" + self.root, "--log=" + self.path("log"), *FORCED, *words], self.room)
        self.assertEqual(ended.returncode, 0, ended.stderr)
        return ended.stdout

    def installed(self, *names: str) -> str:
        return os.path.join(self.root, *names)

    def test_installed_used_and_removed(self) -> None:
        self.dpkg("--install", made().deb)
        self.assertEqual(self.dpkg("--verify", "new-enemy"), "")
        documents = self.installed("usr/share/doc/new-enemy")
        self.assertNotIn("FAILED", done(["sha256sum", "--quiet", "-c", os.path.join(documents, "SHA256SUMS")], self.root))
        # A folder of a user, in which the commands have the names of the documents.
        os.makedirs(self.path("user/tools"))
        os.symlink(self.installed("usr/bin/new_enemy"), self.path("user/new_enemy"))
        os.symlink(self.installed("usr/bin/new-enemy-tools"), self.path("user/tools/ne"))
        os.symlink(os.path.join(documents, "examples"), self.path("user/examples"))
        self.assert_shown(self.path("user"), "README.md")
        self.assert_shown(self.path("user"), "docs", "REPORTS.md")
        self.assertIn("new_enemy tools " + VERSION, done([self.installed("usr/bin/new-enemy-tools"), "--version"], self.room))
        self.assert_finds_the_program()
        self.assertTrue([path for path in files_below(self.root) if "__pycache__" in path])
        self.assert_page(self.installed("usr/share/man/man1/new_enemy.1.gz"), PROGRAM_WORDS)
        self.assert_page(self.installed("usr/share/man/man1/new-enemy-tools.1.gz"), ["new-enemy-tools import openfga", "new-enemy-tools report"])
        self.assert_completed()
        self.dpkg("--purge", "new-enemy")
        self.assertEqual([path for path in files_below(self.root) if not path.startswith("var")], [])
        self.assertEqual(files_below(self.installed("var/lib/dpkg/info")), ["format"])

    def assert_finds_the_program(self) -> None:
        """Where nobody names it, the tools run the one that the package has put into the PATH."""
        self.put("user/window", read("examples", "one_proved_check").split("---")[0])
        told = done([self.installed("usr/bin/new-enemy-tools"), "window", "audit", "window", "--final"], self.path("user"),
                    PATH=self.installed("usr/bin") + os.pathsep + plain()["PATH"])
        self.assertEqual(told.splitlines()[-1], "verdict clean")

    def assert_completed(self) -> None:
        """bash takes the completions, and zsh and fish where they are installed can read theirs."""
        shells = self.installed("usr/share")
        for name in ("new_enemy", "new-enemy-tools"):
            listed = done(["bash", "--norc", "-c", 'source "$1" && complete -p "$2"', "bash", "%s/bash-completion/completions/%s" % (shells, name), name], self.room)
            self.assertRegex(listed, "^complete .* %s$" % name)
            for shell, path in ("zsh", "%s/zsh/vendor-completions/_%s"), ("fish", "%s/fish/vendor_completions.d/%s.fish"):
                if shutil.which(shell):
                    done([shell, "-n", path % (shells, name)], self.room, HOME=self.room)

    def test_what_dpkg_is_told(self) -> None:
        told = done(["dpkg-deb", "--field", made().deb, "Package", "Version", "Architecture", "Depends", "Recommends"], self.room)
        self.assertEqual(told, "Package: new-enemy\nVersion: %s\nArchitecture: amd64\nDepends: libc6 (>= 2.34)\nRecommends: python3 (>= 3.9)\n" % VERSION)

    def test_no_name_that_debian_has(self) -> None:
        """The package ne, an editor, has the command ne and its page."""
        listed = [line.split()[5] for line in done(["dpkg-deb", "--contents", made().deb], self.room).splitlines()]
        for unit in ("recorder", "monitor"):
            self.assertIn("./usr/lib/systemd/system/new-enemy-%s@.service" % unit, listed)
        self.assertEqual([path for path in listed if path.startswith("./usr/bin/") and path != "./usr/bin/"],
                         ["./usr/bin/new_enemy", "./usr/bin/new-enemy-tools"])
        self.assertFalse([path for path in listed if os.path.basename(path).split(".")[0] in ("ne", "_ne") and "/lib/new_enemy/" not in path])


def content_below(folder: str) -> dict[str, bytes]:
    found = {}
    for path in files_below(folder):
        if os.path.isfile(os.path.join(folder, path)):
            with open(os.path.join(folder, path), "rb") as file:
                found[path] = file.read()
    return found


class Wheel(Case):
    """What pip installs of a clone."""

    @unittest.skipUnless(HAS_DEB, NO_DEB)
    def test_its_files_are_those_of_the_debian_package(self) -> None:
        """But for the two programs that stand beside the package there: pip writes its own, which calls what tools/ne calls."""
        python = python_with("setuptools", "wheel")
        if not python:
            self.skipTest("setuptools and wheel are not installed (python3-setuptools, python3-wheel)")
        done(["git", "clone", "-q", made().top, self.path("clone")], self.room)
        done([python, "-c", "from setuptools import build_meta; build_meta.build_wheel('..')"], self.path("clone"))
        name = "new_enemy-%s" % VERSION
        with zipfile.ZipFile(self.path(name + "-py3-none-any.whl")) as wheel:
            wheel.extractall(self.path("wheel"))
        os.rename(self.path("wheel/%s.dist-info" % name), self.path("about"))
        os.rename(self.path("wheel/%s.data/data/lib/new_enemy/parts.d" % name), self.path("wheel/parts.d"))
        done(["dpkg-deb", "--extract", made().deb, self.path("deb")], self.room)
        there = content_below(self.path("deb/usr/lib/new_enemy"))
        self.assertEqual({path for path in there if "/" not in path}, {"ne", "record"})
        here = content_below(self.path("wheel"))
        self.assertEqual(sorted(here), sorted(path for path in there if "/" in path))
        self.assertEqual([path for path in here if here[path] != there[path]], [])
        self.assertEqual(self.get("about/entry_points.txt"), "[console_scripts]\nnew-enemy-tools = new_enemy_tools.commands.ne:called\n")
        called = "import sys; from new_enemy_tools.commands.ne import called; sys.argv = ['ne', '--version']; called()"
        self.assertEqual(done([sys.executable, "-c", called], self.path("wheel")), "new_enemy tools %s\n" % VERSION)

    def test_its_extras_are_what_the_debian_package_suggests(self) -> None:
        extras = re.findall(r'(?m)^\w+ = \["(\w+)"\]$', read("pyproject.toml").split("[project.optional-dependencies]")[1].split("\n\n")[0])
        suggested = re.findall(r"python3-(\w+)", read("tools", "dev", "packing", "contents.py").split("Suggests:")[1].split("\n")[0])
        self.assertEqual(sorted(extra.lower().removeprefix("py") for extra in extras), sorted(suggested))


class CLibrary(Case):
    def test_the_oldest(self) -> None:
        """The newest version of a symbol that the program asks of it, as documents and PROVED say."""
        with open(os.environ["NEW_ENEMY"], "rb") as file:
            versions = {tuple(map(int, found.split(b"."))) for found in re.findall(rb"GLIBC_([0-9.]+)\x00", file.read())}
        newest = "GLIBC_%s" % ".".join(map(str, max(versions)))
        self.assertEqual(newest, "GLIBC_2.34")
        self.assertIn("`%s`" % newest, read("docs", "INSTALLING.md"))
        with open(os.path.join(made().top, "dist", "PROVED"), encoding="utf-8") as file:
            self.assertIn("libc %s or newer" % newest, file.read())


class Installing(Case):
    """The commands of the page on installing that need neither root nor the kit, in one shell, from a clone on."""

    def blocks(self) -> list[str]:
        """The page's blocks of commands, without those of a package that root installs."""
        found = re.findall(r"(?:^    .*\n)+", read("docs", "INSTALLING.md"), re.MULTILINE)
        return [textwrap.dedent(block) for block in found if not block.startswith("    sudo ")]

    def test_each_command(self) -> None:
        making, unpacking, looking = self.blocks()
        clone = self.path("clone")
        done(["git", "clone", "-q", made().top, clone], self.room)
        if not HAS_DEB:
            making = making.replace("package ", "package --without-deb ")
        if shutil.which("man") is None:
            looking = looking.replace("man -l", "test -f")
        said = done(["bash", "-ec", making + "cd ../packages\n" + unpacking + "echo ---\n" + looking + "complete -p new_enemy\n"], clone, MANPAGER="cat")
        packed, shown = said.split("\n---\n")
        self.assertIn("new_enemy-%s-x86_64-linux.tar.gz: OK\n" % VERSION, packed)
        self.assertNotIn("FAILED", packed)
        self.assertEqual(packed.splitlines()[-3:], ["entries 1", "findings 0", "verdict clean"])
        self.assertRegex(shown, "(?m)^complete .* new_enemy$")
        if shutil.which("man") is not None:
            self.assertIn("new_enemy", shown.split("complete ")[0])
