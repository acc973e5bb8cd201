"""The command new_enemy at the top: it runs a program that was proved of the sources that stand beside it, and no other."""
import os
import shutil
import subprocess
import tempfile
import unittest

from tests.support import EXAMPLES, TOP

CLEAN = "entries 1\nfindings 0\nverdict clean\n"
PARTS = ("src", "specs", "proofs")
# Two crates that the program stands on, itself among them, and one that it does not stand on: as many as the tests need.
CRATES = ("new_enemy", "zookie", "tests_of_texts")
VERSION = "rattle-kit-test logic 0123456789abcdef"
OTHER_KIT = "rattle-kit-other logic 0123456789abcdef"
OTHER_LOGIC = "rattle-kit-other logic fedcba9876543210"
# A kit that takes a program made before for the one that it proves.
KIT = """#!/bin/sh
case $1 in
    version) echo "$VERSION" ;;
    ci) mkdir -p crates/new_enemy/out && cp "$PROGRAM" crates/new_enemy/out/new_enemy && sh -c "$MEANWHILE" && echo "5 passed, 0 failed" ;;
    run) sh -c "$PROVER" prover --crate-name zookie; mkdir -p out && cp "$PROGRAM" out/new_enemy && chmod +x out/new_enemy && sh -c "$MEANWHILE" && out/new_enemy ;;
esac
"""


def write(path, text):
    os.makedirs(os.path.dirname(path), exist_ok=True)
    with open(path, "w", encoding="utf-8") as file:
        file.write(text)


def change(path, old, new):
    with open(path, "rb") as file:
        data = file.read()
    assert old in data
    with open(path, "wb") as file:
        file.write(data.replace(old, new, 1))


class Checkout(unittest.TestCase):
    """A copy of some of what the command reads, where dist/ holds the program as if the gate had built it."""

    def setUp(self):
        room = tempfile.TemporaryDirectory()
        self.addCleanup(room.cleanup)
        self.room, self.top = room.name, os.path.join(room.name, "top")
        for name in ("new_enemy", "crates.txt", "HANDLES", "dist/provenance", "tools/dev/release", "crates/new_enemy/stdin"):
            os.makedirs(os.path.dirname(self.path(name)), exist_ok=True)
            shutil.copy(os.path.join(TOP, name), self.path(name))
        for crate in CRATES:
            for part in PARTS:
                if os.path.isdir(os.path.join(TOP, "crates", crate, part)):
                    shutil.copytree(os.path.join(TOP, "crates", crate, part), self.path("crates", crate, part))
        kit = os.path.join(self.room, "kit", "rt")
        write(kit, KIT)
        os.chmod(kit, 0o755)
        shutil.copy(os.environ["NEW_ENEMY"], self.path("dist", "new_enemy"))
        self.shell('. dist/provenance && write_proved dist "$(sources_sum .)" ./check', kit=True)

    def path(self, *names):
        return os.path.join(self.top, *names)

    def how(self, kit, meanwhile=":", **more):
        path = os.pathsep.join([os.path.dirname(os.path.join(self.room, "kit", "rt"))] * kit + ["/usr/bin", "/bin"])
        return {"env": {"PATH": path, "PROGRAM": os.environ["NEW_ENEMY"], "MEANWHILE": meanwhile, "PROVER": ":", "VERSION": VERSION, **more}, "capture_output": True,
                "text": True}

    def shell(self, line, kit=False, **more):
        return subprocess.run(["bash", "-c", line], cwd=self.top, check=True, **self.how(kit, **more))

    def built(self, by="./check", data=b"", **more):
        """Puts the program where the gate builds it, with bytes behind it, and what it would write beside it."""
        os.makedirs(self.path("crates", "new_enemy", "out"), exist_ok=True)
        shutil.copy(os.environ["NEW_ENEMY"], self.path("crates", "new_enemy", "out", "new_enemy"))
        with open(self.path("crates", "new_enemy", "out", "new_enemy"), "ab") as file:
            file.write(data)
        self.shell('. dist/provenance && write_proved crates/new_enemy/out "$(sources_sum .)" %s' % by, kit=True, **more)

    def run_command(self, *words, command=None, kit=False, meanwhile=":", **more):
        with open(os.path.join(EXAMPLES, "one_proved_check"), "rb") as given:
            return subprocess.run([command or self.path("new_enemy"), *words], cwd=self.room, stdin=given, timeout=300,
                                  **self.how(kit, meanwhile, **more))

    def assert_runs(self, command=None):
        run = self.run_command(command=command)
        self.assertEqual((run.returncode, run.stdout, run.stderr), (0, CLEAN, ""))

    def assert_refused(self, why):
        run = self.run_command()
        self.assertEqual((run.returncode, run.stdout), (5, ""))
        self.assertIn("  dist/new_enemy: %s\n" % why, run.stderr)
        self.assertIn("./new_enemy --prove", run.stderr)
        self.assertEqual(self.run_command("--provenance").returncode, 1)


class WhatRuns(Checkout):
    def test_without_the_kit_and_from_anywhere(self):
        self.assert_runs()
        os.symlink(self.path("new_enemy"), os.path.join(self.room, "link"))
        self.assert_runs(os.path.join(self.room, "link"))
        subprocess.run(["cp", "-r", self.top, os.path.join(self.room, "copy")], check=True)
        self.assert_runs(os.path.join(self.room, "copy", "new_enemy"))

    def test_nothing_is_written(self):
        subprocess.run(["chmod", "-R", "a-w", self.top], check=True)
        before = sorted(os.walk(self.top))
        self.assert_runs()
        self.assertEqual(sorted(os.walk(self.top)), before)
        subprocess.run(["chmod", "-R", "u+w", self.top], check=True)

    def test_words_go_to_the_program(self):
        self.assertIn("Usage", self.run_command("--help").stdout)
        self.assertEqual(self.run_command("--prove", "more").returncode, 3)

    def test_quiet_does_not_go_to_the_program(self):
        """But behind -- all words do."""
        self.assertIn("Usage", self.run_command("--quiet", "--help").stdout)
        run = self.run_command("--quiet")
        self.assertEqual((run.returncode, run.stdout, run.stderr), (0, CLEAN, ""))
        self.assertIn("cannot open --quiet\n", self.run_command("make", "--", "--quiet").stderr)
        self.assertIn("cannot open a b\n", self.run_command("make", "--quiet", "a b").stderr)

    def test_over_a_limit_of_the_size_of_files_a_write_fails(self):
        """The program says so; the signal of the system would end it without a word."""
        out = os.path.join(self.room, "out")
        run = self.run_command("-c", 'ulimit -f 0; exec "$0" >"$1"', self.path("new_enemy"), out, command="sh")
        self.assertEqual((run.returncode, run.stderr), (5, "write fault after 0 bytes\n"))

    def test_what_the_program_does_not_stand_on_may_change(self):
        change(self.path("crates", "tests_of_texts", "src", "lib.rt"), b"//!", b"//! ")
        with open(self.path("crates.txt"), "a", encoding="utf-8") as file:
            file.write("# a comment\n")
        self.assert_runs()


class WhatIsRefused(Checkout):
    def test_changed_sources(self):
        change(self.path("crates", "zookie", "src", "token.rt"), b"19", b"18")
        self.assert_refused("PROVED is of other sources than stand here")

    def test_one_file_more_and_one_less(self):
        write(self.path("crates", "zookie", "specs", "More.antt"), "")
        self.assert_refused("PROVED is of other sources than stand here")
        os.remove(self.path("crates", "zookie", "specs", "More.antt"))
        self.assert_runs()
        os.remove(self.path("HANDLES"))
        self.assert_refused("PROVED is of other sources than stand here")

    def test_another_list_of_crates(self):
        change(self.path("crates.txt"), b"zookie: hex", b"zookie:")
        self.assert_refused("PROVED is of other sources than stand here")

    def test_a_changed_program(self):
        change(self.path("dist", "new_enemy"), b"verdict clean", b"verdict dirty")
        self.assert_refused("the program is not the one that PROVED names")

    def test_a_changed_proved(self):
        for word, why in ("sources", "PROVED is of other sources than stand here"), ("program", "the program is not the one that PROVED names"):
            with self.subTest(word=word):
                shutil.copy(self.path("dist", "PROVED"), self.path("kept"))
                change(self.path("dist", "PROVED"), b"\n%s " % word.encode(), b"\n%s 0" % word.encode())
                self.assert_refused(why)
                os.replace(self.path("kept"), self.path("dist", "PROVED"))

    def test_no_program(self):
        os.remove(self.path("dist", "new_enemy"))
        self.assert_refused("there is no program")
        os.remove(self.path("dist", "PROVED"))
        self.assert_refused("there is no PROVED")

    def test_a_younger_program_is_not_taken_for_proved(self):
        change(self.path("crates", "zookie", "src", "token.rt"), b"19", b"18")
        write(self.path("crates", "new_enemy", "out", "new_enemy"), "#!/bin/sh\necho verdict clean\n")
        os.chmod(self.path("crates", "new_enemy", "out", "new_enemy"), 0o755)
        self.assert_refused("PROVED is of other sources than stand here")


class Proving(Checkout):
    def setUp(self):
        super().setUp()
        change(self.path("crates", "zookie", "src", "token.rt"), b"19", b"18")

    def test_what_is_proved_here_runs(self):
        self.assertEqual(self.run_command("--prove", kit=True).returncode, 0)
        self.assert_runs()
        change(self.path("crates", "zookie", "src", "token.rt"), b"18", b"17")
        self.assert_refused("PROVED is of other sources than stand here")

    def test_without_the_kit(self):
        run = self.run_command("--prove")
        self.assertEqual(run.returncode, 5)
        self.assertIn("needs the Rattle kit", run.stderr)

    def test_what_fails_or_changes_meanwhile(self):
        self.assertEqual(self.run_command("--prove", kit=True, meanwhile="false").returncode, 5)
        self.assertEqual(self.run_command().returncode, 5)
        self.assertEqual(self.run_command("--prove", kit=True, meanwhile="echo >> ../zookie/src/token.rt").returncode, 5)
        self.assertEqual(self.run_command().returncode, 5)

    def test_what_is_told_each_minute(self):
        """The prover works until that was told; and what tells is gone when the command is."""
        told = os.path.join(self.room, "told")
        wait = "until grep -q 'at work: zookie' '%s'; do sleep 0.05; done" % told
        with open(told, "wb") as err:
            run = subprocess.run([self.path("new_enemy"), "--prove"], stdin=subprocess.DEVNULL, stdout=subprocess.DEVNULL, stderr=err, timeout=300,
                                 env=self.how(True, PROVER=wait, NEW_ENEMY_MINUTE="0.1")["env"])
        self.assertEqual(run.returncode, 0)
        with open(told, encoding="utf-8") as file:
            self.assertRegex(file.read(), r"(?m)^new_enemy: proving for \d+ min; at work: zookie$")
        # A minute is not waited for, also by who reads to the end of what is told.
        self.assertEqual(self.run_command("--prove", kit=True).returncode, 0)

    def test_release(self):
        release = self.path("tools", "dev", "release")
        self.assertEqual(self.run_command(command=release, kit=True).returncode, 1)
        self.assertEqual(self.run_command("--prove", kit=True).returncode, 0)
        run = self.run_command(command=release, kit=True)
        self.assertEqual(run.returncode, 1)
        self.assertIn("it was built by ./new_enemy --prove", run.stderr)
        self.built()
        run = self.run_command("--compare", command=release)
        self.assertEqual((run.returncode, run.stdout.splitlines()[-1]), (1, "0 passed, 1 failed"))
        self.assertEqual(self.run_command(command=release, kit=True).returncode, 0)
        run = self.run_command("--compare", command=release)
        self.assertEqual((run.returncode, run.stdout.splitlines()[-1]), (0, "1 passed, 0 failed"))
        shutil.rmtree(self.path("crates", "new_enemy", "out"))
        self.assert_runs()
        self.assertEqual(self.run_command("--provenance").returncode, 0)

    def test_the_last_line_of_the_gate(self):
        def git(*words):
            return subprocess.run(["git", "-c", "user.name=a", "-c", "user.email=a@localhost", *words], cwd=self.top, check=True, **self.how(False)).stdout

        def told(commit, sources, last):
            write(self.path("crates", "new_enemy", "out", "GATE"), "commit %s\nsources %s\nended now\nlast %s\n" % (commit, sources, last))
            return self.run_command("--gate", command=self.path("tools", "dev", "release"))

        git("init", "-q")
        git("add", "-A")
        git("commit", "-q", "-m", "a commit")
        commit, sources = git("rev-parse", "HEAD").strip(), self.shell('. dist/provenance && sources_sum .').stdout.strip()
        for words, why in (((commit, "0", "9 passed, 0 failed"), "no run of ./check on these sources has ended here"),
                           ((commit + " with 1 changed files", sources, "9 passed, 0 failed"), "it was of commit %s with 1 changed files" % commit),
                           ((commit, sources, "8 passed, 1 failed"), "it ended with 8 passed, 1 failed")):
            run = told(*words)
            self.assertEqual((run.returncode, run.stderr), (1, "release: the gate's last line is not kept: %s\n" % why))
            self.assertFalse(os.path.exists(self.path("dist", "GATE")))
        self.assertEqual(told(commit, sources, "9 passed, 0 failed").returncode, 0)
        with open(self.path("dist", "GATE"), encoding="utf-8") as file:
            self.assertIn("last 9 passed, 0 failed\n", file.read())


class Compared(Checkout):
    """What release --compare says where the gate has built a program of the sources that stand here."""

    def assert_said(self, said, status=0):
        run = self.run_command("--compare", command=self.path("tools", "dev", "release"))
        last = "1 passed, 0 failed" if status == 0 else "0 passed, 1 failed"
        self.assertEqual((run.returncode, run.stdout, run.stderr), (status, "%s\n%s\n" % (said, last), ""))

    def assert_differs(self, why):
        self.assert_said("dist/ does not hold the program that the gate built: " + why, 1)

    def test_the_same_kit(self):
        self.built()
        self.assert_said("dist/ holds the program that the gate built")

    def test_other_bytes_of_the_same_kit(self):
        self.built(data=b"more")
        self.assert_differs("run tools/dev/release, and commit dist/")

    def test_another_proved_of_the_same_kit(self):
        self.built()
        change(self.path("dist", "PROVED"), b"# Of", b"# of")
        self.assert_differs("run tools/dev/release, and commit dist/")

    def test_another_kit(self):
        """Bytes may differ, and are not asked for."""
        said = "dist/ holds the program that the kit %s built of these sources. Here is %s: bytes are not compared" % (VERSION, OTHER_KIT)
        self.built(data=b"more", VERSION=OTHER_KIT)
        self.assert_said(said)
        self.built(VERSION=OTHER_KIT)
        self.assert_said(said + ", though they are equal")

    def test_another_kit_and_another_program_than_proved_names(self):
        self.built(VERSION=OTHER_KIT)
        change(self.path("dist", "new_enemy"), b"verdict clean", b"verdict dirty")
        self.assert_differs("the program is not the one that PROVED names")
        os.remove(self.path("dist", "new_enemy"))
        self.assert_differs("there is no program")

    def test_another_kit_and_other_sources(self):
        change(self.path("crates", "zookie", "src", "token.rt"), b"19", b"18")
        self.built(VERSION=OTHER_KIT)
        self.assert_differs("PROVED is of other sources than stand here")

    def test_another_kit_and_no_gate(self):
        self.shell('. dist/provenance && write_proved dist "$(sources_sum .)" "./new_enemy --prove"', kit=True)
        self.built(VERSION=OTHER_KIT)
        self.assert_differs("it was built by ./new_enemy --prove")
        self.built(by="'./new_enemy --prove'", VERSION=OTHER_KIT)
        self.assert_differs("it was built by ./new_enemy --prove")

    def test_another_logic(self):
        self.built(VERSION=OTHER_LOGIC)
        self.assert_differs("PROVED names the kit %s, and here is %s, of another logic" % (VERSION, OTHER_LOGIC))

    def test_no_proved(self):
        self.built()
        os.remove(self.path("dist", "PROVED"))
        self.assert_differs("run tools/dev/release, and commit dist/")


class Gate(Checkout):
    """What ./check does with dist/, where all else is a stand-in that says what it was called with."""

    OF_TOOLS = ("formatted", "more_edits", "test", "fuzz", "refuse_growth", "refuse_growth_of_calls")
    STAND_INS = ("rows/run", *("tools/dev/" + it for it in OF_TOOLS))
    # formatted, rt ci, more_edits, release --compare, rows/run, test, fuzz, four kinds of calls, and the calls of tests.
    ALL = 5 + 11

    def setUp(self):
        super().setUp()
        shutil.copy(os.path.join(TOP, "check"), self.path("check"))
        for name in self.STAND_INS:
            write(self.path(name), '#!/bin/sh\necho "called $0 $*"\necho "1 passed, 0 failed"\n')
            os.chmod(self.path(name), 0o755)
        self.git("init", "-q")
        self.git("add", "-A")
        self.git("commit", "-q", "-m", "a commit")
        self.commit = self.git("rev-parse", "HEAD").stdout.strip()

    def git(self, *words):
        return subprocess.run(["git", "-c", "user.name=a", "-c", "user.email=a@localhost", *words], cwd=self.top, check=True, **self.how(False))

    def check(self, *words, **more):
        """What ./check prints, where its last line is this one."""
        return self.run_command(*words, command=self.path("check"), kit=True, **more)

    def kept(self):
        with open(self.path("crates", "new_enemy", "out", "GATE"), encoding="utf-8") as file:
            return file.read()

    def more_in_program(self):
        """What makes the program that the gate builds another one than that of dist/."""
        return "echo more >>crates/new_enemy/out/new_enemy"

    def test_the_program_of_dist(self):
        run = self.check()
        self.assertEqual((run.returncode, run.stdout.splitlines()[-1]), (0, "%d passed, 0 failed" % self.ALL))
        self.assertEqual(run.stdout.count("called rows/run"), 1)
        self.assertEqual(run.stdout.count("called tools/dev/more_edits --built --listed --at-once "), 1)
        self.assertIn("commit %s\n" % self.commit, self.kept())
        self.assertNotIn("--release", self.kept())

    def test_another_program(self):
        run = self.check(meanwhile=self.more_in_program())
        self.assertEqual((run.returncode, run.stdout.splitlines()[-1]), (1, "%d passed, 1 failed" % (self.ALL - 1)))
        self.assertEqual(self.git("status", "--porcelain", "--untracked-files=no").stdout, "")

    def test_another_program_that_is_taken(self):
        run = self.check("--release", meanwhile=self.more_in_program())
        self.assertEqual((run.returncode, run.stdout.splitlines()[-1]), (0, "%d passed, 0 failed" % (self.ALL + 1)))
        self.assertIn("dist/ holds the program that the gate built\n", run.stdout)
        self.assertEqual(self.git("status", "--porcelain", "--untracked-files=no").stdout, " M dist/PROVED\n M dist/new_enemy\n")
        # The commit is the one that was checked, which holds the program before.
        self.assertIn("commit %s\n" % self.commit, self.kept())
        self.assertIn("\n# dist/new_enemy and dist/PROVED were taken from this run (--release). In that commit they are older.\n", self.kept())
        self.assertEqual(self.run_command("--gate", command=self.path("tools", "dev", "release")).returncode, 0)

    def test_nothing_is_taken_of_a_gate_that_fails(self):
        run = self.check("--release", meanwhile=self.more_in_program() + "; false")
        self.assertEqual(run.returncode, 1)
        self.assertEqual(self.git("status", "--porcelain", "--untracked-files=no").stdout, "")
        self.assertNotIn("--release", self.kept())
        self.assertNotIn("more_edits", run.stdout)

    def test_another_kit(self):
        """The worked cases run on the program of dist/ too."""
        run = self.check(meanwhile=self.more_in_program(), VERSION=OTHER_KIT)
        self.assertEqual((run.returncode, run.stdout.splitlines()[-1]), (0, "%d passed, 0 failed" % (self.ALL + 1)))
        self.assertIn("called rows/run crates/new_enemy/out/new_enemy\n", run.stdout)
        self.assertIn("called rows/run dist/new_enemy\n", run.stdout)
        run = self.check("--release", meanwhile=self.more_in_program(), VERSION=OTHER_KIT)
        self.assertEqual((run.returncode, run.stdout.count("called rows/run")), (0, 1))

    def test_words_that_it_does_not_know(self):
        for words in (("--fast",), ("--quick", "--release"), ("",)):
            run = self.check(*words)
            self.assertEqual((run.returncode, run.stdout, run.stderr), (3, "", "usage: check [--quick | --release]\n"))
