"""What tools/dev/more_edits makes of edits and of what the prover says, with a stand-in of `rt`."""
import glob
import os
import shutil
import subprocess
import sys

from edits.edit_texts import apply, edit_of, functions_of, groups_of
from edits.verdicts import PROVED, REFUSED, UNREAD, UNTOLD, verdicts
from tests.support import DEV, TOP, Case

SOURCE = """//! Two lists.

const MOST: usize = 4;

impl Lists {
    pub fn done(&self) -> &[u64]
        ensures { result.now ≡ self.now.done }
    {
        self.done.as_slice()
    }

    pub fn lost(&self) -> &[u64]
        ensures { result.now ≡ self.now.lost }
    {
        self.lost.as_slice()
    }
}

/// Half of a number.
fn half(n: u64) -> u64
    ensures { result ≡ n / 2 }
{
    n / 2
}

#[cycle(parity)]
fn is_even(n: u64) -> bool {
    n == 0 || is_odd(n - 1)
}

#[cycle(parity)]
fn is_odd(n: u64) -> bool {
    n > 0 && is_even(n - 1)
}
"""
EDITS = {
    "done_is_lost": ("self.done.as_slice()", "self.lost.as_slice()"),
    "done_is_nothing": ("self.done.as_slice()", "&[]"),
    "even_is_odd": ("n == 0", "n > 0"),
    "half_is_all": ("    n / 2", "    n"),
    "odd_is_none": ("n > 0 &&", "n > n &&"),
    "lost_is_done": ("self.lost.as_slice()", "self.done.as_slice()"),
    "one_more": ("usize = 4;", "usize = 5;"),
}
METHODS = """impl<'a> Iterator for Users<'a> {
    fn next(&mut self) {
    }
}

impl<T: Drop> From<AllocFailed<T>> for Fault {
    fn from(failed: AllocFailed<T>) -> Fault {
    }
}

impl<'e, E: Sink, N: Names<Found> + Begun> Watch<Found, N> for Teller<'e, E, N> {
    fn seen(&mut self) {
    }
}

fn last() {
}
"""
LEFT = "note: src/lists.rt:6:5: it is not proved that what the function ensures holds when it returns (`returns`)\n"
NOT_PROVED = "logic=not-proved\n"
REFUSE = """grep -n 'self.lost.as_slice\\|&\\[\\]' src/lists.rt |
sed -n 's/^9:.*/note: src\\/lists.rt:6:5: it is not proved that it returns so/p'
grep -n 'self.done.as_slice' src/lists.rt |
sed -n 's/^15:.*/.\\/proofs\\/lists\\/Lists\\/lost\\/Answers.antt:3:1: error: `returns`: no/p'"""
AGAIN = "each crate is proved once more, since there is nothing to begin with: "
# It proves the crate as it stands, leaves `half` without a verdict, and refuses all else.
RT = """#!/bin/sh
case "$1" in
must-fail) for it in must-fail/*.edit; do echo "rt: must-fail low/$(basename "$it"): refused, as it must be$NAMED: a goal"; done; exit 0 ;;
esac
mkdir -p out/incremental; cmp -s src/lists.rt "$ASIS" && { echo logic=proved; exit 0; }
%s
echo logic=not-proved; exit 1
""" % REFUSE
# The same of the kit's compiler, which is asked for some functions alone.
RATTLE = """#!/bin/sh
echo "$*" | sed 's/.*--jobs 1 //' >>"$ASKED"
case "$*" in *"${STRANGE:-nothing}"*) echo "rattle: error: \\`low\\` has no function \\`$STRANGE\\`"; exit 2 ;; esac
cmp -s src/lists.rt "$ASIS" && { echo only=1 proved=1; exit 0; }
%s
echo only=2 proved=1; exit 1
""" % REFUSE


class Edits(Case):
    def crate(self, **edits):
        self.put("crates/low/src/lists.rt", SOURCE)
        for name, (old, new) in (edits or EDITS).items():
            self.put("crates/low/more-edits/%s.edit" % name, "file: src/lists.rt\nold: %s\nnew: %s\n" % (old, new))
        folder = self.path("crates/low")
        edits = os.path.join(folder, "more-edits")
        return [edit_of(os.path.join(edits, it), folder) for it in sorted(os.listdir(edits))]

    def put(self, name, content):
        os.makedirs(os.path.dirname(self.path(name)), exist_ok=True)
        with open(self.path(name), "w", encoding="utf-8") as file:
            file.write(content)

    def test_functions(self):
        found = {it.name: [(of.name, of.first, of.last) for of in it.functions] for it in self.crate()}
        self.assertEqual(found["lost_is_done"], [("lost", 12, 16)])
        self.assertEqual(found["half_is_all"], [("half", 20, 24)])
        self.assertEqual(found["one_more"], [])

    def test_names_as_a_check_has_them(self):
        names = {it.name: it.path for it in functions_of("src/lists.rt", SOURCE)}
        self.assertEqual((names["lost"], names["half"]), ("lists::Lists::lost", "lists::half"))
        self.assertEqual(functions_of("src/lib.rt", SOURCE)[2].path, "half")
        of_traits = ["all::UsersIterator::next", "all::FaultFromAllocFailed::from", "all::TellerWatchFound::seen", "all::last"]
        self.assertEqual([it.path for it in functions_of("src/all.rt", METHODS)], of_traits)

    def test_groups(self):
        groups = [[it.name for it in group] for group in groups_of(self.crate())]
        first = ["done_is_lost", "even_is_odd", "half_is_all", "lost_is_done"]
        self.assertEqual(groups, [first, ["done_is_nothing", "odd_is_none"], ["one_more"]])

    def test_edits_that_make_each_others_old_text(self):
        edits = [it for it in self.crate() if it.name in ("done_is_lost", "lost_is_done")]
        apply(edits, self.path("crates/low"))
        with open(self.path("crates/low/src/lists.rt"), encoding="utf-8") as file:
            lines = file.read().split("\n")
        self.assertEqual((lines[8].strip(), lines[14].strip()), ("self.lost.as_slice()", "self.done.as_slice()"))

    def test_an_old_text_that_stands_twice(self):
        edit, = self.crate(twice=("as_slice()", "len()"))
        self.assertEqual(edit.fault, "an old text stands 2 times in src/lists.rt")

    def test_each_edit_of_the_crates_can_be_applied(self):
        faults = []
        for path in sorted(glob.glob(os.path.join(TOP, "crates", "*", "more-edits", "*.edit"))):
            folder = os.path.dirname(os.path.dirname(path))
            edit = edit_of(path, folder)
            faults += ["%s: %s" % (edit.path, edit.fault)] if edit.fault else []
        self.assertEqual(faults, [])

    def word(self, said, *names):
        edits = [it for it in self.crate() if it.name in names]
        return [verdicts(edits, said)[it.path][0] for it in edits]

    def test_refused_by_a_goal_of_its_own(self):
        self.assertEqual(self.word(LEFT + NOT_PROVED, "done_is_lost", "lost_is_done"), [REFUSED, UNTOLD])
        answers = "./proofs/lists/half/Answers.antt:3:9: error: `returns`: the two types differ\n"
        self.assertEqual(self.word(answers + NOT_PROVED, "done_is_lost", "half_is_all"), [UNTOLD, REFUSED])
        bare = ("fn low::lists::half: no proof: expected answers in ./proofs/lists/half/Answers.antt; "
                "`search` did not prove `returns`\n")
        self.assertEqual(self.word(bare + NOT_PROVED, "half_is_all", "lost_is_done"), [REFUSED, UNTOLD])

    def test_another_method_of_that_name(self):
        answers = "./proofs/lists/ListsOrd/done/Answers.antt:3:9: error: `returns`: the two types differ\n"
        self.assertEqual(self.word(answers + NOT_PROVED, "done_is_lost", "half_is_all"), [UNTOLD, UNTOLD])
        self.assertEqual(self.word(answers.replace("ListsOrd", "Lists") + NOT_PROVED, "done_is_lost", "half_is_all"), [REFUSED, UNTOLD])

    def test_refused_with_its_cycle(self):
        answers = "./proofs/lists/+parity/Answers.antt:3:9: error: `returns`: the two types differ\n"
        self.assertEqual(self.word(answers + NOT_PROVED, "even_is_odd", "half_is_all"), [REFUSED, UNTOLD])
        # the place is that of the first attribute
        place = "note: src/lists.rt:26:1: it is not proved that what the function ensures holds when it returns (`returns`)\n"
        self.assertEqual(self.word(place + NOT_PROVED, "even_is_odd", "half_is_all"), [REFUSED, UNTOLD])

    def test_what_only_calls_shows_nothing(self):
        calls = "fn low::lists::half: no proof: it calls `low::lists::Lists::done`, which is not proved\n"
        self.assertEqual(self.word(LEFT + calls + NOT_PROVED, "done_is_lost", "half_is_all"), [REFUSED, UNTOLD])

    def test_names_that_are_gone_show_nothing(self):
        gone = "./proofs/lists/half/Answers.antt:3:9: error: `returns`: `c.count` is not in scope\n"
        self.assertEqual(self.word(gone + NOT_PROVED, "half_is_all"), [UNTOLD])
        rest = "./proofs/lists/half/Answers.antt:9:5: error: 1 declaration that depends on `returns`, which was rejected, was not checked: m\n"
        self.assertEqual(self.word(rest + NOT_PROVED, "half_is_all"), [UNTOLD])
        broken = "./proofs/lists/half/Answers.antt:3:9: error: `returns`: record `Rattle.low.After-half`\n  has no field `count`\n"
        self.assertEqual(self.word(broken + NOT_PROVED, "half_is_all"), [UNTOLD])

    def test_a_lemma_refuses_an_edit_that_is_alone(self):
        lemma = "./proofs/Halves.antt:7:3: error: `half_of`: the two types differ\n"
        self.assertEqual(self.word(lemma + NOT_PROVED, "one_more"), [REFUSED])
        self.assertEqual(self.word(lemma + NOT_PROVED, "half_is_all", "lost_is_done"), [UNTOLD, UNTOLD])

    def test_no_code(self):
        said = "error[type-mismatch]: expected u64\n  --> src/lists.rt:23:5\n"
        self.assertEqual(self.word(said, "done_is_lost", "half_is_all"), [UNTOLD, UNREAD])

    def test_still_proved(self):
        self.assertEqual(self.word("logic=proved functions=3\n", "half_is_all"), [PROVED])

    def test_some_functions_alone(self):
        self.assertEqual(self.word("only=3 proved=3\n", "half_is_all"), [PROVED])
        self.assertEqual(self.word(LEFT + "only=3 proved=2\n", "done_is_lost", "half_is_all"), [REFUSED, UNTOLD])

    def test_no_verdict(self):
        self.assertEqual(self.word("rattle: no verdict: antt ran out of steps\n", "half_is_all"), [UNTOLD])

    def tool(self, **more):
        """The command in a folder with a kit that has stand-ins, and how it is run."""
        self.put("crates.txt", "low:\nnew_enemy: low  # the program\n")
        self.put("HANDLES", "Handles allowed: none.\n")
        self.put("as-is", SOURCE)
        for name, script in (("rt", RT), ("rattle", RATTLE)):
            self.put("bin/" + name, script)
            os.chmod(self.path("bin/" + name), 0o755)
        shutil.copytree(os.path.join(DEV, "edits"), self.path("tools/dev/edits"))
        shutil.copy(os.path.join(DEV, "more_edits"), self.path("tools/dev"))
        os.symlink(os.path.join(os.path.dirname(DEV), "new_enemy_tools"), self.path("tools/new_enemy_tools"))
        path = os.pathsep.join([self.path("bin"), os.environ["PATH"]])
        names = {"PATH": path, "ASIS": self.path("as-is"), "ASKED": self.path("asked"), "XDG_CACHE_HOME": self.path("cache"), **more}
        return {"env": {**os.environ, **names}, "capture_output": True, "text": True, "timeout": 300}

    def more_edits(self, how, *words):
        run = subprocess.run([sys.executable, self.path("tools/dev/more_edits"), *words], **how)
        return run.returncode, run.stdout.splitlines(), run.stderr.splitlines()

    def test_the_command(self):
        self.crate()
        how = self.tool()
        status, lines, said = self.more_edits(how, "low")
        self.assertEqual(said, [])
        self.assertEqual(lines[0], "low/done_is_lost: refused: note: src/lists.rt:6:5: it is not proved that it returns so")
        self.assertEqual(lines[4], "low/lost_is_done: refused: ./proofs/lists/Lists/lost/Answers.antt:3:1: error: `returns`: no")
        alone = [it.partition(": ")[0] for it in lines if it.endswith(": refused: a goal")]
        self.assertEqual(alone, ["low/even_is_odd", "low/half_is_all", "low/odd_is_none", "low/one_more"])
        self.assertEqual((status, lines[-1]), (0, "7 passed, 0 failed"))
        status, one, _ = self.more_edits(how, "low/done_is_lost")
        self.assertEqual((status, one[0], one[-1]), (0, lines[0], "1 passed, 0 failed"))
        how["env"]["NAMED"] = " (only because a proof file names what the edit took away)"
        status, named, _ = self.more_edits(how, "low/one_more")
        self.assertEqual((status, named[0], named[-1]), (1, "low/one_more: REFUSED FOR A NAME: a goal", "0 passed, 1 failed"))
        status, _, said = self.more_edits(how, "low/done_is_gone")
        self.assertEqual((status, said[-1]), (3, "more_edits: no such edits: low/done_is_gone"))

    def test_the_list_of_the_gate(self):
        self.crate()
        how = self.tool()
        self.put("tools/dev/edits/in_the_gate", "# of a crate\nlow/done_is_lost\nlow/lost_is_done\n")
        status, lines, _ = self.more_edits(how, "--listed")
        self.assertEqual((status, lines[-1]), (0, "2 passed, 0 failed"))
        self.put("tools/dev/edits/in_the_gate", "low/done_is_lost\nlow/done_is_gone\nlow\n")
        status, lines, said = self.more_edits(how, "--listed")
        self.assertEqual((status, lines, said[-1]), (3, [], "more_edits: no such edits: low/done_is_gone, low"))

    def test_what_the_list_names_stands_there(self):
        with open(os.path.join(DEV, "edits", "in_the_gate"), encoding="utf-8") as file:
            names = [it for it in file.read().splitlines() if not it.startswith("#")]
        self.assertEqual(names, sorted(set(names)))
        for it in names:
            crate, edit = it.split("/")
            folder = os.path.join(TOP, "crates", crate)
            found = edit_of(os.path.join(folder, "more-edits", edit + ".edit"), folder)
            self.assertEqual((it, found.fault, bool(found.functions)), (it, "", True))

    def test_the_page_on_the_gate_counts_the_edits(self):
        with open(os.path.join(DEV, "edits", "in_the_gate"), encoding="utf-8") as file:
            listed = sum(not it.startswith("#") for it in file.read().splitlines())
        inside, outside = (len(glob.glob(os.path.join(TOP, "crates", "*", part, "*.edit"))) for part in ("must-fail", "more-edits"))
        with open(os.path.join(TOP, "docs", "GATE.md"), encoding="utf-8") as file:
            self.assertIn("and outside: %d + %d + %d." % (inside, listed, outside - listed), " ".join(file.read().split()))

    def built(self):
        """What `rt ci` and ./check leave: the program, of what it was proved, and the library below it."""
        self.put("crates/new_enemy/out/new_enemy", "the program")
        os.chmod(self.path("crates/new_enemy/out/new_enemy"), 0o755)
        self.put("crates/low/out/rlib/low.rlib/format", "rattle rlib\n")
        os.makedirs(self.path("dist"))
        shutil.copy(os.path.join(TOP, "dist", "provenance"), self.path("dist"))
        write = '. dist/provenance && write_proved crates/new_enemy/out "$(sources_sum .)" ./check'
        subprocess.run(["bash", "-c", write], cwd=self.room, check=True)

    def test_over_what_the_gate_built(self):
        self.crate()
        how = self.tool()
        self.built()
        status, lines, _ = self.more_edits(how, "--built", "--jobs", "1", "low/done_is_lost", "low/lost_is_done", "low/half_is_all")
        self.assertEqual(lines[:3], [
            "low/done_is_lost: refused: note: src/lists.rt:6:5: it is not proved that it returns so",
            "low/lost_is_done: refused: ./proofs/lists/Lists/lost/Answers.antt:3:1: error: `returns`: no",
            "low/half_is_all: not told"])
        self.assertEqual((status, lines[-1]), (1, "2 passed, 1 failed"))
        with open(self.path("asked"), encoding="utf-8") as file:
            asked = file.read().splitlines()
        # what the check with all three leaves untold is asked for once more, alone
        self.assertEqual(asked, ["--only lists::Lists::done --only lists::Lists::lost --only lists::half", "--only lists::half"])

    def test_what_an_earlier_run_refused(self):
        self.crate()
        how = self.tool()
        self.built()
        first = self.more_edits(how, "--built", "--jobs", "1", "low/done_is_lost", "low/half_is_all")[1]
        os.remove(self.path("asked"))
        again = self.more_edits(how, "--built", "--jobs", "1", "low/done_is_lost", "low/half_is_all")[1]
        # what was not refused is tried anew, and so is an edit with another text
        self.assertEqual((first[:2], first[-1]), (again[:2], "1 passed, 1 failed"))
        self.assertIn("low: 1 refused, 1 of them in an earlier run, 1 not, ", again[2])
        with open(self.path("asked"), encoding="utf-8") as file:
            self.assertEqual(file.read().splitlines(), 2 * ["--only lists::half"])
        with open(self.path("crates/low/more-edits/done_is_lost.edit"), "a", encoding="utf-8") as file:
            file.write("\n")
        self.more_edits(how, "--built", "--jobs", "1", "low/done_is_lost")
        with open(self.path("asked"), encoding="utf-8") as file:
            self.assertEqual(file.read().splitlines()[2:], ["--only lists::Lists::done"])

    def test_a_function_by_a_name_that_the_check_does_not_know(self):
        self.crate()
        how = self.tool(STRANGE="lists::half")
        self.built()
        self.more_edits(how, "--built", "--jobs", "1", "low/half_is_all")
        with open(self.path("asked"), encoding="utf-8") as file:
            self.assertEqual(file.read().splitlines()[:2], ["--only lists::half", "--only lists"])

    def test_nothing_that_the_gate_built(self):
        self.crate()
        how = self.tool()
        lines = self.more_edits(how, "--built", "low/done_is_lost")[1]
        self.assertEqual((lines[0], lines[-1]), (AGAIN + "there is no dist/provenance", "1 passed, 0 failed"))
        self.built()
        os.remove(self.path("bin/rattle"))
        lines = self.more_edits(how, "--built", "low/done_is_lost")[1]
        self.assertEqual((lines[0], lines[-1]), (AGAIN + "there is no %s" % os.path.realpath(self.path("bin/rattle")), "1 passed, 0 failed"))
        self.put("crates/new_enemy/src/main.rt", "fn main() {\n}\n")
        lines = self.more_edits(how, "--built", "low/done_is_lost")[1]
        self.assertEqual((lines[0], lines[-1]), (AGAIN + "PROVED is of other sources than stand here", "1 passed, 0 failed"))

    def test_a_library_that_the_gate_did_not_build(self):
        self.crate()
        self.put("crates/new_enemy/src/main.rt", "fn main() {\n    low::half(2);\n}\n")
        self.put("crates/new_enemy/more-edits/three.edit", "file: src/main.rt\nold: half(2)\nnew: half(3)\n")
        how = self.tool()
        self.built()
        self.assertEqual(self.more_edits(how, "--built", "new_enemy")[1][0][:10], "new_enemy/")
        self.put("crates/low/out/rlib/stamp", "of `rt check`")
        lines = self.more_edits(how, "--built", "new_enemy")[1]
        self.assertEqual(lines[0], AGAIN + "the library of low is not of `rt ci`")
