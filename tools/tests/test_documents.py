"""The commands that documents show, run as they stand there, give what they say; and what documents name is there."""
import glob
import os
import re

from tests.documents import DOCUMENTS, PAGES, Shown, behind_dollars, imported, in_blocks, modules_of_clauses, read, transcripts
from tests.support import TOP, Case


class Events(Case):
    def test_the_neutral_events(self):
        block = next(block for block in read("docs", "IMPORTING.md").split("\n\n") if block.startswith('    {"event":"rules"'))
        self.put("log", "".join(line.strip() + "\n" for line in block.splitlines()))
        self.assertIn("commits 2, checks 2, content checks 1\n", self.imported("events", "log"))
        self.assertEqual(self.audited(), "entries 3\nfindings 0\nverdict clean\n")


class Transcripts(Shown):
    def setUp(self):
        super().setUp()
        self.link(self.room, "examples", "tools", "bench")

    def test_the_readme(self):
        self.show("README.md")

    def test_formats(self):
        self.show("docs", "FORMATS.md")

    def test_importing(self):
        self.show("docs", "IMPORTING.md")

    def test_reports(self):
        self.show("docs", "REPORTS.md")

    def test_scale(self):
        self.show("docs", "SCALE.md")

    def test_daily(self):
        self.show("docs", "DAILY.md")

    def test_a_page_has_commands_of_one_kind(self):
        for name in PAGES:
            self.assertFalse(in_blocks(read("docs", name)) and behind_dollars(read("docs", name)), name)

    def test_a_command_reaches_the_shell_as_it_stands(self):
        """A backslash at a line's end is one within quotes; and a shell keeps what it was told."""
        self.show_text("    $ NAME=one; printf '%s|' 'a \\\n        b' \\\n        c\n    a \\\n        b|c|\n\n    $ echo $NAME\n    one\n")
        self.show_text("```sh\nNAME=two\nprintf '%s' 'a \\\n  b' \\\n  c\n```\n\n```text\na \\\n  bc\n```\n\n```sh\necho $NAME\n```\n\n```text\ntwo\n```\n")

    def test_every_example_and_document(self):
        documents = [["README.md"], *(["docs", name] for name in PAGES)]
        commands = {names[-1]: [command for command, _ in transcripts(read(*names))] for names in documents}
        self.assertEqual([name for name in commands if commands[name]], ["README.md", "DAILY.md", "FORMATS.md", "IMPORTING.md", "MONITORING.md", "REPORTS.md", "SCALE.md",
                         "TUTORIAL.md"])
        # The page on installing has its commands without a dollar sign; test_package runs these. Units and recipes are named and not run.
        named = [read("docs", name) for name in ("INSTALLING.md", "MONITORING.md", "RECORDING.md")]
        shown = " ".join([*(command for each in commands.values() for command in each), *named])
        for example in os.listdir(os.path.join(TOP, "examples")):
            self.assertIn("examples/" + example, shown)


def rows_of(text):
    """The cells of each row of a document's tables."""
    return [[cell.strip() for cell in line.strip("|").split(" | ")] for line in text.splitlines() if line.startswith("| ")]


def words_of(text):
    """The words of code in a line or a cell."""
    return re.findall(r"`([^`\n]+)`", text)


def sources(crate, kind):
    return glob.glob(os.path.join(TOP, "crates", crate, kind, "*"))


def names_in(paths, form):
    """The names of some files, without their ends, and those of a form in their texts."""
    return {os.path.basename(path).split(".")[0] for path in paths} | {name for path in paths for name in re.findall(form, read(path))}


# What is there once it was written, by tools/dev/release.
WRITTEN = ["dist/GATE"]


PAGES_ELSEWHERE = ["https://research.google/pubs/zanzibar-googles-consistent-global-authorization-system/", "https://authzed.com/spicedb", "https://openfga.dev"]


class Names(Case):
    def test_paths(self):
        for names in DOCUMENTS:
            for word in words_of(read(*names)):
                path = word.split()[0].removeprefix("./")
                if path.split("/")[0] in os.listdir(TOP) and "/out/" not in f"/{path}" and path not in WRITTEN:
                    with self.subTest(document=names[-1], path=path):
                        self.assertTrue(os.path.exists(os.path.join(TOP, path)))

    def test_links(self):
        for names in DOCUMENTS:
            text = read(*names)
            headings = [re.sub(r"[^a-z0-9 -]", "", line.lstrip("# ").lower()).replace(" ", "-") for line in text.splitlines() if line.startswith("#")]
            for link in re.findall(r"\]\(([^)]+)\)", text):
                with self.subTest(document=names[-1], link=link):
                    if link.startswith("#"):
                        self.assertIn(link[1:], headings)
                    elif "://" in link:
                        # A page elsewhere is not asked for; these were.
                        self.assertIn(link, PAGES_ELSEWHERE)
                    else:
                        self.assertTrue(os.path.exists(os.path.join(TOP, *names[:-1], link)))

    def test_definitions(self):
        text = read("docs", "MEANING.md")
        crate = ""
        for part in re.findall(r"^\d+\. .*", text, re.MULTILINE) + [part for row in rows_of(text) for part in row[-1].split("; ")]:
            if part.startswith("law"):
                # Laws are functions of the crate that the part before names.
                definitions, named = words_of(part), names_in(sources(crate, "src"), r"fn (\w+)")
            else:
                crate, *definitions = words_of(part) or [""]
                named = names_in(sources(crate, "specs"), r"\w+")
            for word in definitions:
                with self.subTest(crate=crate, word=word):
                    self.assertTrue(set(word.split(".")) <= named)

    def test_the_length_of_the_reading_path(self):
        """Counted from the clauses down, and so are lines, to a tenth; README says the same of the whole."""
        path = read("docs", "MEANING.md").split("## The words")[0]
        named = [(words_of(line)[0], word) for line in re.findall(r"^\d+\. .*", path, re.MULTILINE) for word in words_of(line.split(":")[0])[1:]]
        shown = {os.path.join(TOP, "crates", crate, "specs", name + ".antt") for crate, name in named}
        below = imported(*modules_of_clauses("new_enemy", "run.rt", "run_on", ["clean", "asked"]))
        counted = [shown, below, imported(("findings", "Headline"))]
        said = re.findall(r"(\d+) modules of some ([\d,]+)\s+lines", path)
        self.assertEqual([int(modules) for modules, _ in said], [len(paths) for paths in counted])
        for (_, lines), paths in zip(said, counted):
            many = int(lines.replace(",", ""))
            self.assertLess(abs(many - sum(read(path).count("\n") for path in paths)), many / 10)
        self.assertIn("%s modules of some %s lines" % said[1], " ".join(read("README.md").split()))

    def test_calls(self):
        rows = [row for row in rows_of(read("docs", "PROMISES.md")) if len(row) == 3 and "::" in row[1]]
        self.assertGreater(len(rows), 100)
        for row in rows:
            crates = {crate for crate in re.findall(r"`(\w+)::", row[1]) if os.path.isdir(os.path.join(TOP, "crates", crate))}
            named = names_in([source for crate in crates for source in sources(crate, "src")], r"(?:fn|ensures|struct) (\w+)")
            # A contract that several calls share is a record, and its clauses are the fields.
            named |= names_in([source for crate in crates for source in sources(crate, "specs")], r"pub (?:record )?(\w+)")
            for word in words_of(row[1] + row[2]):
                with self.subTest(promise=row[0][:60], word=word):
                    self.assertTrue(word.split("::")[-1] in named)

    def test_every_law_is_a_promise(self):
        said = {word.split("::")[-1] for row in rows_of(read("docs", "PROMISES.md")) if len(row) == 3 for word in words_of(row[1])}
        laws = [law for path in glob.glob(os.path.join(TOP, "crates", "*", "src", "laws.rt")) for law in re.findall(r"^pub fn (\w+)", read(path), re.MULTILINE)]
        self.assertTrue(laws)
        self.assertEqual([law for law in laws if law not in said], [])

    def test_the_library_call(self):
        """The page names the program that shows it, which is proved and run with the tests of library calls."""
        self.assertIn("`crates/tests_of_devices/src/in_memory.rt`", read("ARCHITECTURE.md"))
        self.assertIn("fn audit_in_memory(", read("crates", "tests_of_devices", "src", "in_memory.rt"))

    def test_crates(self):
        listed = re.findall(r"^(\w+)", read("crates.txt"), re.MULTILINE)
        layers = read("ARCHITECTURE.md").split("## What the headline rests on")[0]
        self.assertEqual([word for row in rows_of(layers) if len(row) == 3 for word in words_of(row[1])], listed)
