"""The version and the logic, which several places name."""
import os
import re
import subprocess

from new_enemy_tools import VERSION
from tests.packaged import kit_line
from tests.documents import read
from tests.support import Case


def logic() -> str:
    """The logic of the kit that built the program."""
    return kit_line().rpartition(" logic ")[2]


def version_of_the_program() -> str:
    """That of the tools, but where the changes say that the program has not been proved with it yet."""
    other = re.search(r"(?m)\AThe program in `dist/` says ([0-9.]+),", read("CHANGELOG.md").split("## ")[1].partition(". ")[2])
    return other[1] if other else VERSION


class Versions(Case):
    def test_the_program_says_the_version_that_the_changes_name_and_the_logic_of_the_kit_that_built_it(self) -> None:
        """The logic in the line of the kit of the file PROVED beside the program, or of dist/PROVED."""
        said = subprocess.run([os.environ["NEW_ENEMY"], "--version"], capture_output=True, text=True, timeout=300).stdout
        self.assertEqual(said, "new_enemy %s (logic %s)\n" % (version_of_the_program(), logic()))

    def test_the_tools_say_it(self) -> None:
        run = self.run_tool("--version")
        self.assertEqual((run.returncode, run.stdout, run.stderr), (0, "new_enemy tools %s\n" % VERSION, ""))

    def test_the_newest_of_the_changes(self) -> None:
        self.assertEqual(re.findall(r"(?m)^## ([0-9.]+)", read("CHANGELOG.md"))[0], VERSION)

    def test_the_logic_of_the_documents(self) -> None:
        self.assertIn("`logic %s`" % logic(), read("README.md"))
