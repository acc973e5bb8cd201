"""The totals of the page on testing are those of the repository."""
import re
import subprocess
import unittest
from typing import List

from tests.documents import TOP, read

PAGE = read("docs", "TESTING.md")


def rows(heading: str) -> List[List[str]]:
    """The rows of the first table below a heading, behind its head."""
    part = PAGE.split("\n%s\n" % heading)[1].split("\n## ")[0]
    table = next(block for block in part.split("\n\n") if block.startswith("| "))
    lines = [line for line in table.splitlines() if line.startswith("| ")]
    return [[cell.strip().replace("\\|", "|") for cell in re.split(r"(?<!\\)\|", line.strip("|"))] for line in lines[1:]]


def number(text: str) -> int:
    return int(re.sub(r"[,*]", "", text.split()[0]))


class Totals(unittest.TestCase):
    def test_each_is_counted(self) -> None:
        counted = rows("## The totals")
        self.assertGreater(len(counted), 6)
        for what, said, command in counted:
            with self.subTest(what=what):
                now = int(subprocess.run(["bash", "-c", command.strip("`")], cwd=TOP, capture_output=True, text=True, timeout=300).stdout)
                self.assertGreater(now, 0.75 * number(said))
                self.assertLess(now, 1.25 * number(said))

    def test_random_cases(self) -> None:
        """How many there are stands in the tests' files, as constants or behind what the environment says."""
        files, names = "", [""]
        for what, _, said, where in rows("## Random cases"):
            with self.subTest(what=what):
                files = (re.findall(r"`(test_\w+\.py)`", where) or [files])[0]
                names = re.findall(r"`([A-Z_]+)`", where) or names
                constants = dict(re.findall(r"^([A-Z_]+) = (?:int\(os\.environ\.get\(\"\w+\", \")?(\d+)", read("tools", "tests", files), re.MULTILINE))
                pairs = re.findall(r"^([A-Z_]+), ([A-Z_]+) = (\d+), (\d+)$", read("tools", "tests", files), re.MULTILINE)
                constants.update({name: value for one, two, first, second in pairs for name, value in ((one, first), (two, second))})
                product = 1
                for name in names:
                    product *= int(constants[name])
                times = {"twice": 2, "three times": 3}
                product *= next((count for word, count in times.items() if where.endswith(word)), 1)
                self.assertEqual(product, number(said))

    def test_runs_of_the_fuzz(self) -> None:
        runs = re.findall(r"tools/dev/fuzz --runs (\d+)", read("check"))
        self.assertIn("The gate takes {:,} runs".format(int(runs[0])), PAGE)

    def test_the_page_is_shown_to_readers(self) -> None:
        for names in ("README.md",), ("docs", "PROMISES.md"):
            self.assertIn("`docs/TESTING.md`", read(*names))
