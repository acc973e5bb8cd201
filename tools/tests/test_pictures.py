"""The pictures of the documents: those of the repository are what is drawn, and each is shown."""
import os
import re
import subprocess
import sys
import unittest

from tests.documents import DOCUMENTS, TOP, read

FOLDER = os.path.join(TOP, "docs", "pictures")
NAMES = sorted(os.listdir(FOLDER))


class Pictures(unittest.TestCase):
    def test_they_are_what_is_drawn(self) -> None:
        run = subprocess.run([sys.executable, os.path.join(TOP, "tools", "dev", "pictures"), "--compare"], capture_output=True, text=True, timeout=300)
        self.assertEqual((run.returncode, run.stdout, run.stderr), (0, "", ""))

    def test_each_is_shown_with_words(self) -> None:
        shown = {link.rsplit("/", 1)[-1]: words for names in DOCUMENTS for words, link in re.findall(r"!\[([^\]]*)\]\(([^)]+\.svg)\)", read(*names))}
        self.assertEqual(sorted(shown), NAMES)
        self.assertTrue(all(shown.values()))

    def test_light_and_dark(self) -> None:
        for name in NAMES:
            with self.subTest(picture=name):
                text = read("docs", "pictures", name)
                self.assertIn("@media (prefers-color-scheme: dark)", text)
                self.assertRegex(text, r"<title id=\"title\">.+</title>\n<desc id=\"about\">.+</desc>")
                self.assertNotRegex(text.replace("http://www.w3.org/2000/svg", ""), "http|<script|<image")

    def test_all_crates_are_in_the_layers(self) -> None:
        listed = [name for name in re.findall(r"^(\w+):", read("crates.txt"), re.MULTILINE) if not name.startswith("tests_")]
        drawn = re.findall(r'class="code"[^>]*>(\w+)<', read("docs", "pictures", "layers.svg"))
        self.assertEqual(sorted(drawn), sorted(listed))


class Readme(unittest.TestCase):
    def test_it_is_short(self) -> None:
        self.assertLessEqual(read("README.md").count("\n"), 100)

    def test_the_time_of_the_gate_is_that_of_its_page(self) -> None:
        found = re.search(r"(\d+) minutes on (\d) cores", read("README.md"))
        assert found is not None
        words = {"2": "two", "4": "four"}
        page = " ".join(read("docs", "GATE.md").split())
        self.assertRegex(page, r"\*\*on %s cores\*\*.*\b%s minutes of wall time" % (words[found[2]], found[1]))
