"""The page of a report, as text and in a browser without a screen."""
import os
import re
import shutil
import subprocess
import unittest
from html.parser import HTMLParser
from typing import Optional

from new_enemy_tools.page import PAGE
from new_enemy_tools.texts import zookie_text
from tests.support import Case
from tests.test_effects import BOB, check

BROWSER = shutil.which("chromium") or shutil.which("chromium-browser") or shutil.which("google-chrome")
# An element without an end.
ALONE = ("meta", "input", "rect", "path")
HOSTILE = [
    {"kind": "namespace", "name": "doc", "relations": [{"name": "viewer"}]},
    {"kind": "commit", "at": 5, "add": ["doc:<script>alert(1)</script>#viewer@1", "doc:\"onload=\"x'&amp;#viewer@1"]},
    {"kind": "commit", "at": 6, "remove": ["doc:<script>alert(1)</script>#viewer@1"]},
    {"kind": "check", "goal": "doc:<script>alert(1)</script>#viewer@1", "snapshot": 5, "reply": True, "zookie": zookie_text(6),
     "from": "<b>log</b>.jsonl:3"},
    {"kind": "check", "goal": "doc:\"onload=\"x'&amp;#viewer@1", "snapshot": 5, "reply": True, "zookie": zookie_text(6)}]


class Reader(HTMLParser):
    """The elements of a page with their attributes and texts; raises where one is not closed in its place."""

    def __init__(self, page: str):
        super().__init__()
        self.open: list[tuple[str, list[str]]] = []
        self.found: list[tuple[str, dict[str, Optional[str]], list[str]]] = []
        self.feed(page)
        assert not self.open, self.open

    def handle_starttag(self, tag, attrs) -> None:
        self.found.append((tag, dict(attrs), []))
        if tag not in ALONE:
            self.open.append((tag, self.found[-1][2]))

    def handle_startendtag(self, tag, attrs) -> None:
        self.found.append((tag, dict(attrs), []))

    def handle_endtag(self, tag) -> None:
        assert tag in ALONE or self.open and self.open.pop()[0] == tag, tag

    def handle_data(self, data) -> None:
        """A text is of the innermost element that is open."""
        if self.open:
            self.open[-1][1].append(data)

    def all(self, tag: str) -> list[tuple[dict[str, Optional[str]], str]]:
        return [(attributes, "".join(texts)) for one, attributes, texts in self.found if one == tag]


class Pages(Case):
    def page(self, values: list[dict], report: str, *words: str) -> str:
        self.put("trace.jsonl", values)
        run = self.run_tool("report", "--form", "html", *words, "trace.jsonl", self.put("report.txt", report))
        self.assertEqual((run.returncode, run.stderr), (0, ""))
        return run.stdout

    def bob(self, *words: str) -> str:
        values = BOB + [check(20, 9, True, version="v2"), check(21, 9, False, version="v2"), check(21, 12, True)]
        return self.page(values, "line 5: F2 old token, see line 4\nline 6: F2 old token, see line 4\nline 7: F10 wrong reply\n"
                         "entries 4\nfindings 3\nverdict dirty\n", *words)


class Parts(Pages):
    def test_a_story(self) -> None:
        page = Reader(self.bob())
        stories = page.all("details")
        self.assertEqual([(one["id"], one["data-effect"]) for one, _ in stories], [("story-5-F2", "changed"), ("story-7-F10", "wrong")])
        self.assertEqual([text for _, text in page.all("h3")], ["User 20 was let in: F2 old token (a new enemy)", "User 21 was let in: F10 wrong reply"])
        told = re.sub("<[^>]*>", "", self.bob().split('id="story-5-F2"')[1].split("</ol>")[0])
        for words in ("5doc:plan#viewer@20 was added (line 2)", "9The check looked here, and the service said yes (line 5)",
                      "10doc:plan#viewer@20 was removed, ignored (line 3)",
                      "12Content was checked for doc:plan#editor@30 and got version v2 (line 4)",
                      "12This had to be seen; the answer here is no"):
            self.assertIn(words, told)
        places = [told.index(words) for words in ("was added", "looked here", "was removed", "got version", "had to be seen")]
        self.assertEqual(places, sorted(places))
        self.assertEqual([text for _, text in page.all("figcaption")][:2], ["What the check saw, at 9: allowed", "What it had to see, at 12: denied"])
        self.assertIn("The request carried no token, so it demanded nothing.", [text for _, text in page.all("p")])

    def test_table_and_sums(self) -> None:
        page = Reader(self.bob())
        rows = [one for one, _ in page.all("tr") if "data-effect" in one]
        self.assertEqual([(row["data-finding"], row["data-effect"], row["data-kind"], row["data-namespace"], row["data-object"],
                           row["data-user"]) for row in rows],
                         [("F2", "changed", "check", "doc", "plan", "20"), ("F10", "wrong", "check", "doc", "plan", "21"),
                          ("F2", "none", "check", "doc", "plan", "21")])
        self.assertEqual([text for one, text in page.all("strong") if text.isdecimal()], ["1", "1", "1", "0", "0", "1"])
        self.assertEqual({one.get("name") for one, _ in page.all("select") + page.all("input")},
                         {"effect", "finding", "kind", "namespace", "object", "user"})

    def test_nothing_from_elsewhere(self) -> None:
        for page in (self.bob(), self.page(HOSTILE, "line 4: F1 stale\nline 5: F1 stale\nentries 2\nfindings 2\nverdict dirty\n")):
            self.assertEqual(re.findall(r"""(?:src|srcset|action|data|poster|xlink:href)\s*=""", re.sub("(?s)<script>.*?</script>", "", page)), [])
            links = [one["href"] for one, _ in Reader(page).all("a")]
            self.assertTrue(all(link.startswith("#") for link in links), links)
            self.assertNotIn("http:", page)
            self.assertNotIn("https:", page)
            self.assertNotIn("url(", page)

    def test_texts_of_strangers(self) -> None:
        self.put("ids.jsonl", [{"kind": "user", "type": "user", "id": "a\u202eb\n<i>\ud800", "number": 1}])
        page = self.page(HOSTILE, "line 4: F1 stale\nline 5: F1 stale\nentries 2\nfindings 2\nverdict dirty\n", "--ids", "ids.jsonl")
        read = Reader(page)
        self.assertEqual(len(read.all("script")), 1)
        self.assertEqual(read.all("i") + read.all("b"), [])
        self.assertEqual({one["data-object"] for one, _ in read.all("tr") if "data-object" in one},
                         {"<script>alert(1)</script>", "\"onload=\"x'&amp;"})
        self.assertEqual({one["data-user"] for one, _ in read.all("tr") if "data-user" in one}, {"user:a\\u202eb\\u000a<i>\\ud800"})

    def test_clean(self) -> None:
        page = Reader(self.page(BOB, "entries 1\nfindings 0\nverdict clean\n"))
        self.assertEqual(page.all("table") + page.all("form") + page.all("script"), [])
        self.assertIn(({"class": "verdict clean"}, "clean"), [(one, text) for one, text in page.all("span")])

    def test_files_beside(self) -> None:
        count = 2 * PAGE + 5
        values = BOB[:3] + [check(20, 9, True, zookie=zookie_text(10))] + [check(100 + one, 9, False, zookie=zookie_text(10)) for one in range(count - 1)]
        values[5]["goal"] = "doc:plan#viewer@999999"
        report = "".join("line %d: F1 stale\n" % (line + 4) for line in range(count)) + "entries %d\nfindings %d\nverdict dirty\n" % (count, count)
        self.put("trace.jsonl", values)
        self.put("report.txt", report)
        run = self.run_tool("report", "--form", "html", "trace.jsonl", "report.txt")
        self.assertEqual((run.returncode, run.stdout, run.stderr.splitlines()[-1]), (
            3, "", "ne report: %d findings make more than one page; give --out FILE, and the others go to files beside it" % count))
        self.assertEqual(self.run_tool("report", "--form", "html", "--out", "a#b.html", "trace.jsonl", "report.txt").returncode, 0)
        self.assertEqual(sorted(name for name in os.listdir(self.room) if "html" in name), ["a#b.2.html", "a#b.3.html", "a#b.html"])
        pages = [Reader(self.get(name)) for name in ("a#b.html", "a#b.2.html", "a#b.3.html")]
        self.assertEqual([len([one for one, _ in page.all("tr") if "data-effect" in one]) for page in pages], [PAGE, PAGE, 5])
        self.assertEqual([len(page.all("details")) for page in pages], [1, 0, 0])
        self.assertEqual([one["href"] for one, _ in pages[1].all("a") if "html" in one["href"]], ["./a%23b.html", "./a%23b.3.html"])

    def test_all_or_nothing(self) -> None:
        self.put("page.html", "before")
        os.mkdir(self.path("page.html.part"))
        self.bob_out(5)
        self.assertEqual(self.get("page.html"), "before")

    def bob_out(self, status: int) -> None:
        self.put("trace.jsonl", BOB)
        self.put("report.txt", "entries 1\nfindings 0\nverdict clean\n")
        run = self.run_process("report", "--form", "html", "--out", "page.html", "trace.jsonl", "report.txt")
        self.assertEqual(run.returncode, status, run.stderr)


@unittest.skipUnless(BROWSER, "no Chromium is installed")
class Browser(Pages):
    def loaded(self, address: str, *words: str) -> str:
        """The page as it is once the browser has loaded it and run its script."""
        run = subprocess.run([BROWSER, "--headless", "--no-sandbox", "--disable-gpu", "--user-data-dir=" + self.path("browser"), *words,
                              "--dump-dom", "file://" + address], capture_output=True, text=True, timeout=300)
        self.assertEqual(run.returncode, 0, run.stderr)
        return run.stdout

    def shown(self, page: str) -> list[str]:
        """The findings in the rows that are shown."""
        return [one["data-finding"] + " " + one["data-user"] for one, _ in Reader(page).all("tr")
                if "data-finding" in one and "hidden" not in one]

    def test_filters(self) -> None:
        place = self.put("page.html", self.bob())
        for part, wanted, said in (
                ("", ["F2 20", "F10 21", "F2 21"], "3 of 3"), ("#effect=changed", ["F2 20"], "1 of 3"), ("#user=21", ["F10 21", "F2 21"], "2 of 3"),
                ("#finding=F2&user=2", ["F2 20", "F2 21"], "2 of 3"), ("#object=LA&namespace=doc&kind=check", ["F2 20", "F10 21", "F2 21"], "3 of 3"),
                ("#object=none", [], "0 of 3"), ("#kind=content", [], "0 of 3")):
            page = self.loaded(place + part)
            self.assertEqual(self.shown(page), wanted, part)
            read = Reader(page)
            self.assertEqual([text for _, text in read.all("output")], [said + " findings of this page are shown"])
            stories = [one["data-finding"] for one, _ in read.all("details") if "hidden" not in one]
            self.assertEqual(stories, [one.split()[0] for one in wanted if one in ("F10 21", "F2 20")], part)
            form, = read.all("form")
            self.assertNotIn("hidden", form[0])

    def test_a_link_to_a_story(self) -> None:
        """All is shown, and the story is open, however far down it stands."""
        values = [BOB[0], {"kind": "commit", "at": 5, "add": ["doc:plan#viewer@%d" % user for user in range(12)]},
                  {"kind": "commit", "at": 10, "remove": ["doc:plan#viewer@%d" % user for user in range(12)]}]
        values += [check(user, 9, True, zookie=zookie_text(10)) for user in range(12)]
        page = self.page(values, "".join("line %d: F1 stale\n" % (line + 4) for line in range(12)) + "entries 12\nfindings 12\nverdict dirty\n")
        self.assertEqual(page.count("<details"), 12)
        place = self.put("page.html", page)
        for part, opened in (("", 10), ("#story-15-F1", 11)):
            loaded = self.loaded(place + part)
            self.assertEqual(len(self.shown(loaded)), 12)
            self.assertEqual(len([one for one, _ in Reader(loaded).all("details") if "open" in one]), opened, part)

    def test_a_hostile_page(self) -> None:
        """Nothing of what strangers wrote is run, and the page asks for nothing: without a network it is the same."""
        page = self.page(HOSTILE, "line 4: F1 stale\nline 5: F1 stale\nentries 2\nfindings 2\nverdict dirty\n")
        loaded = self.loaded(self.put("page.html", page), "--host-resolver-rules=MAP * ~NOTFOUND")
        self.assertEqual(self.shown(loaded), ["F1 1", "F1 1"])
        self.assertEqual(len(Reader(loaded).all("script")), 1)

    def test_a_picture_of_it(self) -> None:
        """It is drawn in both colors; people have looked at what it looks like."""
        place, sizes = self.put("page.html", self.bob()), []
        for words in ([], ["--force-dark-mode"]):
            subprocess.run([BROWSER, "--headless", "--no-sandbox", "--disable-gpu", "--user-data-dir=" + self.path("browser"), *words,
                            "--window-size=1000,1200", "--screenshot=" + self.path("page.png"), "file://" + place], check=True,
                           capture_output=True, timeout=300)
            with open(self.path("page.png"), "rb") as file:
                sizes.append(file.read())
        self.assertTrue(all(size[:4] == b"\x89PNG" and len(size) > 20_000 for size in sizes))
        self.assertNotEqual(*sizes)
