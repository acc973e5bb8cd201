"""The page of a monitor while it runs: what stands in it, that it is green where all was looked at alone, and that
names are text."""
import os
import re
import shutil
import subprocess
import unittest
import urllib.request

from new_enemy_tools.coverage import Coverage
from new_enemy_tools.labels import Labels
from new_enemy_tools.monitoring.live_page import SILENT, Live, page_of
from new_enemy_tools.shown import grouped
from tests.ports import free_port
from tests.recorded import READY
from tests.support import Case
from tests.test_monitor import BASE, PLACE, RULES, Hooked, files_of, timed
from tests.test_trace_maker import check, rel, write

BROWSER = shutil.which("chromium") or shutil.which("chromium-browser") or shutil.which("google-chrome")
GOOD = Live("log", 1_700_000_000 * 10 ** 9, 3, 1200, {}, {}, ("checks: 1200 whole",), Labels(1200, 40, 50), 0, (), 0.0, (), (), 0)


def color_in(page):
    """The class of the verdict."""
    return re.search('<span class="verdict ([a-z]+)">', page)[1]


class Colors(Case):
    def test_it_is_green_where_all_was_looked_at_alone(self):
        self.assertEqual(color_in(page_of(GOOD, 1.0)), "clean")
        for name, live in (("what is lost", GOOD._replace(missing={"lost in gaps: it was full": 1})),
                           ("what waits", GOOD._replace(waiting=("3 checks wait for a commit that settles them",))),
                           ("checks of other stores", GOOD._replace(elsewhere=2)),
                           ("no check that names a version or carries a token", GOOD._replace(labels=Labels(1200, 0, 0)))):
            with self.subTest(name):
                self.assertEqual(color_in(page_of(live, 1.0)), "incomplete")
        self.assertEqual(color_in(page_of(GOOD._replace(entries=0), 1.0)), "empty")
        self.assertEqual(color_in(page_of(GOOD._replace(findings={("F10", "wrong"): 1}), 1.0)), "dirty")

    def test_a_monitor_that_hangs_is_not_green(self):
        page = page_of(GOOD, SILENT + 5)
        self.assertEqual(color_in(page), "incomplete")
        self.assertIn("The monitor has not looked for 35 seconds", page)

    def test_what_waits_and_what_is_missing_is_told(self):
        page = page_of(GOOD._replace(missing={"lost in gaps: it was full": 7}, waiting=("right has no base state so far",), lag=12.34,
                                     behind=("webhook has not got 2 alerts: it answered 503",)), 1.0)
        self.assertIn("2 checks were of other stores, and are not recorded.", page_of(GOOD._replace(elsewhere=2), 1.0))
        for said in ("7 lost in gaps: it was full", "right has no base state so far", "<strong>12.3 s</strong>",
                     "webhook has not got 2 alerts: it answered 503", "checks: 1200 whole"):
            self.assertIn(said, page)


    def test_numbers_are_written_one_way(self):
        coverage = Coverage(29539, {}, {"contextual tuples": 1234}, {"it was full": 5678}, uncounted=1111, undated=1001, elsewhere=2222)
        page = page_of(GOOD._replace(missing={"lost in gaps: it was full": 5678}, elsewhere=2222, lag=1234.5, told=3333,
                                     coverage=tuple(coverage.lines(grouped))), SILENT + 1000)
        self.assertIn("29,539 whole, 1,234 not audited, 5,678 lost in gaps, and what was asked in 1,111 gaps, 2,222 of other stores", page)
        self.assertEqual(re.findall("[0-9]{4,}(?!-)", page.partition("</style>")[2]), [])


class Shown(Hooked):
    NAME = '<img src="https://elsewhere.example/x" onerror="document.title=1">&"\'\u202e'

    def serve(self):
        """A monitor of a log with a new enemy, whose name is made to do harm; its address."""
        doc = rel("plan", "viewer", self.NAME)
        gap = {"event": "gap", "from": "2026-11-26T10:00:00Z", "to": "2026-11-26T10:00:01Z", "reason": "it was full", "lost": 3}
        events = [RULES, BASE, PLACE, write(5, doc), write(10, remove=[doc]), *[check(10, True, doc)] * 3, gap, check(10, False, doc)]
        self.put_log(files_of(timed(events), []))
        address = "127.0.0.1:%d" % free_port()
        self.one = self.monitor("--metrics", address, "--page")
        # The program tells its findings one by one, and each may be looked at alone.
        self.wait_for(lambda: "3</strong> F10 wrong" in self.asked(address) and "The last" not in self.asked(address),
                      lambda: self.get("monitor.err"))
        return address

    def asked(self, address, path="/"):
        try:
            with urllib.request.urlopen("http://%s%s" % (address, path), timeout=READY) as answer:
                self.headers = answer.headers
                return answer.read().decode()
        except OSError:
            return ""

    def test_the_page_over_http(self):
        address = self.serve()
        self.wait_for(lambda: "bound of the loss" in self.asked(address))
        page = self.asked(address)
        self.assertEqual((self.headers["Content-Type"], self.headers["Cache-Control"]), ("text/html; charset=utf-8", "no-store"))
        self.assertEqual(color_in(page), "dirty")
        for said in ("3</strong> F10 wrong", "3 lost in gaps: it was full", "was let in", "the bound of the loss is passed"):
            self.assertIn(said, page)
        self.assertNotIn("<img", page)
        self.assertNotIn("\u202e", page)
        # Nothing is asked for from elsewhere, and no script runs.
        self.assertEqual(re.findall(r'(?:src|href|action)="', page), [])
        self.assertIn("default-src 'none'", page)
        self.stop(self.one)

    def test_there_is_no_page_that_nobody_asked_for(self):
        """It names users, which the metrics do not."""
        self.log()
        address = "127.0.0.1:%d" % free_port()
        one = self.monitor("--metrics", address)
        self.wait_for(lambda: "entries_total 5" in self.asked(address, "/metrics"))
        self.assertEqual(self.asked(address), "")
        self.stop(one)
        self.ends(self.monitor("--page"), 3)
        self.assertIn("--page goes with --metrics", self.get("monitor.err"))

    @unittest.skipUnless(BROWSER, "there is no browser")
    def test_in_a_browser(self):
        address = self.serve()
        made = self.path("page.png")
        run = subprocess.run([BROWSER, "--headless", "--no-sandbox", "--disable-gpu", "--window-size=1000,1200", "--user-data-dir=" + self.path("profile"),
                              "--screenshot=" + made, "http://%s/" % address], capture_output=True, text=True, timeout=300)
        self.assertTrue(os.path.exists(made), run.stderr)
        self.assertGreater(os.path.getsize(made), 10_000)
        if os.environ.get("KEEP_PAGE"):
            shutil.copy(made, os.environ["KEEP_PAGE"])
        self.stop(self.one)
