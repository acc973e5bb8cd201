"""The effects of a window's findings are the same, however much of its lines is read for them."""
import json
import os
import unittest.mock
from random import Random

from new_enemy_tools.faults import WindowFault
from new_enemy_tools.findings import FORMS
from new_enemy_tools.trace_lines import OtherForm
from new_enemy_tools.windowing import window_effects
from new_enemy_tools.windowing.audited_window import NOTHING, audited
from new_enemy_tools.windowing.beginning import Keep
from new_enemy_tools.windowing.own_lines import Own
from tests.random_traces import PlainIds, RandomInput
from tests.random_windows import RandomHistory, cut_at_commits
from tests.test_windows import WindowCase

KEYS = ("kind", "at", "name", "relations", "add", "remove", "goal", "snapshot", "reply", "zookie", "version")


class PlainHistory(PlainIds, RandomHistory):
    """With ids that need no escape, and under rules that do not change."""

    def change(self):
        return RandomInput.commit(self)


def imported(given):
    """The lines of random input as importers write them."""
    return [json.dumps({key: value[key] for key in KEYS if value.get(key) not in (None, [])}, ensure_ascii=False, separators=(",", ":")).encode()
            for value in given.values]


class Effects(WindowCase):
    def test_random_histories(self):
        statuses, quick = set(), 0
        for number in range(24):
            random, old = Random("following %d" % number), NOTHING
            for lines in cut_at_commits(random, imported((RandomHistory, PlainHistory)[number % 2](random)), 5):
                own = Own(self.put("window", b"".join(line + b"\n" for line in lines)))
                try:
                    found = audited(own, old, os.environ["NEW_ENEMY"], Keep(0), None, False, lambda count: None)
                except WindowFault:
                    # There is nothing to hand on, and what comes behind it does not fit.
                    break
                statuses.add(found.report.status())
                quick += self.compare_effects(found, own)
                old = found.new
        self.assertEqual(statuses, {0, 1})
        self.assertGreater(quick, 20)

    def compare_effects(self, found, own):
        """They are those by the trace that is read in full; whether they could be told without."""
        rows = window_effects.texts_of(found, own, None)
        with unittest.mock.patch.object(window_effects, "ON_TOKENS", tuple(FORMS)):
            self.assertEqual(window_effects.texts_of(found, own, None), rows)
        with unittest.mock.patch.object(window_effects.Lines, "quickly", side_effect=OtherForm):
            self.assertEqual(window_effects.texts_of(found, own, None), rows)
        with unittest.mock.patch.object(window_effects.Lines, "in_full", side_effect=KeyError):
            try:
                self.assertEqual(window_effects.texts_of(found, own, None), rows)
            except KeyError:
                return False
        return len(rows.rows) > 1
