"""The sum of what was looked at: what is in it, and when it is whole."""
import unittest

from new_enemy_tools.coverage import Coverage, coverage_in, mark_of, of_row
from new_enemy_tools.importing import causes
from new_enemy_tools.importing.import_summary import Counts
from new_enemy_tools.importing.times import nanoseconds

CHECK = b'{"kind":"check","goal":"doc:a#viewer@1","snapshot":1,"reply":true%s}\n'


class Sums(unittest.TestCase):
    def test_all_that_was_asked_is_in_the_sum_and_a_part_is_not_whole(self):
        sum_ = Coverage(10, {causes.VERSION_UNKNOWN: 3}, {causes.CONTEXTUAL: 2}, {"the recorder did not follow": 5})
        self.assertEqual((sum_.whole, sum_.unaudited, sum_.is_whole, sum_.status()), (7, 10, False, 6))
        self.assertEqual(of_row(sum_.row()), sum_)
        self.assertEqual(list(sum_.lines()), [
            "checks: 7 whole, 3 in part, 2 not audited, 5 lost in gaps",
            "audited in part 3: %s; not looked for: F2, F6" % causes.VERSION_UNKNOWN,
            "not audited 2: contextual tuples", "lost in gaps 5: the recorder did not follow"])

    def test_nothing_is_whole_where_no_check_was_asked(self):
        self.assertEqual([(one.is_whole, one.status(), one.state) for one in (Coverage(), Coverage(1), Coverage(0, uncounted=1))],
                         [(False, 0, "empty"), (True, 0, "whole"), (False, 6, "incomplete")])

    def test_checks_of_other_stores_are_told_and_are_no_part_of_what_is_to_be_looked_at(self):
        sum_ = Coverage(2, elsewhere=3)
        self.assertEqual((sum_.status(), sum_.state, sum_.is_plain, sum_.unaudited), (0, "whole", False, 0))
        self.assertEqual(list(sum_.lines()), ["checks: 2 whole, 3 of other stores, which are not recorded"])
        self.assertEqual(of_row(sum_.plus(sum_).row()), Coverage(4, elsewhere=6))
        self.assertEqual((Coverage(elsewhere=1).state, Coverage(elsewhere=1).is_plain), ("empty", False))

    def test_a_bound_lets_a_share_of_the_checks_be_unaudited(self):
        sum_ = Coverage(98, {}, {causes.CONTEXTUAL: 2})
        self.assertEqual([sum_.status(percent) for percent in (0, 1.9, 2, 50)], [6, 6, 0, 0])

    def test_a_gap_in_which_nobody_counted_is_as_long_as_its_share_of_the_time(self):
        hour = 3_600_000_000_000
        sum_ = Coverage(100, uncounted=1, dark=hour, since=0, until=20 * hour)
        self.assertEqual((sum_.percent, sum_.status(4), sum_.status(5)), (5.0, 6, 0))
        self.assertEqual(sum_._replace(since=None).status(99), 6)

    def test_a_gap_of_unknown_length_may_be_all_of_the_time_beside_others_too(self):
        hour = 3_600_000_000_000
        sum_ = Coverage(100, uncounted=1, dark=hour, since=0, until=100 * hour).plus(Coverage(uncounted=1, undated=1))
        self.assertEqual((sum_.percent, sum_.status(99)), (100.0, 6))
        self.assertEqual(of_row(sum_.row()), sum_)
        self.assertIn("gaps in which nobody counted what was asked: 2, of unknown length 1", sum_.lines())

    def test_a_trace_says_its_sum_in_its_lines_and_its_last(self):
        part = b',"part":"%s"' % causes.VERSION_UNKNOWN.encode()
        lines = CHECK % b"" + CHECK % part + CHECK % b',"again":true'
        left = Coverage(2, {causes.VERSION_UNKNOWN: 1}, {causes.CONTEXTUAL: 1}, {}, 0, 0, nanoseconds("2026-01-01T00:00:00Z"),
                        nanoseconds("2026-01-02T00:00:00.5+00:00"))
        data = lines[:-2] + b"," + mark_of(left).encode() + b"}\n"
        self.assertEqual(coverage_in(data), left)
        self.assertEqual(coverage_in(data + data), left.plus(left))
        self.assertEqual(coverage_in(lines), Coverage(2, {causes.VERSION_UNKNOWN: 1}))

    def test_times_that_are_written_in_another_way_are_in_their_order(self):
        counts = Counts()
        counts.take_times("2024-05-01T00:00:00Z\n\n2024-05-01T00:00:00.08Z\n2024-05-01t00:00:00.0400z\n2024-05-01T00:00:00.001Z")
        self.assertEqual((counts.since, counts.until), tuple(map(nanoseconds, ("2024-05-01T00:00:00Z", "2024-05-01T00:00:00.08Z"))))

    def test_a_trace_that_is_not_as_its_import_left_it_is_not_whole(self):
        data = (CHECK % b"")[:-2] + b"," + mark_of(Coverage(2)).encode() + b"}\n"
        self.assertEqual(coverage_in(data).unknown, "the trace has 1 checks, and its import left 2 in it")
        imported = b'{"kind":"namespace","name":"doc","relations":[{"name":"viewer"}],"ids":{"rows":1,"checksum":""}}\n' + CHECK % b""
        self.assertIn("does not say", coverage_in(imported).unknown)
        self.assertEqual(coverage_in(imported).status(99), 6)

    def test_texts_of_strangers_in_a_sum_are_short_few_and_plain(self):
        many = {'odd "%d"\n%s' % (number, "x" * 200): 1 for number in range(100)}
        row = of_row(Coverage(1, {}, many).row())
        self.assertEqual(sum(row.not_audited.values()), 100)
        self.assertLessEqual(max(map(len, row.not_audited)), 80)
        self.assertLessEqual(len(row.not_audited), 41)
        self.assertFalse(any(letter in cause for cause in row.not_audited for letter in '"\\\n'))

    def test_each_cause_stands_once(self):
        listed = [*causes.IN_PART, *causes.NOT_AUDITED]
        self.assertEqual(len(set(listed)), len(listed))
        self.assertTrue(all(len(cause) <= 80 and '"' not in cause and "\\" not in cause for cause in listed))
