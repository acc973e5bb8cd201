"""The recorder's core in a simulated world, by seeds; and that the simulation finds what it is there to find."""
import gzip
import json
import os
import re
import subprocess
import sys
from contextlib import ExitStack
from random import Random
from unittest import mock

from new_enemy_tools.importing import openfga_answers
from new_enemy_tools.importing.events import Relationship
from new_enemy_tools.importing.times import nanoseconds
from new_enemy_tools.recording import bodies, core, http_reading, openfga_feed, relay
from new_enemy_tools.recording.asking import FeedFault
from new_enemy_tools.recording.beside import Word
from new_enemy_tools.recording.core import Core, Now
from new_enemy_tools.recording.lines import gap_line
from new_enemy_tools.recording.log_files import LogFiles
from new_enemy_tools.recording.messages import Beat, Teller, packed
from new_enemy_tools.recording.openfga import Changes, OpenFga
from new_enemy_tools.recording.openfga_feed import OpenFgaFeed
from new_enemy_tools.recording.overlap import Change, Overlap, Read
from new_enemy_tools.recording.places import Places
from new_enemy_tools.recording.reader import Exchange, Reader
from new_enemy_tools.recording.spicedb import Feed, SpiceDb
from tests.simulated_recorder import Whole, run_whole
from tests.simulated_spicedb import run as run_spicedb
from tests.simulated_spicedb import run_either, run_killed
from tests.simulation import STEP, TUPLES, Shape, run
from tests.support import TOOLS, Case

SEEDS, WHOLE = 1000, 600
KILLED = 200


def shape_of(seed, **values):
    made = Shape(Random("shape %d" % seed))
    for name, value in values.items():
        setattr(made, name, value)
    return made


def unshown(seed):
    """Many requests of which all writes pass the recorder, some of which the feed does not show."""
    return shape_of(seed, ours=1, requests=40, length=150, faults=0.2, writes=0.3, hold=60 * STEP, race=0, delay=0)


class Holds(Case):
    def test_no_right_reply_is_accused_and_no_wrong_one_passes(self):
        recorded = lost = 0
        for seed in range(SEEDS):
            _, verdict = run(seed)
            self.assertEqual(verdict.faults(), [], "seed %d" % seed)
            recorded, lost = recorded + len(verdict.entries), lost + verdict.lost
        self.assertGreater(recorded, 2 * lost)

    def test_a_model_that_changes(self):
        """Checks behind it are judged by it, and those that may have been answered by either are right by one."""
        recorded = 0
        for seed in range(100):
            _, verdict = run(seed, shape_of(seed, models=True))
            self.assertEqual(verdict.faults(), [], "seed %d" % seed)
            recorded += sum(any("revision" in row for row in verdict.rows if row["event"] == "rules") for _ in verdict.entries)
        self.assertGreater(recorded, 100)

    def test_where_changes_come_one_by_one_little_is_lost(self):
        recorded = lost = 0
        for seed in range(100):
            _, verdict = run(seed, shape_of(seed, race=0, horizon=0, told_horizon=0, stale=0, writes=0.1, length=150))
            recorded, lost = recorded + len(verdict.entries), lost + verdict.lost
        self.assertGreater(recorded, 30 * lost)

    def test_a_reading_that_outruns_the_answer_of_a_write_of_several_tuples(self):
        """Its changes are one commit all the same, and a reply from between them is wrong."""
        for seed in (5007070, 5011957, 5030260):
            self.assertEqual(run(seed)[1].faults(), [], "seed %d" % seed)

    def test_the_command(self):
        for words in ([], ["--joined"], ["--days"], ["--whole"], ["--spicedb"], ["--killed"], ["--own"]):
            run = subprocess.run([sys.executable, os.path.join(TOOLS, "dev", "simulate"), "--seeds", "20", *words], capture_output=True, text=True,
                                 timeout=300)
            self.assertEqual((run.returncode, run.stdout.splitlines()[-1]), (0, "20 passed, 0 failed"), run.stderr)


class Missed(Case):
    """A reading of several pages may miss that a tuple went before it came again. No seed shows what comes of it where that is not known."""

    def test_a_log_of_the_changes_alone_tells_that_a_tuple_is_in_doubt(self):
        core, lines = Core(OpenFga("S", 0, 10 ** 9, 0, True), 1), list[bytes]()
        core.is_ready, wall, given = True, 10 ** 18, Relationship(*TUPLES[0])
        core.service.takes.takes[given.type, given.relation] = {(given.user_type, None)}
        for at in 10, 20:
            read = Read([Change(given, True, at)], "c", 1, [])
            for message in Changes(at, at + 5, False, read, None), Beat(at + 5):
                core.take(message, Now(wall + at + 5, at + 5))
            lines += core.drained().splitlines()
        told = [json.loads(line) for line in lines]
        self.assertEqual([(row["event"], row.get("userset")) for row in told if row["event"] in ("write", "unmapped")],
                         [("write", None), ("unmapped", list(TUPLES[0][:3])), ("write", None)])


class Finds(Case):
    """A recorder that is wrong in one way is found by some seed, each in the way that it is wrong."""

    def found(self, seeds=150, **values):
        faults = set()
        for seed in range(seeds):
            for fault in run(seed, shape_of(seed, **values))[1].faults():
                faults.add(fault.split(" (check")[0])
        return faults

    def test_readings_that_go_on_behind_the_last_change(self):
        """A commit that comes later than its place is never seen."""
        self.assertIn("a right reply is called wrong", self.found(race=8, back=0))

    def test_a_horizon_that_is_not_known(self):
        self.assertIn("a right reply is called wrong", self.found(horizon=15 * STEP, told_horizon=0, ours=0, faults=0))

    def test_a_horizon_that_writes_prove_is_learnt(self):
        self.assertNotIn("a right reply is called wrong", self.found(horizon=15 * STEP, told_horizon=0, ours=1))

    def test_the_order_of_the_feed_taken_for_that_of_the_commits(self):
        with mock.patch.object(Places, "is_unsure", lambda *words: False):
            self.assertIn("a right reply is called wrong", self.found(500, race=20, writes=0.6, requests=25, length=60, faults=0, ours=0))

    def test_a_check_that_does_not_wait_for_a_reading_behind_it(self):
        with mock.patch.object(OpenFga, "_put_waiting", _at_once):
            self.assertIn("a right reply is called wrong", self.found())

    def test_what_was_known_before_a_check_that_is_forgotten(self):
        kept = Places.window
        with mock.patch.object(Places, "window", lambda self, began, ended: kept(self, 0, ended)), \
                mock.patch.object(Places, "surely", lambda self, window, began, bears: window.low):
            self.assertIn("a wrong reply is called right", self.found(faults=0.6))

    def test_answers_of_writes_that_say_nothing(self):
        """What a write made counts before a check that is asked behind its answer."""
        with mock.patch.object(OpenFga, "_note", lambda self, message: None):
            late = {"horizon": 15 * STEP, "told_horizon": 15 * STEP}
            self.assertIn("a wrong reply is called right", self.found(faults=0.6, ours=1, requests=25, length=150, stale=0, **late))

    def test_a_write_of_several_tuples_that_counts_by_halves(self):
        with mock.patch("new_enemy_tools.recording.openfga._writes", lambda changes, makers: [[place] for place in range(len(changes))]):
            self.assertIn("a wrong reply is called right", self.found(500, faults=0.6, ours=1, writes=0.6, requests=25))

    def test_a_model_that_counts_from_the_beginning(self):
        kept = OpenFga._take_rules

        def take(self, rules, refusals, message, core):
            kept(self, rules, refusals, message, core)
            self.places.rows[-1].low = self.places.rows[-1].high = 0
            self.places.ends[-1] = 0
        with mock.patch.object(OpenFga, "_take_rules", take):
            self.assertIn("a right reply is called wrong", self.found(200, models=True, faults=0))

    def test_a_cache_that_is_not_told(self):
        since = OpenFga._since
        with mock.patch.object(OpenFga, "_since", lambda self, clock, stale: since(self, clock, 0)):
            self.assertIn("a right reply is called wrong", self.found(stale=10 * STEP, faults=0))


class OfTheWhole(Case):
    """The whole recorder, which passes bytes of HTTP, is killed, ended and begun again; and each cure that is taken out is missed by some seed."""

    def assert_found(self, wanted, *patches, seeds=range(WHOLE), has_troubles=None):
        with ExitStack() as stack:
            for one in patches:
                stack.enter_context(one)
            for seed in seeds:
                if any(wanted in fault for fault in run_whole(seed, None, has_troubles)[1].faults()):
                    return
        self.fail(wanted)

    def test_no_right_reply_is_accused_and_what_is_in_no_line_is_in_a_gap(self):
        recorded = lost = 0
        for seed in range(WHOLE):
            _, verdict = run_whole(seed)
            self.assertEqual(verdict.faults(), [], "seed %d" % seed)
            recorded, lost = recorded + len(verdict.entries), lost + verdict.lost
        self.assertGreater(2 * recorded, lost)

    def test_what_the_feed_never_shows_and_who_knows_of_it_is_killed(self):
        """Right replies that rest on a write are called wrong where its keeper alone knew of it; not where the log does."""
        for seed in (*range(60), 455, 866, 3537, 3663):
            self.assertEqual(run_whole(seed, unshown(seed), True)[1].faults(), [], "seed %d" % seed)
        with mock.patch.object(OpenFga, "_take_unshown", lambda *words: None):
            self.assertIn("a right reply is called wrong", {fault.split(" (check")[0] for fault in run_whole(215, unshown(215), True)[1].faults()})

    def test_a_check_that_begins_when_its_head_comes(self):
        kept = Reader._request

        def early(reader, head):
            length = kept(reader, head)
            reader._tell(reader.asked)
            return length
        self.assert_found("a wrong reply is called right", mock.patch.object(Reader, "_request", early))

    def test_a_check_that_begins_before_its_turn(self):
        self.assert_found("a wrong reply is called right", mock.patch.object(Reader, "passing", _passing_at_once))

    def test_a_path_that_is_read_as_it_stands(self):
        """Where calls that are not known are no gap."""
        self.assert_found("a check is neither in the log nor in a gap", mock.patch("new_enemy_tools.recording.reader.path_of", lambda target: target),
                          mock.patch("new_enemy_tools.recording.reader.UNKNOWN", "none"))

    def test_a_call_that_is_not_known_and_passes(self):
        self.assert_found("a check is neither in the log nor in a gap", mock.patch("new_enemy_tools.recording.reader.UNKNOWN", "none"), seeds=(
            855, 1009, 1105))

    def test_a_page_that_is_not_full_taken_for_the_last(self):
        """What it does not show counts as if it had not come."""
        kept = OpenFgaFeed._pages

        def pages(feed, cursor):
            feed.longest = openfga_feed.PAGE
            return kept(feed, cursor)
        self.assert_found("a wrong reply is called right", mock.patch.object(OpenFgaFeed, "_pages", pages))

    def test_a_clock_that_is_set_and_nothing_tells(self):
        """Also a version can then be called unknown whose content was lost by the other time."""
        def come(core, now):
            core.now, ahead = now, now.wall - now.clock
            core.ahead = ahead, ahead, ahead
        for wanted in "a check is neither in the log nor in a gap", "a version that was saved is not known":
            self.assert_found(wanted, mock.patch.object(Core, "_come_to", come), seeds=(692, 1859, 1979, 2242))

    def test_a_label_that_is_read_as_latin_1(self):
        latin = mock.patch.object(Exchange, "_label", lambda exchange, head, name: head.values[name].decode("latin-1").strip())
        self.assert_found("a check has another label than the application said", latin)

    def test_a_label_that_stands_twice(self):
        last = mock.patch.object(Exchange, "_label", lambda exchange, head, name: head.values[name].decode("utf-8"))
        self.assert_found("a line is none of the check", last)

    def test_headers_of_which_one_counts_alone(self):
        self.assert_found("a line is none of the check", mock.patch.object(core, "refuse_headers", lambda *words: None))

    def test_a_stray_end_of_a_line_that_is_none(self):
        """The one holds what the other would let pass."""
        never = re.compile(rb"(?!)")
        self.assert_found("a line is none of the check", mock.patch.object(http_reading, "STRAY", never), mock.patch.object(
            http_reading, "CONTROL", never), mock.patch.object(Reader, "passing", _passing_at_once))

    def test_readings_that_rest_for_long(self):
        rests = mock.patch.object(OpenFgaFeed, "run", _run_with_rests)
        self.assert_found("the changes are read too seldom", rests)

    def test_a_blank_of_unicode_that_ends_a_name(self):
        """Where what can't be read ends the feed too."""
        kept = openfga_feed._change

        def change(given):
            found = kept(given)
            if found.given is None:
                raise FeedFault(found.reason)
            return found
        self.assert_found("the feed: tuple that can't be read", mock.patch.object(openfga_feed, "_change", change), mock.patch.object(
            openfga_answers, "OBJECT", re.compile(r"([^:#\s]+):([^#\s]+)")))

    def test_clients_for_which_there_are_no_files(self):
        """Where what the recorder may have open would let more of them come, and where it could open no more."""
        self.assert_found("a client was refused, and no gap says so", mock.patch.object(relay, "errno", mock.Mock(EMFILE=0, ENFILE=0)))

    def test_messages_for_which_there_is_always_room(self):
        def put(teller, message):
            for one in (message,) if teller.lost is None else (teller.lost, message):
                teller.waiting.append(packed(one))
                teller.size += len(teller.waiting[-1])
            teller.lost = None
            return teller.end is not None
        self.assert_found("more waits for the keeper than there is room for", mock.patch.object(Teller, "_put", put))

    def test_an_answer_that_is_unpacked_whole(self):
        self.assert_found("a line is none of the check", mock.patch.object(bodies, "_unpacked", gzip.decompress))

    def test_a_kill_that_begins_with_the_last_line(self):
        def gap(files, last, now):
            return gap_line(nanoseconds(last), now, "the recorder was killed")
        self.assert_found("a check is neither in the log nor in a gap", mock.patch.object(LogFiles, "_gap_of_killed", gap))

    def test_a_proxy_that_is_killed_and_nothing_tells(self):
        """While its keeper does not keep up."""
        held = [mock.patch.object(Whole, name, Whole._hold_up) for name in ("_die_soon", "_kill_waiting")]
        self.assert_found("a check is neither in the log nor in a gap", mock.patch.object(Core, "_lose_untold", lambda core: None), *held,
                          seeds=(5956,), has_troubles=True)

    def test_a_full_file_that_looks_like_the_end(self):
        """Where the keeper is killed before it has the next."""
        kept = LogFiles.close
        self.assert_found("a check is neither in the log nor in a gap", mock.patch.object(
            LogFiles, "close", lambda files, is_full=False: kept(files)), seeds=(61, 3219, 3679))

    def test_a_proxy_without_the_folder_that_leaves_no_word(self):
        """And is killed with its keeper."""
        self.assert_found("a client was refused, and no gap says so", mock.patch.object(Word, "leave", lambda word, start: None), seeds=(5195,))

    def test_a_line_that_was_cut_and_stays(self):
        """The file can't be read, or has other lines than its end tells."""
        def close(path, size, end):
            with open(path, "ab") as file:
                file.write(end)
        with mock.patch.object(LogFiles, "_close_left", staticmethod(close)), self.assertRaises((ValueError, AssertionError)):
            for seed in range(WHOLE):
                self.assertEqual(run_whole(seed)[1].faults(), [])

    def test_a_recorder_that_goes_on_with_all_that_comes_again(self):
        kept = Overlap.go_on
        self.assert_found("a change stands not in the log, or twice", mock.patch.object(
            Overlap, "go_on", lambda overlap, listed, known, apart, end, received: kept(overlap, listed, [], (), end, received)))

    def test_a_recorder_that_goes_on_behind_all_changes_of_its_base_state(self):
        kept = OpenFgaFeed._take_all

        def take(feed, stored, back):
            _, _, end = kept(feed, stored, back)
            return end, [], end
        self.assert_found("a change stands not in the log, or twice", mock.patch.object(OpenFgaFeed, "_take_all", take))


def _passing_at_once(reader):
    """What goes on to the service, whether it is its turn or not."""
    found, reader.free = reader.free, bytearray()
    while reader.coming:
        found += reader._part_of(reader.coming[0])
        if not reader.coming[0].is_whole or reader.coming[0].held:
            break
        reader.coming.popleft()
    return bytes(found)


def _run_with_rests(feed, left, put):
    """A feed that rests for long when nothing comes."""
    if feed.overlap is None:
        feed._begin(left, put)
    while True:
        read = feed._read(openfga_feed.time.monotonic_ns())
        if read is not None:
            put(read)
        openfga_feed.time.sleep(feed.settings.poll if read is None or read.read.changes else 1.0)


class OfSpiceDb(Case):
    """The same for SpiceDB, whose replies name their snapshots: the log has the findings of the truth, no more and no fewer."""

    def assert_found(self, *wanted, seeds=300, **values):
        """That some seeds show each of some faults."""
        left = set(wanted)
        for seed in range(seeds):
            left -= {fault.split(" (check")[0] for fault in run_spicedb(seed, shape_of(seed, **values))[1].faults()}
            if not left:
                return
        self.fail(left)

    def test_findings_are_those_of_the_truth(self):
        recorded = lost = 0
        for seed in range(SEEDS):
            _, verdict = run_either(seed)
            self.assertEqual(verdict.faults(), [], "seed %d" % seed)
            recorded, lost = recorded + len(verdict.entries), lost + verdict.lost
        self.assertGreater(recorded, 5 * lost)

    def test_a_keeper_that_is_killed(self):
        """With its proxy or without it. The next one asks what the service has by then, which answers had shown; and Watch
        may begin with the last change that the log has."""
        recorded = 0
        for seed in range(KILLED):
            _, verdict = run_killed(seed)
            self.assertEqual(verdict.faults(), [], "seed %d" % seed)
            recorded += len(verdict.entries)
        self.assertGreater(recorded, 500)
        values = {"ours": 1, "faults": 0.6, "requests": 25, "length": 60}
        kept = Feed._base

        def base(feed, left):
            found = kept(feed, left)
            return found._replace(head=found.revision)
        cures = ((24, mock.patch.object(Feed, "_base", base), "a check passes without a stale answer"),
                 (1, mock.patch.object(Feed, "_is_old", _is_old_by_number), "the commits come twice, or have another order than the service's"))
        for seed, taken_out, wanted in cures:
            shape = shape_of(seed, **values) if seed == 24 else shape_of(seed)
            with taken_out:
                self.assertIn(wanted, {fault.split(" (check")[0] for fault in run_killed(seed, shape)[1].faults()})

    def test_what_was_known_before_a_check_that_is_forgotten(self):
        kept = SpiceDb._place
        with mock.patch.object(SpiceDb, "_place", lambda *words: kept(*words[:4], 0, *words[5:])):
            self.assert_found("a check passes without a stale answer", "a check passes without content that is not of the latest state", faults=0.6)

    def test_what_was_known_when_the_core_heard_of_the_beginning(self):
        """What Watch gave before may be told a little later."""
        kept = SpiceDb.decided

        def decided(self, message, request, response, asked, core):
            with mock.patch.object(self.history, "at", lambda clock: asked.known):
                kept(self, message, request, response, asked, core)
        with mock.patch.object(SpiceDb, "decided", decided):
            self.assert_found("a check passes without a stale answer", seeds=1000, faults=0.6)

    def test_commits_that_do_not_wait_for_content_checks(self):
        kept = Core._begin

        def begin(self, message):
            kept(self, message)
            self.sequencer.saves.clear()
        with mock.patch.object(Core, "_begin", begin):
            self.assert_found("a right check is accused of content that is not of the latest state", faults=0)

    def test_checks_that_do_not_wait_for_the_changes(self):
        kept = Core.put_entries
        with mock.patch.object(Core, "put_entries", lambda self, message, answers, place, **values: kept(self, message, answers, 0, **values)):
            self.assert_found("a check stands before a commit that it saw")

    def test_changes_that_come_twice(self):
        with mock.patch.object(Feed, "_is_old", lambda *words: False):
            self.assert_found("the commits come twice, or have another order than the service's")

    def test_a_schema_that_is_read_when_it_has_changed_again(self):
        with mock.patch.object(Feed, "_sure", lambda self, watched, read_at: [watched]):
            self.assert_found("a right check is accused of a wrong reply", models=True, faults=0)

    def test_checks_that_waited_when_the_rules_became_unsure(self):
        with mock.patch.object(Core, "lose_entries", lambda *words: None):
            self.assert_found("the log has another state at a snapshot than the service", models=True, faults=0)


def _is_old_by_number(feed, revision, response):
    """As where nothing is known of transactions."""
    return revision.snapshot is None and (revision.number or 0) <= feed.number


def _at_once(self, message, began_before, core):
    """Places all calls that wait, whatever they wait for."""
    waits, self.waits = self.waits, []
    for one in waits:
        core.tried(one.message, lambda one=one: self._put(one, core))
