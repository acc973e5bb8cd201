"""The parts of tools/record alone: what reads along with HTTP, the order of a log, its files, and what goes to the keeper."""
import asyncio
import errno
import http.client
import importlib.util
import io
import json
import os
import shutil
import socket
import threading
import time
import unittest
from itertools import chain
from random import Random
from unittest import mock
from urllib.parse import urlsplit

from new_enemy_tools.importing.chained import end_of, head_of
from new_enemy_tools.importing.events import Relationship
from new_enemy_tools.importing.reading import Bad
from new_enemy_tools.importing.service import Answer
from new_enemy_tools.importing.times import nanoseconds
from new_enemy_tools.recording.asking import FeedFault
from new_enemy_tools.recording.beside import Beside, Word, Words
from new_enemy_tools.recording.core import FOREVER, FULL, SET, UNTOLD, Begun, Core, Now
from new_enemy_tools.recording.http_reading import BODY, Head, Messages, Strange, path_of
from new_enemy_tools.recording.keeper import BESIDE, Keeper, Settings
from new_enemy_tools.recording.log_files import LATER, InUse, Left, LogFault, LogFiles, Place, Unshown
from new_enemy_tools.recording.lines import gap_line, line, write_line
from new_enemy_tools.recording.messages import UNKNOWN, Beat, Bye, Ended, Lost, Started, Teller, messages_from, packed
from new_enemy_tools.recording.relay import Relay, Side
from new_enemy_tools.recording.openfga import asks_for_newest, call_of as openfga_call
from new_enemy_tools.recording.openfga_feed import EMPTY, PAGE, OpenFgaFeed
from new_enemy_tools.recording.sequencer import Commit, Known, Sequencer
from new_enemy_tools.recording.spicedb import call_of as spicedb_call
from new_enemy_tools.recording.spicedb_http import HttpSource
from tests.support import Case

SECOND = 10 ** 9
SESSIONS = 300
ANSWER = b"HTTP/1.1 200 OK\r\nContent-Type: application/json\r\n"


def still():
    """A service of which nothing comes."""
    return mock.Mock(doubts=(), learnt=0.0, late=lambda before: [], noted=lambda revision: ([], []))


def read_along(data, sizes):
    """The first words and bodies of messages that come in pieces."""
    heads, bodies = [], []

    def begun(head):
        heads.append(" ".join(head.words))
        return head.length() or 0
    messages = Messages(begun, bodies.append)
    at = 0
    while at < len(data):
        size = sizes()
        messages.feed(data[at:at + size])
        at += size
    return heads, bodies


class Gone(Case):
    def test_a_proxy_that_dies_with_something_unread_ends_the_messages(self):
        """What it told before comes all the same."""
        mine, its = socket.socketpair()
        self.addCleanup(mine.close)
        teller = Teller(its)
        its.setblocking(False)
        teller.tell(Beat(7))
        mine.send(b"unread")
        its.close()
        self.assertEqual(list(messages_from(mine)), [[Beat(7)]])

    def test_messages_come_in_order_however_they_are_cut(self):
        """The last one broke off, and is none."""
        told = [Ended(number, "check", "/p", 3, 4, 5, None, "v", None, 200, b"x" * size, b"{}", None) for number, size in enumerate((0, 7, 200_000, 1))]
        data, at, random, pieces = b"".join(map(packed, told))[:-1], 0, Random(3), []
        while at < len(data):
            pieces.append(data[at:at + random.choice((1, 3, 5000, 65536))])
            at += len(pieces[-1])
        end = mock.Mock(recv=mock.Mock(side_effect=[*pieces, b""]))
        self.assertEqual(list(chain.from_iterable(messages_from(end))), told[:-1])


class Reading(Case):
    def test_however_it_is_cut(self):
        data = (b"POST /check HTTP/1.1\r\nHost: x\r\nContent-Length: 5\r\n\r\nhello" + b"GET /x HTTP/1.1\r\n\r\n"
                + b"POST /y HTTP/1.1\r\nTransfer-Encoding: chunked\r\n\r\n3\r\nabc\r\nA;x=y\r\n0123456789\r\n0\r\nTrailer: t\r\n\r\n"
                + b"POST /z HTTP/1.1\r\ncontent-length: 0\r\n\r\n")
        whole = read_along(data, lambda: len(data))
        self.assertEqual(whole[1], [b"hello", b"", b"abc0123456789", b""])
        for seed in range(200):
            random = Random(seed)
            self.assertEqual(read_along(data, lambda: random.randint(1, 9)), whole)

    def test_what_is_no_http(self):
        for data in (b"\x16\x03\x01" + b"x" * (65 << 10), b"one\r\n\r\n", b"GET / HTTP/1.1\r\nno colon\r\n\r\n",
                     b"POST / HTTP/1.1\r\nContent-Length: x\r\n\r\n", b"POST / HTTP/1.1\r\nTransfer-Encoding: chunked\r\n\r\nzz\r\n"):
            with self.assertRaises(Strange):
                read_along(data, lambda: len(data))

    def test_what_two_readers_may_read_in_two_ways(self):
        """Wherever it is cut, it is refused before a request behind it is read."""
        post, chunked = b"POST /x HTTP/1.1\r\n", b"POST /x HTTP/1.1\r\nTransfer-Encoding: chunked\r\n\r\n"
        for data in (post + b"A: b\nContent-Length: 30\r\n\r\n", b"GET / HTTP/1.1\n\n", post + b"A: b\rC: d\r\n\r\n", post + b"A: \x00\r\n\r\n",
                     post + b"Content-Length: 2\r\nContent-Length: 2\r\n\r\n{}", post + b"Content-Length : 2\r\n\r\n{}",
                     post + b"Content-Length: 2\r\nTransfer-Encoding: chunked\r\n\r\n", post + b"Transfer-Encoding: gzip, chunked\r\n\r\n",
                     post + b"A: b\r\n folded\r\n\r\n", post + b"Content-Length: +2\r\n\r\n{}", chunked + b"+1\r\na\r\n0\r\n\r\n",
                     chunked + b"0x1\r\na\r\n0\r\n\r\n", chunked + b"1_0\r\n", chunked + b"1\na\r\n0\r\n\r\n", chunked + b"1\r\nab\r\n0\r\n\r\n",
                     post + b"A: b\x0bc\r\n\r\n", post + b"A: \x7f\r\n\r\n", chunked + b"0\r\nbad trailer\r\n\r\n", chunked + b"0\r\nA : b\r\n\r\n",
                     chunked + b"0\r\nX-Content-Version: v\r\n\r\n", b"\x16\x03\x01", b"POST /x HTTP/1.0\r\nTransfer-Encoding: chunked\r\n\r\n0\r\n\r\n"):
            for size in (1, 3, len(data)):
                with self.subTest(data=data, size=size), self.assertRaises(Strange):
                    read_along(data + b"GET /later HTTP/1.1\r\n\r\n", lambda size=size: size)

    def test_a_body_in_pieces_of_one_byte(self):
        """What is left is not copied for each of them: that took minutes, in which nobody else was served."""
        data, began = b"POST /x HTTP/1.1\r\nTransfer-Encoding: chunked\r\n\r\n" + b"1\r\nx\r\n" * 300_000 + b"0\r\n\r\n", time.process_time()
        self.assertEqual(read_along(data, lambda: len(data))[1], [b"x" * 300_000])
        self.assertLess(time.process_time() - began, 20)

    @unittest.skipUnless(importlib.util.find_spec("h11"), "h11 is not installed")
    def test_no_session_is_read_in_another_way_than_by_h11(self):
        run = self.run_dev("compare_http", "--sessions", str(SESSIONS))
        self.assertEqual((run.returncode, "two ways" in run.stdout), (0, False), run.stdout)
        with mock.patch.object(Head, "length", lambda head: 0):
            run = self.run_dev("compare_http", "--sessions", "30")
        self.assertEqual(run.returncode, 1, run.stdout)

    def test_first_lines_of_requests(self):
        for first, is_request in ((b"POST /x HTTP/1.1", True), (b"GET /x?a=b HTTP/1.0", True), (b"POST /x HTTP/1.11", False), (b"POST /x HTTP/1.1 ", False),
                                  (b"POST /x HTTP/1.", False), (b"POST /x y HTTP/1.1", False), (b"P(ST /x HTTP/1.1", False), (b"POST /\tx HTTP/1.1", False),
                                  (b"POST /\xc3\xa9 HTTP/1.1", False), (b"POST  /x HTTP/1.1", False), (b"POST /x HTTP/2.0", False)):
            self.assertEqual(Head(first).is_request, is_request, first)

    def test_which_path(self):
        self.assertEqual([path_of(one) for one in ("/stores/S/%63heck", "/stores/S/check#x", "/stores/S/check?a=/b", "http://host/stores/S/check",
                                                   "/stores/%53/check", "/stores/S/./x/%2e./check", "/stores//S/check", "stores/S/check", "*")],
                         ["/stores/S/check"] * 8 + ["/*"])

    def test_a_body_that_is_too_long_is_not_kept(self):
        data = b"POST / HTTP/1.1\r\nContent-Length: %d\r\n\r\n" % (BODY + 1) + b"x" * (BODY + 1) + b"GET / HTTP/1.1\r\n\r\n"
        self.assertEqual(read_along(data, lambda: 1 << 20)[1], [None, b""])

    def test_which_calls(self):
        self.assertEqual([openfga_call("POST", "/stores/A/" + call) for call in ("check", "batch-check", "write", "expand", "check/x")],
                         ["check", "batch", "write", None, UNKNOWN])
        self.assertEqual(openfga_call("POST", "/prefix/stores/A/streamed-list-objects"), "stream")
        self.assertEqual([spicedb_call("POST", path) for path in ("/v1/permissions/check", "/api/v1/a/v1/permissions/resources", "/v1/watch",
                                                                  "/v1/permissions/expand", "/v1/permissions/checkall")],
                         ["check", "stream", None, None, UNKNOWN])

    def test_calls_that_may_decide(self):
        """Those that are not known, and those that only some services read as known ones; none that says what is stored."""
        for path in ("check;x", "check%20", "%63heck", "CHECK", "check:x", "access/v1/evaluation", "reads"):
            self.assertEqual(openfga_call("POST", path_of("/stores/A/" + path.replace("%63", "%2563"))), UNKNOWN, path)
        self.assertEqual([openfga_call(method, "/stores/A/check") for method in ("GET", "post", "PUT", "OPTIONS", "HEAD")], [UNKNOWN] * 3 + [None] * 2)
        self.assertEqual([openfga_call("POST", "/openfga.v1.OpenFGAService/Check"), spicedb_call("POST", "/authzed.api.v1.PermissionsService/CheckPermission")],
                         [UNKNOWN] * 2)
        for path in ("", "/", "/read", "/Read", "/authorization-models", "/authorization-models/M", "/assertions/M", "/changes", "/expand"):
            self.assertEqual([openfga_call(method, path_of("/stores/A" + path)) for method in ("GET", "POST", "DELETE")], [None] * 3, path)
        self.assertEqual([spicedb_call("GET", path) for path in ("/v1/permissions/check", "/v1/schema/read", "/V1/experimental/permissions/x")],
                         [UNKNOWN, None, UNKNOWN])


class Still(io.RawIOBase):
    """What comes of a service that gives an answer and then stands still, for longer than it is waited for."""

    def __init__(self, answer):
        self.answer = answer

    def readable(self):
        return True

    def readinto(self, room):
        if not self.answer:
            raise socket.timeout("timed out")
        count = min(len(room), len(self.answer))
        room[:count], self.answer = self.answer[:count], self.answer[count:]
        return count


class Asking(Case):
    """The recorder's own requests."""

    def source(self, answer, stays=False):
        """Of SpiceDB, from a service that gives an answer and then stands still, or closes the connection."""
        if stays:
            source, connection = HttpSource("http://x", None), http.client.HTTPConnection("x")
            connection.sock = mock.Mock(makefile=lambda *_: io.BufferedReader(Still(b"HTTP/1.1 200 OK\r\n" + answer)))
            source.asker._connected = lambda timeout: connection
            return source
        server = socket.create_server(("127.0.0.1", 0))
        self.addCleanup(server.close)

        def serve():
            one, _ = server.accept()
            self.addCleanup(one.close)
            # What was not read when a connection is closed resets it.
            asked = b""
            while not asked.endswith(b"}"):
                asked += one.recv(1 << 16)
            one.sendall(b"HTTP/1.1 200 OK\r\n" + answer)
            one.close()
        threading.Thread(target=serve, daemon=True).start()
        return HttpSource("http://127.0.0.1:%d" % server.getsockname()[1], None)

    def test_a_service_that_stands_still(self):
        """Where changes are waited for that is no fault; a base state without its end is none."""
        for stays in True, False:
            self.assertEqual(list(self.source(self.CHUNKED, stays).watch("t")), [{"a": 1}])
        self.assertEqual(self.fault(self.CHUNKED, True), "timed out")

    CHUNKED = b'Transfer-Encoding: chunked\r\n\r\n13\r\n{"result":{"a":1}}\n\r\n'

    def fault(self, answer, stays=False):
        """Why a base state can't be read; None where it can."""
        try:
            list(self.source(answer, stays).relationships("document", "t"))
        except FeedFault as fault:
            return str(fault).removeprefix("/v1/relationships/read ends: ")
        return None

    def test_a_base_state_that_is_cut(self):
        """It is none where it may go on: its end has to be seen."""
        line = b'{"result":{"a":1}}\n'
        for answer, is_whole in ((self.CHUNKED + b"0\r\n\r\n", True), (b"Content-Length: 19\r\n\r\n" + line, True), (self.CHUNKED, False),
                                 (b"Content-Length: 38\r\n\r\n" + line, False), (b"\r\n" + line, False)):
            self.assertEqual(self.fault(answer) is None, is_whole, answer)

    def pages_of(self, *pages):
        """The changes that are read of such pages, each with what is on it and its token; and how many were asked for."""
        asked = iter([*pages, ("more", "")] + [("", "")] * EMPTY)
        source = mock.Mock(changes=lambda store, size, cursor: dict(zip(("changes", "continuation_token"), next(asked))))
        feed = OpenFgaFeed(Settings("openfga", "", "", "S", None, False, 30, 0.05, 0, 1, 1), source)
        with mock.patch("new_enemy_tools.recording.openfga_feed._change", str):
            found = ["".join(page) for page, _ in feed._pages(None)]
        return found, len(pages) + 1 + EMPTY - len(list(asked))

    def test_pages_that_are_shorter_than_they_may_be(self):
        """A service may give fewer changes than it was asked for, or none, and go on; the end is where a page is shorter than another one, or
        where it ends with its own token. What is written faster than it is read has an end too."""
        self.assertEqual(self.pages_of(("abc", "3"), ("def", "6"), ("gh", "8")), (["abc", "def", "gh"], 3))
        self.assertEqual(self.pages_of(("abc", "3"), ("", "4"), ("", "5"), ("d", "6")), (["abc", "d"], 4))
        self.assertEqual(self.pages_of(("abc", "3"), ("", "3")), (["abc"], 2))
        self.assertEqual(self.pages_of(("", "")), ([], 1))
        with self.assertRaisesRegex(FeedFault, "do not end"):
            self.pages_of(*(("", str(number)) for number in range(EMPTY)))

    def test_pages_that_do_not_go_on(self):
        page = {"changes": [{}] * PAGE, "continuation_token": "t"}
        source = mock.Mock(changes=mock.Mock(return_value=page))
        feed = OpenFgaFeed(Settings("openfga", "", "", "S", None, False, 30, 0.05, 0, 1, 1), source)
        with mock.patch("new_enemy_tools.recording.openfga_feed._change"), self.assertRaises(FeedFault) as found:
            list(feed._pages(None))
        self.assertEqual(str(found.exception), "the changes do not go on: a whole page ends with the token that it was asked by")


    def test_models_between_two_readings(self):
        """Where several came, it is said that some were not read."""
        listed, told = [], []
        source = mock.Mock(changes=lambda *words: {}, model=lambda store, size: (listed[0]["id"], listed[:size]), models=list)
        feed = OpenFgaFeed(Settings("openfga", "", "", "S", None, False, 30, 0.05, 0, 1, 1), source)
        for ids in "a", "b", "", "dc", "e":
            listed[:0] = [{"id": one, "schema_version": "1.1", "type_definitions": [{"type": "user"}]} for one in ids]
            if ids == "a":
                feed._begin(None, told.append)
            else:
                found = feed._read(1)
                told.append((found.rules and found.rules[0].id, found.skips))
        self.assertEqual(told[1:], [("b", False), (None, False), ("d", True), ("e", False)])


class Demands(Case):
    def test_by_a_name_or_a_number(self):
        """As JSON of protobuf has either; a check whose demand is not known is no check without one."""
        for given, newest in (None, False), ("HIGHER_CONSISTENCY", True), (200, True), ("MINIMIZE_LATENCY", False), (100, False), (0, False):
            self.assertEqual(asks_for_newest({"consistency": given}), newest)
        for given in "HIGHEST", 300, True, {}:
            with self.assertRaises(Bad):
                asks_for_newest({"consistency": given})


class Order(Case):
    def drained(self, sequencer):
        return [one.revision if isinstance(one, Commit) else one.data for one in sequencer.drained()]

    def test_an_entry_stands_behind_what_it_saw(self):
        made = Sequencer()
        made.told_until = 10
        made.put_entry(5, 0, b"five", 1)
        self.assertEqual(self.drained(made), [])
        made.put_commit(Commit(5, b"", 1))
        made.put_commit(Commit(7, b"", 2))
        made.put_entry(6, 0, b"six", 1)
        self.assertEqual((self.drained(made), made.size), ([5, b"five", b"six", 7], 0))

    def test_a_commit_waits_for_content_checks_that_began_before(self):
        made = Sequencer()
        made.told_until = 10
        made.saves[1] = 4
        made.put_commit(Commit(5, b"", 1))
        made.put_entry(5, 0, b"check", 1)
        self.assertEqual(self.drained(made), [])
        del made.saves[1]
        made.put_entry(4, 0, b"content", 1)
        self.assertEqual(self.drained(made), [b"content", 5, b"check"])

    def test_a_content_check_is_written_with_all_that_it_names(self):
        """What stands behind it waits too."""
        made = Sequencer()
        made.told_until = 10
        made.put_commit(Commit(5, b"", 1))
        made.put_commit(Commit(6, b"", 11))
        made.put_entry(4, 0, b"content", 1, 6)
        made.put_entry(5, 0, b"check", 2)
        self.assertEqual((self.drained(made), made.size), ([], len(b"contentcheck")))
        made.told_until = 11
        self.assertEqual((self.drained(made), made.size), ([b"content", 5, b"check", 6], 0))

    def test_a_commit_waits_until_all_before_it_was_told(self):
        made = Sequencer()
        made.put_commit(Commit(5, b"", 8))
        made.told_until = 7
        self.assertEqual(self.drained(made), [])
        made.told_until = 8
        self.assertEqual(self.drained(made), [5])

    def test_what_waits_too_long(self):
        made = Sequencer()
        made.put_entry(9, 1, b"old", 1)
        made.put_entry(8, 3, b"young", 1)
        self.assertEqual([one.data for one in made.take_out(lambda one: one.since < 2)], [b"old"])
        self.assertEqual(([one.data for one in made.ready], made.size), ([b"young"], 5))

    def test_how_much_waits(self):
        """A call that has no room is lost, and not the memory of the machine."""
        core = Core(still(), 30)
        for _ in range(3):
            core.sequencer.put_entry(9, 1, b"x" * 30, 1)
        message = Ended(2, "check", "", 0, 0, 0, None, None, None, 200, None, None, None)
        with mock.patch("new_enemy_tools.recording.core.ROOM", 80):
            core.tried(message, lambda: core.put_entries(message, [], 9))
        self.assertEqual(core.lost, {FULL: 1})

    def test_a_clock_that_is_set_back(self):
        """The gap of what began by a later clock goes from the earlier time to the later one, as an import wants it."""
        core = Core(still(), 30)
        core.now = Now(10 ** 9, 5)
        core.lose("why", 3 * 10 ** 9)
        gap = json.loads(core.gaps.lines(core.now, True))
        self.assertEqual((gap["from"], gap["to"]), ("1970-01-01T00:00:01.000000Z", "1970-01-01T00:00:03.000000Z"))

    def test_a_version_that_is_shown_when_the_clock_was_set_back(self):
        """The gap of its content begins before the time by which it was shown; that of a later recorder has no beginning."""
        core = Core(still(), 30)
        core.take(Beat(0), Now(100 * 10 ** 9, 10 ** 9))
        core.take(Lost(100 * 10 ** 9, 100 * 10 ** 9, 1, "why"), Now(50 * 10 ** 9, 2 * 10 ** 9))
        gap = json.loads(core.gaps.lines(core.now, True))
        self.assertEqual((gap["from"], gap["to"]), ("1970-01-01T00:00:49.000000Z", "1970-01-01T00:02:31.000000Z"))
        self.assertEqual([core.earliest(3 * 10 ** 9), core.latest(3 * 10 ** 9)], [51 * 10 ** 9, 102 * 10 ** 9])
        core.is_first, core.left = False, Left(Place(None, 0, None), 0, 0, "1970-01-01T00:02:00Z", 0)
        gap = json.loads(core._gap_before(0, FOREVER))
        self.assertEqual((gap.get("from"), gap["to"]), (None, "1970-01-01T00:02:00.000000Z"))

    def test_what_a_second_proxy_passed_while_the_first_recorder_still_wrote(self):
        """Its gap begins with the first that was lost, and not where the log before ends."""
        core = Core(still(), 30)
        core.left, core.is_first = Left(Place(None, 0, None), 0, 0, "1970-01-01T00:00:20Z", 0), False
        core.take(Lost(10 * 10 ** 9, 12 * 10 ** 9, 3, "why"), Now(21 * 10 ** 9, 10 ** 9))
        core.begin_log(Begun([], False, Place(None, 0, None)))
        gap = json.loads(next(iter(core.first)))
        self.assertEqual((gap["from"], gap["to"], gap["lost"]), ("1970-01-01T00:00:10.000000Z", "1970-01-01T00:00:21.000000Z", 3))

    def ready(self):
        """A core whose log goes on, ten seconds behind the beginning of both clocks; and the rows that it writes."""
        core = Core(still(), 30)
        core.now = Now(10 * SECOND, 10 * SECOND)
        core.begin_log(Begun([], True, Place(None, 0, None)))
        core.drained()
        return core, lambda now=None: [json.loads(row) for row in core.drained(now).splitlines()]

    def test_a_proxy_that_is_killed(self):
        """What it had not told is a gap, from where all was told; also of a recorder that has no folder yet."""
        core, rows = self.ready()
        core.take(Beat(20 * SECOND), Now(20 * SECOND, 20 * SECOND))
        core.take(Bye(0), Now(25 * SECOND, 25 * SECOND))
        (gap,) = rows()
        self.assertEqual([gap["reason"], nanoseconds(gap["from"]), nanoseconds(gap["to"])], [UNTOLD, 20 * SECOND, 25 * SECOND])
        waits = Core(still(), 30)
        waits.take(Beat(20 * SECOND), Now(20 * SECOND, 20 * SECOND))
        waits.take(Bye(0), Now(25 * SECOND, 25 * SECOND))
        self.assertEqual(waits.gaps.take(), (0, 20 * SECOND))

    def test_a_proxy_that_ends_in_order(self):
        core, rows = self.ready()
        for one in Bye(30 * SECOND), Bye(0):
            core.take(one, Now(30 * SECOND, 30 * SECOND))
        self.assertEqual(rows(), [])

    def test_no_line_has_a_time_before_which_something_has_not_come(self):
        """Where the recorder does not keep up; the gap of one that is killed begins before the last line."""
        core, rows = self.ready()
        core.take(Beat(20 * SECOND), Now(20 * SECOND, 20 * SECOND))
        core.pass_elsewhere()
        core.lose("why", 0)
        core.tick(Now(90 * SECOND, 90 * SECOND))
        found = rows()
        self.assertEqual([(row["event"], nanoseconds(row["time"])) for row in found], [("gap", 20 * SECOND), ("elsewhere", 20 * SECOND)])

    def test_what_goes_back_far_is_told_at_once(self):
        core, rows = self.ready()
        core.lose("first", 0)
        rows()
        for since, told in (19 * SECOND + 1, []), (2 * SECOND, ["why"]):
            core.take(Lost(since, 20 * SECOND, 1, "why"), Now(20 * SECOND, 11 * SECOND - 1))
            self.assertEqual([row["reason"] for row in rows()], told)

    def test_what_is_given_up_late_is_told_before_what_came_since(self):
        core, rows = self.ready()
        message = Ended(2, "check", "", 0, 60 * SECOND, 0, None, None, None, 200, None, None, None)
        answers = [Answer(Relationship("d", "1", "v", "u", "a"), True, None)]
        core.put_entries(message._replace(clock=11 * SECOND), answers, 9)
        core.put_entries(message._replace(clock=60 * SECOND), answers, 0)
        self.assertEqual([row["event"] for row in rows(Now(60 * SECOND, 60 * SECOND))], ["gap", "check"])

    def test_a_clock_that_is_set_is_told(self):
        """Around that, by either time, something may be lost when the recorder is killed; a clock that is read a little late was not set."""
        for wall in 50, 300:
            core = Core(still(), 30)
            core.is_ready = True
            for now in Now(100 * 10 ** 9, 10 ** 9), Now(101 * 10 ** 9 - 5_000_000, 2 * 10 ** 9), Now(wall * 10 ** 9, 3 * 10 ** 9):
                core.take(Beat(0), now)
            gap, = map(json.loads, core.unsaid)
            self.assertEqual((gap["reason"], nanoseconds(gap["from"]), nanoseconds(gap["to"])), (
                SET, (min(wall, 102) - 30) * 10 ** 9, max(wall, 102) * 10 ** 9))

    def test_what_waits_is_not_given_up_where_the_clock_is_set_forward(self):
        core = Core(mock.Mock(late=mock.Mock(return_value=[])), 30)
        core.is_ready = True
        message = Ended(2, "check", "", 0, 0, 10 ** 9, None, None, None, 200, None, None, None)
        core.put_entries(message, [Answer(Relationship("d", "1", "v", "u", "a"), True, None)], 9)
        for wall, clock, waiting in ((10 ** 9, 10 ** 9, 1), (10 ** 12, 2 * 10 ** 9, 1), (10 ** 12, 32 * 10 ** 9, 0)):
            core.tick(Now(wall, clock))
            self.assertEqual(len(core.sequencer.ready), waiting)

    def test_what_was_known_when(self):
        for seed in range(100):
            random, known, told = Random(seed), Known(1), [(0, 1)]
            for _ in range(40):
                at, revision = random.randint(1, 50), random.randint(0, 30)
                known.add(at, revision)
                told.append((at, revision))
                time = random.randint(0, 60)
                self.assertEqual(known.at(time), max(revision for at, revision in told if at <= time))


class Files(Case):
    def log(self, **words):
        made = LogFiles(self.path("log"), "openfga", **words)
        made.lock()
        return made, made.recover()

    def begin(self, log):
        log.add(line("rules", namespaces=[]) + line("write", revision=0, base=True) + line("place", revision=0, rules_sha256="r"))
        log.place = Place(None, 0, "r")

    def paths(self):
        return [os.path.join(self.path("log"), name) for name in sorted(os.listdir(self.path("log"))) if name.endswith(".jsonl")]

    def test_what_is_in_doubt_stays_so_until_a_line_says_else(self):
        """Over the end of a file too, as how late changes are shown; and the last changes of the base state are known to
        come again."""
        one = ("document", "d", "viewer", "user", "a")
        log, _ = self.log(size=600)
        log.add(line("feed", store="S", changes=2, last=[[one, True], [None, True]]))
        self.begin(log)
        log.place = Place("c", 0, "r", 2, doubts=(one,), late=1.5)
        log.add(line("place", **log.place.keys, doubts=[one], late=1.5) + line("place", **log.place.keys))
        log.add(write_line(1, [], []) * 5)
        os.close(log._lock)
        self.assertGreater(len(self.paths()), 1)
        log, left = self.log()
        self.assertEqual((left.place.doubts, [known[:2] for known in left.changes[:2]]), ((one,), [(one, True), (None, True)]))
        log.add(line("place", **log.place.keys, doubts=[]))
        os.close(log._lock)
        place = self.log()[1].place
        self.assertEqual((place.doubts, place.late), ((), 1.5))

    def test_a_content_check_that_names_changes_which_were_not_written(self):
        """Where its recorder was killed in the midst of a write it is taken away with what stands behind it: they may
        come in another order."""
        goal = ["document", "d", "viewer", "user", "a"]
        for between, more, wanted in (([0, 2], 1, False), ([0, 1], 1, True), ([0, 2], 2, True)):
            shutil.rmtree(self.path("log"), ignore_errors=True)
            log, _ = self.log()
            self.begin(log)
            content = line("content", goal=goal, newest_between=between, reply=False, time="2024-01-01T00:00:10Z")
            log.add(content + b"".join(write_line(revision, [], []) for revision in range(1, more + 1)))
            os.close(log._lock)
            log, left = self.log()
            found = self.get("log/000001.jsonl")
            self.assertEqual(('"content"' in found, left.revision), (wanted, more if wanted else 0))
            os.close(log._lock)

    def test_writes_that_are_not_shown(self):
        """Those that no line has settled are left to the next recorder, over the end of a file too, and where it is ended before it goes on."""
        one, other = (Unshown(number, ((("document", "d", "viewer", "user", user), True),), 10 * SECOND, 11 * SECOND)
                      for number, user in ((1, "a"), (2, "b")))
        log, _ = self.log(size=500)
        self.begin(log)
        log.unshown = lambda: [one, other]
        log.add(line("place", **log.place.keys, unshown=[one.values, other.values], time="1970-01-01T00:00:11.000000Z"))
        log.add(write_line(1, [], []) * 5)
        log.add(line("place", **log.place.keys, shown=[1]))
        os.close(log._lock)
        self.assertGreater(len(self.paths()), 1)
        for cut in 0, 10, 10_000:
            log, left = self.log()
            self.assertEqual(left.unshown, (other,))
            log.add(gap_line(None, SECOND, "it never went on"))
            os.close(log._lock)
            # A kill in the midst of the first lines.
            with open(self.paths()[-1], "r+b") as file:
                lines = file.read().split(b"\n")
                file.truncate(len(b"\n".join(lines)) if not cut else len(lines[0]) + min(cut, len(lines[1]) - 1))

    def test_a_first_line_that_was_cut(self):
        """However long it is; and where there is nothing of it."""
        log, _ = self.log()
        self.begin(log)
        log.close()
        os.close(log._lock)
        for size in 0, 5, 5000:
            self.put("log/000002.jsonl", (line("log", number=2, doubts=["x" * 10_000])[:size]).decode())
            log, left = self.log()
            self.assertEqual(left.place.rules, "r")
            os.close(log._lock)
        self.put("log/000002.jsonl", "x" * 10)
        with self.assertRaises(LogFault):
            self.log()

    def test_files_chain(self):
        log, left = self.log(size=300)
        self.assertIsNone(left)
        self.begin(log)
        for number in range(1, 20):
            log.add(write_line(number, [], []))
            log.place = log.place._replace(revision=number)
        log.close()
        paths = self.paths()
        self.assertGreater(len(paths), 3)
        ends = [end_of(path) for path in paths]
        self.assertEqual([end.said for end in ends], [end[:2] for end in ends])
        self.assertEqual([head_of(path) for path in paths], [(number, None if number == 1 else ends[number - 2].found)
                                                            for number in range(1, len(paths) + 1)])

    def test_which_store_a_log_is_of(self):
        """By its first lines, or by the first line of a later file; those of logs of before do not say it."""
        log, _ = self.log()
        log.add(line("feed", store="S") + line("rules", namespaces=[]) + line("write", revision=0, base=True) + line("place", rules_sha256="r"))
        for _ in range(3):
            os.close(log._lock)
            log, left = self.log()
            self.assertEqual(left.place.store, "S")
            log.add(write_line(1, [], []))
        self.assertEqual(len(self.paths()), 4)
        log.close()
        log.place = Place(None, 1, "r")
        log.add(write_line(2, [], []))
        os.close(log._lock)
        self.assertIsNone(self.log()[1].place.store)

    def test_what_a_killed_recorder_left_is_closed(self):
        log, _ = self.log()
        self.begin(log)
        log.add(write_line(1, [], []) + line("place", cursor="c", revision=1, rules_sha256="r") + write_line(2, [], []))
        whole = os.path.getsize(self.paths()[0])
        for cut, writes, revision in ((0, 1, 2), (1, 0, 1), (20, 0, 1)):
            with self.subTest(cut=cut):
                with open(self.paths()[0], "r+b") as file:
                    file.truncate(whole - cut)
                os.close(log._lock)
                log, left = self.log()
                self.assertEqual((left.writes, left.revision, left.place.cursor), (writes, revision, "c"))
                self.assertEqual(end_of(self.paths()[0]).said, end_of(self.paths()[0])[:2])

    def test_a_service_whose_clock_is_ahead_says_nothing_of_when_a_recorder_was_killed(self):
        log, _ = self.log()
        self.begin(log)
        log.add(gap_line(0, 10 ** 11, "why", 1) + write_line(1, [], [], 4 * 10 ** 18))
        os.close(log._lock)
        self.log()
        with open(self.paths()[0], "rb") as file:
            gaps = [json.loads(raw) for raw in file if b'"the recorder was killed"' in raw]
        self.assertEqual([nanoseconds(gap["from"]) for gap in gaps], [10 ** 11 - int((log.hold + LATER) * 1e9)])

    def test_a_full_file_whose_recorder_was_killed_before_the_next(self):
        """What waited had its answer up to so long before its last line as that recorder let it wait."""
        log, _ = self.log(size=300, hold=60)
        self.begin(log)
        log.add(gap_line(0, 1000 * SECOND, "why", 1))
        with mock.patch.object(log, "_open", side_effect=LogFault("no more files")), self.assertRaises(LogFault):
            log.add(write_line(1, [], []) * 5)
        os.close(log._lock)
        log, left = self.log(hold=1)
        self.assertEqual((left.was_killed, nanoseconds(left.time)), (True, (940 - int(LATER)) * SECOND))
        core = Core(mock.Mock(), 1)
        core.left, core.is_first, core.now = left, False, Now(2000 * SECOND, 0)
        self.assertEqual(json.loads(core._gap_before(0, FOREVER))["reason"], "the recorder was killed")
        log.close()
        os.close(log._lock)
        self.assertTrue(self.log()[1].was_killed)

    def test_a_log_that_ended_in_order(self):
        log, _ = self.log(hold=60)
        self.begin(log)
        log.add(gap_line(0, 1000 * SECOND, "why", 1))
        log.close()
        os.close(log._lock)
        _, left = self.log()
        self.assertEqual((left.was_killed, nanoseconds(left.time)), (False, 1000 * SECOND))

    def test_a_recorder_that_is_killed_before_it_told_that_none_had_run(self):
        """Its file has the first line alone, whose time is the end of the log before."""
        log, _ = self.log()
        self.begin(log)
        log.add(gap_line(0, 1000 * SECOND, "why", 1))
        log.close()
        os.close(log._lock)
        log, _ = self.log()
        with mock.patch.object(log, "_put", side_effect=[None, LogFault("killed")]) as put, self.assertRaises(LogFault):
            log.add(b"{}\n")
        self.assertEqual(nanoseconds(json.loads(put.call_args_list[0][0][0])["time"]), 1000 * SECOND)

    def test_a_file_without_its_beginning_is_begun_anew(self):
        log, _ = self.log()
        log.add(line("rules", namespaces=[]))
        os.close(log._lock)
        log, left = self.log()
        self.assertIsNone(left)
        self.assertEqual(self.paths(), [])

    def test_one_recorder_at_a_time(self):
        self.log()
        with self.assertRaises(InUse):
            self.log()

    def test_a_full_disk(self):
        """A line is written whole or not at all, and the log goes on where there is room again."""
        log, _ = self.log()
        self.begin(log)
        kept, room = os.write, [30]

        def write(descriptor, data):
            if room[0] <= 0:
                raise OSError(errno.ENOSPC, "No space left on device")
            written = kept(descriptor, data[:room[0]])
            room[0] -= written
            return written
        with mock.patch("os.write", write):
            with self.assertRaises(LogFault):
                log.add(write_line(1, [], []))
            with self.assertRaises(LogFault):
                log.add(write_line(1, [], []))
        log.add(write_line(1, [], []))
        log.close()
        with open(self.paths()[0], "rb") as file:
            self.assertEqual(file.read().count(write_line(1, [], [])), 1)
        self.assertEqual(end_of(self.paths()[0]).said, end_of(self.paths()[0])[:2])

    def test_a_gap_line(self):
        self.assertEqual(gap_line(None, 1_500_000_000, "why", 2), b'{"event":"gap","to":"1970-01-01T00:00:01.500000Z","reason":"why",'
                         b'"lost":2,"time":"1970-01-01T00:00:01.500000Z"}\n')


class OfOthers(Case):
    """Words in the folder of a log, of what passed other recorders."""

    def keeper(self):
        made = Keeper(Settings("openfga", "", self.room, None, None, False, 30, 1, 0, 1 << 20, 3600), still(), None, mock.Mock())
        made.log = mock.Mock()
        made.core.is_ready, made.core.place = True, Place(None, 0, None)
        return made

    def test_a_word_goes_when_the_log_has_what_it_says(self):
        killed = self.keeper()
        killed.words.leave(Beside(3, 10 * SECOND, 11 * SECOND))
        killed.log.add.side_effect = KeyboardInterrupt
        with self.assertRaises(KeyboardInterrupt):
            killed._take_beside()
        following = self.keeper()
        following._take_beside()
        gap = json.loads(following.log.add.call_args[0][0])
        self.assertEqual((gap["reason"], gap["lost"], nanoseconds(gap["from"])), (BESIDE, 3, 10 * SECOND))
        self.assertEqual(os.listdir(self.room), [])

    def test_a_word_that_cannot_be_taken_away_is_told_once(self):
        keeper = self.keeper()
        keeper.words.leave(Beside(3, 10 * SECOND, 11 * SECOND))
        with mock.patch("new_enemy_tools.recording.beside.os.remove", side_effect=PermissionError):
            for _ in range(3):
                keeper._take_beside()
        self.assertEqual(keeper.core.lost, {BESIDE: 3})

    def test_a_proxy_has_one_word_as_long_as_it_lives(self):
        word, words = Word(self.path("log")), Words(self.path("log"))
        for start in 5, 6:
            word.leave(start)
        self.assertEqual((words.found(), len(os.listdir(self.path("log")))), ({}, 1))
        word.close()
        (path, found), = words.found().items()
        self.assertEqual((path, found.amount, found.start), (word.path, 0, 5))
        self.assertGreater(found.end, 5)

    def test_a_word_that_cannot_be_read_hides_no_other(self):
        words = Words(self.room)
        self.put("beside-1-a", "{")
        words.leave(Beside(3, 1, 2))
        self.assertEqual(list(words.found().values()), [Beside(3, 1, 2)])


class Telling(Case):
    def setUp(self):
        super().setUp()
        mine, its = socket.socketpair()
        mine.setblocking(False)
        self.teller, self.its, self.got = Teller(mine), its, []
        self.addCleanup(its.close)
        self.addCleanup(mine.close)

    def read(self):
        """Reads all that is told, in a thread, while the teller writes what waits."""
        reader = threading.Thread(target=lambda: self.got.extend(chain.from_iterable(messages_from(self.its))))
        reader.start()
        while not self.teller.flush():
            time.sleep(0.001)
        self.teller.catch_up()
        while not self.teller.flush():
            time.sleep(0.001)
        self.teller.end.close()
        reader.join()

    def test_all_that_has_room_comes(self):
        told = [Started(1, 2, True, "check"), Ended(1, "check", "/p", 3, 4, 5, "v", None, None, 200, b"x" * 2_000_000, None, None), Bye(6)]
        for one in told:
            self.teller.tell(one)
        self.read()
        self.assertEqual(self.got[:-1], told)

    def test_what_has_no_room_is_counted(self):
        with mock.patch("new_enemy_tools.recording.messages.ROOM", 1_000_000):
            for _ in range(30):
                self.teller.tell(Ended(1, "check", "/p", 3, 4, 5, None, None, None, 200, b"x" * 100_000, None, None))
            self.assertGreater(self.teller.lost.amount, 10)
            self.read()
        self.assertEqual(sum(isinstance(one, Ended) for one in self.got) + sum(one.amount for one in self.got if isinstance(one, Lost)), 30)
        self.assertIsInstance(self.got[-1], Beat)

    def test_writes_are_told_when_there_is_room_and_to_each_keeper(self):
        """What was made may rest on nothing else; of those that failed nothing is to be known."""
        writes = [Ended(number, "write", "/w", 3, 4, 5 + number, None, None, None, 400 if number == 9 else 200, b"x" * 100_000, b"{}", None)
                  for number in range(30)]
        with mock.patch("new_enemy_tools.recording.messages.ROOM", 1_000_000):
            for one in writes:
                self.teller.tell(one)
            self.assertGreater(self.teller.lost.amount, 10)
            self.read()
        made = [one for one in writes if one.status == 200]
        self.assertEqual([one for one in self.got if isinstance(one, Ended) and one.status == 200], made)
        self.got, (mine, self.its) = [], socket.socketpair()
        self.addCleanup(mine.close)
        self.addCleanup(self.its.close)
        mine.setblocking(False)
        with mock.patch("new_enemy_tools.recording.messages.WRITTEN", 1_000_000):
            self.teller.begin(mine)
            self.read()
        self.assertEqual([one for one in self.got if isinstance(one, Ended)], made)

    def test_the_last_writes_alone_are_kept(self):
        with mock.patch("new_enemy_tools.recording.messages.WRITTEN", 1_000_000):
            for number in range(30):
                self.teller.tell(Ended(number, "write", "/w", 3, 4, 5, None, None, None, 200, b"x" * 100_000, b"{}", None))
        self.assertEqual([one.number for one in self.teller.writes.kept], list(range(21, 30)))

    def test_the_answer_of_a_write_is_told_before_it_is_passed_on(self):
        async def run():
            relay, seen = Relay(urlsplit("http://127.0.0.1:1"), self.teller, openfga_call), []
            client, service = relay.client(), Side(relay, None, False)
            client.transport, service.transport = mock.Mock(), mock.Mock()
            client.transport.is_closing = lambda: False
            client.transport.write = lambda data: seen.append((data, [one for batch in self.told_now() for one in batch if isinstance(one, Ended)]))
            service.reader, service.other = client.reader, client
            client.begin(service)
            for path in b"write", b"check":
                client.take(b"POST /stores/S/%s HTTP/1.1\r\nHost: x\r\nContent-Length: 2\r\n\r\n{}" % path)
                await asyncio.sleep(0)
                service.take(b"HTTP/1.1 200 OK\r\nContent-Length: 2\r\n\r\n{}")
            self.assertEqual([[one.call for one in told] for _, told in seen], [["write"], []])
        asyncio.run(run())

    def told_now(self):
        self.its.setblocking(False)
        return messages_from(self.its)

    def test_what_is_gathered_goes_at_once(self):
        """However little of it the socket takes at a time; before a request goes on, what was told of it has."""
        told, sent, random = [Started(number, 2, False, "check") for number in range(300)], bytearray(), Random(1)

        def send(data):
            size = random.randint(1, min(len(data), 5000))
            sent.extend(data[:size])
            return size
        self.teller.gathers, kept = True, self.teller.end
        self.teller.end = mock.Mock(send=mock.Mock(side_effect=send))
        for one in told:
            self.teller.tell(one)
        self.assertEqual((bytes(sent), self.teller.end.send.call_count), (b"", 0))
        self.assertTrue(self.teller.flush())
        self.assertEqual((bytes(sent), self.teller.size), (b"".join(map(packed, told)), 0))
        self.teller.end = kept

    def test_a_request_goes_on_when_it_was_told(self):
        async def run():
            relay, seen = Relay(urlsplit("http://127.0.0.1:1"), self.teller, openfga_call), []
            transport = mock.Mock(write=lambda data: seen.append((data, self.its.recv(1 << 16))))
            self.teller.tell(Started(1, 2, False, "check"))
            relay.put(transport, b"request")
            self.assertEqual(seen, [])
            await asyncio.sleep(0)
            self.assertEqual(seen, [(b"request", packed(Started(1, 2, False, "check")))])
        asyncio.run(run())

    def test_what_is_lost_is_told_before_what_was_lost_goes_on(self):
        """A proxy that is killed then has said it."""
        mine, its = socket.socketpair()
        self.addCleanup(mine.close)
        self.addCleanup(its.close)
        teller = Teller(its)
        teller.gathers = True
        teller.lose("why")
        teller.flush()
        [found] = next(messages_from(mine))
        self.assertEqual((found.amount, found.reason, teller.has_told()), (1, "why", True))

    def test_without_a_keeper(self):
        teller = Teller(None)
        teller.tell(Bye(1))
        self.assertEqual((teller.lost.amount, teller.lost.reason), (1, "the keeper of the log was gone"))
