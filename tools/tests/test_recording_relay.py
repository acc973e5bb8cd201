"""The proxy of tools/record: every byte passes as it came, whatever it is, and what can be read along is told."""
import asyncio
import gzip
import json
import os
import socket
import threading
import time
from itertools import chain
from random import Random
from unittest import mock
from urllib.parse import urlsplit

from new_enemy_tools.importing.reading import Bad
from new_enemy_tools.recording.bodies import body_of, request_of
from new_enemy_tools.recording.messages import Ended, Started, Teller, messages_from
from new_enemy_tools.recording.openfga import call_of
from new_enemy_tools.recording.reader import Reader
from new_enemy_tools.recording.relay import LEAST, Relay, Side
from tests.support import Case

HEAD = b"POST /stores/A/check HTTP/1.1\r\nHost: x\r\nAuthorization: Bearer z\r\nX-Content-Save: v1\r\n"
JSON = b'{"allowed":true}'
OK = b"HTTP/1.1 200 OK\r\nContent-Length: 16\r\n\r\n" + JSON


def chunked(data, size=7):
    return b"".join(b"%x\r\n%s\r\n" % (len(data[at:at + size]), data[at:at + size]) for at in range(0, len(data), size)) + b"0\r\n\r\n"


class Unchanged(Case):
    def passed(self, request, answer, is_half_closed=False, seed=1):
        """What the service got and what the client got, in pieces of any size, and what was told. Of several requests, in a list, the
        service answers each before it reads the next."""
        mine, its = socket.socketpair()
        mine.setblocking(False)
        told = []
        reader = threading.Thread(target=lambda: told.extend(chain.from_iterable(messages_from(its))))
        reader.start()
        got = asyncio.run(self.relayed(Teller(mine), request, answer, is_half_closed, Random(seed)))
        mine.close()
        reader.join()
        its.close()
        return got, told

    async def relayed(self, teller, request, answer, is_half_closed, random):
        got, done = bytearray(), asyncio.Event()
        requests, answers = ([one] if isinstance(one, bytes) else one for one in (request, answer))

        async def serve(reader, writer):
            for number, answer in enumerate(answers, 1):
                while len(got) < sum(map(len, requests[:number])) and (data := await reader.read(random.randint(1, 100_000))):
                    got.extend(data)
                at = 0
                while at < len(answer):
                    size = random.randint(1, max(10, len(answer) // 5))
                    writer.write(answer[at:at + size])
                    await writer.drain()
                    at += size
            writer.close()
            done.set()
        server = await asyncio.start_server(serve, "127.0.0.1", 0)
        relay = Relay(urlsplit("http://127.0.0.1:%d" % server.sockets[0].getsockname()[1]), teller, call_of)
        await relay.serve("127.0.0.1", 0)
        reader, writer = await asyncio.open_connection(*relay.server.sockets[0].getsockname())
        writer.write(b"".join(requests))
        if is_half_closed:
            writer.write_eof()
        answered = await asyncio.wait_for(read_all(reader), 120)
        writer.close()
        await done.wait()
        await relay.close()
        relay.stop()
        server.close()
        while not teller.flush():
            await asyncio.sleep(0.001)
        return bytes(got), answered

    def assert_passes(self, request, answer, **words):
        got, told = self.passed(request, answer, **words)
        self.assertEqual(got, tuple(one if isinstance(one, bytes) else b"".join(one) for one in (request, answer)))
        return told

    def test_a_check(self):
        started, ended = self.assert_passes(HEAD + b"Content-Length: 2\r\n\r\n{}", OK)
        self.assertEqual((started.number, started.save), (ended.number, True))
        self.assertEqual((ended.call, ended.save, ended.version, ended.status, ended.request, ended.response), ("check", "v1", None, 200, b"{}", JSON))
        self.assertNotIn(b"Bearer", repr(ended).encode())

    def test_chunks_and_pieces(self):
        for seed in range(10):
            request = HEAD + b"Transfer-Encoding: chunked\r\n\r\n" + chunked(b'{"a":"' + b"x" * 1000 + b'"}')
            answer = b"HTTP/1.1 200 OK\r\nTransfer-Encoding: chunked\r\n\r\n" + chunked(JSON)
            ended = self.assert_passes(request, answer, seed=seed)[-1]
            self.assertEqual((len(ended.request), ended.response), (1008, JSON))

    def test_an_answer_that_goes_on_to_the_end(self):
        ended = self.assert_passes(HEAD + b"Content-Length: 2\r\n\r\n{}", b"HTTP/1.1 200 OK\r\n\r\n" + JSON)[-1]
        self.assertEqual(ended.response, JSON)

    def test_packed_answers(self):
        data = gzip.compress(JSON)
        ended = self.assert_passes(HEAD + b"Content-Length: 2\r\n\r\n{}", b"HTTP/1.1 200 OK\r\nContent-Encoding: gzip\r\nContent-Length: %d\r\n\r\n"
                                   % len(data) + data)[-1]
        self.assertEqual(body_of(ended), json.loads(JSON))
        with self.assertRaises(ValueError):
            body_of(ended._replace(encoding="br"))

    def test_several_requests_one_behind_the_other(self):
        one = HEAD + b"Content-Length: 2\r\n\r\n{}"
        told = self.assert_passes([one, b"GET /stores HTTP/1.1\r\n\r\n", one],
                                  [OK, OK, b"HTTP/1.1 403 Forbidden\r\nContent-Length: 0\r\n\r\n"])
        self.assertEqual([one.status for one in told if isinstance(one, Ended)], [200, 403])
        self.assertEqual(sum(isinstance(one, Started) for one in told), 2)

    def test_an_answer_before_the_answer(self):
        told = self.assert_passes(HEAD + b"Expect: 100-continue\r\nContent-Length: 2\r\n\r\n{}", b"HTTP/1.1 100 Continue\r\n\r\n" + OK)
        self.assertEqual(told[-1].status, 200)

    def test_a_client_that_closes_its_side(self):
        self.assertEqual(self.assert_passes(HEAD + b"Content-Length: 2\r\n\r\n{}", OK, is_half_closed=True)[-1].status, 200)

    def test_much(self):
        data = os.urandom(20 << 20)
        ended = self.assert_passes(HEAD + b"Content-Length: %d\r\n\r\n" % len(data) + data,
                                   b"HTTP/1.1 200 OK\r\nContent-Length: %d\r\n\r\n" % len(data) + data)[-1]
        self.assertEqual((ended.request, ended.response), (None, None))

    def test_what_is_no_http(self):
        random = Random(3)
        # What comes later on the connection is counted too.
        teller = Teller(None)
        reader = Reader(teller, call_of)
        for data in (b"one\r\n\r\n", b"two", b"three"):
            reader.feed(reader.requests, data)
        self.assertEqual((teller.lost.amount, teller.lost.reason), (3, "a connection can't be read along: a first line of fewer than two words"))
        for request, answer in ((random.randbytes(3000), random.randbytes(3000)), (HEAD + b"Content-Length: two\r\n\r\n", b"\r\n\r\nno answer\r\n\r\n"),
                                (HEAD + b"Connection: Upgrade\r\n\r\n", b"HTTP/1.1 101 Switching\r\n\r\n" + random.randbytes(100))):
            self.assert_passes(request, answer)

    def test_an_answer_that_never_comes(self):
        told = self.assert_passes(HEAD + b"Content-Length: 2\r\n\r\n{}", b"")
        self.assertEqual((told[-1].number, told[-1].status), (told[0].number, 0))

    def test_an_answer_that_breaks_off(self):
        told = self.assert_passes(HEAD + b"Content-Length: 2\r\n\r\n{}", b"HTTP/1.1 200 OK\r\nContent-Length: 99\r\n\r\nno more")
        self.assertEqual((told[-1].number, told[-1].status, told[-1].response), (told[0].number, 200, None))


class Turns(Case):
    def test_what_takes_long_to_read_is_taken_in_smaller_pieces(self):
        """So that other connections have their turn between them."""
        side, sizes = Side(mock.Mock(), mock.Mock(), True), []
        side.take = lambda data: None
        for took in (0.1, 0.1, 0.1, 0.001, 0, 0, 0, 0):
            with mock.patch("new_enemy_tools.recording.relay.time.thread_time", side_effect=[5.0, 5.0 + took]):
                side.buffer_updated(LEAST)
            sizes.append(len(side.get_buffer(-1)) >> 10)
        self.assertEqual(sizes, [16, 8, 8, 8, 16, 32, 64, 64])


class Ends(Case):
    def test_a_connection_that_comes_while_the_recorder_ends(self):
        """It is closed: the system had taken it, and what it asks would be answered when the keeper has been told that nothing more comes."""
        teller = Teller(None)
        relay = Relay(urlsplit("http://127.0.0.1:1"), teller, call_of)
        relay.server = mock.Mock()
        client, transport = relay.client(), mock.Mock()
        relay.stop()
        client.connection_made(transport)
        transport.abort.assert_called_once()
        self.assertEqual((relay.open, relay.tasks), (set(), set()))
        client.connection_lost(None)


async def read_all(reader):
    """What comes until the end, also where the end is a reset."""
    found = bytearray()
    try:
        while data := await reader.read(1 << 20):
            found += data
    except ConnectionError:
        pass
    return bytes(found)


class Beginning(Case):
    """A check begins when it is passed on: whole, and not before what is ahead of it has its answer."""

    REQUEST = HEAD + b"Content-Length: 2\r\n\r\n{}"

    def setUp(self):
        super().setUp()
        self.told = []
        self.reader = Reader(self, call_of)

    def tell(self, message):
        self.told.append(message)

    def lose(self, reason):
        self.told.append(reason)

    def asks(self, data):
        self.reader.feed(self.reader.requests, data)
        return self.reader.passing()

    def answers(self, data):
        self.reader.feed(self.reader.answers, data)
        return self.reader.passing()

    def kinds(self):
        return [type(one).__name__ for one in self.told]

    def test_a_head_that_is_sent_early(self):
        self.assertEqual((self.asks(self.REQUEST[:-1]), self.told), (b"", []))
        self.assertEqual((self.asks(self.REQUEST[-1:]), self.kinds()), (self.REQUEST, ["Started"]))

    def test_a_body_that_the_service_asks_for(self):
        head = HEAD + b"Expect: 100-continue\r\nContent-Length: 2\r\n\r\n"
        self.assertEqual((self.asks(head), self.told), (head, []))
        self.assertEqual((self.answers(b"HTTP/1.1 100 Continue\r\n\r\n"), self.asks(b"{"), self.told), (b"", b"", []))
        self.assertEqual((self.asks(b"}"), self.kinds()), (b"{}", ["Started"]))

    def test_an_answer_before_the_body_that_it_asks_for(self):
        """Nobody could have looked at what the body asks, so it is counted where it is no refusal; the body goes on all the same."""
        head = HEAD + b"Expect: 100-continue\r\nContent-Length: 2\r\n\r\n"
        for answer, told in ((OK, ["an answer that came before its request had been passed on"]), (OK.replace(b"200", b"401"), [])):
            self.setUp()
            self.asks(head)
            self.answers(answer)
            self.assertEqual((self.asks(b"{}"), self.told), (b"{}", told))

    def test_a_call_that_is_not_known(self):
        """It is counted where it was answered, also by half."""
        request, unknown = self.REQUEST.replace(b"/check", b"/check;x"), "a call that the recorder does not know, which was answered"
        for answer, told in ((OK, [unknown]), (OK.replace(b"200", b"404"), []), (OK[:-1], [unknown]), (b"", [])):
            self.setUp()
            self.assertEqual(self.asks(request), request)
            self.answers(answer)
            self.reader.end()
            self.assertEqual(self.told, told)

    def test_a_check_behind_another(self):
        self.assertEqual(self.asks(self.REQUEST * 2), self.REQUEST)
        self.assertEqual(self.kinds(), ["Started"])
        self.assertEqual((self.answers(OK), self.kinds()), (self.REQUEST, ["Started", "Ended", "Started"]))
        self.assertEqual((self.answers(OK), self.kinds()), (b"", ["Started", "Ended", "Started", "Ended"]))

    def test_however_requests_are_cut(self):
        other = b"POST /other HTTP/1.1\r\nTransfer-Encoding: chunked\r\n\r\n" + chunked(b"x" * 40)
        data = self.REQUEST + other + self.REQUEST
        for seed in range(100):
            random, at, got = Random(seed), 0, b""
            self.setUp()
            while at < len(data):
                size = random.randint(1, 60)
                got += self.asks(data[at:at + size])
                at += size
                self.assertEqual(self.reader.waits(), min(at, len(data)) - len(got))
                if random.random() < 0.3 and self.reader.exchanges and self.reader.exchanges[0].is_passed \
                        and not self.reader.exchanges[0].held and self.reader.exchanges[0].is_whole:
                    got += self.answers(OK)
            while self.reader.exchanges:
                got += self.answers(OK)
            self.assertEqual((got, self.kinds()), (data, ["Started", "Ended"] * 2))

    def test_many_requests_behind_one_another(self):
        """What waits is not counted anew with each answer."""
        request, began = b"GET / HTTP/1.1\r\n\r\n", time.process_time()
        self.asks(request * 30_000)
        for _ in range(30_000):
            self.answers(b"HTTP/1.1 200 OK\r\nContent-Length: 0\r\n\r\n")
            self.reader.waits()
        self.assertEqual((self.reader.waits(), len(self.reader.exchanges)), (0, 0))
        self.assertLess(time.process_time() - began, 20)

    def test_a_request_that_breaks_off(self):
        """What came goes on as it came; where it is answered all the same, it is a gap."""
        self.asks(self.REQUEST[:-1])
        self.reader.end_requests()
        self.assertEqual(self.reader.passing(), self.REQUEST[:-1])
        self.answers(OK)
        self.assertEqual((self.kinds(), self.told[-1].strange), (["Started", "Ended"], "a request that broke off"))

    def test_a_client_that_ends_behind_several_requests(self):
        """All go on before the service sees the end; those that had to wait are gaps."""
        self.assertEqual(self.asks(self.REQUEST * 2), self.REQUEST)
        self.reader.end_requests()
        self.assertEqual(self.reader.passing(), self.REQUEST)
        self.answers(OK)
        self.answers(OK)
        self.assertEqual([one.strange for one in self.told if isinstance(one, Ended)], [None, "a request before whose turn its client ended"])

    def test_a_service_that_ends_before_a_request_has_its_turn(self):
        """It goes on as it came, and is told of no more than what can't be answered."""
        for answer in b"HTTP/1.1 200 OK\r\n\r\n" + JSON, OK:
            for cut in 1, 20:
                self.setUp()
                self.assertEqual(self.asks(self.REQUEST * 3 + self.REQUEST[:cut]), self.REQUEST)
                self.reader.feed(self.reader.answers, answer[:-1])
                self.reader.end()
                self.assertEqual((self.asks(self.REQUEST[cut:]), self.kinds()), (self.REQUEST * 3, ["Started", "Ended"]))

    def test_a_long_request(self):
        data = HEAD + b"Content-Length: 3000000\r\n\r\n" + b"x" * 3_000_000
        self.assertEqual(self.asks(data[:2_000_000]) + self.asks(data[2_000_000:]), data)
        self.answers(OK)
        self.assertEqual(self.told[-1].strange, "a request of more than 1048576 bytes, which went on in pieces")

    def test_what_can_not_be_read_along_goes_on_at_once(self):
        bad = b"GET / HTTP/1.1\nHost: x\n\n"
        self.assertEqual(self.asks(self.REQUEST[:-1] + b"}" + bad), self.REQUEST + bad)
        self.assertEqual(self.kinds(), ["str", "Started", "Ended"])
        self.assertEqual((self.told[-1].response, self.asks(b"more")), (None, b"more"))

    def test_a_tunnel(self):
        """What goes through it is counted, and not held until an answer ends that has no end."""
        connect = b"CONNECT x:1 HTTP/1.1\r\n\r\n"
        self.assertEqual(self.asks(connect), connect)
        self.answers(b"HTTP/1.1 200 OK\r\n\r\n")
        self.assertEqual(self.asks(self.REQUEST), self.REQUEST)
        self.assertEqual(self.told, ["a connection can't be read along: another protocol"] * 2)

    def test_an_answer_to_what_was_not_asked(self):
        self.asks(self.REQUEST[:-1])
        self.answers(OK)
        self.assertEqual((self.told[0], self.kinds()), ("a connection can't be read along: an answer without a request", ["str", "Started", "Ended"]))
        self.assertIsNone(self.told[-1].response)

    def test_labels_are_bytes_of_utf_8(self):
        for given, save, strange in (("à".encode(), "à", None), ("Å".encode(), "Å", None), (b"\xe0", None, "X-Content-Save is no UTF-8"),
                                     (b"v\r\nX-Content-Save: w", None, "X-Content-Save stands twice"), (b" \tv\xc2\xa0 ", "v\u00a0", None)):
            self.setUp()
            self.asks(b"POST /stores/A/check HTTP/1.1\r\nX-Content-Save: %s\r\nContent-Length: 2\r\n\r\n{}" % given)
            self.answers(OK)
            self.assertEqual(self.told[-1].strange, strange)
            if strange is None:
                self.assertEqual(self.told[-1].save, save)

    def test_paths_as_services_read_them(self):
        for path in (b"/stores/A/%63heck", b"/stores/A/check#x", b"http://host/stores/A/check?x"):
            self.setUp()
            self.asks(b"POST %s HTTP/1.1\r\nContent-Length: 2\r\n\r\n{}" % path)
            self.answers(OK)
            self.assertEqual((self.told[-1].call, self.told[-1].path), ("check", "/stores/A/check"))

    def test_names_that_stand_twice(self):
        """Some readers take the first, and some the last."""
        for asked, answered, why in ((b'{"a":1,"a":2}', b"{}", "twice"), (b'{"tuple_key":1,"tupleKey":2}', b"{}", "both spellings"),
                                     (b'{"a":[{"b":1,"b":1}]}', b"{}", "twice"), (b"{}", b'{"allowed":false,"allowed":true}', "twice"), (b"{}", b'{"allowed":false,"Allowed":true}', "other letters"),
                                     (b"{}", '{"object\u017f":[]}'.encode(), "other letters")):
            message = Ended(1, "check", "", 0, 0, 0, None, None, None, 200, asked, answered, None)
            with self.assertRaisesRegex(Bad, why):
                request_of(message)
                body_of(message)
        self.assertEqual(body_of(message._replace(response=b'{"a_1":{},"a1":{}}')), {"a_1": {}, "a1": {}})

    def test_what_is_not_needed_is_not_kept(self):
        """Bodies of other calls, and what of a check is a gap anyway: many clients with long ones would take all memory."""
        for path, size in ((b"/stores/A/read", 1 << 16), (b"/stores/A/check", 3 << 20)):
            self.setUp()
            self.asks(b"POST %s HTTP/1.1\r\nContent-Length: %d\r\n\r\n" % (path, size))
            for _ in range(size >> 14):
                self.asks(b"x" * (1 << 14))
                self.assertLessEqual(len(self.reader.requests.body), 1 << 20 if path.endswith(b"check") else 0)
            self.answers(b"HTTP/1.1 200 OK\r\nContent-Length: %d\r\n\r\n" % (1 << 16) + b"y" * 100)
            self.assertEqual(len(self.reader.answers.body), 100 if path.endswith(b"check") else 0)

    def test_a_packed_answer_that_holds_much(self):
        data = gzip.compress(b"[" + b"1," * (20 << 20) + b"1]")
        self.asks(self.REQUEST)
        self.answers(b"HTTP/1.1 200 OK\r\nContent-Encoding: gzip\r\nContent-Length: %d\r\n\r\n" % len(data) + data)
        with self.assertRaisesRegex(Bad, "too long"):
            body_of(self.told[-1])
