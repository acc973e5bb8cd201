"""SpiceDB's requests and responses, which are read as one text where their shape is known: what could pass unread there."""
import json
import re
from unittest import mock

from new_enemy_tools.importing import located
from tests.test_printed_blocks import PrintedCase

EVENTS = 120


class Paired(PrintedCase):
    def calls(self, wrong=None):
        lines = self.log_of("spicedb_log", 5, EVENTS, wrong)
        return [lines[at:at + 3] for at in range(0, len(lines), 3)]

    def checks_in(self, calls):
        return [place for place, call in enumerate(calls) if call[0]["grpc.method"] == "CheckPermission" and "content" not in call[1]]

    def findings(self, calls):
        """By shapes and in full."""
        status, said, *_ = self.compare(self.texts(line for call in calls for line in call))
        return status, said, re.findall("F[0-9]+ .*", self.audited()) if status != 2 else []

    def test_a_wrong_reply_is_found_behind_many_of_its_shape(self):
        self.assertEqual(self.findings(self.calls(wrong=90))[2], ["F10 wrong reply"])

    def test_what_the_request_line_says_of_a_version_is_read(self):
        calls = self.calls()
        place = self.checks_in(calls)[-1]
        calls[place][0] = {**calls[place][0], "version": "nobody saved it"}
        self.assertEqual(self.findings(calls)[2], ["F2 old token", "F6 unknown version"][1:])
        calls[place][1] = {**calls[place][1], "version": "another"}
        self.assertIn("not audited 1: check that can't be read\n", self.findings(calls)[1])

    def test_a_call_that_ended_with_a_fault_is_not_taken_for_one_that_ended_well(self):
        calls = self.calls()
        place = self.checks_in(calls)[-1]
        calls[place] = [calls[place][0], {**calls[place][2], "grpc.code": "Internal"}]
        self.assertIn("passed over 1: failed request (Internal)\n", self.findings(calls)[1])

    def test_a_response_of_another_call_is_joined_with_no_request(self):
        calls = self.calls()
        one, other = self.checks_in(calls)[-2:]
        calls[one][1] = {**calls[one][1], "requestID": "d-nobody"}
        said = self.findings(calls)[1]
        self.assertIn("the log has no request of the response with the `requestID` d-nobody", said)
        self.assertIn("not audited", said)

    def test_answers_and_consistencies_that_are_no_usual_ones_are_read_in_full(self):
        for part, key, value in ((1, "permissionship", 3), (1, "permissionship", 0), (1, "partial_caveat_info", {"missing": ["a"]}),
                                 (0, "context", {"a": 1}), (0, "with_tracing", True)):
            calls = self.calls()
            place = self.checks_in(calls)[-1]
            name = ("grpc.request.content", "grpc.response.content")[part]
            calls[place][part] = {**calls[place][part], name: {**calls[place][part][name], key: value}}
            status, said, found = self.findings(calls)
            self.assertEqual((status, found), (0 if key in ("with_tracing", "partial_caveat_info") else 6, []), (key, said))

    def test_lines_of_other_keys_are_read_in_full_and_slips_refused(self):
        calls = self.calls()
        place = self.checks_in(calls)[-1]
        for line in 0, 1, 2:
            slip = [list(call) for call in calls]
            slip[place][line] = {**calls[place][line], "verison": "v"}
            self.assertIn(': unknown key "verison"; is "version" meant?', self.findings(slip)[1])

    def test_two_halves_of_a_line_are_no_line(self):
        """Texts that only together have the letters of a request and a response."""
        calls = self.calls()
        texts = self.texts(line for call in calls for line in call)
        place = 3 * self.checks_in(calls)[-1]
        texts[place] = texts[place][:-1]
        status, said, *_ = self.compare(texts)
        self.assertEqual((status, said.splitlines()[-2:][0]), (2, "log:%d: not JSON" % (place + 1)))

    def test_a_check_that_saw_a_write_before_its_line_is_put_behind_it(self):
        """Then no block stays as it is."""
        calls = self.calls()
        first = next(place for place in self.checks_in(calls) if place > 40)
        last = max(place for place in range(first) if calls[place][0]["grpc.method"] == "WriteRelationships")
        calls[last], calls[first] = calls[first], calls[last]
        with mock.patch.object(located, "BLOCK", 1 << 20):
            said = self.findings(calls)[1]
        self.assertIn("a check saw this write before the line of its call", said)
        self.assertIn("WriteRelationships", json.dumps(calls[first][0]))
