"""Clients that are no Python, in front of the recorder: curl, and Node's HTTP client."""
import json
import shutil
import subprocess
import unittest

from tests.stand_in_openfga import STORE
from tests.test_recording_openfga import DOCUMENTS, EARLY, MODEL, NEWEST, USERS, OpenFga, key

# Checks by a pool of connections that are kept, one behind the other and many at once; a body in chunks, one with its length, and one that waits to be
# asked for. It prints each answer.
SCRIPT = """
const http = require("http");
const [port, path, asked] = [process.argv[2], process.argv[3], JSON.parse(process.argv[4])];
const agent = new http.Agent({keepAlive: true, maxSockets: 4});
function ask(number, form) {
  const data = JSON.stringify(asked[number % asked.length]);
  const headers = {"Content-Type": "application/json"};
  if (form === "counted") headers["Content-Length"] = Buffer.byteLength(data);
  if (form === "expecting") Object.assign(headers, {"Content-Length": Buffer.byteLength(data), "Expect": "100-continue"});
  return new Promise((good, bad) => {
    const request = http.request({host: "127.0.0.1", port, path, method: "POST", headers, agent}, answer => {
      let text = "";
      answer.setEncoding("utf8").on("data", piece => text += piece).on("end", () => good([number, answer.statusCode, text]));
    }).on("error", bad);
    if (form === "expecting") { request.flushHeaders(); request.on("continue", () => request.end(data)); }
    else { request.write(data.slice(0, 20)); request.end(data.slice(20)); }
  });
}
(async () => {
  const found = [];
  for (const form of ["chunked", "counted", "expecting"]) for (let n = 0; n < 10; n++) found.push(await ask(n, form));
  found.push(...await Promise.all([...Array(40).keys()].map(n => ask(n, n % 2 ? "chunked" : "counted"))));
  console.log(JSON.stringify(found));
  agent.destroy();
})();
"""


class Clients(OpenFga):
    def begin(self):
        self.start_service(MODEL, "1", "planted")
        self.prepare()
        self.recorder = self.start_recorder()

    def assert_audited(self, count, wrong):
        """All checks are in the log, and the ones that the service answered wrongly are found."""
        self.end(self.recorder)
        self.import_log()
        self.assertEqual(len(self.of_kind("check")) + len(self.of_kind("content")), count)
        found = self.found()
        self.assertEqual((set.union(*found.values()), len(found)), ({"F10 wrong reply"}, wrong))
        self.assertEqual(len(self.get("planted").splitlines()), wrong)

    def body(self, user, relation, thing):
        return {"tuple_key": key(user, relation, thing), "consistency": NEWEST}


@unittest.skipUnless(shutil.which("curl"), "there is no curl")
class Curl(Clients):
    def curl(self, call, body, *words):
        run = subprocess.run(["curl", "-sS", "--max-time", "120", "-w", " %{http_code}", *words, "-d", json.dumps(body),
                              "http://127.0.0.1:%d/stores/%s/%s" % (self.port, STORE, call)], capture_output=True, text=True)
        self.assertEqual((run.returncode, run.stderr), (0, ""))
        text, _, status = run.stdout.rpartition(" ")
        self.assertEqual(status, "200", text)
        return json.loads(text)

    def test_checks_and_writes(self):
        self.begin()
        self.assertEqual(self.curl("write", {"writes": {"tuple_keys": [key(USERS[1], "viewer", DOCUMENTS[0])]}}), {})
        for words in ((), ("--http1.0",), ("-H", "Transfer-Encoding: chunked"), ("-H", "Expect: 100-continue"), ("--compressed",)):
            self.assertTrue(self.curl("check", self.body(USERS[1], "viewer", DOCUMENTS[0]), *words)["allowed"], words)
        self.assertTrue(self.curl("check", self.body(USERS[0], "editor", DOCUMENTS[0]), "-H", "X-Content-Save: v1")["allowed"])
        self.assertTrue(self.curl("check", self.body(USERS[1], "viewer", DOCUMENTS[0]), "-H", "X-Content-Version: v1")["allowed"])
        self.assertTrue(self.curl("check", self.body(USERS[0], "viewer", EARLY[0]))["allowed"])
        self.assert_audited(8, 1)

    def test_many_requests_on_one_connection(self):
        self.begin()
        config = "".join('url = "http://127.0.0.1:%d/stores/%s/check"\ndata = %s\noutput = "/dev/null"\nwrite-out = "%%{http_code} %%{num_connects}\\n"\n'
                         "silent\nnext\n" % (self.port, STORE, json.dumps(json.dumps(self.body(USERS[0], "viewer", DOCUMENTS[0])))) for _ in range(20))
        run = subprocess.run(["curl", "--config", "-"], input=config.removesuffix("next\n"), capture_output=True, text=True, timeout=300)
        self.assertEqual(run.stdout.split(), ["200", "1", *["200", "0"] * 19], run.stderr)
        self.wait_for(lambda: len(self.of_kind("check")) == 20)


@unittest.skipUnless(shutil.which("node"), "there is no node")
class Node(Clients):
    def test_checks_by_a_pool_of_connections(self):
        self.begin()
        asked = [self.body(USERS[0], "viewer", DOCUMENTS[0]), self.body(USERS[1], "viewer", DOCUMENTS[1]), self.body(USERS[0], "viewer", EARLY[0]),
                 self.body(USERS[0], "editor", DOCUMENTS[2]), self.body(USERS[4], "viewer", EARLY[1])]
        run = subprocess.run(["node", self.put("ask.js", SCRIPT), str(self.port), "/stores/%s/check" % STORE, json.dumps(asked)], capture_output=True,
                             text=True, timeout=300)
        self.assertEqual((run.returncode, run.stderr), (0, ""))
        answers = json.loads(run.stdout)
        self.assertEqual(len(answers), 70)
        for number, status, text in answers:
            self.assertEqual((status, json.loads(text)["allowed"]), (200, number % 5 != 1), number)
        self.assert_audited(70, 28)
