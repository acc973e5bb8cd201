"""The feed of OpenFGA as its datastore has it, in a table of a real PostgreSQL: transactions take their ULIDs before
they commit, and the changes are paged by these.

The table is that of OpenFGA's migrations, as it is remembered. Sessions of psql interleave by seeds; nothing waits.
"""
import glob
import json
import os
import pwd
import shutil
import subprocess
import time
import unittest
from random import Random
from unittest import mock

from new_enemy_tools.recording import openfga_feed
from new_enemy_tools.recording.core import Core, Now
from new_enemy_tools.recording.keeper import Settings
from new_enemy_tools.recording.messages import Beat, Bye, Ended, Started
from new_enemy_tools.recording.openfga import OpenFga
from new_enemy_tools.recording.openfga_feed import OpenFgaFeed
from tests.simulation import MODEL, STORE
from tests.support import Case

FOUND = [*filter(None, [shutil.which("initdb")]), *sorted(glob.glob("/usr/lib/postgresql/*/bin/initdb"))]
TABLES = """
CREATE TABLE changelog (store TEXT NOT NULL, object_type TEXT NOT NULL, object_id TEXT NOT NULL,
  relation TEXT NOT NULL, _user TEXT NOT NULL, operation INTEGER NOT NULL, ulid TEXT NOT NULL, inserted_at TIMESTAMPTZ NOT NULL,
  PRIMARY KEY (store, ulid, object_type));
CREATE TABLE tuple (object_id TEXT PRIMARY KEY);
"""
CHANGE = """SELECT json_build_object('token', ulid, 'tuple_key', json_build_object('user', _user, 'relation', relation,
  'object', object_type || ':' || object_id),
  'operation', (ARRAY['TUPLE_OPERATION_WRITE', 'TUPLE_OPERATION_DELETE'])[operation + 1],
  'timestamp', to_char(inserted_at AT TIME ZONE 'UTC', 'YYYY-MM-DD"T"HH24:MI:SS.US"Z"')) FROM changelog
  WHERE store = 'S' AND ulid > '%s' ORDER BY ulid LIMIT %d"""
WRITERS, SEEDS, STEPS, PAGE = 4, 10, 60, 3
# Longer than any test takes.
LONG = 10 ** 6


def preparing(account):
    """What a process becomes that may not be root."""
    def become():
        os.setgroups([])
        os.setgid(account.pw_gid)
        os.setuid(account.pw_uid)
    return become if account is not None else None


class Session:
    """A connection by psql, which answers one command behind the other."""

    def __init__(self, tools, room):
        words = ["-X", "-q", "-A", "-t", "-v", "ON_ERROR_STOP=1", "-U", "postgres", "-h", room, "postgres"]
        words.insert(0, os.path.join(tools, "psql"))
        self.process = subprocess.Popen(words, stdin=subprocess.PIPE, stdout=subprocess.PIPE, text=True)

    def run(self, text):
        self.process.stdin.write(text + ";\n\\echo over\n")
        self.process.stdin.flush()
        found = []
        while (line := self.process.stdout.readline().rstrip("\n")) != "over":
            assert self.process.poll() is None, text
            found.append(line)
        return found

    def end(self):
        self.process.stdin.close()
        self.process.wait()
        self.process.stdout.close()


class Table:
    """What the feed asks: a page of changes by the ULIDs that committed transactions have."""

    def __init__(self, session):
        self.session = session

    def changes(self, store, size, token):
        rows = [json.loads(one) for one in self.session.run(CHANGE % (token or "", size))]
        return {"changes": rows, "continuation_token": rows[-1]["token"] if rows else token}

    def model(self, store, size):
        return "M", [MODEL]

    def models(self, data):
        return data


class Writer:
    """Adds and removes a tuple of its own, each time in a transaction that has its ULID before it commits."""

    def __init__(self, session, number):
        self.session, self.thing, self.is_there, self.is_open = session, "d%d" % number, False, False

    def step(self, ulid):
        if self.is_open:
            self.session.run("COMMIT")
            self.is_open, self.is_there = False, not self.is_there
            return
        done = "DELETE FROM tuple WHERE object_id = '%s'" if self.is_there else "INSERT INTO tuple VALUES ('%s')"
        told = "INSERT INTO changelog VALUES ('S', 'document', '%s', 'viewer', 'user:u', %d, '%s', NOW())"
        self.session.run("BEGIN; %s; %s" % (done % self.thing, told % (self.thing, self.is_there, ulid)))
        self.is_open = True


@unittest.skipUnless(FOUND, "there is no PostgreSQL server here (initdb)")
class Server(Case):
    def setUp(self):
        super().setUp()
        self.tools = os.path.dirname(FOUND[-1])
        account = pwd.getpwnam("postgres") if os.getuid() == 0 else None
        if account is not None:
            os.chmod(self.room, 0o755)
        data, self.sockets = self.path("data"), self.path("s")
        for name in data, self.sockets:
            os.mkdir(name, 0o700)
            if account is not None:
                os.chown(name, account.pw_uid, account.pw_gid)
        def run(tool, *words):
            subprocess.run([os.path.join(self.tools, tool), "-D", data, *words], check=True, capture_output=True,
                           cwd=data, preexec_fn=preparing(account))
        run("initdb", "-U", "postgres", "-A", "trust", "-N")
        run("pg_ctl", "-w", "-t", "600", "-l", os.path.join(data, "said"), "-o",
            "-k %s -c listen_addresses= -c fsync=off" % self.sockets, "start")
        self.addCleanup(run, "pg_ctl", "-m", "immediate", "stop")
        self.reader = self.session()
        self.reader.run(TABLES.strip().rstrip(";"))

    def session(self):
        made = Session(self.tools, os.path.abspath(self.sockets))
        self.addCleanup(made.end)
        return made

    def feed(self, back=LONG):
        settings = Settings("openfga", "", self.room, STORE, None, False, LONG, 0.0, 0.0, 1 << 20, LONG, overlap=back)
        return OpenFgaFeed(settings, Table(self.reader))

    def test_a_commit_behind_a_later_ulid(self):
        """By the token of the last page it never comes; by readings that begin some way back it does."""
        for back, wanted in (0, []), (LONG, ["d0"]):
            self.assertEqual(self.late(back), wanted)
            self.reader.run("TRUNCATE changelog; TRUNCATE tuple")

    def late(self, back):
        """What a reading shows behind such a commit, where readings begin so far back."""
        table, feed, found = Table(self.reader), self.feed(back), []
        first, second = (Writer(self.session(), number) for number in range(2))
        feed._begin(None, found.append)
        first.step("1")
        second.step("2")
        second.step("")
        token = table.changes(STORE, 10, None)["continuation_token"]
        self.assertEqual([one.given.id for one in feed._read(time.monotonic_ns()).read.changes], ["d1"])
        self.assertEqual(feed._read(time.monotonic_ns()).read.changes, [])
        first.step("")
        self.assertEqual(table.changes(STORE, 10, token)["changes"], [])
        return [one.given.id for one in feed._read(time.monotonic_ns()).read.changes]

    def test_interleavings(self):
        """Each check's reply is right at a state that its line names, and few are counted; by tokens alone changes are
        missed."""
        writers = [Writer(self.session(), number) for number in range(WRITERS)]
        missed, totals = 0, [0, 0]
        for seed in range(SEEDS):
            with mock.patch.object(openfga_feed, "PAGE", PAGE):
                missed += self.interleaving(Random(seed), writers, totals)
        self.assertGreater(missed, 0)
        self.assertGreater(totals[0], 3 * totals[1])

    def interleaving(self, random, writers, totals):
        """How many changes tokens alone do not show."""
        core, feed, ulids = Core(OpenFga(STORE, 0, LONG * 10 ** 9), LONG), self.feed(), iter(range(10 ** 6, 10 ** 7))
        by_token, token = [], None
        self.reader.run("TRUNCATE changelog; TRUNCATE tuple")
        for writer in writers:
            writer.is_there = False
        feed._begin(None, lambda message: core.take(message, now()))
        lines, checks = [core.drained()], {}
        for step in range(STEPS):
            kind = random.choice(("write", "write", "read", "check"))
            if kind == "write":
                random.choice(writers).step("%d" % next(ulids))
            elif kind == "check":
                self.check(core, step, random.choice(writers).thing, checks)
            else:
                page = feed.source.changes(STORE, 1000, token)
                token, by_token = page["continuation_token"], by_token + page["changes"]
                lines.append(self.read(core, feed))
        for writer in writers:
            if writer.is_open:
                writer.step("")
        lines += [self.read(core, feed) for _ in range(3)]
        core.take(Bye(0), now())
        core.end(now())
        rows = [json.loads(line) for line in b"".join([*lines, core.drained()]).splitlines()]
        recorded, lost = self.judged(rows, checks)
        self.assertEqual(recorded + lost, len(checks))
        totals[:] = totals[0] + recorded, totals[1] + lost
        by_token += feed.source.changes(STORE, 1000, token)["changes"]
        return int(self.reader.run("SELECT count(*) FROM changelog")[0]) - len(by_token)

    def check(self, core, number, thing, checks):
        core.take(Started(number, time.monotonic_ns(), False, "check"), now())
        reply = self.reader.run("SELECT count(*) FROM tuple WHERE object_id = '%s'" % thing) == ["1"]
        at = now()
        key = {"user": "user:u", "relation": "viewer", "object": "document:" + thing}
        request = json.dumps({"tuple_key": key, "consistency": "HIGHER_CONSISTENCY"}).encode()
        core.take(Ended(number, "check", "/stores/S/check", at.wall, at.wall, at.clock, None, None, None, 200, request,
                        json.dumps({"allowed": reply}).encode(), None), at)
        checks[number] = reply

    def read(self, core, feed):
        message = feed._read(time.monotonic_ns())
        core.take(Beat(time.monotonic_ns()), now())
        core.take(message, now())
        core.tick(now())
        return core.drained()

    def judged(self, rows, checks):
        """How many checks the log has, each of which is right by it, and how many its gaps count."""
        states, entries, lost = [set()], [], 0
        for row in rows:
            if row["event"] == "write" and not row.get("base"):
                add, remove = ({one[1] for one in row.get(side, ())} for side in ("add", "remove"))
                states.append((states[-1] | add) - remove)
            elif row["event"] == "check":
                entries.append(row)
            elif row["event"] == "gap":
                lost += row.get("lost", 0)
        for row in entries:
            low, high = row.get("newest_between") or (row["snapshot"],) * 2
            self.assertIn(row["reply"], {row["goal"][1] in states[at] for at in range(low, high + 1)}, row)
        return len(entries), lost


def now():
    return Now(time.time_ns(), time.monotonic_ns())
