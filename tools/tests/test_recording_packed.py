"""Files of a recorder's log that are compressed when they are closed, and read so."""
import gzip
import os
import random
from unittest import mock

from new_enemy_tools.importing.chained import end_of, head_of, in_chain
from new_enemy_tools.importing.opened import opened
from new_enemy_tools.importing.refusals import Refusals
from new_enemy_tools.recording.lines import line, write_line
from new_enemy_tools.recording.log_files import LogFiles, Place, pack
from tests.recorded import Client
from tests.support import Case
from tests.test_recording_openfga import MODEL, OpenFga, key


class Files(Case):
    def setUp(self):
        super().setUp()
        patient = mock.patch("new_enemy_tools.recording.log_files.PATIENCE", 120)
        patient.start()
        self.addCleanup(patient.stop)

    def log(self, packs=True, size=300):
        log = LogFiles(self.path("log"), "openfga", size=size, packs=packs)
        log.lock()
        return log

    def write(self, log, numbers):
        for number in numbers:
            log.add(write_line(number, [], []) + line("place", cursor="c", revision=number, rules_sha256="r"))
            log.place = Place("c", number, "r")

    def names(self):
        return sorted(name for name in os.listdir(self.path("log")) if name != "lock")

    def test_each_file_is_compressed_when_it_is_closed_and_a_later_recorder_goes_on(self):
        log = self.log()
        self.write(log, range(1, 8))
        log.packer.end()
        names = self.names()
        self.assertGreater(len(names), 2)
        self.assertEqual([name[-3:] == ".gz" for name in names], [True] * (len(names) - 1) + [False])
        os.close(log._lock)
        again = self.log()
        left = again.recover()
        self.assertEqual((left.revision, again.number), (7, len(names)))
        self.write(again, range(8, 10))
        again.close()
        again.packer.end()
        self.assertTrue(all(name.endswith(".gz") for name in self.names()))
        refusals = Refusals()
        self.assertEqual(len(in_chain([os.path.join(self.path("log"), name) for name in self.names()], refusals)), len(self.names()))
        self.assertEqual((refusals.refused, refusals.open), ({}, 0))
        self.assertEqual({os.stat(os.path.join(self.path("log"), name)).st_mode & 0o777 for name in self.names()}, {0o600})

    def test_what_a_killed_recorder_left_by_half(self):
        log = self.log(packs=False)
        self.write(log, range(1, 8))
        os.close(log._lock)
        first = os.path.join(self.path("log"), "000001.jsonl")
        with open(first, "rb") as file, gzip.open(first + ".gz", "wb") as made:
            made.write(file.read())
        self.put("log/.000002.part", "half")
        again = self.log(packs=False)
        self.assertEqual(again.recover().revision, 7)
        self.assertEqual([name for name in self.names() if "part" in name or name.startswith("000001")], ["000001.jsonl.gz"])

    def test_a_file_that_cant_be_compressed_stays_as_it_is(self):
        self.put("000001.jsonl", "x\n")
        os.mkdir(self.path("000001.jsonl.gz"))
        with self.assertRaises(OSError):
            pack(self.path("000001.jsonl"))
        self.assertEqual((self.get("000001.jsonl"), sorted(os.listdir(self.room))), ("x\n", ["000001.jsonl", "000001.jsonl.gz"]))

    def test_the_end_of_a_file_is_the_same_however_it_is_read(self):
        for seed in range(30):
            given = random.Random(seed)
            body = b"".join(b"%s\n" % (b"x" * given.randrange(1 << given.randrange(1, 19))) for _ in range(given.randrange(1, 9)))
            data = b'{"event":"log","number":1}\n' + body + given.choice((b"", b'{"event":"closed","count":3,"sha256":"x"}\n', b'{"cut'))
            self.put("plain", data)
            self.put("packed", gzip.compress(data))
            start = data.rstrip(b"\n").rfind(b"\n") + 1
            self.assertEqual(end_of(self.path("plain")), end_of(self.path("packed")))
            self.assertEqual(end_of(self.path("plain")).lines, data.count(b"\n", 0, start))
            self.assertEqual(head_of(self.path("packed")).number, 1)

    def test_a_compressed_file_that_was_cut_or_changed_is_refused(self):
        data = gzip.compress(b'{"event":"log","number":1}\n' * 5000)
        for broken in (data[:-20], data[:40] + b"xx" + data[42:]):
            self.put("log.gz", broken)
            run = self.run_process("import", "events", "log.gz")
            self.assertEqual((run.returncode, run.stderr.splitlines()[-1]), (5, "cannot use log.gz: it is compressed, and was cut or changed"))

    def test_what_is_no_gzip_is_read_as_it_is(self):
        with opened(self.put("plain", b"\x1fnone\n")) as file:
            self.assertEqual(file.read(), b"\x1fnone\n")


class Processes(OpenFga):
    def test_a_compressed_log_gives_the_trace_of_one_that_is_not(self):
        self.start_service(MODEL, "1", "planted")
        self.prepare()
        recorder = self.start_recorder("--compress", "--file-bytes", "2000")
        client = Client(self.port)
        number = 0

        def names():
            return sorted(name for name in os.listdir(self.path("log")) if name != "lock")
        # How much is written at once, and so to one file, is up to the machine.
        while len([name for name in names() if name.endswith(".jsonl.gz")]) < 4:
            self.write(client, key("user:a%d" % number, "viewer", "document:1"))
            self.check(client, "user:a%d" % number, "viewer", "document:early1")
            number += 1
        client.close()
        self.end(recorder)
        names = names()
        self.assertTrue(all(name.endswith(".jsonl.gz") for name in names), names)
        self.imported("events", *["log/" + name for name in names])
        packed = self.get("trace.jsonl")
        os.mkdir(self.path("plain"))
        for name in names:
            with gzip.open(self.path("log/" + name)) as file:
                self.put("plain/" + name[:-3], file.read())
        os.remove(self.path("ids.jsonl"))
        self.import_log(folder="plain")
        self.assertEqual(packed.replace("log/", "plain/").replace(".jsonl.gz", ".jsonl"), self.get("trace.jsonl"))
        run = self.run_process("join", "--out", "all", "log")
        self.assertEqual((run.returncode, run.stderr), (0, ""))
