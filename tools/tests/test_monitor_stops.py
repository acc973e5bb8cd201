"""`ne monitor` that is told to stop at odd moments: it ends, within seconds, and the next one goes on."""
import os
import signal
import time

from new_enemy_tools.monitoring.stopping import BROKEN_OFF, BROKEN_OFF_STATUS
from tests.recorded import is_alive
from tests.support import TOOLS
from tests.test_going_on import RULES
from tests.test_monitor import BASE, PLACE, PROGRAM, Monitoring, compact, files_of, timed
from tests.test_trace_maker import check, rel, write

# A monitor that waits nearly always, and whose handler of signals takes longer than that, as on a machine with much
# other work.
LATE = """
import signal, sys, time
from new_enemy_tools.commands import ne
from new_enemy_tools.monitoring import devices
devices.POLL = 0.3
real = signal.signal

def late(number, handler):
    def called(*words):
        handler(*words)
        time.sleep(0.5)
    return real(number, called)

signal.signal = late
sys.exit(ne.main(sys.argv[1:]))
"""
# One that has half a second to end in order.
SOON = """
import sys
from new_enemy_tools.commands import ne
from new_enemy_tools.monitoring import stopping
stopping.GRACE = 0.5
sys.exit(ne.main(sys.argv[1:]))
"""
DOC = rel("plan", "viewer", "bob")


def children_of(process):
    """The processes that one began, and that have not ended."""
    found = []
    for name in filter(str.isdigit, os.listdir("/proc")):
        try:
            with open("/proc/%s/stat" % name, encoding="utf-8", errors="replace") as file:
                state, parent = file.read().rpartition(")")[2].split()[:2]
        except OSError:
            continue
        if int(parent) == process and state != "Z":
            found.append(int(name))
    return found


class Stops(Monitoring):
    def begun(self, script, *words):
        """A monitor that a script begins, and its program; it has told an alert, and nothing more comes."""
        events = [RULES, BASE, PLACE, write(5, DOC), write(10, remove=[DOC]), check(10, True, DOC)]
        self.put_log([b"".join(files_of(timed(events), [])[0].splitlines(True)[:-1])])
        given = ["--program", PROGRAM, "--hold", "0", "--most-lag", "1e9", *words, "log", "out"]
        with open(self.path("told"), "a", encoding="utf-8") as told, open(self.path("monitor.err"), "a",
                                                                          encoding="utf-8") as said:
            one = self.start("-c", script, "monitor", *given, stdout=told, stderr=said,
                             env={**os.environ, "PYTHONPATH": TOOLS})
        self.wait_for(lambda: self.told() and self.get("out/delivered/output").endswith("1\n"),
                      lambda: self.get("monitor.err"))
        program, = children_of(one.pid)
        return one, program

    def assert_goes_on(self):
        self.ends(self.monitor("--once"))
        self.assertEqual([(row["alert"], row["kind"]) for row in self.told()], [(1, "finding")])
        self.assertEqual(len(self.days_told("out/days")), 1)

    def test_a_signal_when_a_wait_is_over(self):
        one, _ = self.begun(LATE)
        self.stop(one)
        self.assertNotIn(BROKEN_OFF.decode(), self.get("monitor.err"))
        self.assert_goes_on()

    def test_a_program_that_stands_still(self):
        """The monitor waits for it at the end of a run, and is told to stop there."""
        one, program = self.begun(SOON, "--day-bytes", "4096")
        os.kill(program, signal.SIGSTOP)
        with open(self.path("log/000001.jsonl"), "ab") as file:
            file.write(compact(timed([check(10, False, DOC)] * 80)))
        self.wait_for(lambda: os.path.getsize(self.path("out/days/work/trace")) >= 4096)
        one.send_signal(signal.SIGTERM)
        self.ends(one, BROKEN_OFF_STATUS)
        self.assertIn(BROKEN_OFF.decode(), self.get("monitor.err"))
        self.wait_for(lambda: not is_alive(program))
        self.assert_goes_on()

    def test_a_program_that_fails_by_itself(self):
        """Where it has no room to write, no memory, or is killed, the log is not to blame, and the next monitor goes on."""
        for ending, why in (("echo 'write fault after 0 bytes' >&2; exit 5", "ended with status 5: write fault after 0 bytes"),
                            ("echo 'out of memory' >&2; exit 4", "ended with status 4: out of memory"),
                            ("kill -KILL $$", "was killed by signal 9")):
            with self.subTest(why):
                self.put("failing", "#!/bin/sh\ncat > /dev/null\n%s\n" % ending)
                os.chmod(self.path("failing"), 0o755)
                events = [RULES, BASE, PLACE, write(5, DOC), write(10, remove=[DOC]), check(10, True, DOC)]
                self.put_log(files_of(timed(events), []))
                self.ends(self.monitor("--once", "--program", self.path("failing")), 5)
                self.assertIn("monitor: %s %s" % (self.path("failing"), why), self.get("monitor.err"))
        self.ends(self.monitor("--once"))
        self.assertEqual([row["kind"] for row in self.told()], ["stopped"] * 3 + ["finding"])

    def test_a_program_that_is_told_to_stop_too(self):
        """As systemd tells all processes of a unit, and a terminal those before it: its monitor alone ends it."""
        one, program = self.begun(LATE)
        for number in (signal.SIGTERM, signal.SIGINT, signal.SIGHUP):
            os.kill(program, number)
        time.sleep(0.2)
        self.assertEqual(children_of(one.pid), [program])
        one.send_signal(signal.SIGTERM)
        self.ends(one)
        self.assert_goes_on()
