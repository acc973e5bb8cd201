"""Tests of tools/dev/gate_times."""
import os
import signal
import subprocess
import sys
import time
import unittest

COMMAND = os.path.join(os.path.dirname(os.path.dirname(os.path.abspath(__file__))), "dev", "gate_times")
ENDS = r"\| all \| 0 \| 0 \| 0 \|\n\d+\.\d processor minutes, \d+\.\d minutes\n$"


def catches(process: int, number: int) -> bool:
    """Whether a process has said what it does at a signal."""
    with open("/proc/%d/status" % process, encoding="ascii") as file:
        caught = next(int(line.split()[1], 16) for line in file if line.startswith("SigCgt"))
    return bool(caught >> (number - 1) & 1)


class GateTimes(unittest.TestCase):
    def test_the_status_is_the_commands(self) -> None:
        run = subprocess.run([sys.executable, COMMAND, "sh", "-c", "exit 7"], capture_output=True, text=True, timeout=300)
        self.assertEqual(run.returncode, 7)
        self.assertRegex(run.stderr, ENDS)

    def test_what_was_seen_where_it_is_told_to_end(self) -> None:
        run = subprocess.Popen([sys.executable, COMMAND, "sh", "-c", "echo runs; exec sleep 60"], stdout=subprocess.PIPE, stderr=subprocess.PIPE, text=True)
        assert run.stdout is not None
        self.assertEqual(run.stdout.readline(), "runs\n")
        while not catches(run.pid, signal.SIGTERM):
            time.sleep(0.01)
        run.send_signal(signal.SIGTERM)
        self.assertRegex(run.communicate(timeout=300)[1], ENDS)


if __name__ == "__main__":
    unittest.main()
