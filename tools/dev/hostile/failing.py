"""The calls that failing.c makes fail, in runs of any program."""
import os
import subprocess
import tempfile
from typing import Callable, NamedTuple

SOURCE = os.path.join(os.path.dirname(os.path.abspath(__file__)), "failing.c")
MOST = 1 << 20


class Failing(NamedTuple):
    """Calls of one kind, and the library that makes them fail."""
    calls: str
    library: str

    def met(self, first: int, last: int, run: Callable):
        """What a run answers where the calls from the first to the last fail, and how many did. It takes its environment and a file that it inherits."""
        with tempfile.TemporaryFile() as counted:
            settings = {"LD_PRELOAD": self.library, "FAIL_WHAT": self.calls, "FAIL_FROM": str(first), "FAIL_TO": str(last),
                        "FAIL_TOLD": str(counted.fileno())}
            answer = run(env={**os.environ, **settings}, pass_fds=(counted.fileno(),))
            return answer, counted.seek(0, os.SEEK_END)


def built(room: str, calls: str) -> Failing:
    """Calls of this kind; the library is built in a folder."""
    library = os.path.join(room, "failing.so")
    subprocess.run(["cc", "-O1", "-shared", "-fPIC", "-o", library, SOURCE], check=True)
    return Failing(calls, library)
