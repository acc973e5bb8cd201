"""What is installed here, and not on every machine."""
import functools
import os
import subprocess
import sys


@functools.cache
def python_with(*modules: str) -> str:
    """A Python that has some modules, this one or the system's; empty where neither has."""
    for python in (sys.executable, "/usr/bin/python3"):
        words = [python, "-c", "import " + ", ".join(modules)]
        if os.path.exists(python) and subprocess.run(words, capture_output=True, timeout=300).returncode == 0:
            return python
    return ""
