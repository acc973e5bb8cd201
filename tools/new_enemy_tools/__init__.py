"""The tools around the auditor: they make traces of a service's logs, cut them, and say what an audit found.

Libraries raise (faults.py); commands say what was raised, and exit.
"""

# Of the tools, and of the packages that tools/dev/package makes.
VERSION = "0.3.0"
