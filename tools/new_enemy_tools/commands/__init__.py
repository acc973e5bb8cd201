"""The commands of the tools. Each module has a `main` that takes the words behind the command's name and answers its status."""
import sys

if sys.version_info < (3, 9):
    sys.stderr.write("the tools need Python 3.9 or a later one, and this is %d.%d\n" % sys.version_info[:2])
    sys.exit(3)
