"""Wrong bodies, tried many at once."""
import os
import sys

# What the tools share stands beside the developers' folder.
sys.path.append(os.path.dirname(os.path.dirname(os.path.dirname(os.path.abspath(__file__)))))
