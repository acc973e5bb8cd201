"""Hostile use of the built program: strange input, growths that are refused, devices that fail."""
import os
import sys

# What the tools share stands beside the developers' folder.
sys.path.append(os.path.dirname(os.path.dirname(os.path.dirname(os.path.abspath(__file__)))))
