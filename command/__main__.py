"""Starts hitch: python3 command WORDS"""
import os
import sys

OLDEST = (3, 8)

if sys.version_info < OLDEST:
    sys.stderr.write("hitch: python3 is older than 3.8\n")
    sys.exit(3)

sys.path[0] = os.path.dirname(os.path.dirname(os.path.abspath(__file__)))
from command import main  # noqa: E402

main.start(sys.argv[1:])
