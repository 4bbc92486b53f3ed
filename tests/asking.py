"""Asks the archive's calls about the block of the record on standard input, for the programs of the class page."""

import os
import struct
import subprocess
import sys

HERE = os.path.dirname(os.path.realpath(__file__))
sys.path.insert(0, os.path.join(HERE, "second"))

import lists


def ask(request, layout):
    """The answer's numbers."""
    program = os.path.join(HERE, "ask")
    done = subprocess.run([program], input=lists.encode(request), stdout=subprocess.PIPE, check=True)
    return struct.unpack(layout, done.stdout)


def touches():
    """The coordinates in the record. A record that is refused ends the program."""
    number, place, count, *numbers = ask(("R", sys.stdin.buffer.read(), (0,) * 192), "<BHH192i")
    if number:
        refused(number, place)
    return numbers[: 3 * count]


def refused(number, place):
    print(f"refused {number} {place}")
    sys.exit(0)
