"""The commands of a checkout: `lrls` and the other programs of the repository, each made where it
isn't made yet.

    python3 script/checkout/start.py COMMAND WORDS ..      COMMAND is the program whose script was
    called, as `lrls`

The proved program runs where it is there and no source is newer, else one that is made in about two
minutes without repeating the proofs. Needs Python 3.8, and to make a program `rt`, the command of
Rattle's kit. """

import os
import sys

HERE = os.path.dirname(os.path.abspath(__file__))
sys.path.insert(0, HERE)

from running import start

if __name__ == "__main__":
    sys.exit(start(os.path.dirname(os.path.dirname(HERE)), sys.argv[1], sys.argv[2:]))
