"""By hand, since it is long: `tests/library/beside_serf.py` with four stock agents and eight nodes of ours, for ten minutes of kills.

    tests/by_hand/beside_serf_long.py [--seconds S] [..]

Its options are those of that script, and override the ones that it sets.
"""

import os
import sys

TOP = os.path.dirname(os.path.dirname(os.path.dirname(os.path.abspath(__file__))))
SCRIPT = os.path.join(TOP, "tests", "library", "beside_serf.py")

os.execv(sys.executable, [sys.executable, SCRIPT, "--stock", "4", "--ours", "8", "--seconds", "600", *sys.argv[1:]])
