"""By hand, since it is long: `tests/library/kept_cluster.py` with twelve nodes, 256 kills and cuts, with `keep_events` and without it.

    tests/by_hand/kept_cluster_long.py [--kills N] [..]

Its options are those of that script, and override the ones that it sets.
"""

import os
import subprocess
import sys

TOP = os.path.dirname(os.path.dirname(os.path.dirname(os.path.abspath(__file__))))
SCRIPT = os.path.join(TOP, "tests", "library", "kept_cluster.py")
WORDS = ["--nodes", "12", "--kills", "256", "--cut"]

# (both run, whatever the result of the first one)
statuses = [subprocess.run([sys.executable, SCRIPT, *WORDS, *setting, *sys.argv[1:]]).returncode for setting in ([], ["--without"])]
sys.exit(max(statuses))
