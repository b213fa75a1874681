"""The data races that Go's detector reports, and which code they are in.

Debian's memberlist writes a node's state under its lock, and sends to that node without it. So the detector stops
a test of two nodes now and then, whatever the package serf does. Such a run says nothing about our code, and is repeated. A race
counts if one of its accesses is not memberlist's own.
"""

import re

REPORT = "WARNING: DATA RACE"
# The two accesses of a report, and the function that made each.
ACCESS = re.compile(r"^(?:Previous )?(?:read|write|Read|Write) at .*\n\s+(\S+)\(", re.M)
MEMBERLIST = "github.com/hashicorp/memberlist."

# How often a run in which memberlist raced with itself is made.
TRIES = 5


def are_of_memberlist(said):
    """Whether there are races, and both accesses of each are memberlist's own."""
    reports = [report.partition("\nGoroutine ")[0] for report in said.split(REPORT)[1:]]
    places = [ACCESS.findall(report) for report in reports]
    return bool(reports) and all(
        len(both) == 2 and all(place.startswith(MEMBERLIST) for place in both) for both in places
    )


def run_under_detector(run):
    """A run of tests in which memberlist didn't race with itself, or the final one: its status, and what it printed."""
    for _ in range(TRIES):
        status, output = run()
        if status == 0 or not are_of_memberlist(output):
            break
    return status, output


def try_reports(count):
    """Which reports count as memberlist's own: those with both accesses in memberlist."""
    own, other = f"{MEMBERLIST}(*Memberlist).aliveNode", "kitchenrue.example/serf.(*Serf).take"
    for first, second, is_own in ((own, own, True), (own, other, False), (other, own, False), (other, other, False)):
        said = (
            f"{REPORT}\nWrite at 0x00c0 by goroutine 1:\n  {first}()\n      a.go:1 +0x1\n\n"
            f"Previous read at 0x00c0 by goroutine 2:\n  {second}()\n      b.go:2 +0x2\n\nGoroutine 1 (running) created at:\n"
        )
        count.check(f"a race between {first} and {second}", are_of_memberlist(said) == is_own, said)
    count.check("no race", not are_of_memberlist("--- FAIL: TestAll"))
