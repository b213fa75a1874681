"""What must not compile: a handed query that is answered twice, or cloned. Answering it uses it up.

A scratch crate over the repository's crates, which `rt try` compiles without a proof: each case must have one error, in its
last line. A test of tests/library/units, in calls.rattle, answers a query once, which shows that this compiles.
"""

import os
import re
import sys

sys.dont_write_bytecode = True
sys.path.insert(0, os.path.dirname(os.path.dirname(os.path.abspath(__file__))))
import checks
import scratch

CODE = """//! A handed query.
#![tactic(auto)]

use serf_agent::PendingQuery;
use std::alloc::Global;
use std::test::Fail;

#[test]
fn compiles(_rt: HostRuntime) -> Result<(), Fail> {
    Ok(())
}

pub fn answer(alloc: Global, query: PendingQuery) {
    let _first = query.respond(alloc, 0, b"yes");
"""

TWICE = '    let _second = query.respond(alloc, 0, b"no");\n'

CLONE = "    let _other = query.clone();\n"

ERROR = re.compile(r"^src/lib\.rt:(\d+):\d+: (error\[.*)$", re.M)


def is_refused(last, error):
    """Whether the code with this last line has this error and no other, and what the toolchain printed."""
    with scratch.crate("moved_query", ["serf_agent"]) as source:
        scratch.write(source, "lib.rt", CODE + last + "}\n")
        status, output = scratch.run_tests(source)
    errors = ERROR.findall(output)
    line = CODE.count("\n") + 1
    well = len(errors) == 1 and int(errors[0][0]) == line and errors[0][1].startswith(error)
    return status == 1 and well and output.count("error[") == 1, output


def moved(count):
    for name, last, error in (
        ("answering twice does not compile", TWICE, "error[borrow-e0382]: use of moved value: `query`"),
        ("cloning does not", CLONE, "error[unknown-method]: the method `clone` "),
    ):
        count.check(name, *is_refused(last, error))


if __name__ == "__main__":
    sys.exit(checks.run(moved))
