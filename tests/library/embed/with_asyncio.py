"""A host with asyncio, whose function is in the README of the binding in Python: prints `FAILED ..` for each check that fails,
and 'N passed, M failed'.

    with_asyncio.py FOLDER
"""

import asyncio
import os
import re
import sys
import textwrap

PYTHON = os.path.join(os.path.dirname(os.path.abspath(__file__)), "..", "..", "..", "bindings", "python")
sys.path.insert(0, PYTHON)
from serf_agent import Agent

FOLDER = sys.argv[1]


def of_page():
    """The function that the page shows."""
    with open(os.path.join(PYTHON, "README.md"), encoding="utf-8") as file:
        block = re.search(r"^    import asyncio\n(?:(?:    .*)?\n)+", file.read(), re.M)
    found = {}
    exec(textwrap.dedent(block[0]), found)
    return found["host"]


async def handled(host, packets, agent):
    """The times of the events that the host handles, in order."""
    queue, times = asyncio.Queue(), []

    async def handle(event):
        await asyncio.sleep(0)
        times.append(event.time)

    for packet in [*packets, None]:
        queue.put_nowait(packet)
    await host(agent, queue, handle)
    return times


with Agent(b"a", os.path.join(FOLDER, "asyncio_a")) as one, Agent(b"b", os.path.join(FOLDER, "asyncio_b")) as other:
    sent = [one.fire(b"deploy", str(number).encode()).packet for number in range(20)]
    times = asyncio.run(handled(of_page(), [packet for packet in sent for _ in range(2)], other))
well = times == list(range(1, 21))
if not well:
    print(f"FAILED the host with asyncio: {times}")
print(f"{int(well)} passed, {int(not well)} failed")
sys.exit(not well)
