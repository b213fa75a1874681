"""What a host in Python notes of the handlers of its events, and the lines about them (docs/HOST.md, "What was handed out and isn't done").

POWER_CUTS_FAULT names a bug of it, as handled.py lists them.
"""

import os

from serf_agent import begun_line, done_line, done_up_to_line, open_events, open_line

FAULT = os.environ.get("POWER_CUTS_FAULT")


class Tracking:
    """The open events, in the order in which they were handed out, and for each of them whether its handler has begun. The agent has just
    opened the file, so the file is locked and flushed. `say` prints a line."""

    def __init__(self, path, agent, say):
        self.path, self.say, self.open, self.file = path, say, {}, None
        with open(path, "rb") as file:
            found = open_events(file.read())
        for event in found or []:
            self.open[event.time, event.name, event.payload] = event.begun
            self.print("u" if event.begun else "w", (event.time, event.name))
        self.reopen()
        if found is None:
            self.append(done_up_to_line(agent.clocks().event))
            os.fdatasync(self.file)

    def print(self, word, event):
        self.say(word, str(event[0]), event[1].hex())

    def reopen(self):
        self.close()
        self.file = os.open(self.path, os.O_WRONLY | os.O_APPEND)

    def close(self):
        if self.file is not None:
            os.close(self.file)
            self.file = None

    def append(self, line):
        while line:
            line = line[os.write(self.file, line) :]

    def hand_out(self, event):
        self.open[event.time, event.name, event.payload] = False

    def first(self, has_begun):
        return next((event for event, begun in self.open.items() if begun == has_begun), None)

    def begin(self):
        """Begins the handler of the first event that waits, after the flush of its line."""
        event = self.first(False)
        if event is None:
            return
        self.append(begun_line(*event) + (done_line(*event) if FAULT == "done_first" else b""))
        try:
            if FAULT != "begun_unflushed":
                os.fdatasync(self.file)
        except OSError:
            if FAULT != "begun_error":
                raise
        self.open[event] = True
        self.print("b", event)

    def end(self):
        """Ends the handler that began first."""
        event = self.first(True)
        if event is None:
            return
        self.print("d", event)
        del self.open[event]
        if FAULT not in ("done_first", "done_missing"):
            self.append(done_line(*event))

    def compact(self, agent):
        lines = [done_up_to_line(agent.clocks().event - 1)]
        events = list(self.open.items())
        if FAULT == "compaction_reverses":
            events.reverse()
        for event, has_begun in events if FAULT != "compaction_drops" else ():
            lines += [open_line(*event), *([begun_line(*event)] if has_begun and FAULT != "compaction_forgets_begun" else [])]
        text = b"".join(lines)
        if FAULT == "compaction_in_two_steps":
            agent.compact()
            self.reopen()
            self.append(text)
            os.fdatasync(self.file)
        else:
            agent.compact(text)
            self.reopen()
