"""A schedule's trace with its reasons, parsed: the lines of each action, what its reasons say, and whether that matches the
other lines of the trace.
"""

import re

from checks import run_program

REASON = re.compile(rb"(\d+) because ([\x20-\x7e]+)\Z")

# How many actions a random schedule has.
ACTIONS = "150"

# The reason of a join that raises the minimum time.
RISES = b"the join ignores old events: the minimum time rises to %d"


def quoted(text):
    """A text as reasons quote it."""
    front = text if len(text) <= 64 else text[:32]
    inner = "".join(chr(byte) if 32 <= byte < 127 and chr(byte) not in '"\\' else f"\\x{byte:02x}" for byte in front)
    return (f'"{inner}"' if len(text) <= 64 else f'"{inner}.." ({len(text)} bytes)').encode()


def bytes_of(word):
    return b"" if word == b"-" else bytes.fromhex(word.decode())


def event_words(time, name, payload):
    return b"event %s %s %s" % (time, quoted(name), quoted(payload))


def actions_of(schedule):
    """The actions of a schedule, each as its words, and the agents' words."""
    lines = [line.split() for line in schedule.split(b"\n") if line.split() and not line.startswith(b"#")]
    return [line for line in lines if line[0] != b"agent"], [line for line in lines if line[0] == b"agent"]


def turns_of(text):
    """For each action's number its lines of the trace, and after them its reasons; None if a line is in the wrong place."""
    turns = {}
    for line in text.split(b"\n")[:-1]:
        number = int(line.split(b" ", 1)[0])
        reason = REASON.match(line)
        lines, reasons = turns.setdefault(number, ([], []))
        if number != max(turns) or (reasons and not reason):
            return None
        (reasons if reason else lines).append(reason[2] if reason else line.split()[1:])
    return turns


def plain(text):
    return b"".join(line + b"\n" for line in text.split(b"\n")[:-1] if not REASON.match(line))


def decoded(packets):
    """What `decode` prints for each packet, as lines of words; None for a packet that is refused, or is empty."""
    said = run_program(["decode"], b"".join(packet + b"\n" for packet in packets if packet != b"-"))[1].split(b"\n\n")
    rest = iter([line.split() for line in block.split(b"\n") if line] for block in said)
    found = [next(rest) if packet != b"-" else None for packet in packets]
    return [lines if lines and lines[0][0] != b"refused" else None for lines in found]


def carried(lines):
    """The events that a push/pull carries, in its order: their slots, times, names and payloads."""
    found, slot, time = [], None, None
    for words in lines:
        if words[0] == b"slot":
            slot, time = words[1], words[2]
        elif words[0] == b"event":
            found.append((slot, time, bytes_of(words[1]), bytes_of(words[2])))
    return found


class Story:
    """A schedule with its trace and its reasons, and what was handed out up to an action."""

    def __init__(self, schedule, text):
        self.actions, agents = actions_of(schedule)
        self.names = [bytes_of(words[1]) for words in agents]
        self.keeps = [any(word.endswith(b"+events") for word in words) for words in agents]
        self.ignores = [words[6].startswith(b"ignore") for words in agents]
        self.turns = turns_of(text)
        self.sent = decoded([line[2] for lines, _ in self.turns.values() for line in lines if line[0] == b"sent"])
        self.raised = dict(self.raising())

    def raising(self):
        """Each whole merge that raises its agent's minimum time of events, and to what: by the states' event clocks, and by
        what each restart prints."""
        minimum = [1] * len(self.names)
        for number, words in enumerate(self.actions, 1):
            lines, reasons = self.turns[number]
            if words[0] == b"restart" and lines[0][0] == b"restarted":
                minimum[int(words[1])] = int(re.search(rb": it takes events from (\d+) and queries from ", reasons[0])[1])
            if words[0] == b"merge" and words[3] == b"join" and lines[0] == [b"merged"] and self.ignores[int(words[1])]:
                clock = int(next(line[1] for line in self.sent[int(words[2])] if line[0] == b"EventLTime"))
                if clock > minimum[int(words[1])]:
                    minimum[int(words[1])] = clock
                    yield number, clock

    def handed(self, number):
        """The events that an action handed out: agent, time, name, payload."""
        lines = self.turns[number][0]
        return [(line[1], line[2], bytes_of(line[3]), bytes_of(line[4])) for line in lines if line[0] == b"event"]

    def is_seen(self, number, agent, reason, event):
        """Whether a reason names an action, no later, that handed this agent this event."""
        says = quoted(self.names[int(agent)]) + b" was handed " + event_words(*event) + rb" at action "
        at = reason.removeprefix(says)
        return at != reason and at.isdigit() and int(at) <= number and (agent, *event) in self.handed(int(at))

    def is_tailed(self, number, agent, reason, event):
        """Whether a reason names a text with an event's line, for an agent that keeps its events: a tail before this
        action has the line, and no action before it handed this agent the event."""
        time, name, payload = event
        line = b"#event %s %s %s" % (time, name.hex().encode(), payload.hex().encode())
        tails = [bytes_of(words[2]) for words in self.actions[: number - 1] if words[:2] == [b"restart", agent]]
        return (
            reason == quoted(self.names[int(agent)]) + b" was opened on a text with the line of " + event_words(*event)
            and self.keeps[int(agent)]
            and any(line in tail.split(b"\n")[:-1] for tail in tails)
            and not any((agent, *event) in self.handed(action) for action in range(1, number))
        )

    def merge_fault(self, number):
        """What is wrong with the reasons of a merge, or None: if it raises the minimum time, the first one says so, and each
        event that it carried has a line and a verdict."""
        _, agent, packet, *_ = self.actions[number - 1]
        wanted, reasons, new = carried(self.sent[int(packet)]), self.turns[number][1], []
        if number in self.raised:
            first, *reasons = reasons
            if first != RISES % self.raised[number]:
                return first
        if wanted == []:
            return None if reasons == [b"the state carries no event"] else reasons
        if len(wanted) != len(reasons):
            return f"{len(reasons)} lines"
        for (slot, *event), reason in zip(wanted, reasons):
            head = b"slot %s carries %s: " % (slot, event_words(*event))
            verdict = reason.removeprefix(head)
            if verdict == b"new, and handed out":
                new.append((agent, *event))
            elif not (verdict != reason and self.verdict_holds(number, agent, event, verdict)):
                return reason
        return None if new == self.handed(number) else "hand-outs"

    def verdict_holds(self, number, agent, event, verdict):
        numbers = [int(word) for word in re.findall(rb"(?<![\w\"])\d+", verdict)]
        time = int(event[0])
        if verdict.startswith(b"below the minimum time "):
            return time < numbers[0]
        if verdict.startswith(b"too old: "):
            return numbers[2] - numbers[1] > time == numbers[0]
        if verdict.startswith(b"too many of its time: "):
            return numbers[1] == time
        reason = verdict.removeprefix(b"seen: ")
        return reason != verdict and any(holds(number, agent, reason, event) for holds in (self.is_seen, self.is_tailed))


def taken_apart(count, name, schedule):
    """The text contains the trace unchanged, and after each action's lines at least one reason."""
    status, text, said = run_program(["explain"], schedule)
    traced = run_program(["replay"], schedule)
    count.check(f"{name}: its trace", (status, plain(text), said) == traced, (status, said))
    turns = turns_of(text)
    if status == 0:
        numbers = list(range(1, len(actions_of(schedule)[0]) + 1))
        count.check(
            f"{name}: a reason for each action",
            turns is not None and list(turns) == numbers and all(reasons for _, reasons in turns.values()),
        )
    return Story(schedule, text) if status == 0 and turns else None


def event_in(lines):
    """The event that a packet is: its time, name and payload."""
    fields = {words[0]: words[1] for words in lines[1:]}
    return fields[b"LTime"], bytes_of(fields[b"Name"]), bytes_of(fields[b"Payload"])


def what_is_said(count, name, story):
    """An event that was seen was handed out before, and each merge has its verdicts. Returns how many were seen, how many merged,
    and how many of these raised the minimum time."""
    seen = merges = 0
    for number, words in enumerate(story.actions, 1):
        lines, reasons = story.turns[number]
        answer = lines[0]
        if words[0] == b"deliver" and answer == [b"ignored", b"Seen"] and b" was handed " in reasons[0]:
            event = event_in(story.sent[int(words[2])])
            count.check(
                f"{name}: action {number} was seen", story.is_seen(number - 1, words[1], reasons[0], event), reasons
            )
            seen += 1
        if words[0] == b"deliver" and answer == [b"ignored", b"Seen"] and b" was opened on a text with the line of event " in reasons[0]:
            event = event_in(story.sent[int(words[2])])
            count.check(
                f"{name}: action {number} was kept", story.is_tailed(number, words[1], reasons[0], event), reasons
            )
        if words[0] == b"merge" and answer == [b"merged"]:
            fault = story.merge_fault(number)
            count.check(f"{name}: action {number} merges", fault is None, fault)
            merges += 1
    return seen, merges, len(story.raised)


def reasons_of(schedule, number):
    return turns_of(run_program(["explain"], schedule)[1])[number][1]
