"""Pictures of `serf-replay draw`, with each arrow from the lane of the node that sent the packet."""

import re


class PictureError(Exception):
    """It is no picture of this schedule."""


class Picture:
    """A picture that `serf-replay draw` made of a story's schedule."""

    NUMBER = re.compile(r"<text class='n' x='-680' y='(\d+)75'>(\d+)</text>")
    NAME = re.compile(r"<text class='h' x='(-?\d+)' y='065'>")
    DOT = re.compile(r"<g class='.' transform='translate\((-?\d+) (\d+)50\)'>")
    OUTSIDE = "<text class='h' x='-500'"

    # what an agent of the schedule passes on: the real ones did that by the packets of the capture
    CROSS = "<path class='x' transform="

    # a place left of all lanes, and the line of its row: an arrow's beginning, whose row is that of the arrow's end, or another place
    ARROW = re.compile(r"<path class='[tir]' d='M(-500) \d+50L-?\d+ (\d+)50'/>")
    PLACE = re.compile(r"<(?:path|g) .*[M(](-500) (\d+)50")

    def __init__(self, text, story):
        self.lines, self.actions = text.splitlines(keepends=True), list(story.actions())
        self.numbers = {line: int(number) for line, number in self.NUMBER.findall(text)}
        places, agents = [x for x in self.NAME.findall(text) if x != "-500"], story.agents()
        if not text.startswith("<svg ") or len(places) > len(agents):
            raise PictureError
        self.lanes = self.lanes_of(places, agents, self.DOT.findall(text))

    def action(self, line):
        """The step of the row on a line, and whether it only injects the packet."""
        number = self.numbers.get(line, 0)
        if not 0 < number <= len(self.actions):
            raise PictureError
        return self.actions[number - 1]

    def lanes_of(self, places, agents, dots):
        """The place of each agent's lane: all of them in their order, or those that are drawn, by their rows."""
        lanes = dict(zip(agents, places)) if len(places) == len(agents) else {}
        for x, line in dots:
            step, injects = self.action(line)
            if x != ("-500" if injects else lanes.setdefault(step.agent, x)):
                raise PictureError
        return lanes

    def with_sender_lane(self, line):
        """A line, with what is outside in its sender's lane. A cross is left out, and so is an arrow from a node to itself."""
        arrow = self.ARROW.match(line)
        found = arrow or self.PLACE.match(line)
        if line.startswith(self.CROSS):
            return ""
        if not found:
            return line
        step, _ = self.action(found[2])
        if arrow and step.sender == step.agent:
            return ""
        return line[: found.start(1)] + self.lanes.get(step.sender, "-500") + line[found.end(1) :]

    def with_senders(self):
        """The picture, with the name `outside` only if something is there still."""
        lines = [self.with_sender_lane(line) for line in self.lines]
        is_empty = not any(self.PLACE.match(line) for line in lines)
        return "".join(line for line in lines if not (is_empty and line.startswith(self.OUTSIDE)))
