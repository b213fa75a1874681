#!/usr/bin/env python3
"""Draws what the handlers of a cluster ran, from the JSON of `serf-replay judge`: a lane for each node, in the order of time, and what
ran twice in red, joined.

    serf-replay judge handlers.log --format json | log_picture.py >handlers.svg

If every line of the log has a date, the distance of two rows grows with the time between them. Otherwise the rows are in the order of
the lines. An event that a node was never handed is a dashed ring.
"""

import datetime
import html
import math
import sys

from lines import label_of, key_of, objects, text_of, visible

# In pixels: a row, a lane, the column of times, a character of a label.
ROW, LANE, GUTTER, CHARACTER = 26, 250, 90, 7.3

# The maximum number of rows that are drawn.
ROWS = 400

STYLE = """svg{--ink:#1f2328;--soft:#59636e;--paper:#ffffff;--lane:#c3cad1;--t:#1a7f37;--r:#cf222e;--m:#9a6700}
@media(prefers-color-scheme:dark){svg{--ink:#e6edf3;--soft:#9198a1;--paper:#0d1117;--lane:#484f58;--t:#3fb950;--r:#ff7b72;--m:#d29922}}
.p{fill:#ffffff;fill:var(--paper)}.l{stroke:#c3cad1;stroke:var(--lane)}.j{fill:none;stroke:#cf222e;stroke:var(--r);stroke-width:2.5}
text{font:12px ui-monospace,Menlo,Consolas,'DejaVu Sans Mono',monospace;white-space:pre}.h{font-weight:bold;font-size:14px;fill:#1f2328;fill:var(--ink)}
.n{fill:#59636e;fill:var(--soft)}.t{fill:#1a7f37;fill:var(--t)}.r{fill:#cf222e;fill:var(--r)}.a{font-weight:bold}.m{fill:#9a6700;fill:var(--m);font-style:italic}
circle.m{fill:none;stroke:#9a6700;stroke:var(--m);stroke-width:2;stroke-dasharray:3 2}"""


class Mark:
    """Something that a node was handed or missed: its lane, its row and its label."""

    def __init__(self, item, lane, tone):
        self.item, self.lane, self.tone, self.y, self.seconds = item, lane, tone, 0.0, None
        self.label = label_of(item)


def seconds_of(date):
    """The seconds since 1970 of a date, or None if it isn't one."""
    try:
        moment = datetime.datetime.fromisoformat(date.replace("Z", "+00:00"))
    except ValueError:
        return None
    return (moment if moment.tzinfo else moment.replace(tzinfo=datetime.timezone.utc)).timestamp()


class Picture:
    """The lanes and the marks of a log, and the marks that are joined."""

    def __init__(self, items):
        self.nodes, self.marks, self.joined, self.rows, self.left_out = {}, [], [], [], 0
        for item in items:
            if item["kind"] == "node":
                self.lane(item)
            elif item["kind"] in ("event", "query"):
                self.add(item)
        lines = {(mark.item["log"], mark.item["line"]): mark for mark in self.marks}
        for item in items:
            if item["kind"] == "repeat":
                self.join(lines[item["earlier_log"], item["earlier_line"]], lines[item["log"], item["line"]])
        self.has_dates = bool(self.marks) and all(mark.seconds is not None for mark in self.marks)
        logs = list(dict.fromkeys(mark.item["log"] for mark in self.marks))
        self.marks.sort(key=lambda mark: (mark.seconds if self.has_dates else 0, logs.index(mark.item["log"]), mark.item["line"]))
        self.lay_out({key_of(item): [] for item in items if item["kind"] == "missed"}, items)

    def lane(self, item):
        """The number of a node's lane, which is new if the node is."""
        return self.nodes.setdefault(item["node_hex"], (len(self.nodes), text_of(item, "node")))[0]

    def add(self, item):
        """Adds the mark of a line in a log."""
        mark = Mark(item, self.lane(item), "t")
        mark.seconds = seconds_of(item["date"]) if "date" in item else None
        self.marks.append(mark)

    def join(self, early, late):
        """Joins the marks of a repeat, and makes them red."""
        early.tone, late.tone = early.tone if early.tone == "r a" else "r", "r a"
        late.label = f"again: {late.label}"
        self.joined.append((early, late))

    def lay_out(self, missed, items):
        """Sets the place of each mark. What several nodes were handed at one time is one row, with those that missed it."""
        for item in items:
            if item["kind"] == "missed":
                missed[key_of(item)].append(item)
        last, lanes_of_row, y = None, set(), 44.0
        marks, self.marks = self.marks, []
        for mark in marks:
            is_near = last is not None and (not self.has_dates or mark.seconds - last.seconds < 2)
            if last is None or key_of(mark.item) != key_of(last.item) or mark.lane in lanes_of_row or not is_near:
                lanes_of_row = set()
                if len(self.rows) == ROWS:
                    self.left_out = len(marks) - len([item for item in self.marks if item.tone != "m"])
                    break
                y += ROW + self.gap(last, mark)
                self.rows.append((y, self.name_of_row(mark)))
                for item in missed.pop(key_of(mark.item), []):
                    self.marks.append(Mark(item, self.lane(item), "m"))
                    self.marks[-1].label, self.marks[-1].y = "missed " + self.marks[-1].label, y
            mark.y, last = y, mark
            lanes_of_row.add(mark.lane)
            self.marks.append(mark)
        self.height = y + ROW + (ROW if self.left_out else 0)

    def gap(self, last, mark):
        """The pixels between two rows, which grow with the time between them."""
        if last is None or not self.has_dates or mark.seconds - last.seconds <= 1:
            return 0
        return round(min(44, 4 + 8 * math.log2(mark.seconds - last.seconds)))

    def name_of_row(self, mark):
        """The time of a row, or its line in the log."""
        if not self.has_dates:
            return f"line {mark.item['line']}"
        return visible(mark.item["date"]).partition("T")[2].rstrip("Z")

    def x(self, lane):
        """The place of a lane, in pixels."""
        return GUTTER + 30 + LANE * lane

    def svg(self):
        """The picture as the text of an SVG file."""
        width, height = GUTTER + LANE * max(1, len(self.nodes)), round(self.height)
        title = "What the handlers ran, from their logs"
        svg_lines = [
            f"<svg xmlns='http://www.w3.org/2000/svg' role='img' width='{width}' height='{height}' viewBox='0 0 {width} {height}'>"
        ]
        svg_lines += [f"<title>{title}</title>", f"<style>{STYLE}</style>", "<rect class='p' width='100%' height='100%'/>"]
        svg_lines.append(f"<text class='n' x='10' y='18'>{title}</text>")
        for lane, name in self.nodes.values():
            svg_lines.append(f"<path class='l' d='M{self.x(lane)} 50V{height - 8}'/>")
            svg_lines.append(f"<text class='h' x='{self.x(lane) - 8}' y='44'>{html.escape(shorten(name, LANE - 20))}</text>")
        svg_lines += [f"<text class='n' text-anchor='end' x='{GUTTER}' y='{y + 4:g}'>{html.escape(name)}</text>" for y, name in self.rows]
        shown = set(map(id, self.marks))
        for early, late in self.joined:
            if id(early) in shown and id(late) in shown:
                x, bow = self.x(late.lane), min(46, 14 + (late.y - early.y) / 6)
                svg_lines.append(f"<path class='j' d='M{x} {early.y:g}C{x - bow:g} {early.y:g} {x - bow:g} {late.y:g} {x} {late.y:g}'/>")
        svg_lines += [self.mark(mark) for mark in self.marks]
        if self.left_out:
            svg_lines.append(f"<text class='n' x='{GUTTER + 20}' y='{height - 10}'>and {self.left_out} more lines</text>")
        return "\n".join(svg_lines) + "\n</svg>\n"

    def mark(self, mark):
        """A mark and its label as SVG."""
        x, label = self.x(mark.lane), html.escape(shorten(mark.label, LANE - 40))
        where = f"{mark.item['log']}:{mark.item['line']}" if "line" in mark.item else "in no line"
        return (
            f"<g><title>{html.escape(visible(where))}: {html.escape(mark.label)}</title><circle class='{mark.tone}' cx='{x}' cy='{mark.y:g}' r='5.5'/>"
            f"<text class='{mark.tone}' x='{x + 12}' y='{mark.y + 4:g}'>{label}</text></g>"
        )


def shorten(text, width):
    """A text that is at most so many pixels wide."""
    maximum = int(width / CHARACTER)
    return text if len(text) <= maximum else text[: maximum - 1] + "…"


if __name__ == "__main__":
    sys.stdout.write(Picture(list(objects(sys.stdin.buffer.read()))).svg())
