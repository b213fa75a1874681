"""The snapshot: clock lines on a disk that may fail."""

from .switches import wrong

# The kinds of lines, in the order in which a compaction writes them.
KINDS = ("clock", "event-clock", "query-clock")

MAX_VALUE = (1 << 64) - 2


class SinkError(Exception):
    """The disk failed."""


def number_in(digits):
    """The number that decimal digits write. (Python's `int` refuses more than 4,300 of them, even if they are zeros.)"""
    digits = digits.lstrip(b"0") or b"0"
    return int(digits) if len(digits) <= 20 else 10**20


def value_of(line, kind):
    """The value of a clock line, if it has this kind, or None."""
    front = kind.encode() + b": "
    if not line.startswith(front):
        return None
    digits = line[len(front) :]
    if wrong("loose_lines"):
        digits = digits.strip()
    if not digits or not all(48 <= byte <= 57 for byte in digits):
        return None
    if wrong("leading_zeros_refused") and len(digits) > 1 and digits.startswith(b"0"):
        return None
    value = number_in(digits)
    return value if value <= MAX_VALUE else None


def lines_of(text):
    """The lines of a snapshot's text. What follows the last newline is not a line."""
    lines = text.split(b"\n")
    return lines if wrong("torn_tail_is_read") else lines[:-1]


def values_in(text):
    """The value of each kind in a snapshot's text: the largest of its lines, or 0 if it has none."""
    lines = lines_of(text)
    found = {}
    for kind in KINDS:
        values = [value for value in (value_of(line, kind) for line in lines) if value is not None]
        if wrong("last_line_wins"):
            values = values[-1:]
        found[kind] = max(values, default=0)
    return found


class Disk:
    """The durable text of a disk, and the planned failures of its calls."""

    def __init__(self, text):
        self.durable = text
        self.written = b""
        self.plan = {"append": 0, "flush": 0, "replace": 0}
        self.keeps_new = False

    def plan_failure(self, call, count):
        """Plans that the count-th call from now fails. Two names stand for the same call, the replacement."""
        if call.startswith("replace"):
            self.keeps_new = call == "replace-new"
            call = "replace"
        self.plan[call] = self.plan[call] + count if wrong("plans_add_up") else count

    def fails(self, call):
        left = self.plan[call]
        self.plan[call] = max(left - 1, 0)
        return left == 1

    def append(self, line):
        if self.fails("append"):
            if wrong("half_a_line_is_kept"):
                self.durable += line[: len(line) // 2]
            raise SinkError
        self.written += line

    def flush(self):
        if self.fails("flush"):
            raise SinkError
        self.durable += self.written
        self.written = b""

    def replace(self, text):
        if self.fails("replace"):
            if self.keeps_new:
                self.durable = text
            raise SinkError
        self.durable = text


class Snapshot:
    """Clock lines on a disk. After the disk failed, nothing is written any more."""

    def __init__(self, text, keeps=False):
        self.values, self.keeps = values_in(text), keeps
        if text and not text.endswith(b"\n") and not wrong("torn_tail_is_not_ended"):
            text += b"#\n"
        self.disk = Disk(text)
        self.stopped = False

    def guarded(self, call):
        try:
            call()
        except SinkError:
            if not wrong("continues_after_a_failed_disk"):
                self.stopped = True
            raise

    def append_clock(self, kind, value):
        """Writes the line of a kind if its value rises, and flushes it."""
        if value <= self.values[kind] and not wrong("each_line_is_written"):
            return
        if wrong("no_query_lines") and kind == "query-clock":
            return
        self.guarded(lambda: self.keep(kind, value))
        self.values[kind] = max(value, self.values[kind])

    def append_kept(self, kind, value, line):
        """Writes a line of what is kept, and, if the value rises, the line of its kind before it, with a single flush."""
        clock = b"" if value <= self.values[kind] else self.clock_line(kind, value)
        if wrong("no_kept_line_below_the_clock_line") and value and not clock:
            return
        if wrong("kept_line_without_its_clock_line"):
            clock = b""
        self.guarded(lambda: self.flushed(line + clock if wrong("clock_line_after_the_kept_line") else clock + line))
        self.values[kind] = max(value, self.values[kind])

    def clock_line(self, kind, value):
        """A clock line. If events are kept, those of events and queries have a leading zero."""
        has_zero = self.keeps and kind != KINDS[0] and not wrong("no_zero_in_clock_lines")
        return f"{kind}: {'0' if has_zero else ''}{value}\n".encode()

    def keep(self, kind, value):
        self.flushed(self.clock_line(kind, value))

    def flushed(self, line):
        self.disk.append(line)
        if not wrong("line_is_not_flushed"):
            self.disk.flush()

    def compacted(self, kept):
        """The text that a compaction leaves: the lines of what is kept, and the last line of each kind."""
        kinds = [kind for kind in KINDS if self.values[kind]]
        if wrong("compaction_drops_query_line"):
            kinds = [kind for kind in kinds if kind != "query-clock"]
        if wrong("compaction_in_another_order"):
            kinds.reverse()
        return kept + b"".join(self.clock_line(kind, self.values[kind]) for kind in kinds)

    def compact(self, kept=b""):
        """Replaces the text by what a compaction leaves."""
        text = self.compacted(kept)
        if not text and wrong("nothing_to_compact"):
            return
        self.guarded(lambda: self.disk.replace(b"" if wrong("compaction_writes_nothing") else text))
