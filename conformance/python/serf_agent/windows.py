"""Clocks and windows: which times are accepted, and what was accepted with each time."""

from .messages import MAX_UINT64
from .switches import wrong


class Window:
    """A clock, the minimum time that is accepted, and what was accepted with the last times.

    A slot has the entries of one time. Its index is this time modulo the number of slots.
    """

    def __init__(self, slots, per_time, clock, minimum):
        self.size, self.per_time = slots, per_time
        self.clock, self.minimum = clock, minimum
        self.slots = [None] * slots

    def resume(self, last, minimum):
        """Resumes from a text's last clock line and its minimum, which can be above that line."""
        self.clock = last + 1 if wrong("minimum_above_the_clock") else max(last + 1, minimum)
        self.minimum = minimum

    def restore(self, time, entry, reason):
        """Restores an entry that a text keeps, unless there is a reason against it.

        If its time is full, the entry is left out. It couldn't be recognized later, so no time up to its own is accepted any more.
        """
        if reason is None or (reason == "TimeFull" and wrong("any_number_restored")):
            self.insert(time, entry)
        elif reason == "TimeFull" and not wrong("full_time_left_out_alone"):
            self.minimum = max(self.minimum, time + 1)

    def reach(self):
        """The smallest time that isn't too old."""
        return max(self.clock - self.size, 0)

    def held_from(self, minimum):
        """What the slots hold with this time or a later one, in the order of the slots."""
        return [(held[0], entry) for held in self.slots if held is not None and held[0] >= minimum for entry in held[1]]

    def observed(self, time):
        """The clock after it observed a time."""
        after = time if wrong("witness_without_one") else time + 1
        if wrong("clock_always_follows"):
            return after
        return max(self.clock, after)

    def observe_before(self, clock):
        """Observes every time below another agent's clock."""
        if wrong("state_clock_is_witnessed"):
            clock = min(clock + 1, MAX_UINT64)
        self.clock = max(self.clock, clock)

    def entries(self, time):
        held = self.slots[time % self.size]
        return held[1] if held is not None and held[0] == time else []

    def judge(self, time, entry, clock):
        """Why an entry isn't accepted at this value of the clock, or None."""
        minimum = self.minimum + 1 if wrong("minimum_one_more") else self.minimum
        if time < minimum and not wrong("no_minimum"):
            return "BelowMinimum"
        size = self.size
        if wrong("window_one_short"):
            size -= 1
        if wrong("window_one_long"):
            size += 1
        if time + size < clock and not wrong("no_window"):
            return "TooOld"
        taken = self.entries(time)
        if entry in taken:
            return "Seen"
        limit = self.per_time + 1 if wrong("one_more_of_a_time") else self.per_time
        if len(taken) >= limit and not wrong("any_number_of_a_time"):
            return "TimeFull"
        return None

    def insert(self, time, entry):
        place = time % self.size
        if self.slots[place] is None or self.slots[place][0] != time:
            if wrong("full_slot_keeps_old") and self.slots[place] is not None:
                return
            self.slots[place] = (time, [])
        self.slots[place][1].append(entry)
