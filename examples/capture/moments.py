"""Moments that a person writes, and their place in a capture."""

import datetime
import re
import zoneinfo

SECOND = 1_000_000
DAY = 86_400 * SECOND

OFFSET = r"[+-]\d\d:\d\d"
OF_DAY = rf"(?:\d{{4}}-\d\d-\d\dT)?\d\d:\d\d:\d\d(?:\.\d+)?(?:Z|{OFFSET})?"
MOMENT = rf"{OF_DAY}|\d+(?:\.\d+)?"
SPAN = re.compile(rf"({MOMENT})?-({MOMENT})?")
PARTS = re.compile(rf"(?:(\d{{4}}-\d\d-\d\d)T)?(\d\d:\d\d:\d\d)(?:\.(\d+))?(Z|{OFFSET})?")


class MomentError(Exception):
    """A moment that can't be meant."""


def zone_of(text):
    """The time zone of a name, or of an offset such as +02:00."""
    if text in ("Z", "UTC"):
        return datetime.timezone.utc
    if text == "local":
        return datetime.datetime.now().astimezone().tzinfo
    if re.fullmatch(OFFSET, text) and int(text[1:3]) < 24 and int(text[4:]) < 60:
        offset = datetime.timedelta(hours=int(text[1:3]), minutes=int(text[4:]))
        return datetime.timezone(-offset if text[0] == "-" else offset)
    try:
        return zoneinfo.ZoneInfo(text)
    except (zoneinfo.ZoneInfoNotFoundError, ValueError, OSError):
        raise ValueError(text) from None


def precision_of(text):
    """How much later than a moment's text it can have been, in microseconds: a log cuts its moments off."""
    digits = len(text.partition(".")[2].rstrip("Z").split("+")[0].split("-")[0])
    return max(SECOND // 10 ** min(digits, 6), 1)


class Clock:
    """A capture's moments: microseconds since its first packet, and times of day in a zone."""

    def __init__(self, began, length, zone, zone_text):
        self.began, self.length, self.zone, self.zone_text = began, length, zone, zone_text

    def shown(self, since):
        """A moment as a date and a time of day, to the millisecond."""
        at = datetime.datetime.fromtimestamp((self.began + since) / 1e6, self.zone)
        return at.strftime("%Y-%m-%d %H:%M:%S.") + f"{at.microsecond // 1000:03}"

    def range(self):
        first, last = self.shown(0), self.shown(self.length)
        until = last if last[:10] != first[:10] else last[11:]
        return f"which is from {first} to {until} {self.zone_text}, or from 0 to {self.length / 1e6:.3f} s"

    def of_day(self, text):
        """Microseconds since 1970 of a time of day. Without a date it is the first one from the capture's first packet on."""
        date, time, parts, offset = PARTS.fullmatch(text).groups()
        zone = zone_of(offset) if offset else self.zone
        first = datetime.datetime.fromtimestamp(self.began / 1e6, zone)
        day = datetime.date.fromisoformat(date) if date else first.date()
        at = datetime.datetime.combine(day, datetime.time.fromisoformat(time), zone)
        moment = round(at.timestamp()) * SECOND + int((parts or "0").ljust(6, "0")[:6])
        # (the capture may have begun later within the second that a log names)
        return moment + (DAY if not date and moment + precision_of(text) <= self.began else 0)

    def since(self, text):
        """A moment in microseconds since the capture's first packet."""
        if ":" not in text:
            moment = round(float(text) * 1e6)
        else:
            try:
                moment = self.of_day(text) - self.began
            except ValueError as why:
                raise MomentError(f"{text} is no time of day: {why}") from None
            moment = 0 if -precision_of(text) < moment < 0 else moment
        if not 0 <= moment <= self.length:
            raise MomentError(f"{text} is outside of the capture, {self.range()}{self.hint(text)}")
        return moment

    def hint(self, text):
        """What to do about a time of day outside of the capture: in which zone it would be inside."""
        if ":" not in text or PARTS.fullmatch(text)[4]:
            return ""
        fitting = []
        for minutes in range(-12 * 60, 14 * 60 + 1, 15):
            offset = f"{'-' if minutes < 0 else '+'}{abs(minutes) // 60:02}:{abs(minutes) % 60:02}"
            at = self.of_day(text + offset) - self.began
            if -precision_of(text) < at <= self.length:
                fitting.append(offset)
        advice = f". A time of day is taken as one of {self.zone_text}; if it is one of another zone, say so by --zone"
        return f"{advice}: with --zone={fitting[0]} it is inside" if len(fitting) == 1 else f"{advice}, such as --zone=+02:00"

    def span(self, text):
        """The two moments of FROM-TO, and how much later each can have been. A moment that is left out is None."""
        match = SPAN.fullmatch(text)
        if not match or text == "-":
            raise MomentError(f"{text!r} is no span FROM-TO, such as 12.5-15, 12.5- or 14:02:31-14:02:34")
        begin, end = (None if part is None else self.since(part) for part in match.groups())
        if begin is not None and end is not None and end < begin:
            raise MomentError(f"it ends at {match[2]}, before it begins at {match[1]}")
        return begin, end, *(precision_of(part) if part else 0 for part in match.groups())
