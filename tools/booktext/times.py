"""Seconds since 1970 beside the times that people read and write, and the life of a hop."""
import re
import time
from calendar import monthrange
from datetime import datetime, timedelta, timezone

from .layout import HEAD

START = datetime(1970, 1, 1, tzinfo=timezone.utc)
FORM = "%Y-%m-%dT%H:%M:%SZ"
LAST = HEAD.of.timestamp.most

SECONDS = re.compile(r"[0-9]+")
DATE = re.compile(r"([0-9]{4})-([0-9]{2})-([0-9]{2})(?:[Tt ]([0-9]{2}):([0-9]{2})(?::([0-9]{2}))?(?: ?([Zz]|UTC|[+-][0-9]{2}:?[0-9]{2}))?)?")
TAKEN = "seconds since 1970 or a date such as 2026-01-01, 2026-01-01T06:00 or 2026-01-01T06:00:00+01:00"


def written(seconds):
    return (START + timedelta(seconds=seconds)).strftime(FORM)


def parse(words):
    """Seconds of a time as people write it, in UTC where no zone is said; ValueError says what is wrong."""
    if SECONDS.fullmatch(words):
        # Python reads no number of thousands of digits.
        return in_range(words, int(words.lstrip("0")[:20] or 0))
    found = DATE.fullmatch(words)
    if not found:
        raise ValueError(f"{words!r} is no time: a time is {TAKEN}")
    year, month, day, hour, minute, second = (int(part or 0) for part in found.groups()[:6])
    for name, number, least, most in (("year", year, 1, 9999), ("month", month, 1, 12), ("hour", hour, 0, 23), ("minute", minute, 0, 59),
                                      ("second", second, 0, 59)):
        if not least <= number <= most:
            raise ValueError(f"there is no time {words}: the {name} is {least} to {most}")
    if not 1 <= day <= monthrange(year, month)[1]:
        raise ValueError(f"there is no day {words[:10]}: {words[:7]} has {monthrange(year, month)[1]} days")
    since = datetime(year, month, day, hour, minute, second, tzinfo=timezone.utc) - START
    return in_range(words, int(since.total_seconds()) - ahead(words, found.group(7)))


def ahead(words, zone):
    """By how many seconds a zone is ahead of UTC."""
    if zone in (None, "Z", "z", "UTC"):
        return 0
    hours, minutes = int(zone[1:3]), int(zone[-2:])
    if hours > 23 or minutes > 59:
        raise ValueError(f"there is no zone {zone} of {words}: a zone is at most 23:59 from UTC")
    return (hours * 60 + minutes) * (-60 if zone[0] == "-" else 60)


def in_range(words, seconds):
    if seconds < 0:
        raise ValueError(f"{words} is before 1970")
    if seconds > LAST:
        raise ValueError(f"{words} is after {written(LAST)}: a time has at most {LAST} seconds")
    return seconds


def duration(seconds):
    """1d 6h 12m 5s, without what is 0 of it."""
    found = []
    for unit, size in (("d", 86400), ("h", 3600), ("m", 60), ("s", 1)):
        if seconds >= size:
            found.append(f"{seconds // size}{unit}")
            seconds %= size
    return " ".join(found) or "0s"


def now():
    return int(time.time())


def life(units):
    """Seconds that a hop of so many units lives."""
    return (units + 1) * 675 // 2


def end(timestamp, units):
    """When a hop of a segment of this timestamp runs out: it may be used up to this second."""
    return min(timestamp + life(units), LAST)
