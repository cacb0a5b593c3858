"""Moments, zones, spans and times of the day. Moments and spans are whole milliseconds."""

from __future__ import annotations

import os
import re
import time
from datetime import datetime, timedelta, timezone
from functools import lru_cache
from typing import Callable, Optional

MOMENT = re.compile(r"([0-9]{4})-([0-9]{2})-([0-9]{2})T([0-9]{2}):([0-9]{2}):([0-9]{2})(?:\.([0-9]{1,3}))?Z")
EPOCH = datetime(1970, 1, 1, tzinfo=timezone.utc)
OFFSET = re.compile(r"([+-])([0-9]{2}):([0-9]{2})")
SPAN_BOUND = 31_622_400_000
DAY = 86_400
QUARTER = 900


Zone = Callable[[int], int]
"""The seconds that local time is ahead of UTC, at a second."""


def read_moment(text: str) -> Optional[int]:
    """The moment of `YYYY-MM-DDTHH:MM:SS`, perhaps with a fraction, and `Z`."""
    found = MOMENT.fullmatch(text)
    if not found:
        return None
    year, month, day, hour, minute, second = (int(part) for part in found.groups()[:6])
    try:
        at = datetime(year, month, day, hour, minute, second, tzinfo=timezone.utc)
    except ValueError:
        return None
    if not 1970 <= year <= 2999:
        return None
    return round((at - EPOCH).total_seconds()) * 1000 + int((found.group(7) or "").ljust(3, "0"))


def print_moment(at: int) -> str:
    """A moment with three digits of its fraction."""
    whole = EPOCH + timedelta(seconds=at // 1000)
    return f"{whole:%Y-%m-%dT%H:%M:%S}.{at % 1000:03d}Z"


@lru_cache(maxsize=100_000)
def rule_offset(text: str, quarter: int) -> int:
    """The offset of a POSIX rule text in a quarter of an hour, as the C library reads it; the rules compared here
    change at whole quarters."""
    os.environ["TZ"] = text
    time.tzset()
    return time.localtime(quarter * QUARTER).tm_gmtoff


def read_zone(text: str) -> Zone:
    """`UTC`, an offset, or a rule text."""
    if text == "UTC":
        return lambda second: 0
    found = OFFSET.fullmatch(text)
    if not found:
        return lambda second: rule_offset(text, second // QUARTER)
    seconds = int(found.group(2)) * 3600 + int(found.group(3)) * 60
    return lambda second: -seconds if found.group(1) == "-" else seconds


def second_of(zone: Zone, at: int) -> int:
    """The local second of the day at a moment."""
    return (at // 1000 + zone(at // 1000)) % DAY


def weekday_of(zone: Zone, at: int) -> int:
    """The local weekday at a moment, Monday 0."""
    return ((at // 1000 + zone(at // 1000)) // DAY + 3) % 7


@lru_cache(maxsize=64)
def passed_local(zone: Zone, before: int, after: int) -> frozenset[int]:
    """The local seconds of the day of the whole seconds that a moment passes, which takes Now from `before` to `after`."""
    first, last = max(before, after - DAY * 1000) // 1000 + 1, after // 1000
    out: set[int] = set()
    for quarter in range(first // QUARTER, last // QUARTER + 1):
        offset = zone(quarter * QUARTER)
        seconds = range(max(first, quarter * QUARTER), min(last, quarter * QUARTER + QUARTER - 1) + 1)
        out.update((second + offset) % DAY for second in seconds)
    return frozenset(out)


def read_span(text: str) -> Optional[int]:
    """Whole seconds, `HH:MM` or `HH:MM:SS`; None elsewhere and over the bound."""
    parts = text.split(":")
    if len(parts) > 3 or not all(re.fullmatch("[0-9]+", part) for part in parts):
        return None
    if len(parts) == 1:
        span = int(parts[0]) * 1000
    else:
        hours, minutes, seconds = (int(part) for part in (parts + ["0"])[:3])
        if minutes >= 60 or seconds >= 60:
            return None
        span = (hours * 3600 + minutes * 60 + seconds) * 1000
    return span if span <= SPAN_BOUND else None


def second_of_day(text: str) -> int:
    """The second of the day of `HH:MM` or `HH:MM:SS`."""
    hours, minutes, seconds = (int(part) for part in (text.split(":") + ["0"])[:3])
    return hours * 3600 + minutes * 60 + seconds
