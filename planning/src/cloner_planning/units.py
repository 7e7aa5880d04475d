"""Times as planners say them: in a unit of their own, and by the clock."""
import argparse
import re
from typing import Any, NamedTuple, Optional

from .tables import Row

MINUTES = {"s": 1 / 60, "min": 1, "h": 60, "d": 1440}
# the figures that are times
TIMES = ("wait_mean", "wait_median", "wait_90", "wait_99", "wait_longest", "stay_mean", "stay_longest")
AT = ("from", "to")


class Unit(NamedTuple):
    """A planner's unit: its name, how many of the model's units it has, and the minute of the day at time 0."""

    name: str
    size: int
    clock: Optional[int] = None


def unit_in(word: str) -> Unit:
    """Returns the unit that a word like `min=10` says."""
    found = re.match(r"([A-Za-z]{1,12})=([1-9][0-9]{0,8})\Z", word)
    if not found:
        raise argparse.ArgumentTypeError(f"{word!r} is no unit like min=10: a name, and how many of the model's it has")
    return Unit(found.group(1), int(found.group(2)))


def clock_in(word: str) -> int:
    """Returns the minute of the day that a word like `5:00` says."""
    found = re.match(r"([01]?[0-9]|2[0-3]):([0-5][0-9])\Z", word)
    if not found:
        raise argparse.ArgumentTypeError(f"{word!r} is no time of the day like 5:00")
    return 60 * int(found.group(1)) + int(found.group(2))


def by_clock(time: int, unit: Unit) -> str:
    """Returns a time by the clock, with the number of days after the first if there are any."""
    minutes = int((unit.clock or 0) + time / unit.size * MINUTES[unit.name])
    day, minute = divmod(minutes, 1440)
    return (f"{day}d " if day else "") + f"{minute // 60}:{minute % 60:02d}"


def in_unit(row: Row, unit: Optional[Unit]) -> Row:
    """Returns a row with its times in a unit, and its span by the clock if that is known."""
    if unit is None:
        return row
    changed: Row = dict(row)
    for key in TIMES:
        value: Any = row.get(key)
        if value is not None and unit.size != 1:
            changed[key] = value / unit.size
    for key in AT:
        if row.get(key) is not None:
            changed[key] = by_clock(row[key], unit) if unit.clock is not None else row[key] / unit.size
    return changed
