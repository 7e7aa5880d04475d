"""How figures vary over seeds: mean, least and greatest, and the same of differences to another branch."""
from typing import Dict, Iterator, List, Optional, Sequence, Tuple

from .figures import Number, Value
from .scripts import Script
from .tables import Column, Row

NAMES = ("station", "figure", "branch")
# branch, station, class and figure
Key = Tuple[str, str, Optional[int], str]


def columns_of(against: str, by_class: bool) -> List[Column]:
    """Returns the columns of the table of differences to a branch, or to the parent."""
    return [("station", "station"), ("figure", "figure"), *[("class", "class")] * by_class, ("branch", "branch"),
            ("seeds", "seeds"), ("mean", "mean"), ("least", "least"), ("greatest", "greatest"),
            ("more", f"minus {against}"), ("least_more", "least"), ("greatest_more", "greatest"),
            ("above", "above 0")]


class Spread:
    """Number, sum, least and greatest of values, and how many of them are above 0 and below 0."""

    def __init__(self) -> None:
        self.count = self.above = self.below = 0
        self.total: float = 0
        self.least: Number = None
        self.greatest: Number = None

    def add(self, value: Number) -> None:
        """Adds a value; None is none."""
        if value is None:
            return
        self.least = value if self.least is None else min(self.least, value)
        self.greatest = value if self.greatest is None else max(self.greatest, value)
        self.count += 1
        self.total += value
        self.above += value > 0
        self.below += value < 0

    def mean(self) -> Optional[float]:
        """Returns the mean, or None if there is no value."""
        return self.total / self.count if self.count else None


class Table:
    """The spreads of all values, and of their differences to those of another branch in the same run.

    The other branch is `against`, or with `parent` the branch from which each was forked.
    """

    def __init__(self, script: Optional[Script] = None, against: str = "base") -> None:
        self.script = script
        self.against = against
        self.spreads: Dict[Key, Tuple[Spread, Spread]] = {}

    def other(self, branch: str) -> Optional[str]:
        """Returns the branch with which a branch is compared; None if it is itself."""
        if self.against == "parent" and self.script:
            return self.script.parent(branch)
        return None if branch == self.against else self.against

    def add(self, values: Sequence[Value]) -> None:
        """Adds the values of one run."""
        known: Dict[Key, Number] = {one[:4]: one.value for one in values}
        for one in values:
            own, more = self.spreads.setdefault(one[:4], (Spread(), Spread()))
            own.add(one.value)
            other = self.other(one.branch)
            compared = known.get((other, *one[1:4])) if other is not None else None
            if one.value is not None and compared is not None:
                more.add(one.value - compared)

    def rows(self, stations: Sequence[str], figures: Sequence[str], branches: Sequence[str]) -> Iterator[Row]:
        """Yields the rows of the branches, by station, figure, class and branch."""
        places = {branch: place for place, branch in enumerate(branches)}
        for station in stations:
            for figure in figures:
                keys = [key for key in self.spreads if key[1] == station and key[3] == figure and key[0] in places]
                for key in sorted(keys, key=lambda key: (key[2] or 0, places[key[0]])):
                    yield row_of(key, *self.spreads[key])


def row_of(key: Key, own: Spread, more: Spread) -> Row:
    """Returns a line of the table."""
    branch, station, job_class, figure = key
    return {"station": station, "figure": figure, "class": job_class, "branch": branch, "seeds": own.count,
            "mean": own.mean(), "least": own.least, "greatest": own.greatest,
            "more": more.mean(), "least_more": more.least, "greatest_more": more.greatest,
            "above": f"{more.above} of {more.count}" if more.count else None}


def dues_rows(dues: Dict[str, List[int]], names: Sequence[str], seeds: int) -> Iterator[Row]:
    """Yields a row for each branch of a watch: in how many seeds it was made, and when it came due."""
    for name in names:
        times = dues.get(name, [])
        spread = Spread()
        for time in times:
            spread.add(time)
        yield {"branch": name, "due": f"{len(times)} of {seeds}", "mean": spread.mean(), "least": spread.least,
               "greatest": spread.greatest}
