"""How many jobs are in the network, and at each delay: the mean, the greatest number, and the same by time.

A trace does not say when a job leaves a delay. It leaves before it comes to the next station, by the delay of the link
on which it comes, which the model says. Of several links to one station, that of the least delay is taken.
"""
from typing import Dict, List, NamedTuple, Optional, Tuple

from .models import Model
from .traces import Parsed


class Stretch(NamedTuple):
    """A time, with mean and greatest number of jobs in it; None if it is empty."""

    start: int
    end: int
    mean: Optional[float]
    most: Optional[int]


class Occupancy:
    """How many jobs are at a place, by the times at which the number changes."""

    def __init__(self) -> None:
        self.changes: Dict[int, int] = {}
        self.steps: List[Tuple[int, int]] = []

    def add(self, time: int, more: int) -> None:
        """Counts jobs that come, or with a number below 0 that go."""
        self.changes[time] = self.changes.get(time, 0) + more

    def close(self) -> None:
        """Turns the changes into steps: from each time on, how many there are."""
        count = 0
        for time in sorted(self.changes):
            count += self.changes[time]
            self.steps.append((time, count))
        self.changes = {}

    def stretches(self, start: int, end: int, every: Optional[int] = None) -> List[Stretch]:
        """Returns the stretches of a span, each `every` long, or the whole span."""
        begins = list(range(start, end, every)) if every else [start]
        return [self.stretch(begin, min(end, begin + every) if every else end) for begin in begins]

    def stretch(self, start: int, end: int) -> Stretch:
        """Returns mean and greatest number from one time to another."""
        if end <= start:
            return Stretch(start, end, None, None)
        count, since, area, most = 0, start, 0, 0
        for time, after in self.steps:
            if time >= end:
                break
            if time > start:
                area += count * (time - since)
                most = max(most, count)
                since = time
            count = after
        return Stretch(start, end, (area + count * (end - since)) / (end - start), max(most, count))


class Census:
    """The jobs of one branch: in the network, and at each delay of the model."""

    def __init__(self, start: int, model: Optional[Model]):
        self.start = start
        self.network = Occupancy()
        stations = model.stations if model else []
        self.delays = {station.name: Occupancy() for station in stations if station.kind == "delay"}
        self.came = dict.fromkeys(self.delays, 0)
        self.links: Dict[Tuple[str, str], int] = {}
        for station in stations:
            for link in station.links if station.name in self.delays else []:
                key = (station.name, link.to)
                self.links[key] = min(self.links.get(key, link.delay), link.delay)
        self.lost: Dict[str, int] = {}
        self.held: Dict[str, str] = {}

    def handle(self, parsed: Parsed) -> None:
        """Takes the parts of a line."""
        time, kind, station, what, job, _, counts, _ = parsed
        if what == "tick":
            self.network.add(time, 1)
        elif what == "job":
            before = self.held.pop(job, None)
            if before:
                self.delays[before].add(time - self.links.get((before, station), 0), -1)
            if station in self.delays:
                self.delays[station].add(time, 1)
                self.held[job] = station
                self.came[station] += time >= self.start
            elif kind == "stay":
                self.network.add(time, -1)
            elif kind == "lost" and counts[3] > self.lost.get(station, 0):
                self.lost[station] = counts[3]
                self.network.add(time, -1)

    def close(self) -> None:
        """Ends the counting."""
        for place in (self.network, *self.delays.values()):
            place.close()
        self.held = {}
