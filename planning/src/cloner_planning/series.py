"""A station's figure over time in each branch, read from traces in one pass. Nothing here draws or needs matplotlib.

    StationReader.read() -> Series -> shown() -> the points that plot.py draws
"""
from array import array
from typing import Dict, Iterable, List, Optional, Sequence, Tuple

from .errors import PlanningError

MAX_BRANCHES = 12

# the last count of a line, and the kind of station that shows it
KINDS = {"sent": "source", "passed": "delay or router", "lost": "server", "stay": "sink"}
# the figures of a kind, its own one first, each with the place of its count from the end of the line
FIGURES = {"server": {"line": -3, "busy": -4}, "sink": {"stay": -1}}

# the name and the lines of each branch of a trace
Branches = Iterable[Tuple[str, Iterable[str]]]
Points = List[Tuple[int, int]]


class Series:
    """One branch's figure over time: `times[i]` and `values[i]` belong together, `end` is the branch's last time.

    For `line` and `busy` a value holds until the next time, and times rise. For `stay` each pair is one job, so times
    may repeat.
    """

    def __init__(self, branch: str) -> None:
        self.branch = branch
        self.times = array("q")
        self.values = array("q")
        self.sets: List[int] = []
        self.end = 0

    def become(self, time: int, value: int) -> None:
        """The figure is `value` from `time` on; the last value of one time holds."""
        if self.times and self.times[-1] == time:
            self.values[-1] = value
        elif not self.values or self.values[-1] != value:
            self.add(time, value)

    def add(self, time: int, value: int) -> None:
        """Adds one pair."""
        self.times.append(time)
        self.values.append(value)

    def points(self) -> Points:
        """Returns the pairs."""
        return list(zip(self.times, self.values))


class StationReader:
    """Reads one figure of one station.

    The station's kind settles `figure`: it is `what`, or else the kind's own one.
    """

    def __init__(self, station: str, what: Optional[str] = None) -> None:
        self.station = station
        self.what = what
        self.figure: Optional[str] = None
        self.place = 0
        self.stayed = 0

    def settle(self, kind: str) -> None:
        """Settles the figure, if a station of this kind has it."""
        figures = FIGURES.get(kind)
        if figures is None:
            raise PlanningError(f"{self.station} is a {kind}: plot shows servers (line, busy) and sinks (stay)")
        figure = self.what or next(iter(figures))
        if figure not in figures:
            raise PlanningError(f"{self.station} is a {kind}, which has no {figure}: choose {' or '.join(figures)}")
        self.figure, self.place = figure, figures[figure]

    def enter(self, series: Series, words: List[str]) -> None:
        """Adds what one line of the station says."""
        if self.figure is None:
            self.settle(KINDS[words[-1].partition("=")[0]])
        time, value = int(words[0]), int(words[self.place].partition("=")[2])
        if self.figure == "stay":
            series.add(time, value - self.stayed)
            self.stayed = value
        else:
            series.become(time, value)

    def read(self, branch: str, lines: Iterable[str]) -> Series:
        """Returns the branch's series, read from its lines."""
        series, needle, line = Series(branch), f" {self.station} ", "0"
        self.stayed = 0
        try:
            for line in lines:
                if " analyst " in line:
                    series.sets.append(int(line.split(None, 1)[0]))
                if needle in line:
                    words = line.split()
                    if words[1] == self.station:
                        self.enter(series, words)
        except (ValueError, KeyError):
            raise PlanningError(f"{self.station} has counts of two kinds of station: {line.strip()[:80]}") from None
        series.end = int(line.split(None, 1)[0])
        return series


class CensusReader(StationReader):
    """Reads how many jobs are in the network: those that sources made, less those that left or were lost."""

    def __init__(self) -> None:
        super().__init__("")
        self.figure = "census"

    def read(self, branch: str, lines: Iterable[str]) -> Series:
        """Returns the branch's series, read from its lines."""
        series, line, inside = Series(branch), "0", 0
        lost: Dict[str, int] = {}
        for line in lines:
            words = line.split()
            kind, now = words[-1][:4], int(words[0])
            if words[2] == "analyst":
                series.sets.append(now)
            elif kind == "sent":
                inside += 1
            elif kind == "stay":
                inside -= 1
            elif kind == "lost" and int(words[-1][5:]) > lost.get(words[1], 0):
                lost[words[1]] = int(words[-1][5:])
                inside -= 1
            series.become(now, inside)
        series.end = int(line.split(None, 1)[0])
        return series


class Band:
    """One branch's figure over several seeds: at each of some times the least, the mean and the greatest value."""

    def __init__(self, branch: str, times: List[int], rows: List[List[int]]) -> None:
        self.branch = branch
        self.times = times
        columns = list(zip(*rows))
        self.least = [min(column) for column in columns]
        self.mean = [sum(column) / len(column) for column in columns]
        self.greatest = [max(column) for column in columns]


def band_of(seeds: Sequence[Series], begin: int, end: int, columns: int) -> Band:
    """Returns the band of one branch's figure in steps, at `columns` times from `begin` up to `end`."""
    times = sorted({begin + (end - begin) * number // columns for number in range(columns)})
    return Band(seeds[0].branch, times, [values_at(one, times) for one in seeds])


def values_at(series: Series, times: List[int]) -> List[int]:
    """Returns the value of a figure in steps at each of these times, which rise."""
    found, place, value = [], 0, 0
    for time in times:
        while place < len(series.times) and series.times[place] <= time:
            value = series.values[place]
            place += 1
        found.append(value)
    return found


def read_series(trace: Branches, reader: StationReader, names: Sequence[str]) -> List[Series]:
    """Returns the series of the named branches in the order of `names`, or of all in that of the trace.

    Reads no further than the last named branch.
    """
    found: Dict[str, Series] = {}
    for branch, lines in trace:
        if names and branch not in names:
            continue
        if len(found) == MAX_BRANCHES:
            raise PlanningError(f"the trace has more than {MAX_BRANCHES} branches: name those to draw, "
                                f"at most {MAX_BRANCHES}; the first are {', '.join(found)}")
        found[branch] = reader.read(branch, lines)
        if len(found) == len(names):
            break
    missing = [name for name in names if name not in found]
    if missing:
        raise PlanningError(f"the trace has no branch {missing[0]}")
    return [found[name] for name in names or found]


def shown(series: Series, figure: str, begin: int, end: int, columns: int) -> Points:
    """Returns the points to draw from `begin` up to `end`, at most four in each of `columns` equal stretches of time.

    A figure in steps begins at `begin` with the value that holds there, and ends with the branch. Of stays, four times
    `columns` are few enough to draw them all.
    """
    points = [(time, value) for time, value in series.points() if begin <= time < end]
    if figure == "stay":
        return points if len(points) <= 4 * columns else thin(points, begin, end, columns)
    before = [value for time, value in series.points() if time <= begin]
    points = [(begin, before[-1] if before else 0)] + [point for point in points if point[0] > begin]
    drawn = thin(points, begin, end, columns)
    return drawn + [(max(begin, min(end, series.end)), points[-1][1])]


def thin(points: Points, begin: int, end: int, columns: int) -> Points:
    """Returns the corners of the points in each of `columns` equal stretches of time."""
    members: Dict[int, Points] = {}
    for point in points:
        members.setdefault((point[0] - begin) * columns // (end - begin), []).append(point)
    return [corner for column in members.values() for corner in corners(column)]


def corners(points: Points) -> Points:
    """Returns the first, the least, the greatest and the last of these points, each once and in their order."""
    values = [value for _, value in points]
    places = {0, values.index(min(values)), values.index(max(values)), len(points) - 1}
    return [points[place] for place in sorted(places)]
