"""The figures of one server or sink of one branch within a span of time, gathered message by message."""
from typing import Dict, List, NamedTuple, Optional, Tuple

from .queues import CLASSES, ServerQueue
from .traces import Parsed, class_of

ALL = 0
NO_QUEUE = ServerQueue()


class Waits(NamedTuple):
    """The waits of the jobs that began service in the span."""

    mean: float
    median: int
    ninety: int
    ninety_nine: int
    longest: int
    over_share: float


class Tally:
    """Counts of jobs at a server, and how often each wait occurred."""

    __slots__ = ("arrived", "lost", "begun", "done", "counts", "kept", "waits")

    def __init__(self) -> None:
        self.arrived = self.lost = self.begun = self.done = 0
        self.counts: Dict[int, int] = {}
        self.kept: Dict[int, int] = {}
        self.waits: Optional[Waits] = None

    def add(self, other: "Tally") -> None:
        """Adds another tally to this one."""
        self.arrived += other.arrived
        self.lost += other.lost
        self.begun += other.begun
        self.done += other.done
        for wait, count in other.counts.items():
            self.counts[wait] = self.counts.get(wait, 0) + count

    def add_counts(self, other: "Tally") -> None:
        """Adds a tally that is closed and has kept its counts."""
        self.add(other)
        for wait, count in other.kept.items():
            self.counts[wait] = self.counts.get(wait, 0) + count

    def figures(self, over: int) -> Optional[Waits]:
        """Returns the figures of the waits; None if there are none."""
        return waits_of(self.counts, over)

    def close(self, over: int, keep: bool = False) -> None:
        """Computes the figures of the waits and drops their counts, unless they are to be kept."""
        self.waits = waits_of(self.counts, over)
        self.kept = self.counts if keep else {}
        self.counts = {}


def nearest_rank(ordered: List[int], counts: Dict[int, int], percent: int) -> int:
    """Returns the least value such that at least `percent` per cent of the values are at most it."""
    wanted = -(-percent * sum(counts.values()) // 100)
    reached = 0
    for value in ordered:
        reached += counts[value]
        if reached >= wanted:
            return value
    raise ValueError("no values")


def waits_of(counts: Dict[int, int], over: int) -> Optional[Waits]:
    """Returns the figures of waits, given how often each occurred; None if there are none."""
    if not counts:
        return None
    ordered = sorted(counts)
    total = sum(counts.values())
    summed = sum(wait * count for wait, count in counts.items())
    longer = sum(count for wait, count in counts.items() if wait > over)
    median, ninety, ninety_nine = (nearest_rank(ordered, counts, percent) for percent in (50, 90, 99))
    return Waits(summed / total, median, ninety, ninety_nine, ordered[-1], 100 * longer / total)


class ServerFigures:
    """One server of one branch. The span begins at `start`; messages from its end on are not handed in."""

    __slots__ = ("start", "by_class", "queue", "busy", "wait", "misfit", "before", "within",
                 "counts_since", "busy_area", "line_area", "most", "servers", "servers_since", "server_area")

    def __init__(self, start: int, by_class: bool, order: str = "arrival", servers: Optional[int] = None):
        self.start = start
        self.by_class = by_class
        self.queue = ServerQueue(order)
        self.busy = self.wait = 0
        self.misfit: Optional[str] = None
        places = 1 + CLASSES if by_class else 1
        self.before = [Tally() for _ in range(places)]
        self.within = [Tally() for _ in range(places)]
        self.counts_since = start
        self.busy_area = self.line_area = self.most = 0
        self.servers = servers
        self.servers_since = start
        self.server_area = 0

    def handle(self, parsed: Parsed) -> None:
        """Takes the parts of the server's next line. Raises ValueError if its counts do not follow."""
        time, _, _, what, about, value, counts, _ = parsed
        queue = self.queue
        if time > self.counts_since:
            lasted = time - self.counts_since
            self.busy_area += queue.busy * lasted
            self.line_area += queue.wait * lasted
            self.counts_since = time
        lost = queue.lost
        begun = queue.handle(time, what, about, counts)
        within = time >= self.start
        tallies = self.within if within else self.before
        if what == "job":
            tally = tallies[class_of(about) if self.by_class else ALL]
            tally.arrived += 1
            if counts[3] > lost:
                tally.lost += 1
        elif what == "done":
            tallies[class_of(about) if self.by_class else ALL].done += 1
        elif about == "servers":
            self.change_servers(max(time, self.start), int(value))
        wait = counts[1]
        if wait > self.most or not within:
            self.most = wait
        for job, came in begun:
            tally = tallies[class_of(job) if self.by_class else ALL]
            tally.begun += 1
            if within:
                waits = tally.counts
                waits[time - came] = waits.get(time - came, 0) + 1

    def change_servers(self, time: int, servers: int) -> None:
        """Takes a new number of servers from a time on, where the number before it is known."""
        if self.servers is not None:
            self.server_area += self.servers * (time - self.servers_since)
            self.servers = servers
            self.servers_since = time

    def close(self, over: int, keep: bool = False) -> None:
        """Computes the figures of the waits, and drops what only further messages would need.

        Keeps how often each wait occurred if it is asked to.
        """
        self.busy, self.wait, self.misfit = self.queue.busy, self.queue.wait, self.queue.misfit
        self.queue = NO_QUEUE
        for tallies in (self.before, self.within):
            for tally in tallies[1:]:
                tallies[ALL].add(tally)
        for tally in self.within:
            tally.close(over, keep)

    def waiting(self, place: int) -> int:
        """Returns how many jobs of a class, or in all, wait at the end of the span."""
        tallies = (self.before[place], self.within[place])
        return sum(tally.arrived - tally.lost - tally.begun for tally in tallies)

    def serving(self, place: int) -> int:
        """Returns how many jobs of a class, or in all, are in service at the end of the span."""
        return sum(tally.begun - tally.done for tally in (self.before[place], self.within[place]))

    def lost_from_start(self) -> int:
        """Returns how many jobs were lost from time 0 on."""
        return self.before[ALL].lost + self.within[ALL].lost

    def mean_line(self, end: int) -> Optional[float]:
        """Returns the mean length of the line up to the end of the span, or None if the span is empty."""
        return mean(self.line_area + self.wait * (end - self.counts_since), end - self.start)

    def mean_busy(self, end: int) -> Optional[float]:
        """Returns the mean number of busy servers up to the end of the span, or None if the span is empty."""
        return mean(self.busy_area + self.busy * (end - self.counts_since), end - self.start)

    def used_share(self, end: int) -> Optional[float]:
        """Returns the busy time in per cent of the time of the servers that were there.

        Returns None if their number is not known, or if the span is empty.
        """
        areas = self.areas(end)
        return None if areas is None else mean(100 * areas[0], areas[1])

    def areas(self, end: int) -> Optional[Tuple[int, int]]:
        """Returns the busy time, and the time of the servers that were there; None if it is not known or empty."""
        if self.servers is None or end <= self.start:
            return None
        busy = self.busy_area + self.busy * (end - self.counts_since)
        return busy, self.server_area + self.servers * (end - self.servers_since)


class Leaving:
    """Jobs that reached a sink in the span: their number, and the sum and the longest of their times in the network."""

    __slots__ = ("got", "stay", "longest")

    def __init__(self) -> None:
        self.got = self.stay = 0
        self.longest: Optional[int] = None

    def take(self, stay: int) -> None:
        """Adds a job with its time in the network."""
        self.got += 1
        self.stay += stay
        if self.longest is None or stay > self.longest:
            self.longest = stay

    def mean_stay(self) -> Optional[float]:
        """Returns the mean time in the network, or None if no job came."""
        return mean(self.stay, self.got)


class SinkFigures:
    """One sink of one branch. `got` and `stay` are its counts after the last message."""

    __slots__ = ("start", "got", "stay", "leaving")

    def __init__(self, start: int, by_class: bool):
        self.start = start
        self.got = self.stay = 0
        self.leaving = [Leaving() for _ in range(1 + CLASSES if by_class else 1)]

    def handle(self, parsed: Parsed) -> None:
        """Takes the parts of the sink's next line. Raises ValueError if its counts do not follow."""
        time, _, station, what, job, _, counts, _ = parsed
        got, stay = counts
        own = stay - self.stay
        if got != self.got + 1 or own < 0 or what != "job":
            raise ValueError(f"the counts of {station} do not follow from its line before")
        self.got, self.stay = got, stay
        if time >= self.start:
            self.leaving[ALL].take(own)
            if len(self.leaving) > 1:
                self.leaving[class_of(job)].take(own)


def mean(total: float, count: int) -> Optional[float]:
    """Returns the quotient, or None if the divisor is not above 0."""
    return total / count if count > 0 else None
