"""What each branch computed alone: of each station's log, the entries that no earlier branch has at the same place.

One pass over the traces. A log is kept as hashes of its lines, and a branch adds only what no earlier branch has, so
memory grows by 8 bytes for each message that was handled once. Nothing here draws or needs matplotlib.

    base    a b c d e        kept: a b c d e
    fast    a b c x y        kept: x y, which leave base's log after 3 entries
    faster  a b c x z        kept: z, which leaves fast's part after 1 entry
"""
from array import array
from typing import Dict, Iterable, List, Optional, Sequence, Tuple

from .errors import PlanningError

BINS = 400


class Part:
    """A part of a log that one branch was the first to have: hashes of its lines, and the parts that leave it."""

    __slots__ = ("codes", "leaving")

    def __init__(self) -> None:
        self.codes = array("q")
        self.leaving: Dict[Tuple[int, int], "Part"] = {}


class Walk:
    """How far one branch has come in one station's log: the first `place` entries of `part`, or `alone` at its end."""

    __slots__ = ("part", "place", "alone")

    def __init__(self, root: Part) -> None:
        self.part = root
        self.place = 0
        self.alone = False

    def depart(self, code: int) -> None:
        """Leaves the part by this entry: into a part of an earlier branch, or else into a new one."""
        part = self.part.leaving.get((self.place, code))
        if part is None:
            part = self.part.leaving[(self.place, code)] = Part()
            part.codes.append(code)
            self.alone = True
        self.part, self.place = part, 1


class Row:
    """One branch: in each stretch of time how many messages it handled, and how many of them no earlier branch did."""

    def __init__(self, branch: str) -> None:
        self.branch = branch
        self.handled = array("q", bytes(8 * BINS))
        self.own = array("q", bytes(8 * BINS))

    def widen(self) -> None:
        """Stretches become twice as long."""
        self.handled, self.own = paired(self.handled), paired(self.own)


def paired(counts: "array[int]") -> "array[int]":
    """Returns the sums of neighbours, filled up with zeros."""
    sums = [counts[place] + counts[place + 1] for place in range(0, BINS, 2)]
    return array("q", sums + [0] * (BINS - len(sums)))


class Shares:
    """The rows of a trace's branches. Stretch i of time is from `begin + i * width` on, `width` long."""

    def __init__(self, begin: int = 0, stop: Optional[int] = None) -> None:
        self.begin = begin
        self.stop = stop
        self.width = 1
        self.last = begin
        self.rows: List[Row] = []
        self.roots: Dict[str, Part] = {}

    def stretch(self, time: int) -> int:
        """Returns the number of the stretch of a time; the stretches grow until the time is in one."""
        while time - self.begin >= BINS * self.width:
            self.width *= 2
            for row in self.rows:
                row.widen()
        self.last = max(self.last, time)
        return (time - self.begin) // self.width

    def count(self, row: Optional[Row], time: int, handled: int, own: int) -> None:
        """Adds counts to the stretch of a time, if the row is wanted and the time is not before the beginning."""
        if row is not None and time >= self.begin:
            number = self.stretch(time)
            row.handled[number] += handled
            row.own[number] += own

    def follow(self, lines: Iterable[str], row: Optional[Row]) -> None:
        """Goes through one branch's lines, and counts them in its row."""
        walks: Dict[str, Walk] = {}
        now, handled, own = "0", 0, 0
        for line in lines:
            time, station, _ = line.split(" ", 2)
            if time != now:
                self.count(row, int(now), handled, own)
                now, handled, own = time, 0, 0
                if self.stop is not None and int(time) >= self.stop:
                    return
            walk = walks.get(station)
            if walk is None:
                walk = walks[station] = Walk(self.roots.setdefault(station, Part()))
            handled += 1
            code, codes, place = hash(line), walk.part.codes, walk.place
            if walk.alone:
                codes.append(code)
                own += 1
            elif place < len(codes) and codes[place] == code:
                walk.place = place + 1
            else:
                walk.depart(code)
                own += walk.alone
        self.count(row, int(now), handled, own)

    def read(self, trace: Iterable[Tuple[str, Iterable[str]]], names: Sequence[str]) -> None:
        """Goes through a trace up to the last named branch, and makes rows of the named branches, or of all."""
        for branch, lines in trace:
            row = Row(branch) if branch in names or not names else None
            if row is not None:
                self.rows.append(row)
            try:
                self.follow(lines, row)
            except ValueError:
                raise PlanningError(f"branch {branch} has a line that is none of a trace") from None
            if names and len(self.rows) == len(names):
                return
        found = {row.branch for row in self.rows}
        missing = [name for name in names if name not in found]
        if missing:
            raise PlanningError(f"the trace has no branch {missing[0]}")
