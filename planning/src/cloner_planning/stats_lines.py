"""Reads what `cloner stats` writes: a line for each branch and server."""
import re
from typing import Dict, Iterable, List, Optional, Sequence

from .errors import PlanningError
from .figures import FIGURES, Number, Value
from .names import NAME_FORM

FIELDS = ("arrived", "lost", "done", "most", "present", "waited", "longest")
LINE = re.compile(rf"({NAME_FORM}) ({NAME_FORM}) " + " ".join(rf"{field}=([0-9]+|-)" for field in FIELDS) + r"\s*\Z")


def figures_of(fields: Sequence[Optional[int]]) -> Dict[str, Number]:
    """Returns the figures of a line by the names of `summary`; without those of waits if it has none."""
    arrived, lost, done, most, _, waited, longest = fields
    found: Dict[str, Number] = {"arrived": arrived, "lost": lost, "done": done, "line_most": most}
    if arrived is not None and done is not None and waited is not None:
        begun = min(arrived, done + 1)
        found["wait_mean"] = waited / begun if begun else None
        found["wait_longest"] = longest if begun else None
    return found


def values_of_stats(lines: Iterable[str], branches: Sequence[str], stations: Sequence[str],
                    figures: Sequence[str]) -> Optional[List[Value]]:
    """Returns the values of branches, stations and figures; None if some are not there."""
    known: Dict[str, Dict[str, Dict[str, Number]]] = {}
    for number, line in enumerate(lines, 1):
        if number == 1 and line.rstrip() == "stats":
            continue
        found = LINE.match(line)
        if not found:
            raise PlanningError(f"line {number} of the statistics: {line.strip()[:60]}")
        fields = [None if word == "-" else int(word) for word in found.groups()[2:]]
        known.setdefault(found.group(1), {})[found.group(2)] = figures_of(fields)
    values = []
    for branch in [name for name in known if name in branches]:
        for station in stations:
            for figure in [name for name in figures if name in FIGURES["server"]]:
                if figure not in known[branch].get(station, {}):
                    return None
                values.append(Value(branch, station, None, figure, known[branch][station][figure]))
    return values
