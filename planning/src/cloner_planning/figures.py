"""The figures of servers and sinks that replications are about, and which of them `cloner stats` has."""
from typing import List, NamedTuple, Optional, Sequence, Union

from .errors import PlanningError

# what a summary says of a server and of a sink
FIGURES = {
    "server": ("arrived", "lost", "begun", "done", "waiting", "serving",
               "wait_mean", "wait_median", "wait_90", "wait_99", "wait_longest", "over_share",
               "line_mean", "line_most", "busy_mean", "used_share"),
    "sink": ("got", "stay_mean", "stay_longest"),
}
DEFAULT_FIGURES = ("lost", "wait_mean", "line_mean", "used_share", "got", "stay_mean")
# what `stats` says of each server, and what it says only if one server served all who came, by arrival
STATS_FIGURES = ("arrived", "lost", "done", "line_most")
STATS_WAITS = ("wait_mean", "wait_longest")

Number = Union[int, float, None]


class Value(NamedTuple):
    """A figure of one run. The class is None if it is about all jobs; the value is None if there is none."""

    branch: str
    station: str
    job_class: Optional[int]
    figure: str
    value: Number


def chosen_figures(wanted: Optional[Sequence[str]]) -> List[str]:
    """Returns the figures that are wanted, by their whole names and in the order that was given."""
    known = FIGURES["server"] + FIGURES["sink"]
    figures = []
    for word in wanted or DEFAULT_FIGURES:
        found = [name for name in (word, word + "_mean", word + "_share") if name in known]
        if not found:
            raise PlanningError(f"there is no figure {word}; there are {', '.join(known)}")
        figures.append(found[0])
    return list(dict.fromkeys(figures))
