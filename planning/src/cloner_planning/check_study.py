"""What `check` works on: a study with the probable course of each branch, and warnings with their lines."""
from typing import Iterable, List, NamedTuple

from .check_flow import Flow, reached, refuse_unknown
from .models import Model, Station
from .places import Places
from .scripts import Script

MAX_NAMES = 5


class Warn(NamedTuple):
    """A warning: of the script or not, its line (0 if there is none), and its text."""

    of_script: bool
    line: int
    text: str


class Study:
    """A model and a script, and what each branch probably does."""

    def __init__(self, model: Model, places: Places, script: Script):
        refuse_unknown(model, script)
        self.model = model
        self.places = places
        self.script = script
        self.flow = Flow(model)
        begin = {station.name for station in model.stations if is_active(station, model)}
        self.reached = reached(model, begin)
        self.courses = [self.flow.course(script, branch) for branch in script.branches()]

    def at(self, station: Station, key: str = "name") -> int:
        """Returns the line of a station's key, or of its beginning."""
        place = ("station", station.number)
        return self.places.line(place + (key,)) or self.places.line(place) or 0


def is_active(station: Station, model: Model) -> bool:
    """Returns whether a station is a source that may make a job before the horizon."""
    return station.kind == "source" and station.jobs > 0 and station.every[0] < model.horizon


def listed(names: Iterable[str]) -> str:
    """Returns names as a list, cut if there are many."""
    names = list(names)
    more = f" and {len(names) - MAX_NAMES} more" if len(names) > MAX_NAMES else ""
    return ", ".join(names[:MAX_NAMES]) + more


def in_branches(branches: List[str]) -> str:
    """Returns in which branches something holds, as the beginning of a sentence; nothing for `base` alone or first."""
    if branches[0] == "base":
        return ""
    return f"in branch{'es' if len(branches) > 1 else ''} {listed(branches)}: "
