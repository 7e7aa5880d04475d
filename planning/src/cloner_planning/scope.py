"""What the figures of a trace depend on, apart from the trace: the span, the model and the script."""
from typing import List, Optional

from .errors import PlanningError
from .models import Model
from .scripts import Script
from .station_figures import ServerFigures, SinkFigures

FOREVER = 1 << 62


class Scope:
    """What the figures depend on, apart from the trace: the span, the model and the script."""

    def __init__(self, start: int = 0, stop: Optional[int] = None, over: int = 0, by_class: bool = False):
        self.start = start
        self.stop = FOREVER if stop is None else stop
        self.over = over
        self.by_class = by_class
        self.model: Optional[Model] = None
        self.script: Optional[Script] = None
        self.classes_seen = False
        self.census = False
        self.keep_waits = False
        self.wanted: Optional[List[str]] = None
        self.longest = 0

    def own_end(self, branch: str) -> int:
        """Returns the end that a branch was given, as far as it is known."""
        end = self.script.end(branch) if self.script else None
        return FOREVER if end is None else end

    def end(self, branch: str) -> int:
        """Returns where a branch's span ends. The longest branch must be known."""
        return min(self.longest, self.stop, self.own_end(branch))

    def make_server(self, name: str) -> ServerFigures:
        """Returns the empty figures of a server; PlanningError if the model has none of this name."""
        if self.model is None:
            return ServerFigures(self.start, self.by_class)
        station = self.model.station(name)
        if station is None or station.kind != "server":
            raise PlanningError(f"the trace is not of this model, which has no server {name}")
        return ServerFigures(self.start, self.by_class, station.order or "arrival", station.servers)

    def make_sink(self, name: str) -> SinkFigures:
        """Returns the empty figures of a sink; PlanningError if the model has none of this name."""
        station = self.model.station(name) if self.model else None
        if self.model is not None and (station is None or station.kind != "sink"):
            raise PlanningError(f"the trace is not of this model, which has no sink {name}")
        return SinkFigures(self.start, self.by_class)
