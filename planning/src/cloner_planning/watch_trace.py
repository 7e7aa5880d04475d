"""Says of each watch when it came due in a trace of `cloner watch`, or how long the line was that it waited for."""
from typing import Dict, Iterator, List, Optional

from .errors import CutTrace, PlanningError
from .models import Model
from .scripts import Script
from .trace_sections import trace_lines
from .traces import Parsed, Trace
from .watches import Watch, with_watches


class Seen:
    """What a watch has seen: the longest line and since when it counts; and when its own branch was changed."""

    def __init__(self) -> None:
        self.longest: Optional[int] = None
        self.at = 0
        self.changed: Optional[int] = None


class Follower:
    """Follows the watches of a file through the branches of a trace."""

    def __init__(self, script: Script, watches: List[Watch]):
        self.watches = watches
        self.made = {watch.new for watch in watches}
        self.script = with_watches(script, watches)
        self.seen: Dict[str, Seen] = {watch.new: Seen() for watch in watches}
        self.branches: List[str] = []

    def read(self, name: str, lines: Iterator[Parsed]) -> None:
        """Reads the lines of a branch."""
        self.branches.append(name)
        watched = [watch for watch in self.watches if watch.clone == name]
        number = len(self.script.sets(name)) - 1 if name in self.made else -1
        counting = name not in self.made
        for parsed in lines:
            if parsed[3] == "set" and parsed[7] == number:
                self.seen[name].changed, counting = parsed[0], True
            if counting and parsed[1] == "lost":
                for watch in watched:
                    seen = self.seen[watch.new]
                    if watch.station == parsed[2] and (seen.longest is None or parsed[6][1] > seen.longest):
                        seen.longest, seen.at = parsed[6][1], parsed[0]

    def said(self, watch: Watch, lookahead: int) -> str:
        """Returns what came of a watch."""
        seen = self.seen[watch.new]
        if watch.new in self.branches and seen.changed is not None:
            return f"It came due at {seen.changed - lookahead}, and the change is at {seen.changed}."
        if watch.clone not in self.branches:
            return f"It never came due: there is no branch `{watch.clone}`, since its own watch never came due."
        if seen.longest is None:
            return f"It never came due: `{watch.station}` handled nothing that counts in `{watch.clone}`."
        if seen.longest >= watch.least:
            return f"It came due so late that its change would be at the horizon or after it: {seen.longest} waited."
        return (f"It never came due: the longest line at `{watch.station}` in `{watch.clone}` was {seen.longest}, "
                f"first at {seen.at}.")


def dues_of(path: str, model: Model, script: Script, watches: List[Watch]) -> List[str]:
    """Returns for each watch what came of it; CutTrace if the trace is cut, PlanningError if it is of another study."""
    follower = Follower(script, watches)
    known = follower.script.branches()
    with trace_lines(path) as lines:
        trace = Trace(lines)
        for name, parts in trace.parsed_branches():
            if name not in known:
                raise PlanningError(f"the trace is not of this script and these watches, which make no branch {name}")
            follower.read(name, parts)
    if trace.cut:
        raise CutTrace("no report follows the traces, so they are cut, and nothing is said of the watches")
    return [follower.said(watch, model.lookahead) for watch in watches]
