"""Writes decision scripts, and refuses at once what they cannot say.

    script = ScriptBuilder(model)
    script.fork("two_tills")
    script.set("two_tills", 120, "till", "servers", 2)
    script.roster("two_tills", "till", [(480, 3), (960, 1)])
"""
from typing import List, Optional, Sequence, Tuple

from .builder import ModelBuilder
from .check_flow import refuse_unknown
from .errors import PlanningError
from .limits import MAX_BRANCHES, MAX_DECISIONS, MAX_SERVERS
from .models import Model, parse_model
from .scripts import Decision, Script, parse_script


class ScriptBuilder:
    """A script that is being written. With a model it refuses stations and parameters that the model does not have."""

    def __init__(self, model: Optional[ModelBuilder] = None):
        self.model = parse_model(model.text()) if model else None
        self.script = Script([])
        self.lines: List[str] = []

    def add(self, line: str) -> None:
        """Adds a line; PlanningError if it has no known form, or is about what is not there."""
        for decision in parse_script(line).decisions:
            if self.model:
                self.refuse(decision, self.model)
            self.script.add(decision._replace(line=len(self.lines) + 1))
        if len(self.script.decisions) > MAX_DECISIONS or len(self.script.branches()) > MAX_BRANCHES:
            raise PlanningError(f"a script has at most {MAX_DECISIONS} decisions, and {MAX_BRANCHES} branches")
        self.lines.append(line)

    def refuse(self, decision: Decision, model: Model) -> None:
        """Raises PlanningError if the model cannot take a decision."""
        if decision.kind in ("set", "end"):
            refuse_unknown(model, Script([decision]))
            if decision.at >= model.horizon:
                raise PlanningError(f"the time {decision.at} is not before the horizon, {model.horizon}")

    def analyst(self, name: str) -> None:
        """The lines from here on are this analyst's, for `live`."""
        self.add(f"analyst {name}")

    def fork(self, name: str, parent: str = "base") -> None:
        """Makes a branch of another one. It has the sets that the parent has at this line."""
        self.add(f"fork {name} from {parent}")

    def set(self, branch: str, at: int, station: str, parameter: str, *values: int) -> None:
        """Sets a parameter of a station from a time on."""
        self.add(f"set {branch} at {at} {station} {parameter} {' '.join(map(str, values))}")

    def end(self, branch: str, at: int) -> None:
        """Ends a branch."""
        self.add(f"end {branch} at {at}")

    def look(self, branch: str, station: str) -> None:
        """Looks at a station, in `live`."""
        self.add(f"look {branch} {station}")

    def roster(self, branch: str, station: str, shifts: Sequence[Tuple[int, int]]) -> None:
        """Sets the servers of a station by a list of times and numbers, whose times rise."""
        times = [time for time, _ in shifts]
        if sorted(set(times)) != times:
            raise PlanningError(f"the roster of {station}: the times must rise")
        for time, servers in shifts:
            if not 1 <= servers <= MAX_SERVERS:
                raise PlanningError(f"the roster of {station} at {time}: there are 1 to {MAX_SERVERS} servers")
            self.set(branch, time, station, "servers", servers)

    def comment(self, text: str) -> None:
        """Adds a comment."""
        self.add("# " + text)

    def text(self) -> str:
        """Returns the text of the script."""
        return "\n".join(self.lines) + "\n"
