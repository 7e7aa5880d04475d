"""Reads plans of a search: which values parameters may have, what servers cost, and the goal."""
import itertools
import re
from typing import Dict, Iterator, List, NamedTuple, Optional, Tuple

from .check_flow import initial
from .errors import PlanningError
from .figures import FIGURES
from .limits import MAX_SERVERS, VALUES
from .models import Model
from .script_lines import Lines, is_number, read_ascii_lines
from .summary_rows import server_columns, sink_columns

MAX_PLANS = 100_000
GOAL = re.compile(r"least (.+?)(?: with (.+))?\Z")
BOUND = re.compile(r"(.+?) (<=|>=) ([0-9]+(?:\.[0-9]+)?)\Z")
Values = Tuple[int, ...]


class Parameter(NamedTuple):
    """A parameter of a station, and the values that it may have."""

    station: str
    name: str
    choices: List[Values]


class Figure(NamedTuple):
    """A figure of a station."""

    station: str
    name: str


class Bound(NamedTuple):
    """What a figure must be: at most a value, or at least."""

    figure: Figure
    at_most: bool
    value: float

    def holds(self, value: Optional[float]) -> bool:
        """Returns whether a value is within the bound."""
        return value is not None and (value <= self.value if self.at_most else value >= self.value)


class SearchPlan(NamedTuple):
    """A plan of a search. `least` is the figure that is to be least, or None for the cost."""

    parameters: List[Parameter]
    prices: Dict[str, float]
    hour: int
    start: int
    least: Optional[Figure]
    bounds: List[Bound]

    def choices(self) -> Iterator[Tuple[Values, ...]]:
        """Yields the values of each single plan."""
        return itertools.product(*(parameter.choices for parameter in self.parameters))

    def cost(self, choice: Tuple[Values, ...], model: Model) -> float:
        """Returns what the servers of a single plan cost up to the horizon."""
        own = {parameter.station: values[0] for parameter, values in zip(self.parameters, choice)
               if parameter.name == "servers"}
        total = 0.0
        for station, price in self.prices.items():
            before = model.known(station).servers
            time = before * self.start + own.get(station, before) * (model.horizon - self.start)
            total += price * time / self.hour
        return total


class Reader:
    """Reads the lines of a plan, for a model."""

    def __init__(self, lines: Lines, model: Model):
        self.lines = lines
        self.model = model
        self.settings = initial(model)
        self.parameters: List[Parameter] = []
        self.prices: Dict[str, float] = {}
        self.hour, self.start = 60, 0
        self.least: Optional[Figure] = None
        self.bounds: List[Bound] = []
        self.goals = 0

    def read(self) -> SearchPlan:
        """Returns the plan; PlanningError for the first line that is wrong."""
        for line, words in self.lines.said():
            try:
                self.take(words)
            except (ValueError, PlanningError) as fault:
                raise PlanningError(f"{self.lines.path}: line {line}: {fault}") from None
        if self.goals != 1 or not self.parameters:
            raise PlanningError(f"{self.lines.path}: a plan has parameters with values, and one goal")
        return SearchPlan(self.parameters, self.prices, self.hour, self.start, self.least, self.bounds)

    def take(self, words: List[str]) -> None:
        """Takes one line; ValueError or PlanningError if it is wrong."""
        if words[0] == "goal":
            self.take_goal(" ".join(words[1:]))
        elif words[0] in ("hour", "from") and len(words) == 2 and is_number(words[1]):
            self.hour, self.start = (int(words[1]), self.start) if words[0] == "hour" else (self.hour, int(words[1]))
            if self.hour < 1 or self.start >= self.model.horizon:
                raise ValueError("an hour has one unit of time at least, and `from` is before the horizon")
        elif words[0] == "price" and len(words) == 3:
            self.station(words[1], "server")
            self.prices[words[1]] = float(words[2])
        elif len(words) >= 3 and words[1] in VALUES:
            self.take_parameter(words)
        else:
            raise ValueError("it is `STATION PARAMETER VALUES`, `price STATION N`, `hour N`, `from T` or `goal ..`")

    def station(self, name: str, kind: str = "") -> str:
        """Returns the kind of a station; ValueError if there is none, or of another kind."""
        found = self.model.station(name)
        if found is None or kind and found.kind != kind:
            raise ValueError(f"the model has no {kind or 'station'} {name}")
        return found.kind

    def take_parameter(self, words: List[str]) -> None:
        """Takes the values of a parameter: `1..4`, `1 2 4`, or pairs with `|` between them."""
        station, name = words[:2]
        self.station(station)
        if (station, name) not in self.settings:
            raise ValueError(f"{station} does not take {name}, or not in a search")
        if any((one.station, one.name) == (station, name) for one in self.parameters):
            raise ValueError(f"{station} {name} is there twice")
        choices = self.pairs(words[2:]) if VALUES[name] == 2 else self.singles(words[2:])
        if name == "servers" and not all(1 <= one[0] <= MAX_SERVERS for one in choices):
            raise ValueError(f"a server has 1 to {MAX_SERVERS} servers")
        self.parameters.append(Parameter(station, name, list(dict.fromkeys(choices))))

    def singles(self, words: List[str]) -> List[Values]:
        """Returns single values."""
        found: List[Values] = []
        for word in words:
            first, dots, last = word.partition("..")
            if not is_number(first) or dots and not is_number(last):
                raise ValueError(f"{word} is no number, and no range like 1..4")
            found += [(value,) for value in range(int(first), int(last or first) + 1)]
        return found

    def pairs(self, words: List[str]) -> List[Values]:
        """Returns pairs of values."""
        found: List[Values] = []
        for part in " ".join(words).split("|"):
            pair = part.split()
            if len(pair) != 2 or not all(map(is_number, pair)) or int(pair[0]) > int(pair[1]):
                raise ValueError(f"{part.strip()} is no pair of times, the least first")
            found.append((int(pair[0]), int(pair[1])))
        return found

    def take_goal(self, text: str) -> None:
        """Takes `goal least cost with STATION FIGURE <= N and ..`."""
        found = GOAL.match(text)
        if not found:
            raise ValueError("a goal is `least cost with STATION FIGURE <= N and ..`")
        self.goals += 1
        if found.group(1) != "cost":
            self.least = self.figure(found.group(1))
        for part in found.group(2).split(" and ") if found.group(2) else []:
            bound = BOUND.match(part)
            if not bound:
                raise ValueError(f"{part} is no bound like `desk p90 <= 30`")
            self.bounds.append(Bound(self.figure(bound.group(1)), bound.group(2) == "<=", float(bound.group(3))))

    def figure(self, text: str) -> Figure:
        """Returns the figure that `STATION FIGURE` says, by its heading in a summary or by its name."""
        station, _, name = text.partition(" ")
        kind = self.station(station)
        columns = {"server": server_columns(0, False), "sink": sink_columns(False)}.get(kind, [])
        name = name.replace(" wait", "")
        known = {heading: key for key, heading in columns if key in FIGURES.get(kind, ())}
        known.update({key: key for key in FIGURES.get(kind, ())})
        if name not in known:
            raise ValueError(f"{station} has no figure {name}; it has {', '.join(known)}")
        return Figure(station, known[name])


def read_search_plan(path: str, model: Model) -> SearchPlan:
    """Returns the plan in a file; PlanningError if it cannot be read or breaks a rule."""
    plan = Reader(read_ascii_lines(path, "plan"), model).read()
    count = 1
    for parameter in plan.parameters:
        count *= len(parameter.choices)
    if not 1 <= count <= MAX_PLANS:
        raise PlanningError(f"{path}: these are {count:,} plans, and 1 to {MAX_PLANS:,} may be searched")
    return plan
