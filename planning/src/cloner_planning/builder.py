"""Writes models, formats 1 and 2, and refuses at once what these cannot say.

    model = ModelBuilder(horizon=600, lookahead=1)
    model.source("street", every=(1, 5), links=[Way("till", 1)])
    model.server("till", servers=1, room=10, service=(2, 5), links=[Way("home", 1)])
    model.sink("home")
    print(model.text())
"""
from typing import Any, Dict, List, NamedTuple, Optional, Sequence, Tuple, Union

from .errors import PlanningError
from .limits import MAX_JOBS, MAX_LINKS, MAX_WEIGHT
from .models import Model, parse_model
from .names import NAME_RULE, is_name

Range = Tuple[int, int]
Value = Union[int, str, Range, List["Way"]]


class Way(NamedTuple):
    """A link: where it leads, how long it takes, and its share if links are picked by chance."""

    to: str
    delay: int
    weight: Optional[int] = None


Ways = Sequence[Way]


class ModelBuilder:
    """A model that is being written: the stations in the order in which they were added."""

    def __init__(self, horizon: int, lookahead: int, seed: Optional[int] = None, limit: Optional[int] = None,
                 format: Optional[int] = None):
        self.top: Dict[str, Optional[int]] = {"format": format, "lookahead": lookahead, "horizon": horizon,
                                              "seed": seed, "limit": limit}
        self.stations: List[Dict[str, Any]] = []

    def add(self, name: str, kind: str, links: Ways, stream: Optional[int], **keys: Any) -> None:
        """Adds a station; PlanningError if its name is none, or is there already."""
        if not is_name(name):
            raise PlanningError(f"{name} is no name of a station: {NAME_RULE}")
        if any(station["name"] == name for station in self.stations):
            raise PlanningError(f"there is a station {name} already")
        if len(links) > MAX_LINKS:
            raise PlanningError(f"{name} has {len(links)} links, and may have {MAX_LINKS}")
        station = {"name": name, "kind": kind, "stream": stream, **keys, "link": list(links)}
        self.stations.append({key: value for key, value in station.items() if value not in (None, [])})

    def source(self, name: str, every: Range, links: Ways, jobs: int = MAX_JOBS, job_class: Optional[int] = None,
               stream: Optional[int] = None) -> None:
        """Adds a source: a job each `every` units, up to `jobs`; the default never ends in practice."""
        self.add(name, "source", links, stream, every=every, jobs=jobs, **{"class": job_class})

    def server(self, name: str, servers: int, room: int, service: Range, links: Ways, order: Optional[str] = None,
               stream: Optional[int] = None) -> None:
        """Adds a server. With several links it picks one by chance, from the stream of its services: see `chance`."""
        self.add(name, "server", links, stream, servers=servers, room=room, service=service, order=order)

    def delay(self, name: str, hold: Range, links: Ways, stream: Optional[int] = None) -> None:
        """Adds a delay, at which nobody waits."""
        self.add(name, "delay", links, stream, hold=hold)

    def router(self, name: str, by: str, links: Ways, stream: Optional[int] = None) -> None:
        """Adds a router by `weights` or by `turn`."""
        self.add(name, "router", links, stream, by=by)

    def chance(self, name: str, links: Ways, stream: Optional[int] = None) -> None:
        """Adds a router by weights: a routing by chance with a stream of its own keeps branches comparable."""
        self.router(name, "weights", links, stream)

    def sink(self, name: str, stream: Optional[int] = None) -> None:
        """Adds a sink."""
        self.add(name, "sink", [], stream)

    def poisson(self, name: str, mean: float, to: Way, delay: int = 1) -> None:
        """Adds arrivals that look Poisson, with this mean time between two.

        In each unit of time comes a job with a chance of 1 in `mean`: a source `name` makes a job each unit, a router
        `name_pick` lets some pass, and the rest goes to a sink `name_rest`. The source has a message each unit, so the
        horizon is at most 65,536.
        """
        passed, rest = weights_of(mean)
        self.source(name, (1, 1), [Way(f"{name}_pick", delay)])
        self.chance(f"{name}_pick", [to._replace(weight=passed), Way(f"{name}_rest", to.delay, rest)])
        self.sink(f"{name}_rest")

    def text(self) -> str:
        """Returns the text of the model file; PlanningError if cloner would refuse it."""
        lines = [f"{key} = {value}" for key, value in self.top.items() if value is not None]
        for station in self.stations:
            lines += ["", "[[station]]"] + [f"{key} = {written(value)}" for key, value in station.items()]
        text = "\n".join(lines) + "\n"
        refuse(parse_model(text), self.stations)
        return text


def weights_of(mean: float) -> Tuple[int, int]:
    """Returns the weights whose first has a share of 1 in `mean`, as nearly as weights can say it."""
    if not 1 < mean <= MAX_WEIGHT + 1:
        raise PlanningError(f"a mean time of {mean} units between jobs cannot be said: it is above 1, and at most "
                            f"{MAX_WEIGHT + 1}; choose a coarser unit of time")

    def error(rest: int) -> float:
        passed = round(rest / (mean - 1))
        return abs((passed + rest) / passed - mean) if 1 <= passed <= MAX_WEIGHT else float("inf")
    rest = min(range(1, MAX_WEIGHT + 1), key=error)
    return round(rest / (mean - 1)), rest


def written(value: Value) -> str:
    """Returns a value as TOML."""
    if isinstance(value, str):
        return f'"{value}"'
    if isinstance(value, int):
        return str(value)
    if isinstance(value, tuple):
        return f"[{', '.join(map(str, value))}]"
    return f"[{', '.join(map(written_way, value))}]"


def written_way(way: Way) -> str:
    """Returns a link as an inline table."""
    weight = "" if way.weight is None else f", weight = {way.weight}"
    return f'{{ to = "{way.to}", delay = {way.delay}{weight} }}'


def refuse(model: Model, stations: List[Dict[str, Any]]) -> None:
    """Raises PlanningError for what the reader of models lets pass, and cloner does not."""
    for station, keys in zip(model.stations, stations):
        if station.kind != "sink" and not station.links:
            raise PlanningError(f"{station.name} has no link: only a sink has none")
        if station.kind == "sink" and station.links:
            raise PlanningError(f"{station.name} is a sink, and has a link")
        for link in station.links:
            if link.delay < model.lookahead:
                raise PlanningError(f"{station.name}: the link to {link.to} takes {link.delay}, and at least the "
                                    f"lookahead, {model.lookahead}, is allowed")
        if model.format == 1 and keys.keys() & {"class", "order"}:
            raise PlanningError(f"{station.name}: classes and an order of service need format=2")

