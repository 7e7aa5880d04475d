"""Mean rates of a model's jobs without a run: what reaches a station, the servers' loads, and the number of messages.

The estimate knows means alone: no chance, no time on the way, and no line that is left from an earlier overload.
"""
from typing import Dict, List, NamedTuple, Optional, Set, Tuple

from .errors import PlanningError
from .limits import RANGES
from .models import Model, Station, read_model
from .scripts import Decision, Script, parse_script, read_script

Values = Tuple[int, ...]
Setting = Tuple[str, ...]
Settings = Dict[Setting, Values]
MAX_ROUNDS = 20_000
NEAR = 1e-6


class Stretch(NamedTuple):
    """A time in which no setting changes.

    `arrivals` and `passed` are what comes to each station and leaves it per unit of time, `loads` those of the servers.
    """

    start: float
    end: float
    arrivals: Dict[str, float]
    passed: Dict[str, float]
    loads: Dict[str, float]


class Course(NamedTuple):
    """What one branch probably does."""

    branch: str
    end: int
    sets: List[Decision]
    stretches: List[Stretch]
    clocks: Dict[str, "Clock"]


def initial(model: Model) -> Settings:
    """Returns all that sets may change, as the model states it."""
    settings: Settings = {}
    for station in model.stations:
        for parameter in RANGES[station.kind]:
            settings[station.name, parameter] = getattr(station, parameter)
        if station.kind == "server":
            settings[station.name, "servers"] = (station.servers,)
            settings[station.name, "room"] = (station.room,)
        if station.by == "weights":
            for place, link in enumerate(station.links, 1):
                settings[station.name, "weight", str(place)] = (link.weight,)
    return settings


def setting_of(decision: Decision) -> Tuple[Setting, Values]:
    """Returns what a set changes, and to what."""
    station, parameter, values = decision.station, decision.parameter, decision.values
    if parameter == "weight":
        return (station, parameter, str(values[0])), values[1:]
    return (station, parameter), values


def mean(values: Values) -> float:
    """Returns the mean of a range."""
    return sum(values) / len(values)


def shares(station: Station, settings: Settings) -> List[float]:
    """Returns the share of each link of a station."""
    if station.by == "turn":
        weights = [1] * len(station.links)
    elif station.by == "weights":
        weights = [settings[station.name, "weight", str(place)][0] for place in range(1, len(station.links) + 1)]
    else:
        weights = [link.weight for link in station.links]
    return [weight / sum(weights) for weight in weights]


def reached(model: Model, begin: Set[str]) -> Set[str]:
    """Returns the stations to which a way leads from some of these, these included."""
    found, left = set(begin), list(begin)
    while left:
        station = model.station(left.pop())
        for link in station.links if station else []:
            if link.to not in found:
                found.add(link.to)
                left.append(link.to)
    return found


def with_way_out(model: Model) -> Set[str]:
    """Returns the stations from which a way leads to a sink."""
    found = {station.name for station in model.stations if station.kind == "sink"}
    grown = True
    while grown:
        more = {station.name for station in model.stations if any(link.to in found for link in station.links)} - found
        found |= more
        grown = bool(more)
    return found


class Clock:
    """Follows one source of one branch.

    `dry` and `surely_dry` are the times at which it has made all its jobs, on average and surely; `earliest` and
    `latest` are the bounds of its next job's time.
    """

    def __init__(self, jobs: int, every: Values, end: int):
        self.end = end
        self.left = float(jobs)
        self.left_surely = jobs
        self.earliest, self.latest = every
        self.dry: Optional[float] = None
        self.surely_dry: Optional[int] = None

    def is_silent(self) -> bool:
        """Returns whether no further job comes: all are made, or the next one is settled for the end or later."""
        return self.left <= NEAR or self.earliest >= self.end

    def advance(self, start: float, end: float, every: Values) -> None:
        """Counts the jobs that are made on average up to `end`, which is not after the last one."""
        self.left -= (end - start) / mean(every)
        if self.left <= NEAR:
            self.left, self.dry = 0.0, end

    def bound(self, start: int, end: int, every: Values) -> None:
        """Goes on to `end` with the bounds of the next job's time, and with what is surely made."""
        least, greatest = every
        if self.earliest >= end:
            return
        if self.latest >= end:
            self.earliest, self.latest = end, max(self.latest, end - 1 + greatest)
            return
        ticks = 1 + (end - 1 - self.latest) // greatest
        if self.surely_dry is None and self.left_surely <= ticks:
            self.surely_dry = self.latest + (self.left_surely - 1) * greatest
        self.left_surely = max(0, self.left_surely - ticks)
        self.earliest = max(end, max(self.earliest, start) + least)
        self.latest = end - 1 + greatest


class Flow:
    """Solves the rates of one model; remembers what it solved."""

    def __init__(self, model: Model):
        self.model = model
        self.way_out = with_way_out(model)
        self.index = {station.name: place for place, station in enumerate(model.stations)}
        self.solved: Dict[object, List[float]] = {}
        self.last = [0.0] * len(model.stations)

    def capacity(self, station: Station, settings: Settings) -> float:
        """Returns how many jobs a station can pass on per unit of time."""
        if station.kind != "server":
            return float("inf")
        return settings[station.name, "servers"][0] / mean(settings[station.name, "service"])

    def arrivals(self, settings: Settings, made: Dict[str, float]) -> List[float]:
        """Returns the rate at which jobs come to each station (at a source: the rate at which it makes them)."""
        key = (tuple(sorted(settings.items())), tuple(sorted(made.items())))
        if key not in self.solved:
            self.solved[key] = self.solve(settings, made)
        return self.solved[key]

    def ways(self, settings: Settings) -> List[List[Tuple[int, float]]]:
        """Returns for each station from which stations jobs come to it, with their shares.

        Jobs from which no way leads to a sink go no further.
        """
        incoming: List[Dict[int, float]] = [{} for _ in self.model.stations]
        for place, station in enumerate(self.model.stations):
            goes_on = station.kind == "source" or station.name in self.way_out
            parts = shares(station, settings) if goes_on else []
            for link, share in zip(station.links, parts):
                to = incoming[self.index[link.to]]
                to[place] = to.get(place, 0.0) + share
        return [list(found.items()) for found in incoming]

    def solve(self, settings: Settings, made: Dict[str, float]) -> List[float]:
        """Returns the rates: iterates what arrives from what leaves until nothing changes.

        There is only one solution, so the iteration may start from the last one.
        """
        incoming = self.ways(settings)
        most = [self.capacity(station, settings) for station in self.model.stations]
        begin = [made.get(station.name, 0.0) for station in self.model.stations]
        passed = [min(rate, bound) for rate, bound in zip(self.last, most)]
        rates = list(self.last)
        for _ in range(MAX_ROUNDS):
            change = 0.0
            for place, ways in enumerate(incoming):
                rate = begin[place]
                for comes, share in ways:
                    rate += passed[comes] * share
                change = max(change, abs(rate - rates[place]))
                rates[place] = rate
                passed[place] = rate if rate < most[place] else most[place]
            if change <= NEAR * max(rates):
                break
        self.last = rates
        return list(rates)

    def stretch(self, start: float, end: float, settings: Settings, made: Dict[str, float], span: int) -> Stretch:
        """Returns the rates of one stretch.

        A server whose shortest service is not below `span` counts as closed: it has no load.
        """
        rates = self.arrivals(settings, made)
        most = [self.capacity(station, settings) for station in self.model.stations]
        names = [station.name for station in self.model.stations]
        passed = [min(rate, bound) for rate, bound in zip(rates, most)]
        loads = {name: rate / bound for name, rate, bound in zip(names, rates, most)
                 if (name, "service") in settings and settings[name, "service"][0] < span}
        return Stretch(start, end, dict(zip(names, rates)), dict(zip(names, passed)), loads)

    def course(self, script: Script, branch: str) -> Course:
        """Returns what one branch of a script probably does."""
        last = script.end(branch)
        end = self.model.horizon if last is None else min(last, self.model.horizon)
        sets = sorted((one for one in script.sets(branch) if one.at < end), key=lambda one: one.at)
        settings = initial(self.model)
        clocks = {station.name: Clock(station.jobs, station.every, end)
                  for station in self.model.stations if station.kind == "source"}
        times = sorted({0, end} | {one.at for one in sets})
        stretches: List[Stretch] = []
        for start, after in zip(times, times[1:]):
            settings.update(setting_of(one) for one in sets if one.at == start)
            stretches += self.between(start, after, settings, clocks)
            for name, clock in clocks.items():
                clock.bound(start, after, settings[name, "every"])
        return Course(branch, end, sets, stretches, clocks)

    def between(self, start: int, end: int, settings: Settings, clocks: Dict[str, Clock]) -> List[Stretch]:
        """Returns the stretches between two changes: a new one begins where a source is dry on average."""
        found = []
        at = float(start)
        while at < end:
            going = {name: clock for name, clock in clocks.items() if not clock.is_silent()}
            every = {name: settings[name, "every"] for name in going}
            made = {name: 1 / mean(values) for name, values in every.items()}
            until = min([float(end)] + [at + clock.left * mean(every[name]) for name, clock in going.items()])
            for name, clock in going.items():
                clock.advance(at, until, every[name])
            found.append(self.stretch(at, until, settings, made, end - start))
            at = until
        return found


def messages_in(stretch: Stretch, station: Station) -> float:
    """Returns the rate of a station's messages: two for a job that is served, one for all others."""
    served = stretch.passed[station.name] if station.kind == "server" else 0.0
    return stretch.arrivals[station.name] + served


def messages(course: Course, station: Station) -> float:
    """Returns how many messages a station handles in a branch, its sets included."""
    sets = sum(one.station == station.name for one in course.sets)
    return sets + sum(messages_in(stretch, station) * (stretch.end - stretch.start) for stretch in course.stretches)


def time_of_limit(course: Course, station: Station, limit: int) -> Optional[int]:
    """Returns when a station has handled `limit` messages in a branch, or None if it has not before the end."""
    handled = 0.0
    for stretch in course.stretches:
        rate = messages_in(stretch, station)
        more = rate * (stretch.end - stretch.start)
        if handled + more > limit:
            return int(stretch.start + (limit - handled) / rate)
        handled += more
    return None


def estimate_station(model_path: Optional[str], script_path: Optional[str], name: str, branch: str,
                     limit: int) -> Optional[Tuple[float, int]]:
    """Returns how many messages a station handles in a branch, and when it meets a limit.

    Returns None if it does not meet the limit by the estimate, or if the files do not have this station and branch.
    """
    if not model_path:
        return None
    model = read_model(model_path)
    script = read_script(script_path) if script_path else parse_script("")
    station = model.station(name)
    if station is None or branch not in script.branches():
        return None
    refuse_unknown(model, script)
    course = Flow(model).course(script, branch)
    met = time_of_limit(course, station, limit)
    return None if met is None else (messages(course, station), met)


def refuse_unknown(model: Model, script: Script) -> None:
    """PlanningError for the first set that the model cannot take: cloner refuses it too, and `explain` says more."""
    settings = initial(model)
    for one in script.decisions:
        if one.kind == "set" and (model.station(one.station) is None or setting_of(one)[0] not in settings):
            raise PlanningError(f"{script.path}: line {one.line}: "
                                "cloner refuses this set; run it, and explain its error line")
