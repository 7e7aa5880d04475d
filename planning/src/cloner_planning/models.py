"""Reads model files.

A file that breaks a rule of docs/FORMATS_MODEL.md on which the tools rely is refused in one line. Not all refusals of
cloner are made here: unknown keys and delays below the lookahead pass.
"""
from typing import Any, Dict, List, NamedTuple, Optional, Tuple

from .errors import PlanningError
from .limits import (
    LINK_NUMBERS, MAX_FILE_BYTES, MAX_LINKS, MAX_STATIONS, MAX_TIME, MAX_WORD, NUMBERS, RANGES, REQUIRED, TOP_NUMBERS,
    WORDS, Bounds)
from .names import NAME_RULE, is_name
from .places import Places, is_integer, read_bytes

Range = Tuple[int, int]
NO_RANGE: Range = (0, 0)


class Link(NamedTuple):
    """A way from a station to another."""

    to: str
    delay: int
    weight: int


class Station(NamedTuple):
    """A station. Fields that its kind does not have are empty or 0; a sink has no links."""

    name: str
    kind: str
    number: int
    stream: int
    links: List[Link]
    every: Range = NO_RANGE
    jobs: int = 0
    job_class: int = 0
    servers: int = 0
    room: int = 0
    service: Range = NO_RANGE
    order: str = ""
    hold: Range = NO_RANGE
    by: str = ""


class Model(NamedTuple):
    """A model: its keys at the top, and the stations in the order of the file."""

    format: int
    lookahead: int
    horizon: int
    seed: int
    limit: int
    stations: List[Station]

    def station(self, name: str) -> Optional[Station]:
        """Returns the station of this name, or None."""
        return next((station for station in self.stations if station.name == name), None)

    def known(self, name: str) -> Station:
        """Returns the station of this name, which the model must have."""
        return next(station for station in self.stations if station.name == name)


class Table:
    """A table of the file, and the place that errors name."""

    def __init__(self, values: Any, place: str):
        if not isinstance(values, dict):
            raise PlanningError(f"{place}: no table")
        self.values = values
        self.place = place

    def fault(self, what: str) -> PlanningError:
        """Returns an error about this table."""
        return PlanningError(f"{self.place}: {what}")

    def get(self, key: str, default: Any = REQUIRED) -> Any:
        """Returns the value of a key, or its default; PlanningError if a required key is missing."""
        value = self.values.get(key, default)
        if value is REQUIRED:
            raise self.fault(f"the key {key} is missing")
        return value

    def number(self, key: str, bounds: Bounds) -> int:
        """Returns a whole number within its range."""
        least, greatest, default = bounds
        value: int = self.get(key, default)
        if not is_integer(value) or not least <= value <= greatest:
            raise self.fault(f"{key} must be a whole number from {least} to {greatest}")
        return value

    def range(self, key: str, least: int) -> Range:
        """Returns a pair of whole numbers, of which the first is not above the second."""
        value = self.get(key)
        if not isinstance(value, list) or len(value) != 2 or not all(is_integer(bound) for bound in value) \
                or not least <= value[0] <= value[1] <= MAX_TIME:
            raise self.fault(f"{key} must be two whole numbers, {least} <= lo <= hi <= {MAX_TIME}")
        return value[0], value[1]

    def word(self, key: str, allowed: Tuple[str, ...], default: Any) -> str:
        """Returns one of the allowed words."""
        value: str = self.get(key, default)
        if value not in allowed:
            raise self.fault(f"{key} must be one of {', '.join(allowed)}")
        return value

    def name(self, key: str) -> str:
        """Returns a name."""
        value = self.get(key)
        if not isinstance(value, str) or not is_name(value):
            raise self.fault(f"{key} must be a name: {NAME_RULE}")
        return value

    def tables(self, key: str, default: Any, at_most: int) -> List[Any]:
        """Returns an array of tables."""
        value = self.get(key, default)
        if not isinstance(value, list) or len(value) > at_most:
            raise self.fault(f"{key} must be an array of at most {at_most} tables")
        return value


def link_of(values: Any, place: str) -> Link:
    """Returns a link."""
    table = Table(values, place)
    numbers = {key: table.number(key, bounds) for key, bounds in LINK_NUMBERS.items()}
    return Link(to=table.name("to"), **numbers)


def station_of(values: Any, number: int, path: str) -> Station:
    """Returns the station with this number, its links not yet followed."""
    table = Table(values, f"{path}: station {number}")
    name = table.name("name")
    table.place = f"{path}: station {number}, {name}"
    kind = table.word("kind", tuple(NUMBERS), REQUIRED)
    fields: Dict[str, Any] = {key: table.number(key, bounds) for key, bounds in NUMBERS[kind].items()}
    fields.update({key: table.range(key, least) for key, least in RANGES[kind].items()})
    fields.update({key: table.word(key, *rule) for key, rule in WORDS[kind].items()})
    if "class" in fields:
        fields["job_class"] = fields.pop("class")
    links = [link_of(link, f"{table.place}, link {place}")
             for place, link in enumerate(table.tables("link", [], MAX_LINKS), 1)]
    return Station(name, kind, number, table.number("stream", (0, MAX_WORD, number)), links, **fields)


def refuse_bad_links(stations: List[Station], path: str) -> None:
    """Raises PlanningError if a name is there twice, or a link leads nowhere or to a source."""
    kinds: Dict[str, str] = {}
    for station in stations:
        if station.name in kinds:
            raise PlanningError(f"{path}: station {station.number}: the name {station.name} is there twice")
        kinds[station.name] = station.kind
    for station in stations:
        for link in station.links:
            if kinds.get(link.to, "source") == "source":
                why = "is a source" if link.to in kinds else "is no station"
                raise PlanningError(f"{path}: station {station.number}, {station.name}: "
                                    f"a link leads to {link.to}, which {why}")


def model_of(values: Any, path: str) -> Model:
    """Returns the model that the tables of a file say; PlanningError if they say none."""
    top = Table(values, path)
    numbers = {key: top.number(key, bounds) for key, bounds in TOP_NUMBERS.items()}
    tables = top.tables("station", REQUIRED, MAX_STATIONS)
    stations = [station_of(table, number, path) for number, table in enumerate(tables, 1)]
    if not stations:
        raise top.fault("there is no station")
    refuse_bad_links(stations, path)
    return Model(stations=stations, **numbers)


def parse_model(text: str, path: str = "model") -> Model:
    """Returns the model that a text says; PlanningError if it is none."""
    return model_in(Places(path, text.encode("utf-8", "surrogatepass")))


def model_in(places: Places) -> Model:
    """Returns the model in the text of which these are the places; PlanningError if it is none."""
    if places.fault:
        raise PlanningError(f"{places.path}: no TOML: line {places.fault.line}: {places.fault.reason}")
    return model_of(places.data, places.path)


def read_model(path: str) -> Model:
    """Returns the model in a file; PlanningError if it cannot be read or is no model."""
    return read_model_places(path)[0]


def read_model_places(path: str) -> Tuple[Model, Places]:
    """Returns the model in a file and the places of its keys; PlanningError if it cannot be read or is no model."""
    data = read_bytes(path, "model")
    if len(data) > MAX_FILE_BYTES:
        raise PlanningError(f"{path}: a model has at most {MAX_FILE_BYTES} bytes")
    places = Places(path, data)
    return model_in(places), places
