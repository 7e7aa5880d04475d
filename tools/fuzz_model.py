"""What docs/FORMATS_MODEL.md says of a model's text, written once more over Python's reader of TOML, for fuzz.py.

Python reads TOML 1.0 and `cloner` TOML 1.1. Where only the later one may take a text, nothing is said of it.
"""
import re
import tomllib

from fuzz_cases import Model, Station

NAME = re.compile(r"[a-z][a-z0-9_]{0,15}\Z")
MAX_INTEGER = 2**63 - 1
# Line ends or a last comma in an inline table, two more escapes, and times without seconds.
LATER = re.compile(rb"\{[^{}]*(\n|,\s*\})|\\[ex]|\d\d:\d\d(?!:)")
KINDS = ("source", "server", "delay", "router", "sink")
# Of each key: the kinds that have it, whether it is required, its type, and its range or words.
STATION = {"stream": (KINDS, False, int, (0, MAX_INTEGER)), "every": (("source",), True, list, (1, 1000000)),
           "jobs": (("source",), True, int, (0, 1000000)), "class": (("source",), False, int, (1, 4)),
           "servers": (("server",), True, int, (1, 16)), "room": (("server",), True, int, (0, 4096)),
           "service": (("server",), True, list, (1, 1000000)),
           "order": (("server",), False, str, ("arrival", "class")), "hold": (("delay",), True, list, (0, 1000000)),
           "by": (("router",), True, str, ("weights", "turn"))}
TOP = {"format": (False, (1, 2)), "lookahead": (True, (1, 1000000)), "horizon": (True, (1, 1000000000)),
       "seed": (False, (0, MAX_INTEGER)), "limit": (False, (1, 65536))}


class Unsure(Exception):
    """The text may be TOML 1.1 alone."""


class Refused(Exception):
    """A refusal: its number, its place, and its key or None."""

    def line(self):
        """The error line."""
        number, place, key = self.args
        return f"cloner: model: refusal {number} at station {place}" + (f" key {key}" if key is not None else "") + "\n"


def test_unknown(table, known, place):
    """Refuses a key that isn't known; the least in byte order is named."""
    unknown = sorted(key.encode() for key in table if key not in known)
    if unknown:
        shown = "".join(chr(byte) if re.match(rb"[a-z0-9_]", bytes([byte])) else "?" for byte in unknown[0][:32])
        raise Refused(5, place, shown)


def test_value(table, key, place, required, kind, bounds):
    """Refuses a value that is missing, of the wrong type or out of its range."""
    if key not in table:
        if required:
            raise Refused(3, place, key)
        return
    value = table[key]
    if type(value) is not kind or kind is list and (len(value) != 2 or any(type(one) is not int for one in value)):
        raise Refused(4, place, key)
    if kind is int:
        good = bounds[0] <= value <= bounds[1]
    else:
        good = value in bounds if kind is str else bounds[0] <= value[0] <= value[1] <= bounds[1]
    if not good:
        raise Refused(8, place, key)


def test_top(model):
    """The tests of the keys at the top."""
    test_unknown(model, (*TOP, "station"), 0)
    for key, (required, bounds) in TOP.items():
        test_value(model, key, 0, required, int, bounds)
    if "station" not in model:
        raise Refused(3, 0, "station")
    stations = model["station"]
    if type(stations) is not list or any(type(one) is not dict for one in stations):
        raise Refused(4, 0, "station")
    if not stations:
        raise Refused(8, 0, "station")
    if len(stations) > 64:
        raise Refused(12, 0, None)


def test_name(table, key, place):
    """Refuses what is no name."""
    if key not in table:
        raise Refused(3, place, key)
    if type(table[key]) is not str:
        raise Refused(4, place, key)
    if not NAME.match(table[key]) or key == "name" and table[key] == "analyst":
        raise Refused(6, place, None)


def test_links(station, place):
    """The tests of the links of a station by themselves."""
    links = station.get("link", [])
    if type(links) is not list or any(type(link) is not dict for link in links):
        raise Refused(4, place, "link")
    if len(links) > 16:
        raise Refused(12, place, None)
    for link in links:
        test_unknown(link, ("to", "delay", "weight"), place)
        test_name(link, "to", place)
        test_value(link, "delay", place, True, int, (1, 1000000))
        test_value(link, "weight", place, False, int, (1, 1000))


def test_station(station, place, earlier, classes):
    """The tests of one station."""
    test_name(station, "name", place)
    if station["name"] in earlier:
        raise Refused(7, place, None)
    test_value(station, "kind", place, True, str, KINDS)
    kind = station["kind"]
    keys = [key for key, said in STATION.items() if kind in said[0] and (classes or key not in ("class", "order"))]
    test_unknown(station, ["name", "kind", *keys] + ([] if kind == "sink" else ["link"]), place)
    for key in keys:
        test_value(station, key, place, *STATION[key][1:])
    test_links(station, place)


def test_ways(model):
    """The tests of where the links lead."""
    kinds = {station["name"]: station["kind"] for station in model["station"]}
    for place, station in enumerate(model["station"], 1):
        for link in station.get("link", []):
            if link["to"] not in kinds:
                raise Refused(9, place, None)
            if kinds[link["to"]] == "source":
                raise Refused(14, place, None)
            if link["delay"] < model["lookahead"]:
                raise Refused(10, place, None)
        if station["kind"] != "sink" and not station.get("link"):
            raise Refused(11, place, None)


def has_long_number(value):
    """Whether an integer of the text has more than 64 bits."""
    if isinstance(value, (dict, list)):
        return any(map(has_long_number, value.values() if isinstance(value, dict) else value))
    return isinstance(value, int) and not -2**63 <= value <= MAX_INTEGER


def tested(data):
    """The model of a text, as made models are; else a refusal is raised."""
    if len(data) > 1048576:
        raise Refused(1, 0, None)
    try:
        model = tomllib.loads(data.decode())
    except (ValueError, RecursionError):
        raise Unsure if LATER.search(data) else Refused(2, 0, None) from None
    if has_long_number(model):
        raise Refused(2, 0, None)
    test_top(model)
    names = []
    for place, station in enumerate(model["station"], 1):
        test_station(station, place, names, model.get("format") == 2)
        names.append(station["name"])
    test_ways(model)
    stations = []
    for table in model["station"]:
        stations.append(Station(table["name"], table["kind"]))
        stations[-1].keys, stations[-1].links = table, table.get("link", [])
    return Model(model, stations)


def expected_model(data):
    """The error line that a model must get, or the model; neither where that is unsure."""
    try:
        return None, tested(data)
    except Unsure:
        return None, None
    except Refused as why:
        return why.line(), None
