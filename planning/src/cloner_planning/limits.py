"""The limits of docs/FORMATS*.md, each once. A test compares them with these pages."""
from typing import Dict, Tuple, Union

MILLION = 1_000_000

# files and numbers
MAX_FILE_BYTES = 1_048_576
MAX_NUMBER = 4_294_967_295
MAX_WORD = 2 ** 63 - 1

# models
MAX_STATIONS, MAX_LINKS = 64, 16
MAX_SERVERS, MAX_ROOM, MAX_JOBS, MAX_WEIGHT, MAX_CLASS = 16, 4096, MILLION, 1000, 4
MAX_TIME, MAX_HORIZON = MILLION, 10 ** 9
DEFAULT_LIMIT, MAX_LIMIT = 16_384, 65_536

# scripts and watches
MAX_BRANCHES, MAX_DECISIONS, MAX_SETS, MAX_ANALYSTS, MAX_WATCHES = 256, 4096, 256, 16, 255

# the command line
MAX_WORKERS, MAX_GENERATED = 16, 999_999

# snapshots
MAX_STAY, MAX_STAY_SUM, TIME_BOUND, MAX_SENDS, MAX_LINE_BYTES = 2 ** 64 - 1, 2 ** 48, 2 ** 31, 16, 200

KINDS = ("source", "server", "delay", "router", "sink")


class Required:
    """The default of a key that has none."""


REQUIRED = Required()
Default = Union[int, Required]
Bounds = Tuple[int, int, Default]

# the least and the greatest value of each whole number of a model, and its default
TOP_NUMBERS: Dict[str, Bounds] = {
    "format": (1, 2, 1), "lookahead": (1, MAX_TIME, REQUIRED), "horizon": (1, MAX_HORIZON, REQUIRED),
    "seed": (0, MAX_WORD, 0), "limit": (1, MAX_LIMIT, DEFAULT_LIMIT)}
LINK_NUMBERS: Dict[str, Bounds] = {"delay": (1, MAX_TIME, REQUIRED), "weight": (1, MAX_WEIGHT, 1)}
NUMBERS: Dict[str, Dict[str, Bounds]] = {
    "source": {"jobs": (0, MAX_JOBS, REQUIRED), "class": (1, MAX_CLASS, 1)},
    "server": {"servers": (1, MAX_SERVERS, REQUIRED), "room": (0, MAX_ROOM, REQUIRED)},
    "delay": {}, "router": {}, "sink": {}}
# the pair of numbers of each kind, with the least value of the first; no value is above MAX_TIME
RANGES: Dict[str, Dict[str, int]] = {
    "source": {"every": 1}, "server": {"service": 1}, "delay": {"hold": 0}, "router": {}, "sink": {}}
# the words of each kind, with their defaults
WORDS: Dict[str, Dict[str, Tuple[Tuple[str, ...], Union[str, Required]]]] = {
    "source": {}, "server": {"order": (("arrival", "class"), "arrival")}, "delay": {},
    "router": {"by": (("weights", "turn"), REQUIRED)}, "sink": {}}
# how many values each parameter of a set has
VALUES = {"every": 2, "service": 2, "hold": 2, "weight": 2, "servers": 1, "room": 1}
