"""What docs/FORMATS_SCRIPT.md says of a script on a valid model, written once more, for fuzz.py."""
import re

NAME = re.compile(r"[a-z][a-z0-9_]{0,15}\Z")
NUMBER = re.compile(r"(0|[1-9][0-9]{0,9})\Z")
VALUES = {"every": 2, "service": 2, "hold": 2, "servers": 1, "room": 1, "weight": 2}
TAKEN = {"source": ("every",), "server": ("service", "servers", "room"), "delay": ("hold",), "router": ("weight",)}
PAIRS = {"every": 1, "service": 1, "hold": 0}


class Refused(Exception):
    """The number of a refusal."""


def is_form(words):
    """Whether the words of a line are of a known form, numbers left aside, and which words are numbers."""
    kind, names, numbers = words[0], [], []
    if kind == "analyst" and len(words) == 2:
        names = [1]
    elif kind == "fork" and len(words) == 4 and words[2] == "from":
        names = [1, 3]
    elif kind == "end" and len(words) == 4 and words[2] == "at":
        names, numbers = [1], [3]
    elif kind == "look" and len(words) == 3:
        names = [1, 2]
    elif kind == "set" and len(words) > 6 and words[2] == "at" and len(words) - 6 == VALUES.get(words[5]):
        names, numbers = [1, 4], [3, *range(6, len(words))]
    else:
        return False, []
    return all(NAME.match(words[place]) for place in names), numbers


class Script:
    """Reads a script line by line: its decisions, or the first refusal."""

    def __init__(self):
        self.analysts, self.items, self.decisions = {"main"}, 0, []

    def line(self, number, data):
        """Takes a line in."""
        if any(byte >= 128 for byte in data):
            raise Refused(2)
        words = [word for word in re.split(r"[ \t]+", data.decode()) if word]
        if not words or words[0].startswith("#"):
            return
        good, numbers = is_form(words)
        if not good:
            raise Refused(3)
        if any(not NUMBER.match(words[place]) or int(words[place]) >= 2**32 for place in numbers):
            raise Refused(4)
        if words[0] == "analyst":
            self.analysts.add(words[1])
            if len(self.analysts) > 16:
                raise Refused(6)
            return
        self.items += 1
        if self.items > 4096:
            raise Refused(5)
        if words[0] != "look":
            self.decisions.append((number, words))


def in_range(station, parameter, values):
    """Whether the values of a set are in their range."""
    if parameter in PAIRS:
        return PAIRS[parameter] <= values[0] <= values[1] <= 1000000
    if parameter == "servers":
        return 1 <= values[0] <= 16
    if parameter == "room":
        return values[0] <= 4096
    return 1 <= values[0] <= len(station.links) and 1 <= values[1] <= 1000


class Book:
    """The clones: how many sets each has, and the ends of those that have one."""

    def __init__(self, model):
        self.stations = {station.name: station for station in model.stations}
        self.horizon, self.sets, self.ends = model.top["horizon"], {"base": 0}, {}

    def fork(self, new, old):
        """Makes a clone."""
        if new in self.sets:
            raise Refused(4)
        if len(self.sets) == 256:
            raise Refused(5)
        self.sets[new] = self.sets[old]

    def set(self, clone, time, station, parameter, values):
        """Adds a change."""
        if station not in self.stations:
            raise Refused(6)
        station = self.stations[station]
        if parameter not in TAKEN.get(station.kind, ()) or station.keys.get("by") == "turn":
            raise Refused(7)
        if not in_range(station, parameter, values):
            raise Refused(8)
        if self.sets[clone] == 256:
            raise Refused(9)
        if time >= self.horizon:
            raise Refused(10)
        self.sets[clone] += 1

    def decide(self, words):
        """Takes a decision."""
        clone = words[3] if words[0] == "fork" else words[1]
        if clone not in self.sets:
            raise Refused(3)
        if clone in self.ends:
            raise Refused(12)
        if words[0] == "fork":
            self.fork(words[1], clone)
        elif words[0] == "set":
            self.set(clone, int(words[3]), words[4], words[5], [int(word) for word in words[6:]])
        else:
            if int(words[3]) >= self.horizon:
                raise Refused(10)
            self.ends[clone] = int(words[3])


def decided(data, model):
    """The error line that a script must get on this model, or the clones with their ends."""
    if len(data) > 1048576:
        return "cloner: script: refusal 1 at line 0\n", None
    script = Script()
    for number, line in enumerate(data.split(b"\n"), 1):
        try:
            script.line(number, line[:-1] if line.endswith(b"\r") else line)
        except Refused as why:
            return f"cloner: script: refusal {why} at line {number}\n", None
    book = Book(model)
    for number, words in script.decisions:
        try:
            book.decide(words)
        except Refused as why:
            return f"cloner: decision: refusal {why} at line {number}\n", None
    return None, book


def expected(data, model):
    """The error line that a script must get on this model, or the names of its clones."""
    line, book = decided(data, model)
    return line, book and list(book.sets)
