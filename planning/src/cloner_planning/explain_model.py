"""Explains the refusals of a model: which line breaks the rule, what is allowed there, and what may have been meant."""
import re
from typing import Any, Callable, Dict, List, NamedTuple, Optional, Tuple

from .explain_tables import Key, Tables, has_type, in_range, rule_of, type_of
from .limits import KINDS, MAX_LINKS, MAX_STATIONS
from .names import NAME_RULE, did_you_mean, is_name, nearest, why_no_name
from .places import Places, is_integer, size_of
from .recipes import of_servers, of_times
from .toml_lines import Place

GONE = "The file as it is now does not have this fault: was it changed after the run, or is it another file?"
STATION_RULE = NAME_RULE.capitalize() + "; no station is called `analyst`."
SHOWN_KEY = 32


class Refusal(NamedTuple):
    """A refusal of a model: its number, the station (0 is the top) and the key (None if the line names none)."""

    number: int
    station: int
    key: Optional[str]


class Table(NamedTuple):
    """A table of the file: its place, its values, and the keys that it may have."""

    place: Place
    values: Dict[str, Any]
    keys: Dict[str, Key]


class Explainer:
    """Explains one refusal of one model file."""

    def __init__(self, places: Places, tables: Tables, refusal: Refusal):
        self.places = places
        self.refusal = refusal
        self.top = tables.keys("at the top")
        self.station_keys = tables.keys("of a station")
        self.link_keys = tables.keys("of a link")

    def lines(self) -> List[str]:
        """Returns the explanation, line by line."""
        kinds: Dict[int, Callable[[], List[str]]] = {
            1: self.too_long, 2: self.not_toml, 3: self.missing, 4: self.wrong_type, 5: self.unknown_key,
            6: self.bad_name, 7: self.name_twice, 8: self.out_of_range, 9: self.unknown_station,
            10: self.short_delay, 11: self.no_way_out, 12: self.too_many, 14: self.into_source}
        fault = self.places.fault
        if self.refusal.number != 2 and fault:
            reason = f"The file as it is now is no TOML: {fault.reason} (column {fault.column})."
            return [self.places.shown(fault.line), reason, GONE]
        explain = kinds.get(self.refusal.number)
        return explain() if explain else []

    # places in the file

    def format(self) -> int:
        """Returns the format that the file says."""
        return 2 if self.places.data.get("format") == 2 else 1

    def station(self) -> Dict[str, Any]:
        """Returns the table of the refused station, empty if there is none."""
        tables = self.places.stations()
        return tables[self.refusal.station - 1] if 1 <= self.refusal.station <= len(tables) else {}

    def station_place(self) -> Place:
        """Returns the place of the refused station."""
        return ("station", self.refusal.station)

    def known_keys(self, kind: Any) -> Dict[str, Key]:
        """Returns the keys that a station of this kind may have in this file; those of all kinds if it has none."""
        return {name: key for name, key in self.station_keys.items()
                if (kind in key.kinds or kind not in KINDS) and (self.format() == 2 or not key.later)}

    def tables(self) -> List[Table]:
        """Returns the tables that the refusal may be about, in the order of the tests."""
        if self.refusal.station == 0:
            return [Table((), self.places.data, self.top)]
        own = Table(self.station_place(), self.station(), self.known_keys(self.station().get("kind")))
        links = self.places.links(self.refusal.station)
        return [own] + [Table(place, link, self.link_keys) for place, link in links]

    def tables_with(self, key: str) -> List[Table]:
        """Returns the tables that may have this key."""
        return [table for table in self.tables() if key in table.keys]

    def at(self, *places: Place) -> List[str]:
        """Returns the lines of places in the order given, of a link with its number if its station has several."""
        lines = []
        for place in places:
            line = self.places.line(place)
            several = place[2:3] == ("link",) and len(place) > 3 and len(self.places.links(place[1])) > 1
            if line:
                lines.append(self.places.shown(line) + (f"   (link {place[3]})" if several else ""))
        return lines

    def begin(self) -> List[str]:
        """Returns the line at which the station begins."""
        line = self.places.line(self.station_place())
        return [f"{self.places.shown(line)}   (station {self.refusal.station} begins here)"] if line else []

    def name_line(self, station: int) -> str:
        """Returns the line that names a station."""
        place = ("station", station, "name")
        return self.places.shown(self.places.line(place) or self.places.line(place[:2]) or 0)

    def names(self) -> List[Any]:
        """Returns the names of the stations in file order."""
        return [table.get("name") for table in self.places.stations()]

    def about(self, key: str) -> List[str]:
        """Returns what the tables of FORMATS_MODEL say of a key."""
        for keys in (self.top if self.refusal.station == 0 else self.station_keys, self.link_keys):
            if key in keys:
                found = keys[key]
                return [f"`{key}`: {found.type}; {found.meaning}."]
        return []

    # one function for each refusal

    def too_long(self) -> List[str]:
        """Returns the lines of `TooLong`: the length of the file."""
        return [size_of(self.places.path)]

    def not_toml(self) -> List[str]:
        """Returns the lines of `NotToml`: where the text stops being TOML, and why."""
        fault = self.places.fault
        lines: List[str] = []
        if fault:
            lines = [self.places.shown(fault.opened)] if fault.opened and fault.opened != fault.line else []
            lines += [self.places.shown(fault.line), f"Column {fault.column}: {fault.reason}."]
            lines += self.bracket_hint(fault.reason)
        return lines or [GONE]

    def bracket_hint(self, reason: str) -> List[str]:
        """Returns a hint if a station or a link begins with one bracket where two belong."""
        for name in ("station", "station.link"):
            single = rf"[ \t]*\[[ \t]*{re.escape(name)}[ \t]*\]"
            if f"`{name.split('.')[-1]}`" in reason and any(re.match(single, line) for line in self.places.lines):
                return [f"Each begins with two brackets: `[[{name}]]`."]
        return []

    def missing(self) -> List[str]:
        """Returns the lines of `Missing`: the table without the key, and where the key may be instead."""
        key = self.refusal.key or ""
        for table in self.tables_with(key):
            if key not in table.values:
                begin = self.at(table.place) if table.place[2:] else self.begin()
                where = "here" if begin else "at the top"
                return begin + [f"There is no `{key}` {where}."] + self.about(key) + self.elsewhere(key, table)
        return self.begin() + self.about(key) + [GONE]

    def elsewhere(self, key: str, table: Table) -> List[str]:
        """Returns hints to a misspelt key of this table, or to the key at a wrong place."""
        unknown = [name for name in table.values if name not in table.keys]
        near = [name for name in unknown if nearest(name, [key])]
        if near:
            return self.at(table.place + (near[0],)) + [f"Did you mean `{key}` in place of `{near[0]}`?"]
        if unknown:
            return self.at(table.place + (unknown[0],)) + [f"`{unknown[0]}` is no key of this place."]
        inside = [place for place in self.places.entries
                  if place[:len(table.place)] == table.place and len(place) > len(table.place) + 1 and place[-1] == key]
        if not inside:
            return [f"{self.places.shown(line)}   (a comment)" for line in self.comments_with(key)]
        if self.refusal.station == 0:
            hint = "It belongs before the first `[[station]]`: what follows that is the station's."
        else:
            hint = "This line belongs to a link: the station's keys go before its `[[station.link]]`."
        return self.at(inside[0]) + [hint]

    def comments_with(self, key: str) -> List[int]:
        """Returns the line of a comment in the refused part of the file that has this key, if there is one."""
        heads = [self.places.line(("station", number)) or 0 for number in range(1, len(self.places.stations()) + 1)]
        begin = heads[self.refusal.station - 1] if self.refusal.station else 1
        end = ([line for line in heads if line > begin] + [len(self.places.lines) + 1])[0]
        comment = re.compile(rf"\s*#.*\b{re.escape(key)}\s*=")
        return [line for line in range(begin, end) if comment.match(self.places.lines[line - 1])][:1]

    def wrong_type(self) -> List[str]:
        """Returns the lines of `WrongType`: the value, and what it must be."""
        key = self.refusal.key or ""
        for table in self.tables_with(key):
            if key in table.values and not has_type(rule_of(table.keys[key].type), table.values[key]):
                return self.at(table.place + (key,)) + self.about(key) + self.what_it_is(key, table.values[key])
        return self.begin() + self.about(key) + [GONE]

    def what_it_is(self, key: str, value: Any) -> List[str]:
        """Returns what a value of the wrong type is, and how it is written."""
        if key == "link":
            return ["It is written `link = [{ to = .., delay = .. }]` or `[[station.link]]`."]
        if key == "station":
            return ["It is written `[[station]]`, with two brackets."]
        lines = [f"Here it is {type_of(value)}."] + of_times(key, value)
        if isinstance(value, str) and re.match(r"[\d_]+\Z", value):
            lines.append("A number has no quotes.")
        return lines

    def unknown_key(self) -> List[str]:
        """Returns the lines of `UnknownKey`: the key, and which one may have been meant."""
        for table in self.tables():
            for name in sorted(set(table.values) - set(table.keys), key=lambda name: name.encode("utf-8", "replace")):
                if printed_key(name) == self.refusal.key:
                    return self.at(table.place + (name,)) + self.why_unknown(name, table)
        return self.begin() + [GONE]

    def why_unknown(self, name: str, table: Table) -> List[str]:
        """Returns why a key is unknown in its table, and which one may have been meant."""
        if table.place[:1] == ("station",) and len(table.place) == 2:
            return self.why_unknown_at_station(name, table)
        lines = did_you_mean(name, table.keys)
        where = "a link" if table.place else "the top"
        if not lines and table.place and name in self.station_keys:
            lines = ["It is a key of a station: the station's keys go before its `[[station.link]]`."]
        if not lines and not table.place and name in ("link", "stations"):
            lines = [f"A station begins with `[[station]]`, a link with `[[station.link]]`; `{name}` alone is unknown."]
        elif not lines and not table.place and name in self.station_keys:
            lines = ["It is a key of a station: those go after a line `[[station]]`."]
        return lines + [f"The keys of {where}: {', '.join(table.keys)}."]

    def why_unknown_at_station(self, name: str, table: Table) -> List[str]:
        """Returns why a key is unknown at a station: its kind, the format, another place, or a misspelling."""
        kind = str(table.values.get("kind"))
        key = self.station_keys.get(name)
        if key and key.later and self.format() == 1 and kind in key.kinds:
            lines = [f"`{name}` is a key of format 2: write `format = 2` at the top."]
        elif key:
            lines = self.at(table.place + ("kind",))
            lines.append(f"It is a key of a {' or a '.join(key.kinds)}, and this station is a {kind}.")
        elif name in self.link_keys:
            lines = ["It is a key of a link: `link = [{ to = .., delay = .. }]`."]
        elif name in self.top:
            lines = ["It is a key of the top: it goes before the first `[[station]]`."]
        else:
            lines = did_you_mean(name, table.keys) or did_you_mean(name, self.station_keys)
            later = nearest(name, [other for other, found in self.station_keys.items() if found.later])
            if later and self.format() == 1:
                lines.append(f"`{later}` needs `format = 2` at the top.")
        return lines + [f"The keys of a {kind}: {', '.join(table.keys)}."]

    def bad_name(self) -> List[str]:
        """Returns the lines of `BadName`: the name or the `to` that is none."""
        name = self.station().get("name")
        if isinstance(name, str) and not is_name(name):
            return self.at(self.station_place() + ("name",)) + [STATION_RULE] + why_no_name(name)
        for place, link in self.places.links(self.refusal.station):
            to = link.get("to")
            if isinstance(to, str) and not is_name(to):
                names = [name for name in self.names() if isinstance(name, str)]
                return self.at(place + ("to",)) + [STATION_RULE] + why_no_name(to) + did_you_mean(to, names)
        return self.begin() + [STATION_RULE, GONE]

    def name_twice(self) -> List[str]:
        """Returns the lines of `NameTwice`: both stations."""
        names, station = self.names(), self.refusal.station
        name = self.station().get("name")
        earlier = names.index(name) + 1 if name in names else station
        if earlier >= station:
            return self.begin() + [GONE]
        return [self.name_line(station), f"{self.name_line(earlier)}   (station {earlier} has this name)"]

    def out_of_range(self) -> List[str]:
        """Returns the lines of `OutOfRange`: the value, and its range or words."""
        key = self.refusal.key or ""
        for table in self.tables_with(key):
            rule = rule_of(table.keys[key].type)
            value: Any = table.values.get(key)
            if key in table.values and has_type(rule, value) and not in_range(rule, value):
                lines = self.at(table.place + (key,)) + self.about(key)
                lines += of_servers(value) if key == "servers" else []
                if rule.form == "pair" and value[0] > value[1]:
                    lines.append(f"The first is the greater one: did you mean `[{value[1]}, {value[0]}]`?")
                return lines + (did_you_mean(value, rule.words) if rule.form == "words" else [])
        return self.begin() + self.about(key) + [GONE]

    def first_bad_way(self) -> Tuple[Optional[int], Place, Dict[str, Any]]:
        """Returns the number of the first refusal of the station's ways, and place and table of its link."""
        names = self.names()
        sources = [table.get("name") for table in self.places.stations() if table.get("kind") == "source"]
        lookahead: Any = self.places.data.get("lookahead")
        for place, link in self.places.links(self.refusal.station):
            to = link.get("to")
            delay: Any = link.get("delay")
            if to not in names:
                return 9, place, link
            if to in sources:
                return 14, place, link
            if is_integer(delay) and is_integer(lookahead) and delay < lookahead:
                return 10, place, link
        return None, (), {}

    def unknown_station(self) -> List[str]:
        """Returns the lines of `UnknownStation`: the link, and the nearest name."""
        number, place, link = self.first_bad_way()
        if number != 9:
            return self.begin() + [GONE]
        return self.at(place + ("to",)) + near_station(self.places, str(link.get("to")))

    def into_source(self) -> List[str]:
        """Returns the lines of `IntoSource`: the link and the source."""
        number, place, link = self.first_bad_way()
        if number != 14:
            return self.begin() + [GONE]
        station = self.names().index(link["to"]) + 1
        kind = self.at(("station", station, "kind"))
        return self.at(place + ("to",)) + [f"{line}   (`{link['to']}` is a source)" for line in kind]

    def short_delay(self) -> List[str]:
        """Returns the lines of `ShortDelay`: the link and the lookahead."""
        number, place, link = self.first_bad_way()
        if number != 10:
            return self.begin() + [GONE]
        lookahead = self.places.data["lookahead"]
        return self.at(place + ("delay",), ("lookahead",)) + [
            f"The delay is {link['delay']} and the lookahead {lookahead}: "
            f"make the delay at least {lookahead}, or the lookahead less."]

    def no_way_out(self) -> List[str]:
        """Returns the lines of `NoWayOut`: the station without links."""
        if self.station().get("link"):
            return self.begin() + [GONE]
        place = self.station_place()
        kind = self.station().get("kind")
        return (self.at(place + ("link",)) or self.begin()) + [self.name_line(self.refusal.station)] + [
            f"A {kind} needs `link = [{{ to = .., delay = .. }}]`; only a sink has none. "
            "The links follow their own `[[station]]`."]

    def too_many(self) -> List[str]:
        """Returns the lines of `TooMany`: the first station or link that is too many."""
        count = len(self.places.stations())
        place: Place = ("station", MAX_STATIONS + 1)
        if self.refusal.station:
            count = len(self.places.links(self.refusal.station))
            place = self.station_place() + ("link", MAX_LINKS + 1)
        here = self.at(place)
        return here + [f"There are {count}; this is the first that is too many."] if here else self.begin() + [GONE]


def near_station(places: Places, word: str) -> List[str]:
    """Returns the line that names the station most like a word, and a question; or all stations if none is like it."""
    names = [table["name"] for table in places.stations() if isinstance(table.get("name"), str)]
    near = nearest(word, names)
    if near is None:
        return [f"The stations: {', '.join(names)}."]
    numbers = [number for number, table in enumerate(places.stations(), 1) if table.get("name") == near]
    line = places.line(("station", numbers[0], "name"))
    return ([places.shown(line)] if line else []) + [f"Did you mean `{near}`?"]


def printed_key(name: str) -> str:
    """Returns a key as an error line prints it."""
    return re.sub(rb"[^a-z0-9_]", b"?", name.encode("utf-8", "replace")[:SHOWN_KEY]).decode("ascii")
