"""The figures of one branch, read from its lines.

Branches have much in common. As long as a station's lines are those that the first branch has at the same places, they
are not replayed: only how many there are is counted. When they differ, the station's figures are taken from the first
branch, which keeps a copy of them after every STEP lines.
"""
import copy
from typing import Callable, Dict, Generic, Iterator, List, Optional, Tuple, TypeVar

from .census import Census
from .scope import Scope
from .station_figures import ServerFigures, SinkFigures
from .traces import Parsed

STEP = 512
Figures = TypeVar("Figures", ServerFigures, SinkFigures)


class Log(Generic[Figures]):
    """The lines of one station in the first branch, and copies of its figures on the way."""

    def __init__(self, figures: Figures) -> None:
        self.entries: List[Parsed] = []
        self.copies: List[Figures] = [copy.deepcopy(figures)]

    def add(self, parsed: Parsed, figures: Figures) -> None:
        """Adds a line after which the station has these figures."""
        self.entries.append(parsed)
        if len(self.entries) % STEP == 0:
            self.copies.append(copy.deepcopy(figures))

    def after(self, count: int) -> Figures:
        """Returns the figures after so many lines, as a copy."""
        place = count // STEP
        figures = copy.deepcopy(self.copies[place])
        for parsed in self.entries[place * STEP:count]:
            figures.handle(parsed)
        return figures


class Logs:
    """The logs of the servers and sinks of the first branch."""

    def __init__(self) -> None:
        self.servers: Dict[str, Log[ServerFigures]] = {}
        self.sinks: Dict[str, Log[SinkFigures]] = {}


class Branch:
    """The figures of one branch, by station; `sent` by source; `last` is the time of its last message."""

    def __init__(self, name: str, scope: Scope):
        self.name = name
        self.scope = scope
        self.servers: Dict[str, ServerFigures] = {}
        self.sinks: Dict[str, SinkFigures] = {}
        self.sent: Dict[str, int] = {}
        self.last = 0
        self.census: Optional[Census] = Census(scope.start, scope.model) if scope.census else None

    def read(self, lines: Iterator[Parsed], logs: Optional[Logs] = None, is_first: bool = True) -> None:
        """Reads the lines of the branch. Raises ValueError if a line does not follow from those before.

        The first branch fills the logs, and the others follow them. Without logs each line is replayed.
        """
        if self.census or logs is None:
            self.read_all(self.checked(lines))
        elif is_first:
            self.read_first(self.checked(lines), logs)
        else:
            self.follow(self.checked(lines), logs)
        for parsed in lines:
            self.last = parsed[0]
        for server in self.servers.values():
            server.close(self.scope.over, self.scope.keep_waits)
        if self.census:
            self.census.close()

    def checked(self, lines: Iterator[Parsed]) -> Iterator[Parsed]:
        """Yields the lines before the end of the span, and checks that times do not fall."""
        stop, last = self.scope.stop, 0
        for parsed in lines:
            now = parsed[0]
            if now != last:
                if now < last:
                    raise ValueError(f"the time is below {last}, that of the line before")
                if now >= stop:
                    self.last = now
                    return
                self.last = last = now
            if parsed[1] == "sent":
                self.sent[parsed[2]] = parsed[6][0]
            yield parsed

    def read_all(self, lines: Iterator[Parsed]) -> None:
        """Replays each line, and takes the census if it is wanted."""
        servers, sinks, census = self.servers, self.sinks, self.census
        for parsed in lines:
            kind, station = parsed[1], parsed[2]
            if census:
                census.handle(parsed)
            if kind == "lost":
                (servers.get(station) or self.add_server(parsed)).handle(parsed)
            elif kind == "stay":
                (sinks.get(station) or self.add_sink(parsed)).handle(parsed)

    def read_first(self, lines: Iterator[Parsed], logs: Logs) -> None:
        """Replays each line, and keeps it in the logs."""
        for parsed in lines:
            kind, station = parsed[1], parsed[2]
            if kind == "lost":
                server = self.servers.get(station) or self.add_server(parsed)
                if station not in logs.servers:
                    logs.servers[station] = Log(server)
                server.handle(parsed)
                logs.servers[station].add(parsed, server)
            elif kind == "stay":
                sink = self.sinks.get(station) or self.add_sink(parsed)
                if station not in logs.sinks:
                    logs.sinks[station] = Log(sink)
                sink.handle(parsed)
                logs.sinks[station].add(parsed, sink)

    def follow(self, lines: Iterator[Parsed], logs: Logs) -> None:
        """Counts the lines that are those of the first branch, and replays the others."""
        handle: Dict[str, Callable[[Parsed], None]] = {}
        left: Dict[str, Iterator[Parsed]] = {}
        counts: Dict[str, int] = {}
        for station, entries in all_entries(logs):
            left[station], counts[station] = iter(entries), 0
        for parsed in lines:
            kind, station = parsed[1], parsed[2]
            if kind != "lost" and kind != "stay":
                continue
            if station in left:
                if next(left[station], None) is parsed:
                    counts[station] += 1
                    continue
                del left[station]
                self.take_over(station, counts.pop(station), logs)
            if station not in handle:
                handle[station] = ((self.servers.get(station) or self.add_server(parsed)).handle if kind == "lost"
                                   else (self.sinks.get(station) or self.add_sink(parsed)).handle)
            handle[station](parsed)
        for station, count in counts.items():
            if count:
                self.take_over(station, count, logs)

    def take_over(self, station: str, count: int, logs: Logs) -> None:
        """Takes a station's figures from the first branch, after so many of its lines."""
        if station in logs.servers:
            self.servers[station] = logs.servers[station].after(count)
        else:
            self.sinks[station] = logs.sinks[station].after(count)

    def add_server(self, parsed: Parsed) -> ServerFigures:
        """Returns the empty figures of a server that its first line names."""
        self.note_class(parsed)
        self.servers[parsed[2]] = self.scope.make_server(parsed[2])
        return self.servers[parsed[2]]

    def add_sink(self, parsed: Parsed) -> SinkFigures:
        """Returns the empty figures of a sink that its first line names."""
        self.note_class(parsed)
        self.sinks[parsed[2]] = self.scope.make_sink(parsed[2])
        return self.sinks[parsed[2]]

    def note_class(self, parsed: Parsed) -> None:
        """Remembers whether jobs have classes."""
        if parsed[3] != "set" and ":" in parsed[4]:
            self.scope.classes_seen = True

    def add_absent(self, servers: List[str], sinks: List[str]) -> None:
        """Adds the empty figures of the stations that no message reached."""
        for name in servers:
            if name not in self.servers:
                self.servers[name] = self.scope.make_server(name)
                self.servers[name].close(self.scope.over)
        for name in sinks:
            if name not in self.sinks:
                self.sinks[name] = self.scope.make_sink(name)


def all_entries(logs: Logs) -> List[Tuple[str, List[Parsed]]]:
    """Returns each station of the logs with its lines."""
    servers = [(name, log.entries) for name, log in logs.servers.items()]
    return servers + [(name, log.entries) for name, log in logs.sinks.items()]
