"""Warns of what cloner accepts and a planner may not want, and estimates loads and sizes of a study without a run."""
import argparse
from typing import Dict, List, NamedTuple, Optional, Tuple

from .check_flow import Clock, Course, Values, initial, messages, setting_of, time_of_limit
from .check_script import script_traps
from .check_study import Study, Warn, in_branches, is_active, listed
from .models import Station, read_model_places
from .scripts import parse_script, read_script

DESCRIPTION = """Warns of what cloner accepts and you may not want, and estimates loads and sizes.

Of the model: stations that nothing reaches, sources that run dry, servers with more work than they can do,
unlike servers after a router, links that a server picks by chance, messages above `limit`. Of the script: sets
without effect, sets that come after a fork, branches that are the same, servers that are stopped by a long service
and opened again, and the same as of the model for each branch. The estimate comes from mean rates alone, without a
run. Ends with 1 if there is a warning, with 0 if there is none."""

FULL, NEARLY_FULL = 1.005, 0.95
BYTES_OF_A_LINE = (50, 75)


def add_arguments(parser: argparse.ArgumentParser) -> None:
    """Adds the words of the command line."""
    parser.add_argument("model", metavar="MODEL", help="a model file that cloner accepts")
    parser.add_argument("script", nargs="?", metavar="SCRIPT", help="a script that cloner accepts with it")


def warnings_of(study: Study) -> List[Warn]:
    """Returns all warnings: those of the model by line, then those of the script by line."""
    found = [*unreached(study), *trapped(study), *unlike_servers(study), *shared_streams(study), *dry_sources(study),
             *without_effect(study), *overloads(study), *above_limit(study), *script_traps(study)]
    return sorted(found, key=lambda warn: (warn.of_script, warn.line))


def unreached(study: Study) -> List[Warn]:
    """Returns the stations that nothing reaches, and the sources that make no job."""
    found = []
    for station in study.model.stations:
        if station.name in study.reached:
            continue
        if station.kind != "source":
            found.append(Warn(False, study.at(station),
                              f"nothing reaches {station.name}: no way of links leads there from a source with jobs"))
        elif station.jobs == 0:
            found.append(Warn(False, study.at(station, "jobs"),
                              f"source {station.name} has jobs = 0, so it makes none"))
        else:
            found.append(Warn(False, study.at(station, "every"),
                              f"source {station.name} makes its first job at {station.every[0]} or later, "
                              f"and the horizon is {study.model.horizon}"))
    return found


def trapped(study: Study) -> List[Warn]:
    """Returns the reached stations from which no way leads to a sink."""
    names = study.reached - study.flow.way_out
    inside = [station for station in study.model.stations if station.name in names and station.kind != "source"]
    if not inside:
        return []
    said = listed(station.name for station in inside)
    return [Warn(False, study.at(inside[0]), f"no way leads to a sink from {said}: jobs that come there never leave "
                 "(the estimate follows them no further)")]


def unlike_servers(study: Study) -> List[Warn]:
    """Returns the routers that lead to servers which are not alike, of which none leads to another or back."""
    found = []
    for router in study.model.stations:
        if router.kind != "router" or router.name not in study.reached:
            continue
        next_names = {link.to for link in router.links}
        servers = [station for station in study.model.stations
                   if station.kind == "server" and station.name in next_names]
        names = {server.name for server in servers}
        parallel = [server for server in servers
                    if not ((names | {router.name}) - {server.name}) & {link.to for link in server.links}]
        if len({(server.servers, server.service) for server in parallel}) > 1:
            said = listed(f"{one.name} (servers {one.servers}, service {one.service[0]} to {one.service[1]})"
                          for one in parallel)
            found.append(Warn(False, study.at(router),
                              f"router {router.name} leads to servers that are not alike: {said}. "
                              "A router does not look at lines, and one line before unequal machines cannot be said"))
    return found


def shared_streams(study: Study) -> List[Warn]:
    """Returns the servers that pick a link by chance: their services and their links draw from one stream."""
    return [Warn(False, study.at(station, "link"),
                 f"server {station.name} picks a link by chance, from the stream of its services: a branch with other "
                 "services gets other links too. Behind it, a router by weights draws from a stream of its own, and "
                 "branches stay comparable")
            for station in study.model.stations
            if station.kind == "server" and len({link.to for link in station.links}) > 1
            and station.name in study.reached]


def dry_text(station: Station, course: Course, horizon: int) -> Optional[str]:
    """Returns how a source runs dry before the end of a branch, or None if it probably does not."""
    clock = course.clocks[station.name]
    end = f"{'the horizon' if course.end == horizon else 'the end of the branch'} is {course.end}"
    if clock.surely_dry is not None and clock.surely_dry < course.end:
        return f"surely runs dry: its {station.jobs} jobs are made by {clock.surely_dry} at the latest, and {end}"
    if clock.dry is not None and clock.dry < course.end - 0.5:
        return f"perhaps runs dry: by the mean its {station.jobs} jobs are made by about {clock.dry:.0f}, and {end}"
    return None


def dry_sources(study: Study) -> List[Warn]:
    """Returns the sources that make all their jobs before the end.

    A branch other than `base` is named only if it differs from its parent.
    """
    found = []
    for station in study.model.stations:
        if not is_active(station, study.model):
            continue
        said: Dict[str, Optional[str]] = {}
        for course in study.courses:
            text = said[course.branch] = dry_text(station, course, study.model.horizon)
            own = [one for one in course.sets if one.station == station.name and one.parameter == "every"]
            if course.branch == "base" and text:
                line = own[-1].line if own else study.at(station, "jobs")
                found.append(Warn(bool(own), line, f"source {station.name} {text}"))
            elif text and own and text != said[study.script.parent(course.branch) or "base"]:
                found.append(Warn(True, own[-1].line, f"in branch {course.branch}: source {station.name} {text}"))
    return found


def effect_reasons(study: Study, course: Course) -> Dict[int, Optional[str]]:
    """Returns for each set of a branch, by its line, why it has no effect there; None if it has one."""
    model, settings, reasons = study.model, initial(study.model), {}
    end = "the horizon" if course.end == model.horizon else "the end of the branch"
    clocks = {name: SourceClock(study, name, course.end) for name in course.clocks}
    sets = sorted(study.script.sets(course.branch), key=lambda one: one.at)
    for place, one in enumerate(sets):
        station, (setting, values) = model.known(one.station), setting_of(one)
        later = [more.line for more in sets[place + 1:] if more.at == one.at and setting_of(more)[0] == setting]
        reason = None
        if one.station not in study.reached:
            reason = f"nothing reaches {one.station}"
        elif one.at >= course.end:
            reason = f"its time is not before {end}, {course.end}"
        elif settings[setting] == values:
            reason = f"{one.station} has this value already at {one.at}"
        elif one.parameter == "every":
            reason = clocks[one.station].why_silent(one.at)
        elif one.parameter == "weight" and len(station.links) == 1:
            reason = f"{one.station} has one link alone"
        if reason is None and later and one.parameter not in ("servers", "service"):
            reason = f"line {later[0]} sets it again for the same time"
        reasons[one.line] = reason
        if one.at < course.end:
            settings[setting] = values
            if one.parameter == "every":
                clocks[one.station].change(one.at, values)
    return reasons


class SourceClock:
    """Follows one source from set to set, for the time of its next job."""

    def __init__(self, study: Study, name: str, end: int):
        station = study.model.known(name)
        self.every: Values = station.every
        self.clock = Clock(station.jobs, station.every, end)
        self.at = 0

    def change(self, at: int, every: Tuple[int, ...]) -> None:
        """Goes on to a time, from which on the range is another."""
        self.clock.bound(self.at, at, self.every)
        self.at, self.every = at, every

    def why_silent(self, at: int) -> Optional[str]:
        """Returns why a new range at this time changes nothing, or None."""
        self.change(at, self.every)
        if self.clock.surely_dry is not None and self.clock.left_surely == 0:
            return f"all jobs of the source are made by {self.clock.surely_dry}"
        if self.clock.earliest >= self.clock.end:
            return f"the source's next job is settled by then, for {self.clock.earliest} or later"
        return None


def without_effect(study: Study) -> List[Warn]:
    """Returns the sets that change nothing in any branch that has them."""
    reasons: Dict[int, List[Optional[str]]] = {}
    for course in study.courses:
        for line, reason in effect_reasons(study, course).items():
            reasons.setdefault(line, []).append(reason)
    return [Warn(True, line, f"this set has no effect: {found[0]}")
            for line, found in reasons.items() if None not in found]


class Busy(NamedTuple):
    """A time in which a server has nearly as much work as it can do, or more."""

    server: str
    start: int
    end: int
    percent: int


def busy_times(course: Course, server: Station) -> List[Busy]:
    """Returns the times of one branch in which a server is full or nearly full, long enough to matter."""
    found: List[Tuple[float, float, float, float]] = []
    for stretch in course.stretches:
        load = stretch.loads.get(server.name, 0.0)
        jobs = stretch.arrivals[server.name] * (stretch.end - stretch.start)
        if load < NEARLY_FULL:
            continue
        if found and found[-1][1] == stretch.start and abs(found[-1][2] - load) < 0.005:
            found[-1] = (found[-1][0], stretch.end, load, found[-1][3] + jobs)
        else:
            found.append((stretch.start, stretch.end, load, jobs))
    return [Busy(server.name, round(start), round(end), round(100 * load)) for start, end, load, jobs in found
            if (jobs * (1 - 1 / load) >= 1 if load >= FULL else jobs >= 100)]


def covers(known: Busy, busy: Busy) -> bool:
    """Returns whether a busy time is part of a longer one with the same load."""
    same = known.server == busy.server and known.percent == busy.percent and known != busy
    return same and known.start <= busy.start and busy.end <= known.end


def set_line(course: Course, busy: Busy) -> int:
    """Returns the line of the set with which a busy time begins, or 0."""
    begins = [one for one in course.sets if one.at == busy.start]
    own = [one for one in begins if one.station == busy.server]
    return (own or begins)[-1].line if begins else 0


def overloads(study: Study) -> List[Warn]:
    """Returns the servers to which more work comes than they can do, or nearly so.

    Branches in which it is the same have one warning together.
    """
    branches: Dict[Busy, List[str]] = {}
    lines: Dict[Busy, int] = {}
    for course in study.courses:
        for server in study.model.stations:
            for busy in busy_times(course, server) if server.kind == "server" else []:
                if any(covers(known, busy) for known in branches):
                    continue
                branches.setdefault(busy, []).append(course.branch)
                lines.setdefault(busy, set_line(course, busy))
    found = []
    for busy, names in branches.items():
        server = study.model.known(busy.server)
        what = (f"server {busy.server} gets {busy.percent} per cent of the work that it can do, "
                f"from {busy.start} to {busy.end}: ")
        what += ("its line grows until the room is full, then jobs are lost" if busy.percent > 100
                 else "near 100 per cent the line grows long")
        found.append(Warn(lines[busy] > 0, lines[busy] or study.at(server), in_branches(names) + what))
    return found


def above_limit(study: Study) -> List[Warn]:
    """Returns the stations whose messages come near `limit` or above it, which ends a run with status 7."""
    found: List[Warn] = []
    limit = study.model.limit
    for station in study.model.stations:
        counts = {course.branch: messages(course, station) for course in study.courses}
        times = {course.branch: time_of_limit(course, station, limit) for course in study.courses}
        met = {name: at for name, at in times.items() if at is not None}
        branch = min(met, key=lambda name: met[name]) if met else max(counts, key=lambda name: counts[name])
        if counts[branch] < NEARLY_FULL * limit:
            continue
        said = f"station {station.name} would handle about {counts[branch]:,.0f} messages"
        said += "" if branch == "base" else f" in branch {branch}"
        said += f", and the limit is {limit:,}: met at about {met[branch]}" if met else f", near the limit of {limit:,}"
        said += f"; {len(met) - 1} more branches meet it" if len(met) > 1 else ""
        found.append(Warn(False, study.places.line(("limit",)) or study.at(station), said))
    return found


def size(count: float) -> str:
    """Returns a number of bytes in words."""
    for unit in ("bytes", "KB", "MB"):
        if count < 1000:
            return f"{count:.0f} {unit}" if unit == "bytes" else f"{count:.1f} {unit}"
        count /= 1000
    return f"{count:.1f} GB"


def estimate(study: Study) -> List[str]:
    """Returns the lines of the estimate: sizes, and of each station messages and loads."""
    stations = study.model.stations
    counts = {course.branch: {station.name: messages(course, station) for station in stations}
              for course in study.courses}
    sums = {branch: sum(by_station.values()) for branch, by_station in counts.items()}
    total = sum(sums.values())
    lines = total + len(study.courses) + len(stations) + 2
    most = max(sums, key=lambda branch: sums[branch])
    least_bytes, most_bytes = (lines * each for each in BYTES_OF_A_LINE)
    said = ["estimate by mean rates alone, without a run:",
            f"  branches  {len(study.courses)}",
            f"  messages  about {total:,.0f} in all branches, {sums['base']:,.0f} in base, "
            f"at most {sums[most]:,.0f} in one ({most})",
            f"  output    about {lines:,.0f} lines, {size(least_bytes)} to {size(most_bytes)}",
            f"  {'station':<16} {'kind':<7} {'messages':>10} {'load':>6}   "
            "greatest load, and most messages in a branch"]
    return said + [station_row(study, counts, station) for station in stations]


def station_row(study: Study, counts: Dict[str, Dict[str, float]], station: Station) -> str:
    """Returns the row of one station: `base`, and the branch with most."""
    name = station.name
    loads = {course.branch: max((stretch.loads.get(name, 0.0) for stretch in course.stretches), default=0.0)
             for course in study.courses}
    busiest = max(loads, key=lambda branch: loads[branch])
    most = max(counts, key=lambda branch: counts[branch][name])
    load = f"{100 * loads['base']:.0f}%" if station.kind == "server" else ""
    greatest = f"{100 * loads[busiest]:.0f}% {busiest}, " if station.kind == "server" else ""
    return (f"  {name:<16} {station.kind:<7} {counts['base'][name]:>10,.0f} {load:>6}   "
            f"{greatest}{counts[most][name]:,.0f} {most}")


def run(options: argparse.Namespace) -> int:
    """Prints warnings and the estimate; returns 1 if there is a warning."""
    model, places = read_model_places(options.model)
    script = read_script(options.script) if options.script else parse_script("")
    study = Study(model, places, script)
    found = warnings_of(study)
    for warn in found:
        path = options.script if warn.of_script else options.model
        print(f"{path}:{warn.line}: warning: {warn.text}" if warn.line else f"{path}: warning: {warn.text}")
    if not found:
        print("nothing found")
    for line in estimate(study):
        print(line)
    return 1 if found else 0
