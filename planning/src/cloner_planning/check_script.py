"""Traps of a script: what cloner accepts, and what it does not do as a planner may expect."""
from typing import Dict, Iterator, List, NamedTuple, Optional, Tuple

from .check_flow import Course
from .check_study import Study, Warn, in_branches, listed
from .models import Station
from .scripts import Decision, Script

# what a branch does: the sets of each station by time, and its end
Doing = Tuple[Dict[str, List[Tuple[int, str, Tuple[int, ...]]]], Optional[int]]


class Stop(NamedTuple):
    """A server that is stopped by a long service and opened again.

    Each has its time and its line; the line of the stop is 0 if the model says it.
    """

    server: str
    service: int
    at: int
    line: int
    opened_at: int
    opened_line: int


def script_traps(study: Study) -> List[Warn]:
    """Returns all traps of a script."""
    return [*sets_after_forks(study.script), *empty_forks(study.script), *same_branches(study.script),
            *stopped_servers(study)]


def target(decision: Decision) -> Tuple[str, str, int, int]:
    """Returns what a set changes, and when: of a weight also which link."""
    link = decision.values[0] if decision.parameter == "weight" else 0
    return decision.station, decision.parameter, link, decision.at


def own_sets(script: Script, branch: str) -> List[Decision]:
    """Returns the sets that name a branch itself."""
    return [one for one in script.decisions if one.kind == "set" and one.clone == branch]


def sets_after_forks(script: Script) -> List[Warn]:
    """Returns the sets of a branch from which another was forked before: that one does not have them."""
    found = []
    for place, one in enumerate(script.decisions):
        if one.kind != "set":
            continue
        forks = [fork for fork in script.decisions[:place] if fork.kind == "fork" and fork.old == one.clone]
        without = [fork for fork in forks if target(one) not in map(target, own_sets(script, fork.new))]
        if without:
            names = listed(fork.new for fork in without)
            verb = "does" if len(without) == 1 else "do"
            found.append(Warn(True, one.line, f"this set comes after the fork of {names} from {one.clone} (line "
                              f"{without[0].line}), which {verb} not have it: put it before the fork, or say it there "
                              "too"))
    return found


def empty_forks(script: Script) -> List[Warn]:
    """Returns the forks of branches that have no decision of their own."""
    found = []
    for fork in script.decisions:
        if fork.kind == "fork" and not own_sets(script, fork.new) and script.end(fork.new) is None:
            found.append(Warn(True, fork.line, f"branch {fork.new} has no decision of its own: up to here it is the "
                              f"same as {fork.old}"))
    return found


def doing(script: Script, branch: str) -> Doing:
    """Returns what a branch does, in a form that can be compared."""
    stations: Dict[str, List[Tuple[int, str, Tuple[int, ...]]]] = {}
    for one in sorted(script.sets(branch), key=lambda one: one.at):
        stations.setdefault(one.station, []).append((one.at, one.parameter, one.values))
    return stations, script.end(branch)


def same_branches(script: Script) -> List[Warn]:
    """Returns the branches whose decisions are those of an earlier one, but for forks that have none."""
    lines = {fork.new: fork.line for fork in script.decisions if fork.kind == "fork"}
    earlier: List[Tuple[str, Doing]] = []
    found = []
    for branch in script.branches():
        known = doing(script, branch)
        same = [name for name, other in earlier if other == known]
        if same and own_sets(script, branch):
            found.append(Warn(True, lines[branch], f"branch {branch} has the same decisions as {same[0]}, so it has "
                              "the same course"))
        earlier.append((branch, known))
    return found


def stops_of(course: Course, server: Station) -> Iterator[Stop]:
    """Yields the stops of a server in a branch: a service that outlasts the branch, and another one later."""
    before = (server.service[0], 0, 0)
    for one in course.sets:
        if one.station != server.name or one.parameter != "service":
            continue
        service, at, line = before
        if at < one.at and at + service >= course.end and one.values[0] < service:
            yield Stop(server.name, service, at, line, one.at, one.line)
        before = (one.values[0], one.at, one.line)


def stopped_servers(study: Study) -> List[Warn]:
    """Returns the servers that are stopped by a long service and opened again, with all branches of each."""
    branches: Dict[Stop, List[str]] = {}
    for course in study.courses:
        for server in study.model.stations:
            if server.kind == "server" and server.name in study.reached:
                for stop in stops_of(course, server):
                    branches.setdefault(stop, []).append(course.branch)
    found = []
    for stop, names in branches.items():
        line = stop.line or study.at(study.model.known(stop.server), "service")
        found.append(Warn(stop.line > 0, line, f"{in_branches(names)}server {stop.server} is stopped at {stop.at} by a "
                          f"service of {stop.service} and opened again at {stop.opened_at} (line {stop.opened_line}): "
                          "each service that begins in between keeps its job and its server for good. Stop it with "
                          "`servers 1` and `room 0`"))
    return found
