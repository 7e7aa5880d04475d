"""Reads the branches of a trace, and checks that trace, model and script belong together."""
from typing import Dict, List

from .branch_figures import Branch, Logs
from .errors import PlanningError, note
from .scope import FOREVER, Scope
from .scripts import parse_script
from .summary_rows import branch_row, class_rows, head_of, server_row, sink_rows
from .tables import Row
from .traces import Trace


def read_branches(trace: Trace, scope: Scope) -> List[Branch]:
    """Reads the branches of a trace and returns their figures; if some are wanted, no further than the last of them."""
    branches: List[Branch] = []
    logs = Logs()
    for name, lines in trace.parsed_branches():
        if trace.journal and not branches:
            scope.script = parse_script("\n".join(trace.script_lines()), "the journal")
        if scope.wanted is not None and name not in scope.wanted:
            trace.skip_branch()
            continue
        end = scope.own_end(name)
        branch = Branch(name, scope)
        try:
            branch.read(lines, logs, not branches)
        except ValueError as fault:
            raise trace.fault(str(fault)) from None
        if branch.last >= end:
            raise PlanningError(f"the trace is not of this script: {name} ends at {end} there, "
                                f"and has a message at {branch.last}")
        if scope.model is not None and branch.last >= scope.model.horizon:
            raise PlanningError(f"the trace is not of this model: {name} has a message at {branch.last}, "
                                f"and the horizon is {scope.model.horizon}")
        branches.append(branch)
        if scope.wanted is not None and len(branches) == len(scope.wanted):
            trace.skip_branch()
            break
    return branches


def lacks_branches(scope: Scope, branches: List[Branch]) -> bool:
    """Returns whether branches of the script are absent from the trace, and names them in a note."""
    there = {branch.name for branch in branches}
    absent = [name for name in scope.script.branches() if name not in there] if scope.script else []
    if absent:
        note(f"the trace does not have all branches of the script; absent: {', '.join(absent)}")
    return bool(absent)


def settle_span(scope: Scope, branches: List[Branch]) -> None:
    """Finds where the longest branch ends, and says what that means for the span."""
    if scope.model is not None:
        scope.longest = scope.model.horizon
    else:
        scope.longest = max(branch.last for branch in branches)
        if scope.longest == 0:
            raise PlanningError("the trace has no message after time 0, so only --model can say how long its span is")
        note(f"without --model the span goes to the last message, at {scope.longest}; "
             "jobs are taken to be served by arrival, and used% is left out")
    if scope.start >= scope.longest:
        raise PlanningError(f"--from {scope.start} is not below {scope.longest}, where the longest branch ends")
    if scope.longest < scope.stop < FOREVER:
        note(f"--to {scope.stop} is beyond {scope.longest}, where the longest branch ends, and is cut to it")
    empty = [branch.name for branch in branches if scope.end(branch.name) <= scope.start]
    if empty:
        note(f"ended before --from {scope.start}, so nothing is counted: {', '.join(empty)}")


def check_orders(scope: Scope, branches: List[Branch]) -> None:
    """Names the servers whose order of service is not the one that was taken; PlanningError if that is the model's."""
    if scope.model is None and scope.classes_seen:
        note("jobs have classes; the waits at servers that serve by class are right only with --model")
    misfits: Dict[str, str] = {}
    for branch in branches:
        for name, server in branch.servers.items():
            if server.misfit is None:
                continue
            if scope.model is not None:
                raise PlanningError(f"the trace is not of this model: in {branch.name}, "
                                    f"{name} serves {server.misfit} before its turn")
            misfits.setdefault(name, server.misfit)
    for branch in branches:
        for name in misfits.keys() & branch.servers.keys():
            branch.servers[name].misfit = misfits[name]
    if misfits:
        note(f"jobs are not served by arrival at {', '.join(misfits)}; their waits need --model")


def station_names(trace: Trace, scope: Scope, branches: List[Branch], kind: str) -> List[str]:
    """Returns the servers or sinks of the model.

    Without a model, returns those of the trace in the order of its report, or else of their first lines.
    """
    if scope.model is not None:
        return [station.name for station in scope.model.stations if station.kind == kind]
    seen: Dict[str, None] = {}
    for branch in branches:
        seen.update(dict.fromkeys(list(branch.servers) if kind == "server" else list(branch.sinks)))
    reported = [row[0] for row in trace.report if row[0] in seen]
    return reported if len(reported) == len(seen) else list(seen)


def rows_of(branch: Branch, scope: Scope, servers: List[str], sinks: List[str]) -> Dict[str, List[Row]]:
    """Returns the rows of a branch, by kind."""
    branch.add_absent(servers, sinks)
    rows: Dict[str, List[Row]] = {"server": [], "sink": [], "branch": []}
    span = (scope.start, scope.end(branch.name))
    for name in servers:
        head = head_of(branch.name, name, "server", *span)
        rows["server"].append(server_row(branch.servers[name], head, scope.over))
        rows["server"] += class_rows(branch.servers[name], head, scope.over)
    for name in sinks:
        rows["sink"] += sink_rows(branch.sinks[name], head_of(branch.name, name, "sink", *span))
    rows["branch"].append(branch_row(head_of(branch.name, None, "branch", 0, span[1]), sum(branch.sent.values()),
                                     list(branch.sinks.values()), list(branch.servers.values())))
    return rows
