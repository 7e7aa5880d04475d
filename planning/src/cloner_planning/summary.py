"""summary: what each server, sink and branch of a trace came to in a span of time."""
import argparse
import json
import sys
from typing import Any, Dict, Iterator, List, Optional, Sequence, TextIO, Tuple

from .branch_figures import Branch
from .choices import chosen, names_in, whole_number
from .errors import CutTrace, PlanningError
from .groups import group_in, group_row, refuse_unknown
from .models import read_model
from .progress import watched
from .scope import Scope
from .scripts import read_script
from .summary_read import check_orders, lacks_branches, read_branches, rows_of, settle_span, station_names
from .summary_rows import (
    BRANCH, CENSUS, CSV_KEYS, DELAY, NAMES, census_rows, delay_rows, head_of, server_columns, sink_columns)
from .tables import Column, Row, write_csv, write_table
from .trace_sections import trace_lines
from .traces import Trace, is_cut
from .units import MINUTES, Unit, clock_in, in_unit, unit_in
from .watches import read_watches, with_watches

DESCRIPTION = """Figures of each server, sink and branch of a trace, as tables or CSV.

TRACE is what `cloner run`, `solo`, `live`, `watch` or `links` wrote, or - for standard input. It is read once.
The figures are those of a span of time: of messages at --from or later, and before --to. Without
--to the span goes to the model's horizon. A branch that ends earlier has a shorter span.

servers:
  arrived, lost      jobs that came, the lost ones among them; jobs that found no room
  begun, done        services that began; services that ended
  waiting, serving   jobs in line and in service at the end of the span
  wait               mean wait of the jobs that began service in the span. A job's wait counts whole,
                     also the part of it before --from.
  p50, p90, p99      median, 90th and 99th percentile of these waits, by nearest rank: the least value
                     such that at least p per cent of the waits are at most it
  longest            the longest of these waits
  >T%                per cent of these jobs that waited more than T (--over T; without it T is 0)
  line, most         mean and greatest number of jobs in line
  busy               mean number of busy servers
  used%              busy time in per cent of the time of the servers that were there. It is above 100
                     if services go on while a `set servers` has taken their servers away.
sinks:
  got                jobs that came
  stay, longest      mean and longest of their times in the network
branches, counted from time 0 on, also with --from:
  to                 the end of the branch's span
  made, left, lost   jobs that sources made, that reached a sink, that were lost
  inside             jobs in the network at the end of the span

delays, and census (--census, with --model for delays):
  came, inside       jobs that came to a delay in the span; those in it at the end
  mean, most         mean and greatest number of jobs in the delay, or in the whole network. With --every T the
                     network's are shown for each T of the span. A trace does not say when a job leaves a
                     delay: it leaves before it comes to the next station, by the link's delay.

--group NAME=a,b adds a row for servers together: their waits are one set of waits, and lines and busy servers
are added. --unit min=10 shows times in minutes if one has 10 of the model's units, and --clock 5:00 shows the
ends of spans by the clock, if time 0 is at that time. CSV and JSON stay in the model's unit.
With --branches and --model nothing is read after the last wanted branch, and the others are not checked.

`-` marks a mean of nothing, and a figure that needs --model.

A trace alone does not show the horizon, the numbers of servers and the order of service. Without
--model the span goes to the last message of the longest branch, used% is left out, and jobs are taken
to be served by arrival.
A trace alone does not show that a branch has an end. Without --script such a branch keeps its last
state to the end of the span. The output of `live` needs no --script: its journal has the ends.

If no report follows the traces, they are cut. The figures of what is there are written, and the status is 3.
With --script it is 3 too if a branch of the script is absent. `solo` and `resume` write no report: say --solo.
"""


def add_arguments(parser: argparse.ArgumentParser) -> None:
    """Adds the words of the command line."""
    parser.add_argument("trace", metavar="TRACE", help="the output of run, solo or live; - for standard input")
    parser.add_argument("--model", metavar="M", help="the model file: horizon, numbers of servers, order of service")
    parser.add_argument("--script", metavar="S", help="the script file: which branches end, and when")
    parser.add_argument("--watches", metavar="W", help="the file of watches whose branches the trace has, too")
    parser.add_argument("--from", dest="start", metavar="T", type=whole_number, default=0,
                        help="start of the span (default: 0)")
    parser.add_argument("--to", dest="stop", metavar="T", type=whole_number,
                        help="end of the span (default: the horizon)")
    parser.add_argument("--over", metavar="T", type=whole_number, default=0,
                        help="the wait that the column >T%% is about (default: 0)")
    parser.add_argument("--stations", type=names_in, metavar="LIST",
                        help="only these servers and sinks, as in desk,out, and no table of branches")
    parser.add_argument("--branches", type=names_in, metavar="LIST", help="only these branches")
    parser.add_argument("--group", type=group_in, action="append", default=[], metavar="NAME=LIST",
                        help="add a row for these servers together")
    parser.add_argument("--by-class", action="store_true",
                        help="add a row for each class of jobs at each server and sink")
    add_output_arguments(parser)


def add_output_arguments(parser: argparse.ArgumentParser) -> None:
    """Adds the options that are about how the figures are shown."""
    parser.add_argument("--census", action="store_true", help="add tables of the jobs at delays and in the network")
    parser.add_argument("--every", type=whole_number, metavar="T", help="the census for each T of the span")
    parser.add_argument("--unit", type=unit_in, metavar="NAME=N", help="show times in a unit that has N of the model's")
    parser.add_argument("--clock", type=clock_in, metavar="H:MM",
                        help="time 0 by the clock; needs --unit s, min, h or d")
    parser.add_argument("--sort", metavar="FIGURE", help="the greatest of this figure come first")
    parser.add_argument("--top", type=whole_number, metavar="N", help="only the first N rows of each table")
    parser.add_argument("--csv", action="store_true",
                        help="write CSV: one row per branch and station, and one per branch")
    parser.add_argument("--json", action="store_true", help="write JSON: a list of objects, each a row of the CSV")
    parser.add_argument("--solo", action="store_true",
                        help="the traces are those of `solo` or `resume`, which write no report")


def choose(options: argparse.Namespace, branches: List[Branch], servers: List[str],
           sinks: List[str]) -> Tuple[List[Branch], List[str], List[str]]:
    """Returns the branches, servers and sinks that are asked for; all if none is named."""
    names = chosen("branch", options.branches, [branch.name for branch in branches])
    stations = chosen("server or sink", options.stations, servers + sinks)
    refuse_unknown(options.group, servers)
    return ([branch for branch in branches if branch.name in names],
            [name for name in servers if name in stations], [name for name in sinks if name in stations])


def scope_of(options: argparse.Namespace) -> Scope:
    """Returns what the figures depend on; PlanningError if the options contradict each other."""
    if options.stop is not None and options.start >= options.stop:
        raise PlanningError(f"--from {options.start} is not below --to {options.stop}")
    if options.every == 0 or options.every and not options.census:
        raise PlanningError("--every needs --census, and a time above 0")
    if options.clock is not None and (options.unit is None or options.unit.name not in MINUTES):
        raise PlanningError("--clock needs --unit with s, min, h or d")
    scope = Scope(options.start, options.stop, options.over, options.by_class)
    scope.model = read_model(options.model) if options.model is not None else None
    scope.script = read_script(options.script) if options.script is not None else None
    if scope.script and options.watches is not None:
        scope.script = with_watches(scope.script, read_watches(options.watches))
    scope.census, scope.keep_waits = options.census, bool(options.group)
    scope.wanted = options.branches if scope.model else None
    return scope


def all_rows(branch: Branch, scope: Scope, options: argparse.Namespace, servers: List[str],
             sinks: List[str]) -> Dict[str, List[Row]]:
    """Returns the rows of a branch, by kind."""
    grouped = [name for group in options.group for name in group.stations]
    rows = rows_of(branch, scope, list(dict.fromkeys(servers + grouped)), sinks)
    rows["server"] = [row for row in rows["server"] if row["station"] in servers]
    end = scope.end(branch.name)
    for group in options.group:
        head = head_of(branch.name, group.name, "group", scope.start, end)
        rows["server"].append(group_row(group, branch.servers, head, scope.over))
    rows["delay"] = delay_rows(branch.census, branch.name, scope.start, end) if branch.census else []
    rows["census"] = census_rows(branch.census, branch.name, scope.start, end, options.every) if branch.census else []
    if options.stations is not None:
        rows["branch"] = []
    return rows


def ordered(rows: List[Row], columns: Sequence[Column], options: argparse.Namespace) -> List[Row]:
    """Returns the rows in the order that is asked for, and only as many."""
    wanted: str = options.sort or ""
    if wanted in sortable(columns):
        key = sortable(columns)[wanted]
        rows = sorted(rows, key=lambda row: (row.get(key) is None, -(row.get(key) or 0)))
    return rows[:options.top]


def tables_of(scope: Scope, unit: Optional[Unit]) -> List[Tuple[str, str, List[Column]]]:
    """Returns title, kind and columns of each table."""
    times = f", times in {unit.name}" if unit else ""
    return [("Servers" + times, "server", server_columns(scope.over, scope.by_class)),
            ("Sinks" + times, "sink", sink_columns(scope.by_class)),
            ("Branches, from time 0 on", "branch", BRANCH),
            ("Delays", "delay", DELAY), ("Census", "census", CENSUS)]


def write_tables(scope: Scope, rows: List[Dict[str, List[Row]]], options: argparse.Namespace, output: TextIO) -> None:
    """Writes the tables that have rows."""
    unit = options.unit._replace(clock=options.clock) if options.unit else None
    tables = tables_of(scope, unit)
    if options.sort and not any(options.sort in sortable(columns) for _, _, columns in tables):
        raise PlanningError(f"--sort {options.sort}: there is no such figure; there are "
                            f"{', '.join(dict.fromkeys(name for _, _, columns in tables for _, name in columns))}")
    begun = False
    for title, kind, columns in tables:
        found = ordered([row for of_branch in rows for row in of_branch[kind]], columns, options)
        if found:
            output.write(("\n" if begun else "") + title + "\n")
            write_table(output, columns, (in_unit(row, unit) for row in found), NAMES)
            begun = True


def sortable(columns: Sequence[Column]) -> Dict[str, str]:
    """Returns the keys of a table's columns by the names under which they may be asked for."""
    found: Dict[str, str] = {}
    for key, name in columns:
        found.update({name: key, key: key, key.replace("_mean", "").replace("_share", ""): key})
    return found


def write_json(output: TextIO, rows: Iterator[Row]) -> None:
    """Writes the rows as a list of objects, without what a row does not have."""
    plain: List[Dict[str, Any]] = [{key: row[key] for key in CSV_KEYS if row.get(key) is not None} for row in rows]
    json.dump(plain, output, indent=1)
    output.write("\n")


def run(options: argparse.Namespace) -> int:
    """Writes the summary of a trace and returns the status: 0, or 3 if the trace is cut."""
    scope = scope_of(options)
    with trace_lines(options.trace, scope.wanted) as lines:
        trace = Trace(watched(lines, options.trace, sys.stderr))
        branches = read_branches(trace, scope)
    if not branches:
        chosen("branch", options.branches, [])
    cut = is_cut(trace, options.solo) | (not options.solo and scope.wanted is None and lacks_branches(scope, branches))
    settle_span(scope, branches)
    check_orders(scope, branches)
    servers, sinks = (station_names(trace, scope, branches, kind) for kind in ("server", "sink"))
    branches, servers, sinks = choose(options, branches, servers, sinks)
    rows = [all_rows(branch, scope, options, servers, sinks) for branch in branches]
    flat = (row for of_branch in rows for kind in of_branch.values() for row in kind)
    if options.csv:
        write_csv(sys.stdout, CSV_KEYS, flat)
    elif options.json:
        write_json(sys.stdout, flat)
    else:
        write_tables(scope, rows, options, sys.stdout)
    return CutTrace.status if cut else 0
