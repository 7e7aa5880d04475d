"""Runs a study once for one seed, and returns the figures of its branches."""
import os
import shutil
import subprocess
import tempfile
from typing import IO, Dict, Iterable, Iterator, List, NamedTuple, Optional, Sequence, TextIO, Tuple, cast

from .errors import CutTrace, PlanningError
from .figures import FIGURES, STATS_FIGURES, STATS_WAITS, Value
from .models import Model
from .scripts import Script
from .seeds import with_seed
from .stats_lines import values_of_stats
from .scope import Scope
from .summary_read import check_orders, read_branches, rows_of, station_names
from .tables import Row
from .traces import Parsed, Trace


class Plan(NamedTuple):
    """What all runs have in common, and of which branches, stations and figures values are wanted.

    The script has the branches of the watches, too. A folder is where runs keep their files; None is the usual place.
    """

    program: str
    model_text: str
    model: Model
    script_text: str
    script: Script
    watches_text: Optional[str]
    watched: Sequence[str]
    start: int
    stop: int
    over: int
    by_class: bool
    branches: Sequence[str]
    stations: Sequence[str]
    figures: Sequence[str]
    folder: Optional[str] = None

    def has_figure(self, station: str, figure: str) -> bool:
        """Returns whether a station has a figure."""
        return figure in FIGURES[self.model.known(station).kind]


class Result(NamedTuple):
    """What a run came to: its values, and when the watches came due that did."""

    values: List[Value]
    dues: Dict[str, int]


# the program that this process runs
running: List["subprocess.Popen[str]"] = []


def program_of(word: str) -> str:
    """Returns the path of the program."""
    program = shutil.which(word)
    if program is None:
        raise PlanningError(f"there is no program {word}: put cloner on the path, or name it with --bin")
    return program


def uses_stats(plan: Plan) -> bool:
    """Returns whether `cloner stats` probably has all figures that are wanted."""
    if plan.start or plan.stop < plan.model.horizon or plan.by_class or plan.watches_text is not None:
        return False
    changed = {one.station for branch in plan.branches for one in plan.script.sets(branch)}
    for station in plan.stations:
        known = plan.model.known(station)
        simple = known.servers == 1 and known.order == "arrival" and station not in changed
        for figure in plan.figures:
            if plan.has_figure(station, figure) and figure not in STATS_FIGURES + STATS_WAITS * simple:
                return False
    return True


def noting_dues(name: str, lines: Iterator[Parsed], plan: Plan, dues: Dict[str, int]) -> Iterator[Parsed]:
    """Yields the lines of a watch's branch, and notes when the watch came due: one lookahead before its own set."""
    number = len(plan.script.sets(name)) - 1
    for parsed in lines:
        if parsed[3] == "set" and parsed[7] == number:
            dues[name] = parsed[0] - plan.model.lookahead
        yield parsed


class WatchedTrace(Trace):
    """A trace of `watch`, which notes on the way when the watches came due."""

    def __init__(self, lines: Iterable[str], plan: Plan):
        super().__init__(lines)
        self.plan = plan
        self.dues: Dict[str, int] = {}

    def parsed_branches(self) -> Iterator[Tuple[str, Iterator[Parsed]]]:
        """Yields (name, parts of the lines) of each branch in order."""
        for name, lines in super().parsed_branches():
            watched = name in self.plan.watched
            yield name, noting_dues(name, lines, self.plan, self.dues) if watched else lines


def values_of(plan: Plan, lines: Iterable[str]) -> Result:
    """Returns the values of one run, whose output these lines are."""
    study = Scope(plan.start, plan.stop, plan.over, plan.by_class)
    study.model, study.script, study.longest = plan.model, plan.script, plan.model.horizon
    trace = WatchedTrace(lines, plan)
    branches = read_branches(trace, study)
    if trace.cut:
        raise CutTrace("no report follows the traces, so they are cut")
    check_orders(study, branches)
    names = [station_names(trace, study, branches, kind) for kind in FIGURES]
    values: List[Value] = []
    for branch in branches:
        if branch.name in plan.branches:
            found = rows_of(branch, study, *names)
            values += values_of_rows(plan, [row for kind in FIGURES for row in found[kind]])
    return Result(values, trace.dues)


def values_of_rows(plan: Plan, rows: List[Row]) -> List[Value]:
    """Returns the wanted values of the rows of one branch, by station and figure."""
    return [Value(row["branch"], station, row["class"], figure, row.get(figure))
            for station in plan.stations for figure in plan.figures if plan.has_figure(station, figure)
            for row in rows if row["station"] == station and (row["class"] is None or plan.by_class)]


def run_seed(plan: Plan, seed: int) -> Result:
    """Runs the study with a seed and returns what it came to."""
    folder = tempfile.mkdtemp(prefix=f"cloner_seed_{seed}_", dir=plan.folder)
    try:
        model = write_text(folder, "model", with_seed(plan.model_text, seed))
        files = [model, write_text(folder, "script", plan.script_text)]
        mode = "run"
        if plan.watches_text is not None:
            files.append(write_text(folder, "watches", plan.watches_text))
            mode = "watch"
        with open(os.path.join(folder, "errors"), "w+", encoding="utf-8", errors="replace") as errors:
            found: Optional[Result] = None
            if uses_stats(plan):
                found = read_run(plan, [plan.program, "stats", "--", *files], errors)
            return found or cast(Result, read_run(plan, [plan.program, mode, "--", *files], errors))
    except PlanningError as fault:
        raise type(fault)(f"seed {seed}: {fault}") from None
    finally:
        shutil.rmtree(folder, ignore_errors=True)


def write_text(folder: str, name: str, text: str) -> str:
    """Writes a file and returns its path."""
    path = os.path.join(folder, name)
    with open(path, "w", encoding="utf-8", newline="") as file:
        file.write(text)
    return path


def read_output(plan: Plan, mode: str, lines: Iterable[str]) -> Optional[Result]:
    """Returns what the output of a mode says; None if `stats` does not have all figures."""
    if mode != "stats":
        return values_of(plan, lines)
    servers = [name for name in plan.stations if plan.model.known(name).kind == "server"]
    values = values_of_stats(lines, plan.branches, servers, plan.figures)
    return None if values is None else Result(values, {})


def read_run(plan: Plan, command: List[str], errors: TextIO) -> Optional[Result]:
    """Runs the program and returns what its output says; PlanningError if it fails or writes something else."""
    try:
        process = subprocess.Popen(command, stdin=subprocess.DEVNULL, stdout=subprocess.PIPE, stderr=errors,
                                   encoding="latin-1")
    except OSError as fault:
        raise PlanningError(f"cannot run {plan.program}: {fault.strerror}") from None
    running[:] = [process]
    wrong: Optional[PlanningError] = None
    killed = False
    found: Optional[Result] = None
    output = cast(IO[str], process.stdout)
    with process:
        try:
            found = read_output(plan, command[1], output)
        except PlanningError as fault:
            wrong = fault
            killed = output.read(1) != ""  # what still writes is not waited for
            if killed:
                process.kill()
    errors.seek(0)
    complaint = errors.readline().strip() or f"{plan.program} ended with status {process.returncode}"
    if process.returncode and not killed:
        raise PlanningError(complaint)
    if wrong:
        raise wrong
    return found
