"""replicate: runs a study with several seeds, and describes how its figures vary."""
import argparse
import contextlib
import sys
import tempfile
from concurrent.futures import Executor
from typing import Dict, Iterator, List, Optional, Sequence, TextIO, Tuple

from .choices import chosen, names_in, whole_number
from .errors import PlanningError, Terminated, note
from .figures import DEFAULT_FIGURES, Value, chosen_figures
from .models import Model
from .outputs import Output, whole_file
from .scripts import Script
from .seed_csv import Writer, read_csv
from .seed_pools import MAX_JOBS, default_jobs, executor_of, run_all
from .seed_runs import Plan, Result, program_of, run_seed
from .seeds import parse_seeds
from .spreads import NAMES, Table, columns_of, dues_rows
from .study_files import StudyFiles, read_study
from .tables import write_table

DESCRIPTION = """Runs a study once for each seed, and describes how the figures of its branches vary over the seeds.

Each run is `cloner run` with a copy of MODEL that has this seed; with --watches it is `cloner watch`. If `cloner
stats` has all figures that are asked, it is run in place of them. Figures are those of `summary`, by branch, server
and sink:
  arrived lost begun done waiting serving wait_mean wait_median wait_90 wait_99 wait_longest over_share
  line_mean line_most busy_mean used_share (servers), got stay_mean stay_longest (sinks);
  `_mean` and `_share` may be left out
The table has a line for each station, figure and branch:
  seeds, mean, least, greatest       of the figure, over the seeds in which it has a value
  minus base, least, greatest        mean, least and greatest of the difference to `base` in the run of the same seed;
                                     with --against to another branch, or to the parent of each
  above 0                            in how many runs the difference is above 0
All branches of a run draw from the same random streams. So a difference usually varies less than the figures
themselves. The table describes these runs, and infers nothing.
With --watches, a second table says in how many runs each watch came due, and when.
With --csv, each value is a line with seed, branch, station, figure and value. `--csv -` writes it in place of the
table. After a run that fails, or Ctrl-C, table and CSV have the seeds before it. --continue FILE runs only the seeds
that are not in this CSV, and adds them to it.
--executor dask:ADDRESS or mpi carries the runs to other machines, which need cloner and this package."""

DUES = [("branch", "branch"), ("due", "came due"), ("mean", "mean"), ("least", "least"), ("greatest", "greatest")]


def add_arguments(parser: argparse.ArgumentParser) -> None:
    """Adds the words of the command line."""
    parser.add_argument("model", metavar="MODEL", help="the model file")
    parser.add_argument("script", metavar="SCRIPT", help="the script file")
    parser.add_argument("--watches", metavar="FILE", help="a file of watches")
    add_run_arguments(parser)
    parser.add_argument("--csv", metavar="FILE",
                        help="write each value into this file; - for standard output, without the table")
    parser.add_argument("--continue", dest="continued", metavar="FILE", help="run only the seeds that are not in FILE")
    parser.add_argument("--from", dest="start", type=whole_number, default=0, metavar="T",
                        help="begin of the span (default: 0)")
    parser.add_argument("--to", dest="stop", type=whole_number, metavar="T",
                        help="end of the span (default: the horizon)")
    parser.add_argument("--over", type=whole_number, default=0, metavar="T",
                        help="the wait that over_share is about (default: 0)")
    parser.add_argument("--figures", type=names_in, metavar="LIST", help=f"default: {','.join(DEFAULT_FIGURES)}")
    parser.add_argument("--stations", type=names_in, metavar="LIST", help="only these servers and sinks")
    parser.add_argument("--branches", type=names_in, metavar="LIST", help="only these branches")
    parser.add_argument("--against", default="base", metavar="NAME",
                        help="compare with this branch, or `parent` with that of each (default: base)")
    parser.add_argument("--by-class", action="store_true", help="also figures of each class of jobs")


def add_run_arguments(parser: argparse.ArgumentParser) -> None:
    """Adds the options of all commands that run several seeds."""
    parser.add_argument("--seeds", required=True, type=parse_seeds, metavar="LIST",
                        help="for instance 1..20, or 3, or 1,5,9")
    parser.add_argument("--jobs", type=number_of_jobs, metavar="N",
                        help="runs at a time (default: the number of processors)")
    parser.add_argument("--executor", metavar="WHERE",
                        help="dask:ADDRESS or mpi, in place of processes of this machine")
    parser.add_argument("--bin", default="cloner", metavar="FILE", help="the program (default: cloner, on the path)")


def number_of_jobs(word: str) -> int:
    """Returns the number of runs at a time that a word of the command line is."""
    number = whole_number(word)
    if not 1 <= number <= MAX_JOBS:
        raise argparse.ArgumentTypeError(f"{word!r} is no number from 1 to {MAX_JOBS}")
    return number


class Progress:
    """Says on standard error how many runs are done: in one line at a terminal, else at each tenth."""

    def __init__(self, total: int, output: TextIO) -> None:
        self.total = total
        self.output = output
        self.done = 0

    def step(self) -> None:
        """Counts a run that is done, and writes the number if it is time to."""
        before, self.done = self.done, self.done + 1
        text = f"{self.done} of {self.total} runs"
        if self.output.isatty():
            self.output.write("\r" + text)
        elif self.done * 10 // self.total > before * 10 // self.total:
            self.output.write(text + "\n")
        self.output.flush()

    def end(self) -> None:
        """Ends the line at a terminal."""
        if self.done and self.output.isatty():
            self.output.write("\n")


class Replications:
    """The results of the seeds that are done: the table, the times of watches, and the CSV if there is one."""

    def __init__(self, files: StudyFiles, options: argparse.Namespace, output: Optional[Output]) -> None:
        self.shown = options.branches
        self.table = Table(files.script, options.against)
        self.dues: Dict[str, List[int]] = {}
        self.done: List[int] = []
        self.output = output
        self.writer = Writer(output.file, options.by_class) if output else None

    def add(self, seed: int, result: Result) -> None:
        """Adds the result of a seed."""
        self.table.add(result.values)
        for name, time in result.dues.items():
            self.dues.setdefault(name, []).append(time)
        self.done.append(seed)
        if self.output and self.writer:
            self.writer.add(seed, [one for one in result.values if one.branch in self.shown])
            self.output.keep()


@contextlib.contextmanager
def csv_output(name: Optional[str]) -> Iterator[Optional[Output]]:
    """Yields the output of the CSV; None without a file."""
    if name is None:
        yield None
    elif name == "-":
        yield Output(sys.stdout)
    else:
        with whole_file(name) as output:
            yield output


def span_of(options: argparse.Namespace, model: Model) -> Tuple[int, int]:
    """Returns the span of time that the figures are about."""
    stop = model.horizon if options.stop is None else options.stop
    if stop > model.horizon:
        raise PlanningError(f"--to {stop} is beyond the horizon, {model.horizon}")
    if options.start >= stop:
        raise PlanningError(f"--from {options.start} is not below {stop}, the end of the span")
    return options.start, stop


def compared(options: argparse.Namespace, script: Script) -> List[str]:
    """Returns the branches that are shown, and those with which they are compared."""
    if options.against == "parent":
        others = [script.parent(name) or name for name in options.branches]
    else:
        others = chosen("branch", [options.against], script.branches())
    return list(dict.fromkeys([*others, *options.branches]))


def plan_of(options: argparse.Namespace, files: StudyFiles, folder: Optional[str]) -> Plan:
    """Returns the plan of all runs."""
    files.refuse_seed(options.seeds[0])
    stations = chosen("server or sink", options.stations, files.stations())
    program = options.bin if options.executor else program_of(options.bin)
    plan = Plan(program, files.model_text, files.model, files.script_text, files.script, files.watches_text,
                files.watched, *span_of(options, files.model), options.over, options.by_class,
                compared(options, files.script), stations, chosen_figures(options.figures), folder)
    if not any(plan.has_figure(station, figure) for station in stations for figure in plan.figures):
        raise PlanningError(f"nothing is selected: {', '.join(stations)} "
                            f"ha{'s' if len(stations) == 1 else 've'} no {' or '.join(plan.figures)}")
    return plan


def earlier_values(options: argparse.Namespace, plan: Plan) -> Dict[int, List[Value]]:
    """Returns the values of the CSV that is continued; PlanningError if it is about something else."""
    if options.continued is None:
        return {}
    if plan.watches_text is not None or set(plan.branches) != set(options.branches):
        raise PlanningError("--continue needs a CSV with all branches that are compared, and no --watches")
    found = read_csv(options.continued, options.by_class)
    wanted = {(branch, station, figure) for branch in plan.branches for station in plan.stations
              for figure in plan.figures if plan.has_figure(station, figure)}
    for seed, values in found.items():
        if {(one.branch, one.station, one.figure) for one in values} != wanted:
            raise PlanningError(f"{options.continued}: seed {seed} is cut, or has other branches, stations or figures")
    return found


def replicate(plan: Plan, options: argparse.Namespace, replications: Replications, earlier: Dict[int, List[Value]],
              executor: Optional[Executor]) -> None:
    """Runs the seeds that are not there by an earlier run, and adds all results."""
    for seed, values in earlier.items():
        replications.add(seed, Result(values, {}))
    seeds = [seed for seed in options.seeds if seed not in earlier]
    if earlier:
        note(f"{len(options.seeds) - len(seeds)} of {len(options.seeds)} seeds are in {options.continued} already")
    progress = Progress(len(seeds), sys.stderr)
    try:
        for seed, result in run_all(run_seed, plan, seeds, options.jobs or default_jobs(), executor) if seeds else ():
            replications.add(seed, result)
            progress.step()
    finally:
        progress.end()


def write_tables(plan: Plan, options: argparse.Namespace, done: Replications) -> None:
    """Writes the table of the figures, and that of the watches."""
    seeds = "1 seed" if len(done.done) == 1 else f"{len(done.done)} seeds"
    print(f"{seeds}, times from {plan.start} on and before {plan.stop}\n")
    rows = done.table.rows(plan.stations, plan.figures, options.branches)
    write_table(sys.stdout, columns_of(options.against, options.by_class), rows, NAMES)
    names: Sequence[str] = [name for name in plan.watched if name in options.branches]
    if names:
        print("\nWatches")
        write_table(sys.stdout, DUES, dues_rows(done.dues, names, len(done.done)), ("branch",))


def run(options: argparse.Namespace) -> int:
    """Runs the study with all seeds, writes what the options ask for, and returns the status."""
    files = read_study(options.model, options.script, options.watches)
    options.branches = chosen("branch", options.branches, files.script.branches())
    with executor_of(options.executor) as executor, \
            tempfile.TemporaryDirectory(prefix="cloner_replicate_") as folder:
        plan = plan_of(options, files, None if executor else folder)
        earlier = earlier_values(options, plan)
        with csv_output(options.csv or options.continued) as output:
            replications = Replications(files, options, output)
            try:
                replicate(plan, options, replications, earlier, executor)
            except (PlanningError, KeyboardInterrupt, Terminated):
                if replications.done and options.csv != "-":
                    write_tables(plan, options, replications)
                raise
    if options.csv != "-":
        write_tables(plan, options, replications)
    return 0
