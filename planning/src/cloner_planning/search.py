"""search: runs all plans of a grid, and ranks them by a goal."""
import argparse
import csv
import os
import sys
import tempfile
from typing import Dict, Iterator, List, NamedTuple, Optional, Sequence, Tuple

from .choices import whole_number
from .errors import PlanningError
from .figures import Number
from .limits import MAX_BRANCHES
from .models import read_model_places
from .outputs import whole_file
from .replicate import Progress, add_run_arguments
from .script_builder import ScriptBuilder
from .search_plan import Figure, SearchPlan, Values, read_search_plan
from .seed_pools import default_jobs, executor_of, run_all
from .seed_runs import Plan, Result, program_of, run_seed
from .spreads import Spread
from .study_files import StudyFiles, read_text, study_of
from .tables import Column, Row, shown, write_table

DESCRIPTION = """Runs all plans of a grid with several seeds, and ranks them by a goal.

PLAN is a text with lines like these; # begins a comment:
  desk servers 1..4                    values of a parameter; one value alone is fixed
  desk service 2 5 | 3 6               pairs of times
  price desk 18.50                     what a server costs in an hour
  hour 60                              how many of the model's units an hour has (default: 60)
  from 480                             from when on the values hold (default: 0)
  goal least cost with desk p90 <= 30 and desk lost <= 0
A goal is the least cost, or the least STATION FIGURE. Figures are those of `summary`, by heading or name. A plan keeps
a bound if the mean of the figure over the seeds does; `kept` counts the seeds in which all bounds are kept. The
plans that keep all bounds come first.

256 plans are the branches of one run, and more take several. If `cloner stats` has all figures (arrived, lost,
done, most), it is run, else `cloner run`, which is slower. -o DIR gets plans.csv with all plans, the scripts of the
runs, and best.txt: the decisions of the best plan as a script for `base`."""

TOP = 10


class Ranked(NamedTuple):
    """A plan that was tried: its number from 1, its values, cost, and spreads of figures."""

    number: int
    choice: Tuple[Values, ...]
    cost: float
    spreads: Dict[Figure, Spread]
    kept: int
    seeds: int


def add_arguments(parser: argparse.ArgumentParser) -> None:
    """Adds the words of the command line."""
    parser.add_argument("model", metavar="MODEL", help="the model file")
    parser.add_argument("plan", metavar="PLAN", help="the plan of the search")
    parser.add_argument("-o", "--output", required=True, metavar="DIR", help="the folder of the results")
    parser.add_argument("--top", type=whole_number, default=TOP, metavar="N", help=f"plans to print (default: {TOP})")
    add_run_arguments(parser)


def script_of(plan: SearchPlan, choices: Sequence[Tuple[Values, ...]]) -> str:
    """Returns the script of several plans: the first is `base`, and each other a branch."""
    script = ScriptBuilder()
    for number, choice in [*enumerate(choices)][1:] + [*enumerate(choices)][:1]:
        branch = branch_of(number)
        if number:
            script.fork(branch)
        for parameter, values in zip(plan.parameters, choice):
            script.set(branch, plan.start, parameter.station, parameter.name, *values)
    return script.text()


def branch_of(number: int) -> str:
    """Returns the branch of a plan of a run."""
    return f"plan{number}" if number else "base"


def figures_of(plan: SearchPlan) -> List[Figure]:
    """Returns the figures that the goal is about."""
    own = [plan.least] if plan.least else []
    return list(dict.fromkeys([*own, *(bound.figure for bound in plan.bounds)]))


class Batch:
    """The plans of one run, and what came of them by now."""

    def __init__(self, plan: SearchPlan, files: StudyFiles, first: int, choices: List[Tuple[Values, ...]]):
        self.plan = plan
        self.files = files
        self.first = first
        self.choices = choices
        self.figures = figures_of(plan)
        self.spreads = [{figure: Spread() for figure in self.figures} for _ in choices]
        self.kept = [0] * len(choices)
        self.seeds = 0

    def runs(self, program: str, folder: Optional[str]) -> Plan:
        """Returns the plan of the runs."""
        files = self.files
        stations = list(dict.fromkeys(figure.station for figure in self.figures))
        names = list(dict.fromkeys(figure.name for figure in self.figures))
        return Plan(program, files.model_text, files.model, files.script_text, files.script, None, [], 0,
                    files.model.horizon, 0, False, files.script.branches(), stations, names, folder)

    def add(self, result: Result) -> None:
        """Adds the result of a seed."""
        known: Dict[Tuple[str, str, str], Number] = {
            (one.branch, one.station, one.figure): one.value for one in result.values}
        self.seeds += 1
        for number, spreads in enumerate(self.spreads):
            values = {figure: known.get((branch_of(number), *figure)) for figure in self.figures}
            for figure, value in values.items():
                spreads[figure].add(value)
            self.kept[number] += all(bound.holds(values[bound.figure]) for bound in self.plan.bounds)

    def ranked(self) -> Iterator[Ranked]:
        """Yields the plans with what came of them."""
        for number, choice in enumerate(self.choices):
            yield Ranked(self.first + number, choice, self.plan.cost(choice, self.files.model), self.spreads[number],
                         self.kept[number], self.seeds)


def batches_of(plan: SearchPlan, model_text: str, path: str) -> List[Batch]:
    """Returns the runs of a search."""
    choices = list(plan.choices())
    found = []
    for first in range(0, len(choices), MAX_BRANCHES):
        part = choices[first:first + MAX_BRANCHES]
        found.append(Batch(plan, study_of(model_text, script_of(plan, part), None, (path, "script", "")), first + 1,
                           part))
    return found


def rank(plan: SearchPlan, tried: List[Ranked]) -> List[Ranked]:
    """Returns the plans in order: those that keep all bounds first, and of these the least of the goal."""
    def key(one: Ranked) -> Tuple[int, float, int]:
        broken = sum(not bound.holds(one.spreads[bound.figure].mean()) for bound in plan.bounds)
        goal = one.spreads[plan.least].mean() if plan.least else one.cost
        return broken, float("inf") if goal is None else goal, one.number
    return sorted(tried, key=key)


def columns_of(plan: SearchPlan) -> List[Column]:
    """Returns the columns of the table."""
    parameters = [(f"{one.station} {one.name}",) * 2 for one in plan.parameters if len(one.choices) > 1]
    columns: List[Column] = [("plan", "plan"), *[(key, head) for key, head in parameters], ("cost", "cost")]
    for figure in figures_of(plan):
        name = f"{figure.station} {figure.name}"
        columns += [(name, name), (name + " least", "least"), (name + " greatest", "greatest")]
    return columns + [("kept", "kept")]


def row_of(plan: SearchPlan, one: Ranked) -> Row:
    """Returns the row of a plan."""
    row: Row = {"plan": one.number, "cost": one.cost, "kept": f"{one.kept} of {one.seeds}"}
    for parameter, values in zip(plan.parameters, one.choice):
        row[f"{parameter.station} {parameter.name}"] = " ".join(map(str, values))
    for figure, spread in one.spreads.items():
        name = f"{figure.station} {figure.name}"
        row.update({name: spread.mean(), name + " least": spread.least, name + " greatest": spread.greatest})
    return row


def write_results(plan: SearchPlan, batches: List[Batch], ranked: List[Ranked], folder: str) -> None:
    """Writes the files of a search."""
    columns = columns_of(plan)
    with whole_file(os.path.join(folder, "plans.csv")) as output:
        writer = csv.writer(output.file, lineterminator="\n")
        writer.writerow([key for key, _ in columns])
        for one in ranked:
            row = row_of(plan, one)
            writer.writerow([shown(row.get(key), 4, "") for key, _ in columns])
    for number, batch in enumerate(batches, 1):
        with whole_file(os.path.join(folder, f"script_{number}.txt")) as output:
            output.file.write(batch.files.script_text)
    with whole_file(os.path.join(folder, "best.txt")) as output:
        output.file.write(script_of(plan, [ranked[0].choice]))


def run(options: argparse.Namespace) -> int:
    """Searches, prints the best plans, and returns 0; 1 if no plan keeps all bounds."""
    model, _ = read_model_places(options.model)
    plan = read_search_plan(options.plan, model)
    batches = batches_of(plan, read_text(options.model, "model"), options.model)
    batches[0].files.refuse_seed(options.seeds[0])
    if os.path.exists(options.output) and not os.path.isdir(options.output):
        raise PlanningError(f"{options.output} is no folder")
    progress = Progress(len(batches) * len(options.seeds), sys.stderr)
    with executor_of(options.executor) as executor, tempfile.TemporaryDirectory(prefix="cloner_search_") as folder:
        program = options.bin if executor else program_of(options.bin)
        for batch in batches:
            runs = batch.runs(program, None if executor else folder)
            for _, result in run_all(run_seed, runs, options.seeds, options.jobs or default_jobs(), executor):
                batch.add(result)
                progress.step()
    progress.end()
    ranked = rank(plan, [one for batch in batches for one in batch.ranked()])
    os.makedirs(options.output, exist_ok=True)
    write_results(plan, batches, ranked, options.output)
    seeds = len(options.seeds)
    print(f"{len(ranked)} plans, {seeds} seed{'s' * (seeds > 1)}\n")
    write_table(sys.stdout, columns_of(plan), [row_of(plan, one) for one in ranked[:options.top]], ())
    best = ranked[0]
    if all(bound.holds(best.spreads[bound.figure].mean()) for bound in plan.bounds):
        return 0
    print("cloner-planning: note: no plan keeps all bounds", file=sys.stderr)
    return 1
