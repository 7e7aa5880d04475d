"""report: one page about a study, for those who decide."""
import argparse
import os
import sys
import tempfile
from typing import Dict, List, Optional

from .check import warnings_of
from .check_study import Study as Checked
from .choices import chosen, names_in
from .decision_words import at_time, said_branches
from .errors import PlanningError
from .figures import chosen_figures
from .outputs import whole_file
from .report_page import bullets, heading, page, paragraph, table
from .scripts import parse_script
from .seed_pools import MAX_JOBS, default_jobs, run_all
from .seed_runs import Plan, Result, program_of, run_seed
from .seeds import parse_seeds, with_seed
from .series import Series, StationReader, read_series
from .spreads import NAMES, Spread, Table
from .study_files import StudyFiles, read_study
from .svg_diagram import svg_of as diagram_svg
from .svg_lines import MAX_LINES
from .svg_lines import svg_of as lines_svg
from .tables import Column, Row
from .trace_files import trace_of
from .traces import Trace
from .units import MINUTES, TIMES, Unit, clock_in, unit_in
from .watches import parse_watches

DESCRIPTION = """One page about a study, for those who decide: HTML without scripts or links to elsewhere.

It has the model with a diagram, what `check` found, the decisions in words, tables of the figures, differences to
the parent branch with the number of seeds that agree, and pictures of the lines of those who wait. All comes from
runs of `cloner` with the seeds; without --seeds with the model's own. It infers nothing: ranges and counts only.
Times are in the model's unit, or with --unit min=10 in minutes that have 10 of it; with --clock 5:00 moments are by
the clock."""

FIGURES = ["lost", "wait_mean", "wait_90", "line_most", "used_share", "got", "stay_mean"]
WORDS = {"lost": "jobs lost", "wait_mean": "mean wait", "wait_90": "wait of nine in ten, at most",
         "line_most": "longest line", "used_share": "busy, per cent", "got": "jobs that came",
         "stay_mean": "mean time in the network"}
OWN = [("branch", "branch"), ("mean", "mean"), ("least", "least"), ("greatest", "greatest")]
MORE: List[Column] = [("parent", "compared with"), ("more", "mean difference"), ("least_more", "least"),
                      ("greatest_more", "greatest"), ("above", "more in"), ("below", "less in")]


def add_arguments(parser: argparse.ArgumentParser) -> None:
    """Adds the words of the command line."""
    parser.add_argument("model", metavar="MODEL", help="the model file")
    parser.add_argument("script", metavar="SCRIPT", help="the script file")
    parser.add_argument("-o", "--output", required=True, metavar="FILE", help="the page, for instance study.html")
    parser.add_argument("--watches", metavar="FILE", help="a file of watches")
    parser.add_argument("--seeds", type=parse_seeds, metavar="LIST", help="for instance 1..20 (default: the model's)")
    parser.add_argument("--stations", type=names_in, metavar="LIST", help="only these servers and sinks")
    parser.add_argument("--branches", type=names_in, metavar="LIST", help="only these branches")
    parser.add_argument("--figures", type=names_in, metavar="LIST", help=f"default: {','.join(FIGURES)}")
    parser.add_argument("--title", metavar="TEXT", help="the page's title")
    parser.add_argument("--unit", type=unit_in, metavar="NAME=N", help="show times in a unit that has N of the model's")
    parser.add_argument("--clock", type=clock_in, metavar="H:MM", help="time 0 by the clock")
    parser.add_argument("--jobs", type=int, choices=range(1, MAX_JOBS + 1), metavar="N", help="runs at a time")
    parser.add_argument("--bin", default="cloner", metavar="FILE", help="the program (default: cloner, on the path)")


class Report:
    """A report that is being made: the study, its plan, and what its runs came to."""

    def __init__(self, options: argparse.Namespace):
        if options.clock is not None and (options.unit is None or options.unit.name not in MINUTES):
            raise PlanningError("--clock needs --unit with s, min, h or d")
        self.files: StudyFiles = read_study(options.model, options.script, options.watches)
        self.paths = (options.model, options.script)
        self.unit: Optional[Unit] = options.unit._replace(clock=options.clock) if options.unit else None
        self.seeds: List[int] = options.seeds or [self.files.model.seed]
        self.shown = chosen("branch", options.branches, self.files.script.branches())
        self.options = options
        self.table = Table(self.files.script, "parent")
        self.dues: Dict[str, List[int]] = {}

    def plan(self, folder: str) -> Plan:
        """Returns the plan of the runs; also of the branches with which those of the report are compared."""
        files = self.files
        files.refuse_seed(self.seeds[0])
        parents = [files.script.parent(name) or name for name in self.shown]
        return Plan(program_of(self.options.bin), files.model_text, files.model, files.script_text, files.script,
                    files.watches_text, files.watched, 0, files.model.horizon, 0, False,
                    list(dict.fromkeys([*parents, *self.shown])),
                    chosen("server or sink", self.options.stations, files.stations()),
                    chosen_figures(self.options.figures or FIGURES), folder)

    def add(self, result: Result) -> None:
        """Adds what a run came to."""
        self.table.add(result.values)
        for name, time in result.dues.items():
            self.dues.setdefault(name, []).append(time)

    # parts of the page

    def about(self) -> List[str]:
        """Returns the part about the model."""
        model = self.files.model
        seeds = f"{len(self.seeds)} seeds" if len(self.seeds) > 1 else f"one seed, {self.seeds[0]}"
        unit = f"times are in {self.unit.name}" if self.unit else "times are in the model's unit"
        end = at_time(model.horizon, self.unit)
        return [paragraph(f"{len(model.stations)} stations, {len(self.shown)} branches, {seeds}; "
                          f"from {at_time(0, self.unit)} to {end}; {unit}."),
                heading("The model"), diagram_svg(model),
                paragraph("Each way has its delay in the model's unit, and its share if it is picked by chance.",
                          "note")]

    def findings(self) -> List[str]:
        """Returns the part about what `check` found."""
        script = parse_script(self.files.script_text, self.paths[1])  # without the branches of watches
        found = warnings_of(Checked(self.files.model, self.files.places, script))
        names = [os.path.basename(self.paths[warn.of_script]) for warn in found]
        lines = [f"{name}, line {warn.line}: {warn.text}" if warn.line else f"{name}: {warn.text}"
                 for name, warn in zip(names, found)]
        return [heading("What check found"), bullets(lines) if lines else paragraph("Nothing.")]

    def decisions(self) -> List[str]:
        """Returns the part about the decisions, branch by branch."""
        watches = parse_watches(self.files.watches_text) if self.files.watches_text is not None else []
        said = said_branches(self.files.script, watches, self.files.model, self.unit)
        parts = [heading("The decisions")]
        for branch in self.shown:
            parent = self.files.script.parent(branch)
            parts.append(heading(f"{branch}, from {parent}" if parent else branch, 3))
            if branch in self.files.watched:
                times = self.dues.get(branch, [])
                said[branch].append(f"it came due in {len(times)} of {len(self.seeds)} seeds")
            parts.append(bullets(said[branch]) if said[branch] else paragraph("no decision"))
        return parts

    def figures(self, plan: Plan) -> List[str]:
        """Returns the part with the tables of figures."""
        parts = [heading("Figures"), paragraph(
            "Each row has mean, least and greatest of the figure over the seeds, and of the difference to the branch "
            "that it was forked from, in the run of the same seed. The last columns count the seeds in which it is "
            "more, and less. These are ranges and counts of these runs; nothing is inferred from them.", "note")]
        for station in plan.stations:
            for figure in [name for name in plan.figures if plan.has_figure(station, name)]:
                rows = [self.row(station, figure, branch) for branch in self.shown]
                unit = f", {self.unit.name}" if self.unit and figure in TIMES else ""
                parts += [heading(f"{station}: {WORDS.get(figure, figure)}{unit}", 3),
                          table(OWN + MORE, rows, (*NAMES, "parent"))]
        return parts

    def row(self, station: str, figure: str, branch: str) -> Row:
        """Returns the row of a branch in the table of one figure."""
        own, more = self.table.spreads.get((branch, station, None, figure), (Spread(), Spread()))
        size = self.unit.size if self.unit and figure in TIMES else 1
        row: Row = {"branch": branch, "parent": self.files.script.parent(branch),
                    "mean": own.mean(), "least": own.least, "greatest": own.greatest,
                    "more": more.mean(), "least_more": more.least, "greatest_more": more.greatest}
        if size != 1:
            row.update({key: value / size for key, value in row.items() if isinstance(value, (int, float))})
        if more.count:
            row.update(above=f"{more.above} of {more.count}", below=f"{more.below} of {more.count}")
        return row

    def pictures(self, plan: Plan) -> List[str]:
        """Returns the part with the pictures of the first seed's run."""
        model = self.files.model
        servers = [name for name in plan.stations if model.known(name).kind == "server"]
        names = self.shown[:MAX_LINES]
        cut = f"; the first {MAX_LINES} of {len(self.shown)} branches" if len(self.shown) > MAX_LINES else ""
        parts = [heading("How many wait"), paragraph(f"In the run of seed {self.seeds[0]}{cut}.", "note")]
        with trace_of(plan, with_seed(plan.model_text, self.seeds[0])) as path:
            for station in servers:
                series = series_of(path, station, names)
                if series:
                    parts += [heading(station, 3), lines_svg(series, (0, model.horizon), f"who wait at {station}",
                                                             self.unit)]
        return parts


def series_of(path: str, station: str, names: List[str]) -> List[Series]:
    """Returns how many wait at a server in each of these branches that the trace has."""
    reader = StationReader(station)
    reader.settle("server")
    with open(path, encoding="latin-1", newline="\n") as file:
        wanted = ((name, lines) for name, lines in Trace(file).branches() if name in names)
        return [one for one in read_series(wanted, reader, ()) if one.end]


def run(options: argparse.Namespace) -> int:
    """Makes the report and returns 0."""
    report = Report(options)
    title = options.title or f"Study of {os.path.basename(options.model)}"
    with whole_file(options.output) as output, tempfile.TemporaryDirectory(prefix="cloner_report_") as folder:
        plan = report.plan(folder)
        for _, result in run_all(run_seed, plan, report.seeds, options.jobs or default_jobs()):
            report.add(result)
        parts = (report.about() + report.decisions() + report.findings() + report.figures(plan)
                 + report.pictures(plan))
        output.file.write(page(title, parts))
    print(f"{options.output} is written", file=sys.stderr)
    return 0
