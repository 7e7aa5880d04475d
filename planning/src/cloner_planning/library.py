"""The tools as a library: a study is run with several seeds, and gives rows.

    from cloner_planning import Study
    rows = Study("clinic.toml", "clinic.txt").run(range(1, 21), figures=["stay", "lost"], jobs=4)
    rows.to_csv("clinic.csv")
"""
import importlib
import io
import json
import os
from concurrent.futures import Executor
from dataclasses import asdict, dataclass
from typing import Any, Iterable, Iterator, List, Optional, Protocol, Sequence, Union

from .choices import chosen
from .errors import PlanningError
from .figures import Number, chosen_figures
from .outputs import whole_file
from .seed_csv import Writer
from .seed_pools import default_jobs, run_all
from .seed_runs import Plan, program_of, run_seed
from .study_files import StudyFiles, read_text, study_of


class HasText(Protocol):
    """What a builder has: a text."""

    def text(self) -> str:
        """Returns the text."""


File = Union[str, "os.PathLike[str]", HasText]


@dataclass(frozen=True)
class Row:
    """A figure of one branch in the run of one seed. The class is None if it is about all jobs."""

    seed: int
    branch: str
    station: str
    job_class: Optional[int]
    figure: str
    value: Number


@dataclass(frozen=True)
class Due:
    """A watch that came due in the run of one seed: the branch that it made, and when."""

    seed: int
    branch: str
    time: int


class Rows(Sequence[Row]):
    """The figures of a study, by seed, branch, station and figure, and when its watches came due."""

    def __init__(self, rows: Iterable[Row], dues: Iterable[Due] = ()):
        self._rows = list(rows)
        self.dues = list(dues)

    def __len__(self) -> int:
        return len(self._rows)

    def __getitem__(self, place: Any) -> Any:
        return self._rows[place]

    def __iter__(self) -> Iterator[Row]:
        return iter(self._rows)

    def values(self, branch: str, station: str, figure: str, job_class: Optional[int] = None) -> List[Number]:
        """Returns the values of one figure, by seed."""
        return [row.value for row in self._rows
                if (row.branch, row.station, row.figure, row.job_class) == (branch, station, figure, job_class)]

    def to_csv(self, path: Optional[str] = None) -> str:
        """Returns the rows as the CSV of `replicate`, and writes it if a path is given."""
        output = io.StringIO()
        writer = Writer(output, any(row.job_class is not None for row in self._rows))
        writer.add_rows((row.seed, row.branch, row.station, row.job_class, row.figure, row.value)
                        for row in self._rows)
        return kept(output.getvalue(), path)

    def to_json(self, path: Optional[str] = None) -> str:
        """Returns the rows as a list of objects, and writes it if a path is given."""
        return kept(json.dumps([asdict(row) for row in self._rows], indent=1) + "\n", path)

    def to_frame(self) -> Any:
        """Returns the rows as a frame of pandas; PlanningError if that is not installed."""
        try:
            pandas: Any = importlib.import_module("pandas")
        except ImportError:
            raise PlanningError("to_frame needs pandas, which is not installed: pip install pandas") from None
        return pandas.DataFrame([asdict(row) for row in self._rows],
                                columns=["seed", "branch", "station", "job_class", "figure", "value"])


def kept(text: str, path: Optional[str]) -> str:
    """Returns a text, and writes it into a file if there is a path."""
    if path is not None:
        with whole_file(path) as output:
            output.file.write(text)
    return text


def text_of(file: File, what: str) -> str:
    """Returns the text of a file, or of a builder."""
    return read_text(os.fspath(file), what) if isinstance(file, (str, os.PathLike)) else file.text()


def path_of(file: Optional[File], what: str) -> str:
    """Returns the path that errors name."""
    return os.fspath(file) if isinstance(file, (str, os.PathLike)) else what


class Study:
    """A model, a script and watches, each as a path or from a builder. `program` is cloner, by default on the path."""

    def __init__(self, model: File, script: File, watches: Optional[File] = None, program: str = "cloner"):
        paths = [path_of(model, "model"), path_of(script, "script"), path_of(watches, "watches")]
        self.files: StudyFiles = study_of(
            text_of(model, "model"), text_of(script, "script"),
            None if watches is None else text_of(watches, "file of watches"), paths)
        self.program = program

    def branches(self) -> List[str]:
        """Returns the branches of the script, and those that watches may make."""
        return self.files.script.branches()

    def plan(self, figures: Optional[Sequence[str]] = None, stations: Optional[Sequence[str]] = None,
             branches: Optional[Sequence[str]] = None, start: int = 0, stop: Optional[int] = None, over: int = 0,
             by_class: bool = False) -> Plan:
        """Returns the plan of runs with these figures."""
        files = self.files
        end = files.model.horizon if stop is None else stop
        if not 0 <= start < end <= files.model.horizon:
            raise PlanningError(f"the span from {start} to {end} is not within 0 to {files.model.horizon}")
        plan = Plan(self.program, files.model_text, files.model, files.script_text, files.script, files.watches_text,
                    files.watched, start, end, over, by_class, chosen("branch", branches, self.branches()),
                    chosen("server or sink", stations, files.stations()), chosen_figures(figures))
        if not any(plan.has_figure(station, figure) for station in plan.stations for figure in plan.figures):
            raise PlanningError("nothing is selected: no station has one of the figures")
        return plan

    def run(self, seeds: Iterable[int], jobs: Optional[int] = None, executor: Optional[Executor] = None,
            figures: Optional[Sequence[str]] = None, stations: Optional[Sequence[str]] = None,
            branches: Optional[Sequence[str]] = None, start: int = 0, stop: Optional[int] = None, over: int = 0,
            by_class: bool = False) -> Rows:
        """Runs the study once for each seed, and returns the figures.

        Without an executor, `jobs` processes of this machine do it; any executor of `concurrent.futures` will do.
        Raises PlanningError if a file, an option or a run is wrong.
        """
        wanted = list(seeds)
        if not wanted or len(set(wanted)) < len(wanted):
            raise PlanningError("there are no seeds, or one is there twice")
        self.files.refuse_seed(wanted[0])
        plan = self.plan(figures, stations, branches, start, stop, over, by_class)
        if executor is None:
            plan = plan._replace(program=program_of(self.program))
        rows: List[Row] = []
        dues: List[Due] = []
        for seed, result in run_all(run_seed, plan, wanted, jobs or default_jobs(), executor):
            rows += [Row(seed, *value) for value in result.values]
            dues += [Due(seed, branch, time) for branch, time in result.dues.items()]
        return Rows(rows, dues)
