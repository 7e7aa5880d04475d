"""The CSV of replications: a line for each value. It is read again to continue it."""
import csv
from typing import IO, Dict, Iterable, List, Optional, Sequence, Tuple

from .errors import PlanningError
from .figures import Number, Value
from .seeds import parse_seeds
from .tables import shown

HEAD = ("seed", "branch", "station", "figure", "value")
CLASS_HEAD = ("seed", "branch", "station", "class", "figure", "value")


class Writer:
    """Writes the values of seeds as lines of CSV."""

    def __init__(self, output: IO[str], by_class: bool) -> None:
        self.output = output
        self.by_class = by_class
        self._writer = csv.writer(output, lineterminator="\n")
        self._writer.writerow(CLASS_HEAD if by_class else HEAD)

    def add(self, seed: int, values: Sequence[Value]) -> None:
        """Writes the values of one seed."""
        self.add_rows((seed, *one) for one in values)

    def add_rows(self, rows: Iterable[Tuple[int, str, str, Optional[int], str, Number]]) -> None:
        """Writes values, each with its seed."""
        for seed, branch, station, job_class, figure, value in rows:
            classes = [shown(job_class, 0, "")] * self.by_class
            self._writer.writerow([seed, branch, station, *classes, figure, shown(value, 4, "")])


def number_in(text: str) -> Number:
    """Returns the number that a field holds, or None if it is empty."""
    if not text:
        return None
    return int(text) if text.lstrip("-").isdigit() else float(text)


def value_in(row: List[str], by_class: bool) -> Tuple[int, Value]:
    """Returns the seed and the value of a line; ValueError if it has none."""
    seed, branch, station, *rest = row
    job_class = rest.pop(0) if by_class else ""
    figure, value = rest
    return parse_seeds(seed)[0], Value(branch, station, int(job_class) if job_class else None, figure,
                                       number_in(value))


def read_csv(path: str, by_class: bool) -> Dict[int, List[Value]]:
    """Returns the values of each seed in a CSV; PlanningError if it is none, is cut, or has a seed twice."""
    try:
        with open(path, encoding="utf-8", newline="") as file:
            text = file.read()
    except OSError as fault:
        raise PlanningError(f"cannot read {path}: {fault.strerror}") from None
    except UnicodeDecodeError:
        raise PlanningError(f"{path}: the text is not UTF-8") from None
    rows = list(csv.reader(text.splitlines()))
    head = list(CLASS_HEAD if by_class else HEAD)
    if not rows or rows[0] != head:
        raise PlanningError(f"{path} is no CSV of these replications: it begins with {','.join(head)}")
    if not text.endswith("\n"):
        raise PlanningError(f"{path}: line {len(rows)} is cut")
    return by_seed(rows[1:], by_class, path)


def by_seed(rows: List[List[str]], by_class: bool, path: str) -> Dict[int, List[Value]]:
    """Returns the values of each seed; PlanningError for the first line that is wrong."""
    found: Dict[int, List[Value]] = {}
    last = None
    for line, row in enumerate(rows, 2):
        try:
            seed, value = value_in(row, by_class)
        except (ValueError, PlanningError):
            raise PlanningError(f"{path}: line {line} is no value of replications") from None
        if seed in found and seed != last:
            raise PlanningError(f"{path}: line {line}: seed {seed} is there twice")
        last = seed
        known = found.setdefault(seed, [])
        if any(one[:4] == value[:4] for one in known[-1:]):
            raise PlanningError(f"{path}: line {line}: seed {seed} is there twice")
        known.append(value)
    return found
