"""Streams the traces that cloner's run, solo and live write: branch by branch, line by line, in one pass.

Every line is checked against the format of docs/FORMATS_OUTPUT.md first, so callers can split it without checks.
"""
import re
import sys
from sys import intern
from typing import Callable, Dict, Iterable, Iterator, List, Optional, TextIO, Tuple, TypeVar

from .errors import PlanningError, note
from .names import NAME_FORM

NUMBER = "[0-9]{1,18}"
STATION = NAME_FORM
JOB = rf"{STATION}\.{NUMBER}(?::[1-4])?"
PAYLOAD = rf"(?:job {JOB}|done {JOB}|tick|set [a-z]+ {NUMBER}(?: {NUMBER})?)"
COUNTS = (rf"(?:busy={NUMBER} wait={NUMBER} done={NUMBER} lost={NUMBER}|passed={NUMBER}|sent={NUMBER}"
          rf"|got={NUMBER} stay={NUMBER})")
is_message = re.compile(rf"{NUMBER} {STATION} {STATION} {NUMBER} {PAYLOAD} {COUNTS}\s*\Z").match
head_of = re.compile(rf"clone ({STATION})\s*\Z").match
report_row = re.compile(rf"({STATION}) copies=({NUMBER}) handled=({NUMBER}) alone=({NUMBER})\s*\Z").match
report_total = re.compile(rf"total handled=({NUMBER}) alone=({NUMBER})\s*\Z").match
rounds_line = re.compile(rf"rounds ({NUMBER})\s*\Z").match

ReportRow = Tuple[str, int, int, int]
# the parts of a line of a trace: its time, the beginning of its last count, its station, the first word of its payload
# and the two after it, which are empty for a tick, the counts as numbers, and the number of a set (0 for all others)
Parsed = Tuple[int, str, str, str, str, str, Tuple[int, ...], int]
MAX_KNOWN = 30_000
Item = TypeVar("Item")


class Trace:
    """One pass over the lines of a trace file.

    journal: the lines of a journal before the traces, without their ends (empty until the first branch is there)
    report: (station, copies, handled, alone) of each station (empty until all branches are read)
    total: (handled, alone) of the report, or None
    rounds: the rounds that `links` writes after the report, or None
    cut: whether the lines have ended before the report did. `solo` and `resume` write no report.
    number: the number of the line that was read last
    known: lines that were parsed, up to MAX_KNOWN; branches have many lines in common
    """

    def __init__(self, lines: Iterable[str]):
        self._lines = iter(lines)
        self._head: Optional[str] = None
        self._open = False
        self.journal: List[str] = []
        self.report: List[ReportRow] = []
        self.total: Optional[Tuple[int, int]] = None
        self.rounds: Optional[int] = None
        self.cut = False
        self.number = 0
        self.known: Dict[str, Parsed] = {}

    def branches(self) -> Iterator[Tuple[str, Iterator[str]]]:
        """Yields (name, lines) of each branch in order. What the caller leaves of the lines is passed over."""
        return self._each(self._branch_lines)

    def parsed_branches(self) -> Iterator[Tuple[str, Iterator[Parsed]]]:
        """Yields (name, parts of the lines) of each branch in order. What the caller leaves is passed over."""
        return self._each(self._branch_parts)

    def skip_branch(self) -> None:
        """Passes over the rest of the branch, without a check of its lines."""
        for line in self._lines if self._open else ():
            self.number += 1
            if not "0" <= line[:1] <= "9":
                self._end_branch(line)
                return
        self.cut = self.cut or self._open

    def _each(self, read: Callable[[], Iterator[Item]]) -> Iterator[Tuple[str, Iterator[Item]]]:
        self._head = self._first_head()
        while self._head is not None:
            name, self._head, self._open = self._head, None, True
            lines = read()
            yield name, lines
            if self._open:
                for _ in lines:
                    pass

    def fault(self, what: str) -> PlanningError:
        """Returns an error about the line that was read last."""
        return PlanningError(f"line {self.number} of the trace: {what}")

    def script_lines(self) -> List[str]:
        """Returns the lines of the journal that are a script: those between its head and its looks."""
        looks = [place for place, line in enumerate(self.journal) if line.startswith("looks ")]
        return self.journal[1:looks[0]] if looks else self.journal[1:]

    def _next(self) -> Optional[str]:
        line = next(self._lines, None)
        if line is not None:
            self.number += 1
        return line

    def _first_head(self) -> str:
        line = self._next()
        if line is None:
            raise PlanningError("the trace is empty; did cloner end with an error?")
        in_journal = line.startswith("journal ")
        while line is not None:
            head = head_of(line)
            if head:
                return head.group(1)
            if not in_journal:
                raise self.fault(f"a trace begins with `clone NAME`, not with: {shown(line)}")
            self.journal.append(line.rstrip("\r\n"))
            line = self._next()
        raise PlanningError("the journal is there, but no trace follows it")

    def _branch_lines(self) -> Iterator[str]:
        number = self.number
        for line in self._lines:
            number += 1
            if is_message(line):
                self.number = number
                yield line
                continue
            self.number = number
            self._end_branch(line)
            return
        self.cut = True

    def _branch_parts(self) -> Iterator[Parsed]:
        known = self.known
        for line in self._lines:
            self.number += 1
            found = known.get(line)
            if found is None:
                if not is_message(line):
                    self._end_branch(line)
                    return
                found = parts_of(line.split())
                if len(known) < MAX_KNOWN:
                    known[line] = found
            yield found
        self.cut = True

    def _end_branch(self, line: str) -> None:
        """Takes the line after a branch: the next head, or the report."""
        head = head_of(line)
        self._open = False
        if head:
            self._head = head.group(1)
        elif line.rstrip() == "report":
            self._read_report()
        else:
            raise self.fault(f"no line of a trace: {shown(line)}")

    def _read_report(self) -> None:
        line = self._next()
        while line is not None:
            row, total, rounds = report_row(line), report_total(line), rounds_line(line)
            if self.total is not None and self.rounds is None and rounds:
                self.rounds = int(rounds.group(1))
            elif self.total is not None or not (row or total):
                raise self.fault(f"no line of a report: {shown(line)}")
            elif row:
                self.report.append((row.group(1), int(row.group(2)), int(row.group(3)), int(row.group(4))))
            elif total:
                self.total = (int(total.group(1)), int(total.group(2)))
            line = self._next()
        self.cut = self.total is None


def parts_of(words: List[str]) -> Parsed:
    """Returns the parts of a line of a trace, given its words."""
    count = words[-1]
    kind = count[:4]
    counts: Tuple[int, ...] = ()
    if kind == "lost":
        counts = (int(words[-4][5:]), int(words[-3][5:]), int(words[-2][5:]), int(count[5:]))
    elif kind == "stay":
        counts = (int(words[-2][4:]), int(count[5:]))
    elif kind == "sent":
        counts = (int(count[5:]),)
    what = words[4]
    if what == "set":
        return int(words[0]), kind, intern(words[1]), "set", words[5], words[6], counts, int(words[3])
    return int(words[0]), kind, intern(words[1]), intern(what), "" if what == "tick" else words[5], "", counts, 0


def shown(line: str) -> str:
    """Returns a line as an error shows it: at most 60 characters, nothing but printable ASCII."""
    text = line.rstrip("\r\n")
    clean = "".join(letter if " " <= letter <= "~" else "?" for letter in text[:60])
    return clean + (" .." if len(text) > 60 else "")


def open_trace(path: str) -> TextIO:
    """Returns a file of text lines to read a trace from; PlanningError if it can't be opened.

    The path `-` is standard input.
    """
    try:
        if path == "-":
            return open(sys.stdin.fileno(), encoding="latin-1", newline="\n", closefd=False)
        return open(path, encoding="latin-1", newline="\n")
    except (OSError, ValueError) as fault:
        reason = getattr(fault, "strerror", None) or str(fault)
        raise PlanningError(f"cannot read the trace {path}: {reason}") from None


def is_cut(trace: Trace, solo: bool) -> bool:
    """Returns whether a trace is cut, and says so in a note. One of `solo` or `resume` never counts as cut."""
    if trace.cut and not solo:
        note("no report follows the traces, so they are cut: the last branch is not whole, and others may be absent "
             "(say --solo for traces of `solo` and `resume`, which have none)")
    return trace.cut and not solo


def class_of(job: str) -> int:
    """Returns the class of a job as a trace writes it: 2 of `gate.0:2`; 1 if there is none, as in format 1."""
    return int(job[-1]) if job[-2] == ":" else 1
