"""Explains an error line of cloner: what it means, which line of a file it is about, and what may have been meant."""
import argparse
import os
import re
import sys
from typing import Any, Iterable, List, NamedTuple, Optional, Tuple

from .check_flow import estimate_station
from .errors import PlanningError
from .explain_model import Explainer, Refusal
from .explain_script import Decisions, explain_script, some
from .explain_snapshots import Snapshots
from .explain_tables import Status, Tables, read_tables
from .explain_watches import Watches, explain_watches
from .limits import MAX_LIMIT
from .models import read_model
from .names import did_you_mean
from .places import Places, is_integer, printable, read_bytes, read_places
from .recipes import of_branch
from .script_lines import Lines, read_lines
from .scripts import read_script
from .watch_trace import dues_of
from .watches import read_watches

DESCRIPTION = """Says what an error line of cloner means, and where.

The error line is the last line of standard input, so the journal of `live` may precede it:

    cloner run MODEL SCRIPT > TRACES 2> ERROR || cloner-planning explain MODEL SCRIPT < ERROR

Prints the meaning from docs/FORMATS.md, the line of the file, what is allowed there, and the nearest word. Ends with
1 after an explanation, with 0 if standard input is empty, with 2 if its last line is no error line of cloner.

With a file of watches and an empty standard input it says what each watch waits for and what its branch changes:

    cloner-planning explain MODEL SCRIPT WATCHES < /dev/null

With --trace it says too when each watch came due in that trace, or how long the line was:

    cloner watch MODEL SCRIPT WATCHES > TRACE; cloner-planning explain MODEL SCRIPT WATCHES --trace TRACE

For `resume` the second file is the snapshot. With an empty standard input it says what the snapshot holds:

    cloner-planning explain MODEL SNAPSHOT < /dev/null"""

MODEL_LINE = re.compile(r"cloner: model: refusal (\d+) at station (\d+)(?: key ?(.*))?\Z")
LINE_OF_TEXT = re.compile(r"cloner: (script|decision|watches|watch): refusal (\d+) at line (\d+)\Z")
SNAPSHOT_LINE = re.compile(r"cloner: snapshot: refusal (\d+) at (\d+)\Z")
LIMIT_LINE = re.compile(r"cloner: limit (\d+) met at station (\w+) in clone (\w+)\Z")
CLONE_LINE = re.compile(r"cloner: no clone (\S+)\Z")
FRONT_LINE = re.compile(rb"# front (\d{1,10})\s*\Z")
MAX_SAID = 4096
SUBJECTS = {"script": "a script", "decision": "a decision", "watches": "watches", "watch": "a watch"}
ROOM_TO_SPARE = 1.1


def add_arguments(parser: argparse.ArgumentParser) -> None:
    """Adds the words of the command line."""
    parser.add_argument("model", nargs="?", metavar="MODEL", help="the model file that cloner was given")
    parser.add_argument("script", nargs="?", metavar="SCRIPT",
                        help="the script that cloner was given; for `resume` the snapshot")
    parser.add_argument("watches", nargs="?", metavar="WATCHES", help="the file of watches that cloner was given")
    parser.add_argument("--trace", metavar="TRACE", help="what `cloner watch` wrote: say when each watch came due")


class Needed(NamedTuple):
    """The messages of a station up to the horizon, the time at which it meets the limit, and the horizon."""

    messages: float
    met: int
    horizon: int


class Files:
    """The files of the command line, read when they are asked for; None if they are not named."""

    def __init__(self, model: Optional[str], script: Optional[str], watches: Optional[str] = None):
        self.model = model
        self.script = script
        self.watches = watches

    def places(self) -> Optional[Places]:
        """Returns the places of the model."""
        return read_places(self.model) if self.model else None

    def lines(self) -> Optional[Lines]:
        """Returns the lines of the script."""
        return read_lines(self.script) if self.script else None

    def snapshot_lines(self) -> Optional[Lines]:
        """Returns the lines of the snapshot, which is named where a script is."""
        return read_lines(self.script, "snapshot") if self.script else None

    def watch_lines(self) -> Optional[Lines]:
        """Returns the lines of the file of watches."""
        return read_lines(self.watches, "watches") if self.watches else None


PARTS = {"N": r"\d+", "P": r"\d+", "S": r"\S+", "C": r"\S+", "NAME": r"\S+", "..": ".*"}


def status_of(said: str, tables: Tables) -> Optional[Status]:
    """Returns the row of the statuses to which an error line belongs, or None if it is no line of cloner."""
    for row in tables.statuses():
        for pattern in row.patterns:
            words = [PARTS.get(word, re.escape(word)) for word in pattern.split()]
            key = "(?: key.*)?" if "model: refusal" in pattern else ""
            if re.match(" ".join(words) + key + r"\Z", said):
                return row
    return None


def explain(said: str, front: Optional[int], tables: Tables, files: Files) -> List[str]:
    """Returns the lines that explain an error line; PlanningError if it is none.

    `front` is the last front of a journal before the error line, or None.
    """
    row = status_of(said, tables)
    if row is None:
        raise PlanningError(f"this is no error line of cloner: {printable(said)}")
    model, text, limit = MODEL_LINE.match(said), LINE_OF_TEXT.match(said), LIMIT_LINE.match(said)
    snapshot = SNAPSHOT_LINE.match(said)
    if model:
        return explain_model(Refusal(int(model.group(1)), int(model.group(2)), model.group(3)), tables, files)
    if text:
        return explain_lines(text.group(1), int(text.group(2)), int(text.group(3)), tables, files)
    if snapshot:
        return explain_snapshot(int(snapshot.group(1)), int(snapshot.group(2)), tables, files)
    if limit:
        return [row.meaning] + explain_limit(limit.groups(), front, files) + [f"What to do: {row.to_do}"]
    return [row.meaning] + more_of(said, row, tables, files) + ([f"What to do: {row.to_do}"] if row.to_do else [])


def meaning_of(subject: str, number: int, tables: Tables) -> List[str]:
    """Returns the meaning of a refusal; PlanningError if there is none of this number."""
    meanings = tables.refusals(subject)
    if number not in meanings:
        raise PlanningError(f"cloner has no refusal {number} of {subject}")
    return [meanings[number]]


def explain_model(refusal: Refusal, tables: Tables, files: Files) -> List[str]:
    """Returns what a refusal of a model means, and where."""
    meaning = meaning_of("a model", refusal.number, tables)
    places = files.places()
    if places is None:
        return meaning + ["Give the model's file as well, and its line is shown."]
    return meaning + Explainer(places, tables, refusal).lines()


def explain_lines(subject: str, number: int, line: int, tables: Tables, files: Files) -> List[str]:
    """Returns what a refusal of a script, a decision or a watch means, and where."""
    meaning = meaning_of(SUBJECTS[subject], number, tables)
    if subject in ("watches", "watch"):
        return meaning + explain_watch(subject, number, line, tables, files)
    lines = files.lines()
    if lines is None:
        return meaning + ["Give the files of the model and the script as well, and the line is shown."]
    if subject == "script":
        return meaning + explain_script(lines, tables, number, line, files.places())
    return meaning + Decisions(lines, tables, files.places()).explain(number, line)


def explain_watch(subject: str, number: int, line: int, tables: Tables, files: Files) -> List[str]:
    """Returns where a refusal of watches or of one watch is."""
    lines = files.watch_lines()
    if lines is None:
        return ["Give the files of the model, the script and the watches as well, and the line is shown."]
    if subject == "watches":
        return explain_watches(lines, tables, number, line)
    return Watches(lines, files.lines(), tables, files.places()).explain(number, line)


def explain_snapshot(number: int, place: int, tables: Tables, files: Files) -> List[str]:
    """Returns what a refusal of a snapshot means, and where."""
    meaning = meaning_of("a snapshot", number, tables)
    places, lines = files.places(), files.snapshot_lines()
    if places is None or lines is None:
        return meaning + ["Give the files of the model and the snapshot as well, and the line is shown."]
    return meaning + Snapshots(lines, tables, places).explain(number, place)


def explain_limit(groups: Tuple[str, ...], front: Optional[int], files: Files) -> List[str]:
    """Returns what is known of a station that met the limit: its line, the front, and which limit or horizon fits."""
    limit, station, branch = int(groups[0]), groups[1], groups[2]
    lines = [f"Station `{station}` would handle more than {limit:,} messages in branch `{branch}`."]
    if front is not None:
        lines.append(f"The journal's last front is {front}: the limit was met before that time.")
    places = files.places()
    if places is None or places.fault:
        return lines + [advice_for(limit, None)]
    numbers = [number for number, table in enumerate(places.stations(), 1) if table.get("name") == station]
    for place in [("station", number, "name") for number in numbers] + [("limit",), ("horizon",)]:
        line = places.line(place)
        lines += [places.shown(line)] if line else []
    return lines + [advice_for(limit, needed(station, branch, limit, front, places, files))]


def needed(station: str, branch: str, limit: int, front: Optional[int], places: Places,
           files: Files) -> Optional[Needed]:
    """Returns what the station would need; from the front if there is one, else from mean rates; None if unknown."""
    horizon: Any = places.data.get("horizon")
    if not is_integer(horizon):
        return None
    if front:
        return Needed(limit * horizon / front, front, horizon)
    try:
        found = estimate_station(files.model, files.script, station, branch, limit)
    except PlanningError:
        return None
    return Needed(*found, horizon) if found else None


def advice_for(limit: int, needs: Optional[Needed]) -> str:
    """Returns what to change so that the limit is kept."""
    if needs is None and limit >= MAX_LIMIT:
        return "Shorten `horizon`, or split the station over several."
    if needs is None:
        return (f"Write a greater `limit` at the top, up to {MAX_LIMIT}, shorten `horizon`, "
                "or split the station over several.")
    said = f"Up to the horizon {needs.horizon} it would handle about {needs.messages:,.0f}."
    wanted = int(needs.messages * ROOM_TO_SPARE) + 1
    if wanted <= MAX_LIMIT:
        shorter = int(needs.met / ROOM_TO_SPARE)
        return f"{said} Write `limit = {wanted}` at the top, or a `horizon` of at most about {shorter}."
    fits = int(needs.met * MAX_LIMIT / limit / ROOM_TO_SPARE)
    return (f"{said} The greatest limit is {MAX_LIMIT}: with it a `horizon` of about {fits} fits; "
            "or split the station over several.")


def more_of(said: str, row: Status, tables: Tables, files: Files) -> List[str]:
    """Returns what more can be said of an error line that is about no line of a file."""
    clone = CLONE_LINE.match(said)
    if clone:
        lines = files.lines()
        made = list(lines.forks()) if lines else ["base"]
        said_so = of_branch(clone.group(1), files.places()) or did_you_mean(clone.group(1), made)
        return said_so + ([f"The branches of the script: {some(made)}."] if lines else [])
    if row.status == 2:
        return [f"Known: {form}" for form in tables.commands()]
    if row.status == 3:
        what = said.split()[-1]
        paths = {"model": files.model, "script": files.script, "watches": files.watches, "snapshot": files.script}
        return why_unread(paths[what], what)
    return []


def why_unread(path: Optional[str], what: str) -> List[str]:
    """Returns why a file cannot be read, as far as that can be seen now."""
    if not path:
        return []
    if not os.path.lexists(path):
        folder = os.path.dirname(path) or "."
        names = os.listdir(folder) if os.path.isdir(folder) else []
        near = did_you_mean(os.path.basename(path), names)
        return [f"There is no file {path}."] + near
    if os.path.isdir(path):
        return [f"{path} is a folder."]
    try:
        read_bytes(path, what)
    except PlanningError as fault:
        return [f"{str(fault).capitalize()}."]
    return [f"{path} can be read now."]


def read_said(lines: Iterable[bytes]) -> Tuple[str, Optional[int]]:
    """Returns the last line that is not empty, and the last front of a journal before it, or None."""
    said, front = b"", None
    for line in lines:
        found = FRONT_LINE.match(line)
        front = int(found.group(1)) if found else front
        said = line.strip() or said
    return said[:MAX_SAID].decode("utf-8", errors="replace"), front


def described(files: Files) -> List[str]:
    """Returns what the watches wait for, or what the snapshot holds, whichever is named."""
    watches, places = files.watch_lines(), files.places()
    if watches:
        return Watches(watches, files.lines(), read_tables(), places).described()
    lines = files.snapshot_lines()
    if lines is None or places is None or not lines.raw[0].startswith(b"snapshot "):
        return []
    return Snapshots(lines, read_tables(), places).described()


def with_dues(options: argparse.Namespace) -> List[str]:
    """Returns each watch, what it waits for, and when it came due in the trace."""
    if not options.watches:
        raise PlanningError("--trace needs the files of the model, the script and the watches")
    watches = read_watches(options.watches)
    dues = dues_of(options.trace, read_model(options.model), read_script(options.script), watches)
    said = described(Files(options.model, options.script, options.watches))
    return [line for place, due in enumerate(dues) for line in (*said[2 * place:2 * place + 2], f"  {due}")]


def write(lines: List[str]) -> None:
    """Prints lines, with a substitute for each character that the output cannot show."""
    reconfigure: Any = getattr(sys.stdout, "reconfigure", None)
    if reconfigure:
        reconfigure(errors="backslashreplace")
    for line in lines:
        print(line)


def run(options: argparse.Namespace) -> int:
    """Explains the error line on standard input; returns 1, or 0 if there is none, after a look at the files.

    With a trace says what came of the watches, and returns 0.
    """
    if options.trace is not None:
        write(with_dues(options))
        return 0
    said, front = read_said(sys.stdin.buffer)
    files = Files(options.model, options.script, options.watches)
    if not said:
        write(described(files))
        return 0
    found = explain(said, front, read_tables(), files)
    write([printable(said)] + [f"  {line}" for line in found])
    return 1
