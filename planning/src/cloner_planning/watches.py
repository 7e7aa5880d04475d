"""Reads files of watches, and says which branches they may make."""
from typing import List, NamedTuple, Tuple

from .errors import PlanningError
from .limits import VALUES
from .names import NAME
from .script_lines import Lines, is_number, read_ascii_lines, refuse_foreign
from .scripts import Decision, Script

CHANGE = 8  # the place of TARGET in a watch's words


class Watch(NamedTuple):
    """One watch: which line of which branch it waits for, and the branch that it makes with one change."""

    line: int
    clone: str
    station: str
    least: int
    new: str
    target: str
    parameter: str
    values: Tuple[int, ...]


def watch_in(words: List[str], line: int) -> Watch:
    """Returns the watch that a line's words say; ValueError if they have not its form."""
    if len(words) < CHANGE + 2 or (words[0], words[3], words[5], words[7]) != ("watch", "wait", "fork", "set"):
        raise ValueError("no watch")
    values = words[CHANGE + 2:]
    names = [words[1], words[2], words[6], words[CHANGE]]
    if VALUES.get(words[CHANGE + 1]) != len(values) or not all(map(NAME.match, names)):
        raise ValueError("no watch")
    if not all(map(is_number, [words[4], *values])):
        raise ValueError("a number is none")
    return Watch(line, words[1], words[2], int(words[4]), words[6], words[CHANGE], words[CHANGE + 1],
                 tuple(map(int, values)))


def watches_in(lines: Lines) -> List[Watch]:
    """Returns the watches of these lines; PlanningError for the first one that has no known form."""
    found = []
    for line, words in lines.said():
        try:
            found.append(watch_in(words, line))
        except ValueError as fault:
            raise PlanningError(f"{lines.path}: line {line}: {fault}: {' '.join(words)[:80]}") from None
    return found


def parse_watches(text: str, path: str = "watches") -> List[Watch]:
    """Returns the watches that a text says; PlanningError for the first line that has no known form."""
    data = text.encode("utf-8", "surrogatepass")
    refuse_foreign(data, path, "file of watches")
    return watches_in(Lines(path, data))


def read_watches(path: str) -> List[Watch]:
    """Returns the watches in a file; PlanningError if it cannot be read or breaks the grammar."""
    return watches_in(read_ascii_lines(path, "file of watches"))


def with_watches(script: Script, watches: List[Watch]) -> Script:
    """Returns a script that has the branches of watches too, with their changes at time 0, since when is not known."""
    more = []
    for one in watches:
        more.append(Decision(one.line, "main", "fork", one.clone, new=one.new, old=one.clone))
        more.append(Decision(one.line, "main", "set", one.new, station=one.target, parameter=one.parameter,
                             values=one.values))
    return Script([*script.decisions, *more], script.path)
