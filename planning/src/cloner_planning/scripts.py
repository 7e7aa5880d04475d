"""Reads decision scripts: the decisions in order, and what each branch has of them.

The grammar is that of docs/FORMATS_SCRIPT.md, and a line that breaks it is refused here. Of the refusals of decisions
only those are made that branches depend on: a branch that is unknown, there already, or ended. They are made when a
branch is asked for.
"""
from typing import Dict, List, NamedTuple, Optional, Tuple

from .errors import PlanningError
from .limits import VALUES
from .names import NAME
from .script_lines import Lines, is_number, read_ascii_lines, refuse_foreign

SHOWN = 8


class Decision(NamedTuple):
    """One fork, set, end or look of a script. Fields that its kind does not have are empty or 0."""

    line: int
    analyst: str
    kind: str
    clone: str
    new: str = ""
    old: str = ""
    at: int = 0
    station: str = ""
    parameter: str = ""
    values: Tuple[int, ...] = ()


class Branch:
    """What one branch has of the decisions: its parent, its sets in order and its end, or None."""

    def __init__(self, parent: Optional[str], sets: List[Decision]):
        self.parent = parent
        self.sets = sets
        self.end: Optional[int] = None


class Script:
    """The decisions of a script in the order of its lines."""

    def __init__(self, decisions: List[Decision], path: str = "script"):
        self.decisions = decisions
        self.path = path
        self._branches: Optional[Dict[str, Branch]] = None

    def add(self, decision: Decision) -> None:
        """Adds a decision at the end; PlanningError if its branch is unknown, there already, or ended."""
        self._take(self._made(), decision)
        self.decisions.append(decision)

    def branches(self) -> List[str]:
        """Returns the names of the branches in the order of making, `base` first."""
        return list(self._made())

    def parent(self, name: str) -> Optional[str]:
        """Returns the branch from which a branch was forked; None for `base`."""
        return self._branch(name).parent

    def sets(self, name: str) -> List[Decision]:
        """Returns a branch's sets in the order of its decision list: those inherited by its fork, then its own."""
        return list(self._branch(name).sets)

    def end(self, name: str) -> Optional[int]:
        """Returns the time at which a branch ends, or None if it goes to the horizon."""
        return self._branch(name).end

    def _branch(self, name: str) -> Branch:
        made = self._made()
        if name not in made:
            known = ", ".join(list(made)[:SHOWN]) + (" .." if len(made) > SHOWN else "")
            raise PlanningError(f"{self.path} makes no branch {name}; its branches are {known}")
        return made[name]

    def _made(self) -> Dict[str, Branch]:
        if self._branches is None:
            made = {"base": Branch(None, [])}
            for decision in self.decisions:
                self._take(made, decision)
            self._branches = made
        return self._branches

    def _take(self, made: Dict[str, Branch], decision: Decision) -> None:
        if decision.kind == "look":
            return
        branch = made.get(decision.clone)
        if branch is None:
            raise self._fault(decision, f"there is no branch {decision.clone}")
        if branch.end is not None:
            raise self._fault(decision, f"branch {decision.clone} has an end already")
        if decision.kind == "fork":
            if decision.new in made:
                raise self._fault(decision, f"there is a branch {decision.new} already")
            made[decision.new] = Branch(decision.old, list(branch.sets))
        elif decision.kind == "set":
            branch.sets.append(decision)
        else:
            branch.end = decision.at

    def _fault(self, decision: Decision, what: str) -> PlanningError:
        return PlanningError(f"{self.path}: line {decision.line}: {what}")


def name_in(word: str) -> str:
    """Returns a word that is a name; ValueError otherwise."""
    if not NAME.match(word):
        raise ValueError(f"{word} is no name")
    return word


def number_in(word: str) -> int:
    """Returns the number that a word is; ValueError otherwise."""
    if not is_number(word):
        raise ValueError(f"{word} is no number")
    return int(word)


def decision_in(words: List[str], line: int, analyst: str) -> Decision:
    """Returns the decision or look that a line's words say; ValueError if they have no known form."""
    count = len(words)
    if words[0] == "fork" and count == 4 and words[2] == "from":
        new, old = name_in(words[1]), name_in(words[3])
        return Decision(line, analyst, "fork", old, new=new, old=old)
    if words[0] == "end" and count == 4 and words[2] == "at":
        return Decision(line, analyst, "end", name_in(words[1]), at=number_in(words[3]))
    if words[0] == "look" and count == 3:
        return Decision(line, analyst, "look", name_in(words[1]), station=name_in(words[2]))
    if words[0] == "set" and count >= 6 and words[2] == "at" and VALUES.get(words[5]) == count - 6:
        values = tuple(number_in(word) for word in words[6:])
        return Decision(line, analyst, "set", name_in(words[1]), at=number_in(words[3]), station=name_in(words[4]),
                        parameter=words[5], values=values)
    raise ValueError("no fork, set, end, look or analyst line")


def parse_script(text: str, path: str = "script") -> Script:
    """Returns the script that a text says; PlanningError for the first line that has no known form."""
    data = text.encode("utf-8", "surrogatepass")
    refuse_foreign(data, path, "script")
    return script_in(Lines(path, data))


def script_in(lines: Lines) -> Script:
    """Returns the script that these lines say; PlanningError for the first one that has no known form."""
    decisions = []
    analyst = "main"
    for number, words in lines.said():
        try:
            if words[0] == "analyst" and len(words) == 2:
                analyst = name_in(words[1])
            else:
                decisions.append(decision_in(words, number, analyst))
        except ValueError as fault:
            raise PlanningError(f"{lines.path}: line {number}: {fault}: {' '.join(words)[:80]}") from None
    return Script(decisions, lines.path)


def read_script(path: str) -> Script:
    """Returns the script in a file; PlanningError if it cannot be read or breaks the grammar."""
    return script_in(read_ascii_lines(path, "script"))
