"""Explains a file of watches: what each watch waits for and what its branch changes, and why one is refused."""
from typing import Dict, List, Optional

from .explain_model import near_station
from .explain_script import GONE, BadLine, Decisions, faults_of_numbers, some, why_not_ascii
from .explain_tables import Tables
from .limits import MAX_BRANCHES, MAX_SETS, MAX_WATCHES
from .names import NAME, did_you_mean
from .places import Places, is_integer, size_of
from .script_lines import Lines, Word

SHORTEST_WATCH = 11


def numbers_of(words: List[Word]) -> List[Word]:
    """Returns the words of a watch that must be numbers."""
    return words[4:5] + words[10:]


def explain_watches(lines: Lines, tables: Tables, number: int, line: int) -> List[str]:
    """Returns the explanation of `watches: refusal NUMBER at line LINE`."""
    if number == 1:
        return [size_of(lines.path)]
    shown = [lines.shown(line)]
    if number == 2:
        return shown + why_not_ascii(lines, line)
    if number == 5:
        return shown + [f"It is watch number {MAX_WATCHES + 1}: there may be {MAX_WATCHES}."]
    faults = faults_of_line(lines.words(line), tables)
    return shown + (faults or [GONE])


def faults_of_line(words: List[Word], tables: Tables) -> List[str]:
    """Returns why a line that says something is no watch; nothing if it is one."""
    bad = BadLine(words, tables.watch_forms(), tables).lines()
    return bad or faults_of_numbers(numbers_of(words))


class Watches:
    """A file of watches over the branches of a script and the stations of a model, as far as these files are named."""

    def __init__(self, lines: Lines, script: Optional[Lines], tables: Tables, places: Optional[Places]):
        self.lines = lines
        self.has_script = script is not None
        self.script = script or Lines("", b"")
        self.tables = tables
        self.has_model = places is not None
        self.places = places or Places("", b"")
        self.decisions = Decisions(script or lines, tables, places)

    def described(self) -> List[str]:
        """Returns each line that says something, and what it means or why it is no watch."""
        found = []
        for line, words in self.lines.said():
            said = faults_of_line(self.lines.words(line), self.tables) or [self.meaning(line, words)]
            found += [self.lines.shown(line)] + [f"  {part}" for part in said]
        return found

    def meaning(self, line: int, words: List[str]) -> str:
        """Returns what a watch waits for and what its branch changes."""
        _, branch, station, _, least, _, new, _, target, *change = words
        jobs = {"0": f"As soon as `{station}` handles a message", "1": f"As soon as a job waits at `{station}`"}
        when = jobs.get(least, f"As soon as {least} jobs wait at `{station}`")
        since = " from its own change on" if branch in self.earlier(line) else ""
        lookahead = None if self.places.fault else self.places.data.get("lookahead")
        later = f"one lookahead ({lookahead})" if is_integer(lookahead) else "one lookahead"
        return (f"{when} in `{branch}`{since}: a branch `{new}` of it is made, with the change "
                f"`{target} {' '.join(change)}` {later} later.")

    def earlier(self, line: int) -> Dict[str, int]:
        """Returns the branches of the watches before a line, each with its line; the first one if there are several."""
        made: Dict[str, int] = {}
        for at, words in self.lines.before(line):
            if len(words) >= SHORTEST_WATCH and NAME.match(words[6]):
                made.setdefault(words[6], at)
        return made

    def explain(self, number: int, line: int) -> List[str]:
        """Returns the explanation of `watch: refusal NUMBER at line LINE`."""
        words = [word.text for word in self.lines.words(line)]
        if not words or faults_of_line(self.lines.words(line), self.tables):
            return [self.lines.shown(line), GONE]
        shown = [self.lines.shown(line), self.meaning(line, words)]
        if number in (6, 7, 8):
            return shown + self.unfit_for_model(number, words)
        if not self.has_script:
            return shown + ["Give the script's file as well, and its lines are looked up."]
        unfit = {3: self.unknown_branch, 4: self.name_taken, 5: self.too_many, 9: self.list_full, 12: self.ended}
        return shown + unfit[number](line, words)

    def unfit_for_model(self, number: int, words: List[str]) -> List[str]:
        """Returns the lines of `UnknownStation`, `WrongParameter` and `OutOfRange`."""
        if not self.has_model:
            return ["Give the model's file as well, and its lines are looked up."]
        if self.places.fault:
            return [f"{self.places.path} as it is now is no TOML."]
        change = ["set", words[1], "at", "0", *words[8:]]
        if number == 8:
            return self.decisions.out_of_range(change)
        return self.unknown_station(words) if number == 6 else self.wrong_parameter(words, change)

    def unknown_station(self, words: List[str]) -> List[str]:
        """Returns the lines of `UnknownStation`: the nearest name."""
        unknown = [name for name in (words[2], words[8]) if not self.decisions.station(name)[0]]
        return near_station(self.places, unknown[0]) if unknown else [GONE]

    def wrong_parameter(self, words: List[str], change: List[str]) -> List[str]:
        """Returns the lines of `WrongParameter`: a watched station that is no server, or a wrong change."""
        number, table = self.decisions.station(words[2])
        if table.get("kind") == "server":
            return self.decisions.wrong_parameter(change)
        servers = [str(station.get("name")) for station in self.places.stations() if station.get("kind") == "server"]
        return self.decisions.model_lines(("station", number, "kind")) + [
            f"`{words[2]}` is a {table.get('kind')}, and jobs wait at servers alone: "
            f"{some(servers) or 'there are none'}."]

    def known(self, line: int) -> Dict[str, int]:
        """Returns the branches of the script and of the watches before a line."""
        return {**dict.fromkeys(self.script.forks(), 0), **self.earlier(line)}

    def unknown_branch(self, line: int, words: List[str]) -> List[str]:
        """Returns the lines of `UnknownClone`: the nearest branch, or the later watch that makes it."""
        known, later = self.known(line), self.earlier(len(self.lines.raw) + 1)
        if words[1] in known:
            return [GONE]
        if words[1] in later:
            return [f"{self.lines.shown(later[words[1]])}   (it is made here)",
                    "A watch goes before all watches of its branch."]
        return did_you_mean(words[1], known) + [f"The branches before this line: {some(list(known))}."]

    def ended(self, _line: int, words: List[str]) -> List[str]:
        """Returns the lines of `Ended`: the line of the end."""
        ends = [at for at, said in self.script.said() if said[:2] == ["end", words[1]]]
        return [f"{self.script.shown(ends[0])}   (its end)"] if ends else [GONE]

    def name_taken(self, line: int, words: List[str]) -> List[str]:
        """Returns the lines of `NameTaken`: the line that makes the other branch."""
        made, earlier = self.script.forks().get(words[6]), self.earlier(line).get(words[6])
        if made == 0:
            return ["`base` is there from the start."]
        if made is None and earlier is None:
            return [GONE]
        shown = self.script.shown(made) if made else self.lines.shown(earlier or 0)
        return [f"{shown}   (it is made here)"]

    def too_many(self, line: int, _words: List[str]) -> List[str]:
        """Returns the lines of `TooManyClones`: how many there are."""
        branches, watches = len(self.script.forks()), len(self.lines.before(line + 1))
        return [f"{branches} branches of the script, `base` among them, and {watches} watches are "
                f"{branches + watches}: at most {MAX_BRANCHES} are allowed."]

    def list_full(self, _line: int, words: List[str]) -> List[str]:
        """Returns the lines of `ListFull`: the bound."""
        return [f"`{words[1]}` has {MAX_SETS} sets, those before its fork and those of watches included."]
