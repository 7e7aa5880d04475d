"""Explains the refusals of a script and of its decisions: which word breaks the rule, and what may have been meant."""
import re
from typing import Any, Dict, List, Optional, Tuple

from .explain_model import near_station
from .explain_tables import Tables
from .limits import MAX_ANALYSTS, MAX_BRANCHES, MAX_DECISIONS, MAX_SETS
from .names import NAME, NAME_RULE, did_you_mean, nearest, why_no_name
from .places import Places, printable, size_of
from .recipes import of_branch, of_servers
from .script_lines import Lines, Word, fault_of_number, is_number

GONE = "This line as it is now does not have this fault: was the file changed after the run, or is it another one?"


def here(word: Word) -> str:
    """Returns a word and its column, as a sentence begins."""
    return f"Column {word.column}: `{printable(word.text)[:40]}`"


def explain_script(lines: Lines, tables: Tables, number: int, line: int,
                   places: Optional[Places] = None) -> List[str]:
    """Returns the explanation of `script: refusal NUMBER at line LINE`."""
    if number == 1:
        return [size_of(lines.path)]
    shown = [lines.shown(line)]
    words = lines.words(line)
    if number == 2:
        return shown + why_not_ascii(lines, line)
    if number == 3:
        found = BadLine(words, tables.script_forms(), tables).lines() or [GONE]
        return shown + found + [hint for word in words[1:2] for hint in of_branch(word.text, places)]
    if number == 4:
        return shown + (why_no_number(words) or [GONE])
    if number == 5:
        return shown + [f"It is the {MAX_DECISIONS + 1:,}th line that is a fork, a set, an end or a look: "
                        "cut the script by branches."]
    if number == 6:
        analysts = {said[1] for _, said in lines.before(line) if said[0] == "analyst" and len(said) == 2}
        known = ["main"] + sorted(analysts - {"main"})
        return shown + [f"With `main` there are {MAX_ANALYSTS} before it: {', '.join(known)}."]
    return shown


def why_not_ascii(lines: Lines, line: int) -> List[str]:
    """Returns column and value of the first byte of a line that is no ASCII."""
    raw = lines.text(line).encode("latin-1")
    bad = re.search(rb"[\x80-\xff]", raw)
    if not bad:
        return [GONE]
    column = len(raw[:bad.start()]) + 1
    said = f"Column {column}: the byte 0x{raw[bad.start()]:02x}"
    rule = "Only ASCII characters are allowed, also in comments."
    for length in (2, 3, 4):
        try:
            letter = raw[bad.start():bad.start() + length].decode("utf-8")
        except UnicodeDecodeError:
            continue
        if letter == "\ufeff":
            return [said + ", a byte order mark. Save the file without one."]
        return [f"{said}, the first of the character {letter!r} in UTF-8. {rule}"]
    return [f"{said}. {rule}"]


def why_no_number(words: List[Word]) -> List[str]:
    """Returns the words of a line that are no number where one belongs, and why."""
    at = [words[3]] if len(words) > 3 and words[0].text in ("set", "end") else []
    values = words[6:] if words and words[0].text == "set" else []
    return faults_of_numbers(at + values)


def faults_of_numbers(words: List[Word]) -> List[str]:
    """Returns which of these words are no number, and why."""
    return [f"{here(word)} is no number: {fault_of_number(word.text)}." for word in words if not is_number(word.text)]


class BadLine:
    """Says why a line has no known form."""

    def __init__(self, words: List[Word], forms: Dict[str, str], tables: Tables):
        self.words = words
        self.forms = forms
        self.parameters = tables.parameters()

    def lines(self) -> List[str]:
        """Returns what is wrong with the line, and its form; nothing if it has one."""
        if not self.words:
            return []
        first = self.words[0]
        if first.text not in self.forms:
            return [f"{here(first)} begins no line: the first word is {', '.join(self.forms)}, or begins with #."] \
                + did_you_mean(first.text, self.forms)
        found = self.first_fault()
        return found + [f"The form: `{self.form()}`."] if found else []

    def form(self) -> str:
        """Returns the form of the line, with the values of its parameter if that is known."""
        form = self.forms[self.words[0].text]
        parts = form.split()
        place = parts.index("PARAMETER") if "PARAMETER" in parts else len(self.words)
        known = place < len(self.words) and self.parameters.get(self.words[place].text)
        return form.replace("PARAMETER VALUES", known.form) if known else form

    def first_fault(self) -> List[str]:
        """Returns what is wrong with the first word that does not fit the form."""
        parts = self.form().split()
        values = self.words[0].text in ("set", "watch")
        for place, part in enumerate(parts):
            if part == "VALUES":
                return []
            if place >= len(self.words):
                return [f"After `{printable(self.words[-1].text)}` {self.part_name(part)} is missing."]
            fault = self.fault_of(place, part)
            if fault:
                return fault
        more = self.words[len(parts):]
        if not more:
            return []
        extra = " A comment has a line of its own." if any("#" in word.text for word in more) else ""
        return [f"{here(more[0])} is too much{' after the values' if values else ''}.{extra}"]

    def part_name(self, part: str) -> str:
        """Returns a part of a form as a sentence calls it."""
        return f"`{part}`" if part.islower() else part if len(part) > 1 else f"the value {part}"

    def fault_of(self, place: int, part: str) -> List[str]:
        """Returns why the word at a place is not this part of the form; nothing if it is, or if numbers decide."""
        word, after = self.words[place], self.words[place + 1:place + 2]
        if part == "TIME" and not word.text[:1].isdigit() and after and after[0].text.isdigit():
            return [f"{here(word)} is where the time belongs: the time comes before the station."]
        if part in ("TIME", "K", "A", "B"):
            return []
        if part == "PARAMETER":
            return [f"{here(word)} is no parameter: they are {', '.join(self.parameters)}."] \
                + did_you_mean(word.text, self.parameters)
        if part.islower():
            return [] if word.text == part else [f"{here(word)} is where `{part}` belongs."]
        if NAME.match(word.text):
            return []
        return [f"{here(word)} is no name for {part}: {NAME_RULE}."] + why_no_name(word.text)


class Decisions:
    """Explains the refusal of a decision of a script."""

    def __init__(self, lines: Lines, tables: Tables, places: Optional[Places]):
        self.lines = lines
        self.parameters = tables.parameters()
        self.places = places or Places("", b"")
        self.has_model = places is not None

    def explain(self, number: int, line: int) -> List[str]:
        """Returns the explanation of `decision: refusal NUMBER at line LINE`."""
        shown = [self.lines.shown(line)]
        words = [word.text for word in self.lines.words(line)]
        if len(words) < 4 or words[0] not in ("fork", "set", "end"):
            return shown + [GONE]
        branch = words[3] if words[0] == "fork" else words[1]
        if number == 3:
            return shown + self.unknown_branch(line, words, branch)
        if number == 4:
            return shown + self.name_taken(line, words[1])
        if number == 12:
            return shown + self.ended(line, branch)
        if number == 5:
            return shown + [f"`base` and {MAX_BRANCHES - 1} forks are allowed: "
                            "cut the script by families of branches."]
        if number == 9:
            return shown + [f"`{branch}` has {MAX_SETS} sets at this line, those before its fork included."]
        if not self.has_model:
            return shown + ["Give the model's file as well, and its lines are looked up."]
        if self.places.fault:
            return shown + [f"{self.places.path} as it is now is no TOML."]
        if number == 10:
            return shown + self.past_horizon(words)
        if number in (6, 7, 8) and len(words) > 6:
            return shown + {6: self.unknown_station, 7: self.wrong_parameter, 8: self.out_of_range}[number](words)
        return shown

    def unknown_branch(self, line: int, words: List[str], branch: str) -> List[str]:
        """Returns the lines of `UnknownClone`: the nearest branch, or the later line that makes it."""
        made = self.lines.forks()
        if made.get(branch, line) < line:
            return [GONE]
        earlier = [name for name, at in made.items() if at < line]
        if branch in made and made[branch] > line:
            return [f"{self.lines.shown(made[branch])}   (it is made here, after it is used)",
                    "A fork goes before all that uses its branch."]
        if branch == words[1] == words[-1] and words[0] == "fork":
            return ["A branch cannot be forked from itself before it is made."]
        near = nearest(branch, earlier)
        station = of_branch(branch, self.places)
        if station:
            return station + [f"The branches before this line: {some(earlier)}."]
        made_at = [self.lines.shown(made[near])] if near and made[near] else []
        return made_at + did_you_mean(branch, earlier) + [f"The branches before this line: {some(earlier)}."]

    def name_taken(self, line: int, branch: str) -> List[str]:
        """Returns the lines of `NameTaken`: the line that made the branch."""
        made = self.lines.forks().get(branch)
        if made == 0:
            return ["`base` is there from the start."]
        return [f"{self.lines.shown(made)}   (it is made here)"] if made and made < line else [GONE]

    def ended(self, line: int, branch: str) -> List[str]:
        """Returns the lines of `Ended`: the line of the end."""
        ends = [at for at, said in self.lines.before(line) if said[0] == "end" and said[1:2] == [branch]]
        if not ends:
            return [GONE]
        return [f"{self.lines.shown(ends[0])}   (its end)",
                "All forks and sets of a branch go before its `end`, whatever their times."]

    def model_lines(self, *places: Any) -> List[str]:
        """Returns the lines of the model at these places, as far as it has them."""
        found = [self.places.line(place) for place in places]
        return [self.places.shown(line) for line in found if line]

    def station(self, name: str) -> Tuple[int, Dict[str, Any]]:
        """Returns number and table of a station of the model; 0 and an empty one if there is none."""
        for number, table in enumerate(self.places.stations(), 1):
            if table.get("name") == name:
                return number, table
        return 0, {}

    def unknown_station(self, words: List[str]) -> List[str]:
        """Returns the lines of `UnknownStation`: the nearest name."""
        if self.station(words[4])[0]:
            return [GONE]
        return near_station(self.places, words[4])

    def wrong_parameter(self, words: List[str]) -> List[str]:
        """Returns the lines of `WrongParameter`: what the station takes, and who takes this."""
        number, table = self.station(words[4])
        kind = str(table.get("kind"))
        exact = "router by weights" if kind == "router" and table.get("by") == "weights" else kind
        taken = {name: parameter for name, parameter in self.parameters.items() if parameter.taken_by == exact}
        if not number or words[5] in taken:
            return [GONE]
        by = self.model_lines(("station", number, "by")) if kind == "router" else []
        what = f"a {exact}" if kind != "router" or exact != kind else "a router by turn"
        forms = ", ".join(f"`{parameter.form}`" for parameter in taken.values()) or "no set"
        wanted = self.parameters.get(words[5])
        other = [f"`{words[5]}` is taken by a {wanted.taken_by}."] if wanted else []
        lines = self.model_lines(("station", number, "kind")) + by
        return lines + [f"`{words[4]}` is {what}, which takes {forms}."] + other

    def out_of_range(self, words: List[str]) -> List[str]:
        """Returns the lines of `OutOfRange`: the range."""
        parameter = self.parameters.get(words[5])
        number, table = self.station(words[4])
        if not parameter or not number:
            return [GONE]
        values = [int(word) for word in words[6:] if is_number(word)]
        lines = [f"The range of `{parameter.form}`: {parameter.range.replace('`', '')}."]
        if words[5] == "servers" and values:
            lines += of_servers(values[0])
        if words[5] == "weight":
            links = table.get("link")
            count = len(links) if isinstance(links, list) else 0
            return self.model_lines(("station", number, "link")) + lines + [f"`{words[4]}` has {count} links."]
        if len(values) == 2 and values[0] > values[1]:
            lines.append(f"The first is the greater one: did you mean `{words[5]} {values[1]} {values[0]}`?")
        return lines

    def past_horizon(self, words: List[str]) -> List[str]:
        """Returns the lines of `PastHorizon`: the horizon."""
        horizon = self.places.data.get("horizon")
        if not isinstance(horizon, int) or not is_number(words[3]) or int(words[3]) < horizon:
            return [GONE]
        return self.model_lines(("horizon",)) + [f"The time must be below the horizon, which is {horizon}."]


def some(names: List[str]) -> str:
    """Returns names as a list, cut if there are many."""
    return ", ".join(names) if len(names) <= 20 else ", ".join(names[:20]) + f" and {len(names) - 20} more"
