"""Reads the tables of docs/FORMATS*.md: refusals, statuses, keys, parameters, lines of scripts and of other files."""
import os
import re
from typing import Any, Dict, List, Match, NamedTuple, Optional, Tuple

from .errors import PlanningError
from .limits import KINDS
from .places import is_integer

FORMATS = os.path.join(os.path.dirname(os.path.realpath(__file__)), "formats.md")
LINK = re.compile(r"\[([^\]]*)\]\(([^)]*)\)")


class Key(NamedTuple):
    """A key of a model: the kinds that have it, whether in format 2 alone, its meaning, type and range, and default."""

    name: str
    kinds: Tuple[str, ...]
    later: bool
    meaning: str
    type: str
    default: str


class Status(NamedTuple):
    """A row of the statuses: patterns of its error lines, what it means, and what to do."""

    patterns: List[str]
    status: int
    meaning: str
    to_do: str


class Parameter(NamedTuple):
    """A parameter of a set: its form, which stations take it, and the range of its values."""

    form: str
    taken_by: str
    range: str


def number_in(text: str) -> int:
    """Returns a number that may have commas between its digits."""
    return int(text.replace(",", ""))


class Tables:
    """The tables of a text, that of docs/FORMATS*.md."""

    def __init__(self, text: str):
        self.text = text

    def rows(self, first: str, heading: str = "") -> List[Dict[str, str]]:
        """Returns the rows of the table whose first column has this title, each as a dict by title.

        Raises PlanningError if there is no such table.
        """
        text = self.text.split(f"\n{heading}\n", 1)[-1] if heading else self.text
        if heading and len(text) == len(self.text):
            raise PlanningError(f"docs/FORMATS*.md have no section {heading.lstrip('# ')}")
        found = re.search(rf"^\| {re.escape(first)} \|.*\n\|[-|: ]+\|\n((?:\|.*\n?)+)", text, re.M)
        if not found:
            raise PlanningError(f"docs/FORMATS*.md have no table that begins with {first}")
        titles = cells(found.group().split("\n", 1)[0])
        return [dict(zip(titles, cells(line))) for line in found.group(1).rstrip("\n").split("\n")]

    def refusals(self, subject: str) -> Dict[int, str]:
        """Returns what each refusal means, by number; the subject is as in `a model`, or `watches`."""
        meanings = {}
        for row in self.rows("You see", f"### Refusals of {subject}"):
            number = re.search(r"refusal (\d+)", row["You see"])
            if number:
                meanings[int(number.group(1))] = row.get("Meaning") or row.get("Reason") or ""
        return meanings

    def keys(self, place: str) -> Dict[str, Key]:
        """Returns the keys `at the top`, `of a station` or `of a link`."""
        keys = [key_in(row) for row in self.rows("Key", f"### Keys {place}")]
        return {key.name: key for key in keys}

    def statuses(self) -> List[Status]:
        """Returns the rows of the error lines."""
        rows = self.rows("You see", "## Statuses and error lines")
        return [Status(re.findall(r"`((?:cloner|usage):[^`]*)`", row["You see"]), int(row["Status"]), row["Meaning"],
                       unlinked(row["What to do"])) for row in rows]

    def parameters(self) -> Dict[str, Parameter]:
        """Returns the parameters of sets."""
        found = {}
        for row in self.rows("Parameter and values"):
            form = row["Parameter and values"].strip("`")
            found[form.split()[0]] = Parameter(form, row["Taken by"], row["Range"])
        return found

    def script_forms(self) -> Dict[str, str]:
        """Returns the form of each line of a script by its first word."""
        forms = [row["Line"].strip("`") for row in self.rows("Line", "### Lines")]
        return {form.split()[0]: form for form in forms if re.match(r"[a-z]+ [A-Z]", form)}

    def watch_forms(self) -> Dict[str, str]:
        """Returns the form of a watch by its first word."""
        found = re.search(r"^watch [A-Z].*$", self.text, re.M)
        if not found:
            raise PlanningError("docs/FORMATS*.md have no form of a watch")
        return {"watch": found.group()}

    def snapshot_forms(self) -> Dict[str, str]:
        """Returns the form of each line of a snapshot by its first word, that of a message at TIME."""
        forms = [row["Line"].strip("`") for row in self.rows("Line", "### Lines of a snapshot")]
        return {form.split()[0]: form for form in forms if re.match(r"\w+ [A-Z]", form)}

    def snapshot_shapes(self) -> Dict[str, str]:
        """Returns the end of a station's line in a snapshot by its kind."""
        shapes = [row["SHAPE"].strip("`") for row in self.rows("SHAPE", "### Lines of a snapshot")]
        return {shape.split()[0]: shape for shape in shapes}

    def commands(self) -> List[str]:
        """Returns the forms of the command line."""
        return [row["Command"].strip("`") for row in self.rows("Command", "## The command line")]


def cells(line: str) -> List[str]:
    """Returns the cells of a row."""
    return [cell.strip() for cell in line.strip().strip("|").split("|")]


def unlinked(text: str) -> str:
    """Returns a text in which each link is its words and its page, or its page alone if there is nothing else."""
    alone = LINK.fullmatch(text)

    def plain(found: Match[str]) -> str:
        """Returns one link as plain text."""
        words, target = found.group(1), found.group(2)
        page = "docs/" + target
        return f"see {page}" if alone else page if words.endswith(".md") else f"{words} ({page})"
    return LINK.sub(plain, text)


def key_in(row: Dict[str, str]) -> Key:
    """Returns the key that a row states."""
    kinds = row.get("Kinds", "all")
    later = "format 2" in kinds
    words = kinds.split(",")[0].replace("all but ", "").split()
    named = tuple(kind for kind in KINDS if kind in words)
    if words == ["all"]:
        named = KINDS
    elif kinds.startswith("all but"):
        named = tuple(kind for kind in KINDS if kind not in named)
    return Key(row["Key"].strip("`"), named, later, row["Meaning"], row["Type and range"], row["Default"])


class Rule(NamedTuple):
    """What a value must be: integer, pair, words, name, tables or other; its least and greatest value, or its words."""

    form: str
    least: int = 0
    greatest: int = 0
    words: Tuple[str, ...] = ()


def rule_of(text: str) -> Rule:
    """Returns the rule that the column `Type and range` says."""
    integer = re.match(r"integer, ([\d,]+) (?:to|or) ([\d,]*\d)", text)
    pair = re.match(r"array of two integers, `(\d+) <= lo <= hi <= ([\d,]+)`", text)
    tables = re.match(r"array of (?:(\d+) to |at most )(\d+) tables", text)
    if integer:
        return Rule("integer", number_in(integer.group(1)), number_in(integer.group(2)))
    if pair:
        return Rule("pair", number_in(pair.group(1)), number_in(pair.group(2)))
    if tables:
        return Rule("tables", int(tables.group(1) or 0), int(tables.group(2)))
    if text.startswith("string:"):
        return Rule("words", words=tuple(re.findall(r"`(\w+)`", text)))
    return Rule("name" if text.startswith("string") else "other")


def has_type(rule: Rule, value: Any) -> bool:
    """Returns whether a value has the type of a rule."""
    if rule.form == "integer":
        return is_integer(value)
    if rule.form == "pair":
        return isinstance(value, list) and len(value) == 2 and all(map(is_integer, value))
    if rule.form == "tables":
        return isinstance(value, list) and all(isinstance(table, dict) for table in value)
    return isinstance(value, str) or rule.form == "other"


def in_range(rule: Rule, value: Any) -> bool:
    """Returns whether a value of the right type is in range."""
    if rule.form == "integer":
        return bool(rule.least <= value <= rule.greatest)
    if rule.form == "pair":
        return bool(rule.least <= value[0] <= value[1] <= rule.greatest)
    if rule.form == "tables":
        return rule.least <= len(value) <= rule.greatest
    return rule.form != "words" or value in rule.words


def type_of(value: Any) -> str:
    """Returns what a value of TOML is, in words."""
    if isinstance(value, list) and not all(map(is_integer, value)):
        return f"an array of {len(value)} elements, not all integers"
    names = {bool: "true or false", int: "an integer", float: "a number with a point or an exponent", str: "a string",
             list: "an array of integers", dict: "a table"}
    name = names.get(type(value), "a date or a time")
    return f"an array of {len(value)} integers" if isinstance(value, list) else name


def read_tables(path: Optional[str] = None) -> Tables:
    """Returns the tables of docs/FORMATS*.md; PlanningError if their copy cannot be read."""
    path = path or FORMATS
    try:
        with open(path, encoding="utf-8") as file:
            return Tables(file.read())
    except OSError as fault:
        raise PlanningError(f"cannot read {os.path.normpath(path)}, which has the rules: {fault.strerror}") from None
