"""The lines of a script, a file of watches or a snapshot: their words with columns, and which words are numbers."""
import re
from typing import Dict, List, NamedTuple, Tuple

from .errors import PlanningError
from .limits import MAX_FILE_BYTES, MAX_NUMBER
from .places import printable, read_bytes

NUMBER = re.compile(r"(0|[1-9][0-9]{0,9})\Z")
DIGITS = re.compile(r"(0|[1-9][0-9]*)\Z")
WORD = re.compile(r"[^ \t]+")


class Word(NamedTuple):
    """A word of a line, and its column from 1."""

    text: str
    column: int


class Lines:
    """The lines of a script, a file of watches or a snapshot."""

    def __init__(self, path: str, data: bytes):
        self.path = path
        self.raw = data[:MAX_FILE_BYTES].split(b"\n")

    def text(self, number: int) -> str:
        """Returns a line, each byte one character; empty if there is none."""
        raw = self.raw[number - 1] if 1 <= number <= len(self.raw) else b""
        return (raw[:-1] if raw.endswith(b"\r") else raw).decode("latin-1")

    def shown(self, number: int) -> str:
        """Returns a line as `PATH:LINE: TEXT`."""
        text = self.text(number).encode("latin-1").decode("utf-8-sig", errors="replace")
        return f"{self.path}:{number}: {printable(text)}"

    def words(self, number: int) -> List[Word]:
        """Returns the words of a line; none if it is empty or a comment."""
        found = [Word(word.group(), word.start() + 1) for word in WORD.finditer(self.text(number))]
        return [] if found and found[0].text.startswith("#") else found

    def before(self, number: int) -> List[Tuple[int, List[str]]]:
        """Returns number and words of each line before this one that says something."""
        said = [(line, [word.text for word in self.words(line)]) for line in range(1, min(number, len(self.raw) + 1))]
        return [(line, words) for line, words in said if words]

    def said(self) -> List[Tuple[int, List[str]]]:
        """Returns number and words of each line that says something."""
        return self.before(len(self.raw) + 1)

    def forks(self) -> Dict[str, int]:
        """Returns the line at which each branch is made, the first one if there are several; `base` at 0."""
        made = {"base": 0}
        for line, words in self.said():
            if words[0] == "fork" and len(words) == 4:
                made.setdefault(words[1], line)
        return made


def read_lines(path: str, what: str = "script") -> Lines:
    """Returns the lines of a script or a file of watches; PlanningError if it cannot be read."""
    return Lines(path, read_bytes(path, what))


def read_ascii_lines(path: str, what: str) -> Lines:
    """Returns the lines of a file that must be plain ASCII and not too long; PlanningError if it is not."""
    data = read_bytes(path, what)
    if len(data) > MAX_FILE_BYTES:
        raise PlanningError(f"{path}: a {what} has at most {MAX_FILE_BYTES} bytes")
    refuse_foreign(data, path, what)
    return Lines(path, data)


def refuse_foreign(data: bytes, path: str, what: str) -> None:
    """Raises PlanningError for the first line that has a byte which is no ASCII."""
    try:
        data.decode("ascii")
    except UnicodeDecodeError as fault:
        line = data.count(b"\n", 0, fault.start) + 1
        raise PlanningError(f"{path}: line {line}: a {what} is plain ASCII") from None


def is_number(text: str) -> bool:
    """Returns whether a word is a number of a script."""
    return NUMBER.match(text) is not None and int(text) <= MAX_NUMBER


def fault_of_number(text: str, greatest: int = MAX_NUMBER) -> str:
    """Returns why a word is no number up to a greatest one; an empty text if it is one."""
    if DIGITS.match(text) and len(text) <= len(str(greatest)) and int(text) <= greatest:
        return ""
    if re.match(r"0\d+\Z", text, re.A):
        return "it has a leading zero"
    if re.match(r"\d+\Z", text, re.A):
        return f"the greatest is {greatest:,}"
    if re.match(r"[+-]\d+\Z", text, re.A):
        return "a number has no sign"
    if re.match(r"\d+[.:]\d+\Z", text, re.A):
        return "a time or value is a whole number of units, with no point and no colon"
    if re.match(r"\d[\d,_']*\Z", text, re.A):
        return "it has a separator between its digits" if text[-1].isdigit() else "something follows its digits"
    return "digits alone make a number"
