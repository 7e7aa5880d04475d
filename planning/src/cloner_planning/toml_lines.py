"""A reader of TOML 1.1 that keeps the place of each key and names the first fault.

All that it read before a fault is kept. A place is a tuple of keys and of numbers of elements, which count from 1:
`("station", 2, "link", 1, "to")`.
"""
import re
from typing import Any, Dict, List, Match, NamedTuple, Optional, Set, Tuple

from .limits import MAX_WORD

DEEPEST = 80
Place = Tuple[Any, ...]

BARE = re.compile(r"[A-Za-z0-9_-]+")
TOKEN = re.compile(r"\d{4}-\d\d-\d\d \d\d:[^\s,\]}#]*|[^\s,\[\]{}#=\"']+")
INTEGER = re.compile(r"[+-]?(0|[1-9](_?\d)*)\Z"
                     r"|0x[0-9a-fA-F](_?[0-9a-fA-F])*\Z|0o[0-7](_?[0-7])*\Z|0b[01](_?[01])*\Z", re.A)
FLOAT = re.compile(r"[+-]?((0|[1-9](_?\d)*)(\.\d(_?\d)*)?([eE][+-]?\d(_?\d)*)?|inf|nan)\Z", re.A)
DAY, HOUR = r"\d{4}-\d\d-\d\d", r"\d\d:\d\d(:\d\d(\.\d+)?)?"
DATE = re.compile(rf"{DAY}([Tt ]{HOUR}([Zz]|[+-]\d\d:\d\d)?)?\Z|{HOUR}\Z", re.A)
JOINED = re.compile(r"\\[ \t]*\n\s*")
ESCAPE = re.compile(r'\\(?:([btnfre"\\])|x([0-9a-fA-F]{2})|u([0-9a-fA-F]{4})|U([0-9a-fA-F]{8}))')
ESCAPED = {"b": "\b", "t": "\t", "n": "\n", "f": "\f", "r": "\r", "e": "\x1b", '"': '"', "\\": "\\"}
STATEMENT = re.compile(r"[ \t]*(\[\[?[ \t]*[A-Za-z_][\w.-]*[ \t]*\]|[A-Za-z_][\w.-]*[ \t]*=[^=])", re.A)
CONTROL = re.compile(r"[\x00-\x08\x0b-\x1f\x7f]")


class Fault(Exception):
    """The text is no TOML at this offset, for this reason.

    `opened` is where an open array or table begins, or an earlier key.
    """

    def __init__(self, offset: int, reason: str, opened: Optional[int] = None):
        super().__init__(reason)
        self.offset = offset
        self.reason = reason
        self.opened = opened


class Other(NamedTuple):
    """A value that no key of a model has: a date or a time."""

    text: str


class Reader:
    """Reads one text. What was read stays in `data` and `found`, also after a Fault."""

    def __init__(self, text: str):
        self.text = text
        self.at = 0
        self.depth = 0
        self.data: Dict[str, Any] = {}
        self.found: Dict[Place, Tuple[int, Any]] = {}
        self.table: Dict[str, Any] = self.data
        self.place: Place = ()
        self.closed: Set[int] = set()
        self.headed: Set[int] = set()

    def read(self) -> None:
        """Reads the whole text; Fault at the first place that is no TOML."""
        while self.skip_blank():
            if self.text.startswith("[", self.at):
                self.read_head()
            else:
                self.read_pair(self.table, self.place)
            self.skip_space()
            if self.skip_comment() or self.at == len(self.text) or self.text[self.at] == "\n":
                continue
            raise Fault(self.at, f"{self.shown_here()} is too much in this line: each key has a line of its own")

    def shown_here(self) -> str:
        """Returns the next word of the text in quotes, cut short."""
        word = re.match(r"\S[^\s,\]}]*", self.text[self.at:self.at + 40])
        return f"`{word.group()[:24]}`" if word else "the end of the line"

    def skip_space(self) -> None:
        """Passes over spaces and tabs."""
        while self.at < len(self.text) and self.text[self.at] in " \t":
            self.at += 1

    def skip_comment(self) -> bool:
        """Passes over a comment up to its line end; returns whether there was one."""
        if not self.text.startswith("#", self.at):
            return False
        end = self.text.find("\n", self.at)
        end = len(self.text) if end < 0 else end
        self.refuse_control(self.at, end)
        self.at = end
        return True

    def skip_blank(self) -> bool:
        """Passes over blanks, line ends and comments; returns whether something follows."""
        while True:
            self.skip_space()
            if not self.skip_comment() and not self.text.startswith("\n", self.at):
                return self.at < len(self.text)
            if self.text.startswith("\n", self.at):
                self.at += 1

    def refuse_control(self, start: int, end: int) -> None:
        """Fault at the first control character between two offsets."""
        bad = CONTROL.search(self.text, start, end)
        if bad:
            raise Fault(bad.start(), f"a control character (byte 0x{ord(bad.group()):02x}) is not allowed here")

    def keep(self, place: Place, offset: int, value: Any) -> None:
        """Keeps where a place begins, unless that is known."""
        self.found.setdefault(place, (offset, value))

    def read_key(self) -> List[Tuple[str, int]]:
        """Returns the parts of a key, each with its offset."""
        parts = []
        while True:
            self.skip_space()
            start, bare = self.at, BARE.match(self.text, self.at)
            if bare:
                self.at = bare.end()
                parts.append((bare.group(), start))
            elif self.text[start:start + 1] in ('"', "'"):
                parts.append((self.read_line_string(), start))
            else:
                raise Fault(start, f"{self.shown_here()} is where a key belongs")
            self.skip_space()
            if not self.text.startswith(".", self.at):
                return parts
            self.at += 1

    def step(self, table: Any, place: Place, key: str, offset: int) -> Tuple[Any, Place]:
        """Returns the table to which a part of a key leads, made if it is not there, and its place."""
        inner = table.setdefault(key, {})
        place += (key,)
        if isinstance(inner, list) and id(inner) not in self.closed:
            return inner[-1], place + (len(inner),)
        if not isinstance(inner, dict) or id(inner) in self.closed:
            raise Fault(offset, f"the key `{key}` has a value already (line {self.line_of(place)})")
        self.keep(place, offset, inner)
        return inner, place

    def line_of(self, place: Place) -> int:
        """Returns the line at which a place begins."""
        return self.text.count("\n", 0, self.found[place][0]) + 1 if place in self.found else 0

    def read_head(self) -> None:
        """Reads `[key]` or `[[key]]`; the pairs that follow belong to its table."""
        start = self.at
        brackets = 2 if self.text.startswith("[[", start) else 1
        self.at += brackets
        parts = self.read_key()
        if not self.text.startswith("]" * brackets, self.at):
            raise Fault(self.at, f"`{']' * brackets}` is missing after the table's name")
        self.at += brackets
        table = self.data
        place: Place = ()
        for key, offset in parts[:-1]:
            table, place = self.step(table, place, key, offset)
        key = parts[-1][0]
        place += (key,)
        if brackets == 2:
            array = table.setdefault(key, [])
            if not isinstance(array, list) or id(array) in self.closed:
                line = self.line_of(place)
                raise Fault(start, f"`{key}` is no array of tables: it has a value already (line {line})")
            array.append({})
            self.keep(place, start, array)
            self.table, self.place = array[-1], place + (len(array),)
        else:
            known = key in table
            inner = table.setdefault(key, {})
            if known and (not isinstance(inner, dict) or id(inner) in self.closed | self.headed):
                raise Fault(start, f"the table `{key}` is defined twice (line {self.line_of(place)})")
            self.headed.add(id(inner))
            self.table, self.place = inner, place
        self.keep(self.place, start, self.table)

    def read_pair(self, table: Dict[str, Any], place: Place) -> None:
        """Reads `key = value` into a table."""
        parts = self.read_key()
        if not self.text.startswith("=", self.at):
            raise Fault(self.at, f"`=` is missing after the key `{parts[-1][0]}`")
        self.at += 1
        first = parts[0][1]
        for key, offset in parts[:-1]:
            table, place = self.step(table, place, key, offset)
            self.headed.add(id(table))
        key, offset = parts[-1]
        place += (key,)
        if key in table:
            earlier, line = self.found[place][0] if place in self.found else None, self.line_of(place)
            raise Fault(offset, f"the key `{key}` is defined twice in one table (first in line {line})", earlier)
        self.skip_space()
        self.keep(place, first, None)
        table[key] = self.read_value(place, f"after `{key} =`")
        self.found[place] = (first, table[key])

    def read_value(self, place: Place, where: str) -> Any:
        """Returns the value that begins here."""
        start = self.text[self.at:self.at + 1]
        if start in ("[", "{"):
            self.depth += 1
            if self.depth > DEEPEST:
                raise Fault(self.at, f"arrays and tables are nested more than {DEEPEST} deep")
            value = self.read_array(place) if start == "[" else self.read_inline(place)
            self.depth -= 1
            self.closed.add(id(value))
            return value
        if start in ('"', "'"):
            return self.read_string()
        token = TOKEN.match(self.text, self.at)
        if not token:
            raise Fault(self.at, f"a value is missing {where}")
        self.at = token.end()
        return scalar(token.group(), token.start())

    def read_array(self, place: Place) -> List[Any]:
        """Returns the array that begins here."""
        opened = self.at
        values: List[Any] = []
        self.at += 1
        while True:
            if not self.skip_blank():
                raise self.unclosed(opened, "array", "]")
            if self.text[self.at] == "]":
                break
            if self.begins_statement(opened):
                raise self.unclosed(opened, "array", "]")
            start, inner = self.at, place + (len(values) + 1,)
            values.append(self.read_value(inner, "in the array"))
            self.keep(inner, start, values[-1])
            if not self.skip_blank() or self.text[self.at] not in ",]":
                raise self.unclosed(opened, "array", "]")
            self.at += self.text[self.at] == ","
        self.at += 1
        return values

    def read_inline(self, place: Place) -> Dict[str, Any]:
        """Returns the inline table that begins here."""
        opened = self.at
        table: Dict[str, Any] = {}
        self.keep(place, opened, table)
        self.at += 1
        while True:
            if not self.skip_blank():
                raise self.unclosed(opened, "table", "}")
            if self.text[self.at] == "}":
                break
            if not BARE.match(self.text, self.at) and self.text[self.at] not in "\"'":
                raise self.unclosed(opened, "table", "}")
            self.read_pair(table, place)
            if not self.skip_blank() or self.text[self.at] not in ",}":
                raise self.unclosed(opened, "table", "}")
            self.at += self.text[self.at] == ","
        self.at += 1
        return table

    def begins_statement(self, opened: int) -> bool:
        """Returns whether a line begins here that looks like a head or a key, not like an element of the open array."""
        begin = self.text.rfind("\n", 0, self.at) + 1
        return begin > opened and not self.text[begin:self.at].strip() and STATEMENT.match(self.text, begin) is not None

    def unclosed(self, opened: int, what: str, close: str) -> Fault:
        """Returns the fault of an array or a table that neither goes on nor ends here."""
        if self.at == len(self.text):
            return Fault(opened, f"the {what} that begins here is not closed: `{close}` is missing")
        line = self.text.count("\n", 0, opened) + 1
        missing = f"`,` or `{close}` is missing before {self.shown_here()}"
        if "\n" not in self.text[opened:self.at]:
            return Fault(self.at, missing)
        return Fault(self.at, f"{missing}; the {what} that is open here begins in line {line}", opened)

    def read_string(self) -> str:
        """Returns the string that begins here."""
        quote = self.text[self.at]
        return self.read_long_string(quote) if self.text.startswith(quote * 3, self.at) else self.read_line_string()

    def read_line_string(self) -> str:
        """Returns a string of one line."""
        start, quote = self.at, self.text[self.at]
        end = start + 1
        while end < len(self.text) and self.text[end] not in (quote, "\n"):
            end += 2 if quote == '"' and self.text[end] == "\\" and self.text[end + 1:end + 2] != "\n" else 1
        if end >= len(self.text) or self.text[end] != quote:
            raise Fault(start, f"the string that begins here has no closing {quote} in its line")
        self.refuse_control(start, end)
        self.at = end + 1
        return self.unescaped(start + 1, end) if quote == '"' else self.text[start + 1:end]

    def read_long_string(self, quote: str) -> str:
        """Returns a string in three quotes, which may go over lines."""
        start, end = self.at, self.at + 3
        while not self.text.startswith(quote * 3, end):
            if end >= len(self.text):
                raise Fault(start, f"the string that begins here has no closing {quote * 3}")
            end += 2 if quote == '"' and self.text[end] == "\\" else 1
        for _ in range(2):
            end += self.text.startswith(quote, end + 3)
        self.refuse_control(start, end)
        self.at = end + 3
        body = start + 3 + self.text.startswith("\n", start + 3)
        return self.unescaped(body, end) if quote == '"' else self.text[body:end]

    def unescaped(self, start: int, end: int) -> str:
        """Returns the text of a string in double quotes."""
        parts, at = [], start
        while at < end:
            if self.text[at] != "\\":
                parts.append(self.text[at])
                at += 1
                continue
            joined = JOINED.match(self.text, at, end)
            found = ESCAPE.match(self.text, at, end)
            if joined:
                at = joined.end()
            elif found:
                parts.append(self.escaped(found))
                at = found.end()
            else:
                raise Fault(at, f"`{self.text[at:at + 2]}` is no escape in a string; a backslash is written `\\\\`")
        return "".join(parts)

    def escaped(self, found: Match[str]) -> str:
        """Returns the character that an escape says; Fault if there is none."""
        if found.group(1):
            return ESCAPED[found.group(1)]
        code = int(found.group(2) or found.group(3) or found.group(4), 16)
        if code > 0x10FFFF or 0xD800 <= code <= 0xDFFF:
            raise Fault(found.start(), f"`{found.group()}` is no character")
        return chr(code)


def scalar(text: str, offset: int) -> Any:
    """Returns the value that one word is; Fault if it is none."""
    if text in ("true", "false"):
        return text == "true"
    if INTEGER.match(text):
        digits = text.replace("_", "")
        number = int(digits, 0) if len(digits) <= 20 or digits[1] in "xob" else MAX_WORD + 1
        if not -MAX_WORD - 1 <= number <= MAX_WORD:
            raise Fault(offset, f"the number `{text[:40]}` is outside the signed 64-bit range")
        return number
    if FLOAT.match(text):
        return float(text.replace("_", ""))
    if DATE.match(text):
        return Other(text)
    raise Fault(offset, f"`{text[:24]}` is no value: {advice(text)}")


def advice(word: str) -> str:
    """Returns what a word that is no value probably should be."""
    if word[0] in "\u201c\u201d\u201e\u201f\u00ab\u00bb\u2018\u2019`":
        return 'a string is written in the plain quotes "'
    if re.match(r"[+-]?0\d+\Z", word):
        return "a number has no leading zero"
    if re.match(r"[+-]?\.?\d", word):
        return "that is no number"
    if word.lower() in ("true", "false"):
        return "it is written in small letters"
    return f'a text is written in quotes, "{word[:24]}"'
