"""Where the keys of a model file are. A place is a tuple: `("station", 2, "link", 1, "to")`; elements count from 1."""
import os
import re
from bisect import bisect_right
from typing import Any, Dict, List, NamedTuple, Optional, Tuple

from .errors import PlanningError
from .limits import MAX_FILE_BYTES
from .toml_lines import Fault, Place, Reader

SHOWN = 160
UNSHOWN = re.compile("[\x00-\x1f\x7f-\x9f]")


class Entry(NamedTuple):
    """Where a key, a table or an element of an array begins (line and column from 1), and its value."""

    line: int
    column: int
    value: Any


class TextFault(NamedTuple):
    """Where and why a text is no TOML.

    `opened` is the line of an array or table that is open there, or of an earlier key.
    """

    line: int
    column: int
    reason: str
    opened: Optional[int] = None


class Places:
    """A model file: its lines, its data, the entry of each place, and the first fault, which is None if it is TOML.

    A file that is longer than a model may be is not read at all.
    """

    def __init__(self, path: str, data: bytes):
        self.path = path
        data = data if len(data) <= MAX_FILE_BYTES else b""
        text = data.decode("utf-8", errors="replace")
        text = text[1:] if text.startswith("\ufeff") else text
        self.text = text.replace("\r\n", "\n")
        self.lines = self.text.split("\n")
        self._starts = [0]
        for line in self.lines:
            self._starts.append(self._starts[-1] + len(line) + 1)
        reader = Reader(self.text)
        self.fault: Optional[TextFault] = None
        try:
            reader.read()
        except Fault as fault:
            opened = None if fault.opened is None else self.line_and_column(fault.opened)[0]
            self.fault = TextFault(*self.line_and_column(fault.offset), fault.reason, opened)
        self.foreign = first_foreign(data)
        self.fault = self.foreign or self.fault
        self.data = reader.data
        self.entries = {place: Entry(*self.line_and_column(offset), value)
                        for place, (offset, value) in reader.found.items()}

    def line_and_column(self, offset: int) -> Tuple[int, int]:
        """Returns the line and the column of an offset, both from 1."""
        line = min(bisect_right(self._starts, offset), len(self.lines))
        return line, offset - self._starts[line - 1] + 1

    def offset(self, line: int, column: int) -> int:
        """Returns the offset of a line and a column."""
        return self._starts[min(line, len(self.lines)) - 1] + column - 1

    def line(self, place: Place) -> Optional[int]:
        """Returns the line at which a place begins, or None if the file does not have it."""
        entry = self.entries.get(place)
        return entry.line if entry else None

    def shown(self, line: int) -> str:
        """Returns a line as `PATH:LINE: TEXT`."""
        text = self.lines[line - 1] if 1 <= line <= len(self.lines) else ""
        return f"{self.path}:{line}: {printable(text)}"

    def stations(self) -> List[Dict[str, Any]]:
        """Returns the tables of the stations, the first one is number 1; without elements that are no tables."""
        found = self.data.get("station")
        return [table for table in found if isinstance(table, dict)] if isinstance(found, list) else []

    def links(self, station: int) -> List[Tuple[Place, Dict[str, Any]]]:
        """Returns the links of the station with this number, each with its place."""
        tables = self.stations()
        found = tables[station - 1].get("link") if 1 <= station <= len(tables) else None
        if not isinstance(found, list):
            return []
        return [(("station", station, "link", number), link)
                for number, link in enumerate(found, 1) if isinstance(link, dict)]


def is_integer(value: Any) -> bool:
    """Returns whether a value is a whole number; true and false are none."""
    return isinstance(value, int) and not isinstance(value, bool)


def printable(text: str) -> str:
    """Returns a text without blanks around it that harms no terminal, cut if it is long."""
    text = UNSHOWN.sub("?", text.strip().replace("\t", " "))
    return text if len(text) <= SHOWN else text[:SHOWN] + " .."


def first_foreign(data: bytes) -> Optional[TextFault]:
    """Returns the first byte that is no UTF-8 as a fault, or None."""
    try:
        data.decode("utf-8")
        return None
    except UnicodeDecodeError as fault:
        line = data.count(b"\n", 0, fault.start) + 1
        column = len(data[data.rfind(b"\n", 0, fault.start) + 1:fault.start].decode("utf-8", errors="replace")) + 1
        return TextFault(line, column, f"the byte 0x{data[fault.start]:02x} is no UTF-8: save the file as UTF-8")


def read_bytes(path: str, what: str) -> bytes:
    """Returns the bytes of a file, of a longer one the first 1,048,577; PlanningError if it cannot be read."""
    try:
        with open(path, "rb") as file:
            return file.read(MAX_FILE_BYTES + 1)
    except OSError as fault:
        raise PlanningError(f"cannot read the {what} {path}: {fault.strerror}") from None


def is_too_long(data: bytes) -> bool:
    """Returns whether bytes that were read are more than a file may have."""
    return len(data) > MAX_FILE_BYTES


def size_of(path: str) -> str:
    """Returns how long a file is, in words."""
    return f"{path} has {os.path.getsize(path):,} bytes, and {MAX_FILE_BYTES:,} are allowed."


def read_places(path: str) -> Places:
    """Returns the places of a model file; PlanningError if it cannot be read."""
    return Places(path, read_bytes(path, "model"))
