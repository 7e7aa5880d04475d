"""The lines of a trace. If only some branches are wanted, all others of a file are jumped over without being read."""
import contextlib
import mmap
import os
from typing import Iterable, Iterator, List, Optional

from .errors import PlanningError
from .traces import open_trace

HEAD, NEXT_HEAD = b"clone ", b"\nclone "


@contextlib.contextmanager
def trace_lines(path: str, wanted: Optional[List[str]] = None) -> Iterator[Iterable[str]]:
    """Yields the lines of a trace; if branches are wanted, of a file only theirs, and the line after the last of them.

    Takes the standard input to its end, so that the program which writes it can end well.
    """
    if wanted and path != "-" and os.path.isfile(path) and os.path.getsize(path):
        with open(path, "rb") as file, mmap.mmap(file.fileno(), 0, access=mmap.ACCESS_READ) as data:
            yield sections(data, set(wanted))
        return
    with open_trace(path) as lines:
        yield lines
        if path == "-":
            for _ in lines:
                pass


def sections(data: mmap.mmap, wanted: "set[str]") -> Iterator[str]:
    """Yields the lines before the first branch, those of the wanted branches, and the one after the last of them."""
    begin = 0 if data[:len(HEAD)] == HEAD else data.find(NEXT_HEAD) + 1
    if begin == 0 and data[:len(HEAD)] != HEAD:
        begin = len(data)
    yield from lines_of(data[:begin])
    names: List[str] = []
    while begin < len(data):
        line_end = data.find(b"\n", begin)
        name = data[begin + len(HEAD):line_end if line_end >= 0 else len(data)].decode("latin-1").strip()
        names.append(name)
        after = data.find(NEXT_HEAD, begin) + 1 or len(data)
        if not wanted or name in wanted:
            section = data[begin:after] if wanted else data[begin:line_end + 1]
            yield from lines_of(section)
            if not wanted:
                return
            wanted = wanted - {name}
        begin = after
    if names and wanted:
        raise PlanningError(f"there is no branch {min(wanted)}; there are {', '.join(names)}")


def lines_of(data: bytes) -> List[str]:
    """Returns the lines of a part of a trace, with their ends."""
    lines = data.decode("latin-1").split("\n")
    return [line + "\n" for line in lines[:-1]] + lines[-1:] * bool(lines[-1])
