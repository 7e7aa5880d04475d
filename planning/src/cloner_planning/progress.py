"""Says at a terminal how much of a long file is read."""
import os
from typing import Iterable, Iterator, TextIO

LONG = 50_000_000
STEP = 200_000


def watched(lines: Iterable[str], path: str, output: TextIO) -> Iterable[str]:
    """Returns the lines; with progress on the way if the file is long and the output is a terminal."""
    size = os.path.getsize(path) if path != "-" and os.path.isfile(path) else 0
    return telling(lines, size, output) if size > LONG and output.isatty() else lines


def telling(lines: Iterable[str], size: int, output: TextIO) -> Iterator[str]:
    """Yields the lines, and writes from time to time how much of the size they have had."""
    done = 0
    for number, line in enumerate(lines):
        done += len(line)
        if number % STEP == 0:
            output.write(f"\r{100 * done // size} % of {size / 1e6:.0f} MB read")
            output.flush()
        yield line
    output.write("\r" + " " * 40 + "\r")
    output.flush()
