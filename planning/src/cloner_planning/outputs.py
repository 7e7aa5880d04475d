"""Files that are there whole or not at all: written under another name, and renamed when they are done."""
import contextlib
import os
from typing import IO, Any, Iterator, Optional

from .errors import PlanningError


class Output:
    """A file that is being written. `keep` says that what is written by now is whole."""

    def __init__(self, file: IO[Any]):
        self.file = file
        self.kept = False

    def keep(self) -> None:
        """Keeps the file, even if an error ends its writing."""
        self.kept = True


@contextlib.contextmanager
def whole_file(path: str, mode: str = "w", encoding: Optional[str] = "utf-8") -> Iterator[Output]:
    """Yields a file that takes its name at the end; if an error comes, only if it was kept.

    A path that is no regular file, such as /dev/stdout, is written at once.
    """
    regular = not os.path.exists(path) or os.path.isfile(path)
    own = f"{path}.{os.getpid()}.part" if regular else path
    newline = None if "b" in mode else ""
    try:
        file = open(own, mode, encoding=None if "b" in mode else encoding, newline=newline)
    except OSError as fault:
        raise PlanningError(f"cannot write {path}: {fault.strerror}") from None
    output = Output(file)
    try:
        with file:
            yield output
        output.keep()
    finally:
        if regular and output.kept:
            os.replace(own, path)
        elif regular:
            with contextlib.suppress(OSError):
                os.remove(own)
