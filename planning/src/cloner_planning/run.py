"""run: runs cloner, and explains at once if it refuses."""
import argparse
import os
import shutil
import subprocess
import sys
from typing import IO, Iterator, List, cast

from .errors import PlanningError
from .explain import Files, explain, read_said, status_of
from .explain_tables import Tables, read_tables
from .explain_words import faults_of_words, files_of, mode_of

DESCRIPTION = """Runs cloner with the same words, and explains at once if it refuses.

    cloner-planning run MODEL SCRIPT > TRACES
    cloner-planning run solo MODEL SCRIPT --clone NAME > TRACE
    cloner-planning run watch MODEL SCRIPT WATCHES > TRACES

The words are those of cloner. `run` may be left out if a model comes first. `cloner` may come first, or the path of
the program. The output is the program's, byte for byte, and so is the status. What the error line means, which line of
a file it is about or which word is wrong, follows on standard error.

The status is 127 if there is no program, and 128 more than a signal's number if one ended it."""

RAW = True  # all words are cloner's
NO_PROGRAM, BY_SIGNAL = 127, 128


def add_arguments(parser: argparse.ArgumentParser) -> None:
    """Adds the words of the command line."""
    parser.add_argument("words", nargs=argparse.REMAINDER, metavar="WORD", help="the words of cloner")


def command_of(words: List[str], tables: Tables) -> List[str]:
    """Returns the program and its words."""
    program = "cloner"
    if words and os.path.basename(words[0]).startswith("cloner"):
        program, words = words[0], words[1:]
    if mode_of(words, tables) is None and words and os.path.isfile(words[0]):
        words = ["run", *words]
    return [program, *words]


def echoed(lines: IO[bytes]) -> Iterator[bytes]:
    """Yields lines, and writes each to standard error."""
    for line in lines:
        sys.stderr.write(line.decode("utf-8", errors="backslashreplace"))
        sys.stderr.flush()
        yield line


def explanation(said: str, words: List[str], front: object, tables: Tables) -> List[str]:
    """Returns what an error line of a command means; nothing if it is no error line of cloner."""
    named = files_of(words, tables)
    files = Files(named.get("MODEL"), named.get("SCRIPT") or named.get("SNAPSHOT"), named.get("WATCHES"))
    row = status_of(said, tables)
    if row and row.status == 2:
        return [row.meaning, *faults_of_words(words, tables)]
    return explain(said, front if isinstance(front, int) else None, tables, files) if row else []


def run(options: argparse.Namespace) -> int:
    """Runs the program, explains what it complains about, and returns its status."""
    tables = read_tables()
    program, *words = command_of(options.words, tables)
    path = shutil.which(program)
    if path is None:
        print(f"cloner-planning: there is no program {program}: put cloner on the path", file=sys.stderr)
        return NO_PROGRAM
    sys.stdout.flush()
    try:
        process = subprocess.Popen([path, *words], stderr=subprocess.PIPE)
    except OSError as fault:
        raise PlanningError(f"cannot run {path}: {fault.strerror}") from None
    with process:
        try:
            said, front = read_said(echoed(cast(IO[bytes], process.stderr)))
        except BaseException:
            process.kill()
            raise
    if process.returncode < 0:
        return BY_SIGNAL - process.returncode
    if process.returncode:
        for line in explanation(said, words, front, tables):
            print("  " + line, file=sys.stderr)
    return process.returncode
