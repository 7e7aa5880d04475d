"""The command line: picks the subcommand, and turns every error into one line and a status."""
import argparse
import importlib
import os
import signal
import sys
from types import FrameType
from typing import List, NoReturn, Optional, Protocol, TextIO, cast

from . import __version__
from .errors import PlanningError, Terminated

COMMANDS = ("run", "summary", "replicate", "search", "report", "plot", "explain", "check", "diagram", "completion")
PROGRAM = "cloner-planning"
PURPOSE = ("Tools for planners, which read what cloner reads and writes. "
           "They are plain Python; nothing of them is proved.")
INTERRUPTED, TERMINATED = 130, 143


class Command(Protocol):
    """The module of a subcommand."""

    DESCRIPTION: str

    def add_arguments(self, parser: argparse.ArgumentParser) -> None:
        """Adds the words of the command line."""

    def run(self, options: argparse.Namespace) -> int:
        """Does what the options ask for and returns the status."""


class Parser(argparse.ArgumentParser):
    """A parser whose complaints are one line, like all others."""

    def error(self, message: str) -> NoReturn:
        """Raises PlanningError."""
        raise PlanningError(f"{self.prog.split()[-1]}: {message}; --help says more")


def module_of(command: str) -> Command:
    """Returns the module of a subcommand."""
    return cast(Command, importlib.import_module(f"{__package__}.{command}"))


def first_line(command: str) -> str:
    """Returns the first line of a subcommand's description, for the list of commands."""
    return module_of(command).DESCRIPTION.strip().split("\n")[0]


def overview() -> str:
    """Returns the text of `--help`."""
    rows = [f"  {command:<10} {first_line(command)}" for command in COMMANDS]
    return "\n".join([
        f"usage: {PROGRAM} COMMAND ..., {PROGRAM} COMMAND --help, {PROGRAM} --version",
        "",
        PURPOSE,
        "",
        *rows,
        "",
        "exit status: 0 done; 1 something was explained or found; 2 a wrong command line or bad input;",
        "  3 a trace is cut; 130 and 143 interrupted or terminated",
    ])


def parser_of(command: str) -> Parser:
    """Returns the parser of a subcommand's words."""
    module = module_of(command)
    parser = Parser(
        prog=f"{PROGRAM} {command}", description=module.DESCRIPTION,
        formatter_class=argparse.RawDescriptionHelpFormatter, allow_abbrev=False)
    module.add_arguments(parser)
    return parser


def run_command(command: str, words: List[str]) -> int:
    """Runs a subcommand with its words and returns its status."""
    module, parser = module_of(command), parser_of(command)
    if getattr(module, "RAW", False) and words and words[0] not in ("-h", "--help"):
        return module.run(argparse.Namespace(words=words))
    try:
        intermixed = getattr(module, "INTERMIXED", False)
        options = parser.parse_intermixed_args(words) if intermixed else parser.parse_args(words)
    except SystemExit:  # after --help; whatever is wrong raises PlanningError
        return 0
    return module.run(options)


def dispatch(words: List[str]) -> int:
    """Runs what the words ask for and returns the status."""
    if words and words[0] in ("-h", "--help"):
        print(overview())
        return 0
    if words == ["--version"]:
        print(f"{PROGRAM} {__version__}")
        return 0
    if not words:
        raise PlanningError(f"no command; one of {', '.join(COMMANDS)}, or --help")
    if words[0] not in COMMANDS:
        raise PlanningError(f"unknown command {words[0]}; one of {', '.join(COMMANDS)}, or --help")
    return run_command(words[0], words[1:])


def report_error(message: str, status: int = PlanningError.status) -> int:
    """Writes one error line and returns the status."""
    line = " ".join(message.split())
    try:
        print(f"{PROGRAM}: {line}", file=sys.stderr, flush=True)
    except OSError:  # nobody can be told; the status is left
        drop(sys.stderr)
    return status


def open_closed_streams() -> None:
    """Puts empty files in place of standard streams that the caller closed, which are None."""
    if sys.stdin is None:
        sys.stdin = open(os.devnull, encoding="latin-1")
    if sys.stdout is None:
        sys.stdout = open(os.devnull, "w", encoding="utf-8")
    if sys.stderr is None:
        sys.stderr = open(os.devnull, "w", encoding="utf-8")


def drop(stream: TextIO) -> None:
    """Sends the rest of a full or closed stream to nowhere, so that the interpreter's last flush is harmless."""
    try:
        os.dup2(os.open(os.devnull, os.O_WRONLY), stream.fileno())
    except (OSError, ValueError):
        pass


def main(words: List[str]) -> int:
    """Runs the command line without its first word and returns the exit status.

    Never ends with a traceback on bad input.
    """
    open_closed_streams()
    try:
        status = dispatch(words)
        sys.stdout.flush()
        return status
    except PlanningError as fault:
        return report_error(str(fault), fault.status)
    except BrokenPipeError:
        drop(sys.stdout)
        return 0
    except OSError as fault:
        drop(sys.stdout)
        return report_error(": ".join(str(part) for part in (fault.filename, fault.strerror or fault) if part))
    except KeyboardInterrupt:
        return INTERRUPTED
    except Terminated:
        return TERMINATED


def terminate(number: int, frame: Optional[FrameType]) -> NoReturn:
    """Ends the process by an exception, so that files and folders are cleaned up."""
    raise Terminated


def entry() -> NoReturn:
    """Runs the command line of the process, and ends it."""
    signal.signal(signal.SIGTERM, terminate)
    sys.exit(main(sys.argv[1:]))
