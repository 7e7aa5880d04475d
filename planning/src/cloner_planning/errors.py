"""What ends a command early: errors that a user sees, and signals. `note` says what does not end it."""
import sys


class PlanningError(Exception):
    """Bad input or a wrong command line, described in one clear line."""

    status = 2


class CutTrace(PlanningError):
    """A trace that is not whole."""

    status = 3


class Terminated(BaseException):
    """The process was asked to end. Whatever was begun is cleaned up on the way."""


def note(text: str) -> None:
    """Writes a note on standard error."""
    print(f"cloner-planning: note: {text}", file=sys.stderr)
