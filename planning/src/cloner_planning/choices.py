"""Names and numbers on the command line."""
import argparse
from typing import List, Optional, Sequence

from .errors import PlanningError


def whole_number(word: str) -> int:
    """Returns the whole number that a word of the command line is, as a time."""
    if not (word.isascii() and word.isdigit() and len(word) <= 10):
        raise argparse.ArgumentTypeError(f"{word!r} is no whole number from 0 on")
    return int(word)


def names_in(words: str) -> List[str]:
    """Returns the names of a list like `a,b`, each once."""
    return list(dict.fromkeys(words.split(",")))


def chosen(what: str, wanted: Optional[Sequence[str]], there: Sequence[str]) -> List[str]:
    """Returns what is wanted of the names that are there, or all, in their order."""
    for name in wanted or ():
        if name not in there:
            raise PlanningError(f"there is no {what} {name}; there are {', '.join(there)}")
    return [name for name in there if wanted is None or name in wanted]
