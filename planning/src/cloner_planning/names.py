"""Which names are allowed, and which known word a misspelt one may have been meant for."""
import difflib
import re
from typing import Iterable, List, Optional

NAME_FORM = "[a-z][a-z0-9_]{0,15}"
NAME = re.compile(NAME_FORM + r"\Z")
NAME_RULE = "a name has 1 to 16 of a-z, 0-9 and _, the first a letter"


def nearest(word: str, words: Iterable[str]) -> Optional[str]:
    """Returns the word of a list that is most like this one, or None."""
    known = {other.lower(): other for other in sorted(set(words) - {word}, reverse=True)}
    found = difflib.get_close_matches(word.lower(), list(known), n=1, cutoff=0.6)
    return known[found[0]] if found else None


def did_you_mean(word: str, words: Iterable[str]) -> List[str]:
    """Returns a line that asks for the nearest word, or no line."""
    found = nearest(word, words)
    return [f"Did you mean `{found}`?"] if found else []


def is_name(text: str) -> bool:
    """Returns whether a text may be a station's name."""
    return NAME.match(text) is not None and text != "analyst"


def why_no_name(text: str) -> List[str]:
    """Returns what is wrong with a name."""
    if len(text) > 16:
        return [f"This one has {len(text)} characters."]
    better = re.sub(r"[^a-z0-9_]+", "_", text.lower())
    return [f"`{better}` would be a name."] if better != text and is_name(better) else []
