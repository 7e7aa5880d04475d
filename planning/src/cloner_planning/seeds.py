"""Seeds: reads lists of seeds, and puts a seed into the text of a model."""
import re
from typing import List, Match, Optional, Tuple

from .errors import PlanningError
from .limits import MAX_WORD

MAX_SEEDS = 100_000

RANGE = re.compile(r"([0-9]{1,19})(?:\.\.([0-9]{1,19}))?\Z")
GAP = re.compile(r"(?:[ \t\r\n]|#[^\n]*)*")
KEY = re.compile(r"""(?:[A-Za-z0-9_-]|"(?:[^"\\\n]|\\.)*"|'[^'\n]*'|[ \t.])+""")
# what a value consists of; whatever brackets and quotes are in a string or a comment don't count
PIECE = re.compile(
    r'''"""(?:[^\\]|\\.)*?"{3,5}|\'\'\'.*?'{3,5}|"(?:[^"\\\n]|\\.)*"|'[^'\n]*'|\#[^\n]*|[^][{}"'#\n]+|.''', re.DOTALL)


def parse_seeds(text: str) -> List[int]:
    """Returns the seeds of a list like `1..20`, `3` or `1,5,9`, in its order."""
    seeds: List[int] = []
    for part in text.split(","):
        match = RANGE.match(part)
        if not match:
            raise PlanningError(f"{text} is no list of seeds: write 1..20, or 3, or 1,5,9")
        first, last = int(match.group(1)), int(match.group(2) or match.group(1))
        if last < first or last > MAX_WORD:
            raise PlanningError(f"{part} is no range of seeds: a seed is 0 to {MAX_WORD}, and a range goes upwards")
        if len(seeds) + last - first + 1 > MAX_SEEDS:
            raise PlanningError(f"{text} has more than {MAX_SEEDS} seeds")
        seeds.extend(range(first, last + 1))
    if len(set(seeds)) < len(seeds):
        raise PlanningError(f"{text} has a seed twice")
    return seeds


def must(found: Optional[Match[str]]) -> Match[str]:
    """Returns a match of a pattern that matches everywhere."""
    assert found is not None
    return found


def value_end(text: str, start: int) -> int:
    """Returns where the value ends that starts here: at the end of its line, or before a comment."""
    depth, place = 0, start
    while place < len(text):
        piece = must(PIECE.match(text, place)).group()
        if piece in "[{":
            depth += 1
        elif piece in "]}":
            depth -= 1
        elif depth <= 0 and piece[0] in "\n#":
            break
        place += len(piece)
    return place


def find_seed(text: str) -> Optional[Tuple[int, int]]:
    """Returns where the value of the model's own `seed` begins and ends in a model file, or None if there is none."""
    place = must(GAP.match(text, 1 if text.startswith("\ufeff") else 0)).end()
    while place < len(text) and text[place] != "[":
        key = KEY.match(text, place)
        if not key or text[key.end():key.end() + 1] != "=":
            break
        start = key.end() + 1
        end = value_end(text, start)
        if key.group().strip().strip("\"'") == "seed":
            return start, end
        place = must(GAP.match(text, end)).end()
    return None


def with_seed(text: str, seed: int) -> str:
    """Returns the text of a model file with this seed in place of its own, or at its beginning if it has none."""
    found = find_seed(text)
    if found:
        old = text[found[0]:found[1]]
        return text[:found[0]] + f" {seed}" + old[len(old.rstrip()):] + text[found[1]:]
    mark = "\ufeff" if text.startswith("\ufeff") else ""
    return f"{mark}seed = {seed}\n{text[len(mark):]}"
