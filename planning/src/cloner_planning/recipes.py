"""What planners often mean by a value that cloner refuses, and where PLANNING.md says how to write it."""
import re
from typing import Any, List, Optional

from .limits import MAX_SERVERS
from .places import Places, is_integer

PAGE = "docs/PLANNING.md#you-want-you-write"
DISTRIBUTION = re.compile(r"(?i)\s*(exp|poisson|normal|gauss|log|gamma|erlang|weibull|triang|unif|beta|const|determ)")


def of_servers(value: Any) -> List[str]:
    """Returns what may be meant by a number of servers that is out of range."""
    if not is_integer(value):
        return []
    if value == 0:
        return ["The least is one server. To close a station for a time, see `something that closes and opens again`, "
                f"and for good `a till that closes`: {PAGE}."]
    if value > MAX_SERVERS:
        parts = -(-value // MAX_SERVERS)
        each = [value // parts + (part < value % parts) for part in range(parts)]
        return [f"For {value}, write {parts} servers of {' and '.join(map(str, each))} after a router `by = \"turn\"`, "
                f"see `more than 16 beds`: {PAGE}. If nobody ever waits, a `delay` has room for any number."]
    return []


def of_times(key: str, value: Any) -> List[str]:
    """Returns what may be meant by a text in place of a range of times."""
    if key not in ("every", "service", "hold") or not isinstance(value, str):
        return []
    pair = re.match(r"\s*unif\w*\s*\(\s*(\d+)\s*,\s*(\d+)\s*\)\s*\Z", value, re.I)
    if pair:
        return [f"Times are uniform over a range: `{key} = [{pair.group(1)}, {pair.group(2)}]`."]
    if not DISTRIBUTION.match(value):
        return []
    recipe = "arrivals by a Poisson process" if key == "every" else "times with a longer tail"
    return [f"Times are uniform over a range of whole numbers, `{key} = [least, greatest]`. "
            f"For others, see `{recipe}`: {PAGE}."]


def of_branch(word: str, places: Optional[Places]) -> List[str]:
    """Returns what may be meant by a branch that is a station of the model."""
    stations = [table.get("name") for table in places.stations()] if places and not places.fault else []
    if word not in stations:
        return []
    return [f"`{word}` is a station of the model, and here the name of a branch belongs. A change is written "
            f"`set BRANCH at TIME {word} ..`, with `base` for the branch that is always there."]
