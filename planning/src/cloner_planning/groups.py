"""Groups of servers, whose figures are those of all of them together."""
import argparse
import re
from typing import Dict, List, NamedTuple, Optional, Sequence

from .errors import PlanningError
from .names import NAME_FORM
from .station_figures import ALL, ServerFigures, Tally, mean
from .tables import Row


class Group(NamedTuple):
    """A name for several servers."""

    name: str
    stations: List[str]


def group_in(word: str) -> Group:
    """Returns the group that a word like `beds=ward,hall` says."""
    found = re.match(rf"({NAME_FORM})=({NAME_FORM}(?:,{NAME_FORM})*)\Z", word)
    if not found:
        raise argparse.ArgumentTypeError(f"{word!r} is no group like beds=ward,hall")
    return Group(found.group(1), list(dict.fromkeys(found.group(2).split(","))))


def refuse_unknown(groups: Sequence[Group], servers: Sequence[str]) -> None:
    """Raises PlanningError for the first group that has a station which is no server, or its name."""
    for group in groups:
        unknown = [name for name in group.stations if name not in servers]
        if unknown:
            raise PlanningError(f"--group {group.name}: there is no server {unknown[0]}; "
                                f"there are {', '.join(servers)}")
        if group.name in servers:
            raise PlanningError(f"--group {group.name}: there is a server of this name")


def group_row(group: Group, servers: Dict[str, ServerFigures], head: Row, over: int) -> Row:
    """Returns the row of a group. The greatest line of all together is not known."""
    members = [servers[name] for name in group.stations]
    end = head["to"]
    total = Tally()
    for member in members:
        total.add_counts(member.within[ALL])
    row = {**head, "station": group.name, "arrived": total.arrived, "lost": total.lost, "begun": total.begun,
           "done": total.done, "waiting": sum(one.wait for one in members), "serving": sum(one.busy for one in members),
           "over": over, "line_mean": added([one.mean_line(end) for one in members]),
           "busy_mean": added([one.mean_busy(end) for one in members]), "used_share": used(members, end)}
    waits = total.figures(over) if all(one.misfit is None for one in members) else None
    if waits:
        row.update(wait_mean=waits.mean, wait_median=waits.median, wait_90=waits.ninety, wait_99=waits.ninety_nine,
                   wait_longest=waits.longest, over_share=waits.over_share)
    return row


def added(values: List[Optional[float]]) -> Optional[float]:
    """Returns the sum, or None if one is not known."""
    known = [value for value in values if value is not None]
    return sum(known) if len(known) == len(values) else None


def used(members: List[ServerFigures], end: int) -> Optional[float]:
    """Returns the busy time of all in per cent of the time of their servers, or None if their number is not known."""
    areas = [one.areas(end) for one in members]
    known = [area for area in areas if area is not None]
    if len(known) < len(areas):
        return None
    return mean(100 * sum(busy for busy, _ in known), sum(server for _, server in known))
