"""The rows of a summary: one per branch and server, per branch and sink, and per branch."""
from typing import Any, Dict, List, Optional, Sequence

from .census import Census
from .station_figures import ALL, ServerFigures, SinkFigures
from .tables import Column, Row

# the columns that hold names, not numbers
NAMES = ("branch", "station")
CLASS = ("class", "class")
STATION = [("branch", "branch"), ("station", "station")]
SINK_FIGURES = [("got", "got"), ("stay_mean", "stay"), ("stay_longest", "longest")]
BRANCH = [("branch", "branch"), ("to", "to"), ("made", "made"), ("got", "left"), ("lost", "lost"), ("inside", "inside")]
DELAY = [("branch", "branch"), ("station", "station"), ("arrived", "came"), ("waiting", "inside"), ("mean", "mean"),
         ("most", "most")]
CENSUS = [("branch", "branch"), ("from", "from"), ("to", "to"), ("mean", "mean"), ("most", "most")]
CSV_KEYS = ["branch", "station", "kind", "class", "from", "to",
            "arrived", "lost", "begun", "done", "waiting", "serving",
            "wait_mean", "wait_median", "wait_90", "wait_99", "wait_longest", "over", "over_share",
            "line_mean", "line_most", "busy_mean", "used_share",
            "got", "stay_mean", "stay_longest", "made", "inside", "mean", "most"]


def server_columns(over: int, by_class: bool) -> List[Column]:
    """Returns the columns of the table of servers."""
    return STATION + [CLASS] * by_class + [
        ("arrived", "arrived"), ("lost", "lost"), ("begun", "begun"), ("done", "done"), ("waiting", "waiting"),
        ("serving", "serving"), ("wait_mean", "wait"), ("wait_median", "p50"), ("wait_90", "p90"), ("wait_99", "p99"),
        ("wait_longest", "longest"), ("over_share", f">{over}%"), ("line_mean", "line"), ("line_most", "most"),
        ("busy_mean", "busy"), ("used_share", "used%")]


def sink_columns(by_class: bool) -> List[Column]:
    """Returns the columns of the table of sinks."""
    return STATION + [CLASS] * by_class + SINK_FIGURES


def head_of(branch: str, station: Optional[str], kind: str, start: int, end: int, place: int = ALL) -> Row:
    """Returns what a row is about. The span of a branch that ended before `start` is empty."""
    return {"branch": branch, "station": station, "kind": kind, "class": None if place == ALL else place,
            "from": start, "to": max(start, end)}


def wait_cells(figures: ServerFigures, place: int, over: int) -> Row:
    """Returns the figures of the waits; none if the order of service is not the one that was taken."""
    waits = figures.within[place].waits
    if waits is None or figures.misfit is not None:
        return {"over": over}
    return {"wait_mean": waits.mean, "wait_median": waits.median, "wait_90": waits.ninety, "wait_99": waits.ninety_nine,
            "wait_longest": waits.longest, "over": over, "over_share": waits.over_share}


def server_row(figures: ServerFigures, head: Row, over: int) -> Row:
    """Returns the row of a server, all classes together."""
    tally, end = figures.within[ALL], head["to"]
    return {**head, "arrived": tally.arrived, "lost": tally.lost, "begun": tally.begun, "done": tally.done,
            "waiting": figures.wait, "serving": figures.busy, **wait_cells(figures, ALL, over),
            "line_mean": figures.mean_line(end), "line_most": figures.most if end > figures.start else None,
            "busy_mean": figures.mean_busy(end), "used_share": figures.used_share(end)}


def class_rows(figures: ServerFigures, head: Row, over: int) -> List[Row]:
    """Returns a row for each class of which jobs came to a server.

    Which jobs began is not known if the order of service is not the one that was taken.
    """
    rows = []
    for place in range(1, len(figures.within)):
        tally = figures.within[place]
        if tally.arrived + figures.before[place].arrived == 0:
            continue
        row: Dict[str, Any] = {**head, "class": place, "arrived": tally.arrived, "lost": tally.lost, "done": tally.done}
        if figures.misfit is None:
            row.update(begun=tally.begun, waiting=figures.waiting(place), serving=figures.serving(place))
        rows.append({**row, **wait_cells(figures, place, over)})
    return rows


def sink_rows(figures: SinkFigures, head: Row) -> List[Row]:
    """Returns the row of a sink, and one for each class of which jobs came in the span."""
    rows = []
    for place, leaving in enumerate(figures.leaving):
        if place == ALL or leaving.got:
            rows.append({**head, "class": None if place == ALL else place, "got": leaving.got,
                         "stay_mean": leaving.mean_stay(), "stay_longest": leaving.longest})
    return rows


def branch_row(head: Row, made: int, sinks: Sequence[SinkFigures], servers: Sequence[ServerFigures]) -> Row:
    """Returns the row of a branch: its jobs from time 0 to the end of the span."""
    got = sum(sink.got for sink in sinks)
    lost = sum(server.lost_from_start() for server in servers)
    return {**head, "made": made, "got": got, "lost": lost, "inside": made - got - lost}


def delay_rows(census: Census, branch: str, start: int, end: int) -> List[Row]:
    """Returns the rows of a branch's delays."""
    rows = []
    for name, place in census.delays.items():
        whole = place.stretches(start, end)[0]
        last = [count for time, count in place.steps if time < end]
        rows.append({**head_of(branch, name, "delay", start, end), "arrived": census.came[name],
                     "waiting": last[-1] if last else 0, "mean": whole.mean, "most": whole.most})
    return rows


def census_rows(census: Census, branch: str, start: int, end: int, every: Optional[int]) -> List[Row]:
    """Returns the rows of the jobs in a branch's network, one for each stretch of the span."""
    return [{**head_of(branch, None, "census", one.start, one.end), "mean": one.mean, "most": one.most}
            for one in census.network.stretches(start, max(start, end), every)]
