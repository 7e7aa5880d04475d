"""plot: pictures of traces. One matplotlib makes the same SVG of the same trace, byte for byte."""
import argparse
import sys
from typing import Any, Callable, List, Optional, Tuple, TypeVar

from . import models, traces
from .choices import names_in, whole_number
from .errors import CutTrace, PlanningError
from .outputs import whole_file
from .series import MAX_BRANCHES, Branches, CensusReader, Series, StationReader, band_of, read_series
from .shares import Shares
from .trace_sections import trace_lines

DESCRIPTION = f"""Pictures of a trace: a station over time in several branches, or what each branch computed alone.

TRACE is what `cloner run`, `solo`, `live`, `watch` or `links` wrote, or - for standard input. The picture is an SVG on
standard output, or with --output a file .svg, .png or .pdf. Drawing needs matplotlib.

plot TRACE STATION [BRANCH ..]
  A line for each branch; without BRANCH all branches, at most {MAX_BRANCHES}. It shows how many jobs wait at a server
  (line) or how many of its servers are busy (busy). At a sink, a dot for each job shows its time in the network
  (stay). If branches coincide, the first of them covers the others. Each has a colour, a dash and a marker, and
  --panels draws each in a panel of its own. Triangles at the time axis mark the decisions of branches.
  --band TRACE,.. has the same branches with other seeds: then a line shows the mean over the seeds, and a band goes
  from the least to the greatest value.
plot TRACE --census [BRANCH ..]
  The same of how many jobs are in the network.
plot TRACE --alone [BRANCH ..]
  A row for each branch, from pale to solid: the share of its messages that no earlier branch has. An earlier
  branch has a message if its lines of that station are the same, from the first line up to this one. On the right
  is the share of all the branch's messages. A trace does not show when a job was made, so the sum can be a little
  below `handled` in the report.

If no report follows the traces, they are cut: the picture is drawn, and the status is 3. `solo` and `resume` write no
report: say --solo."""

Read = TypeVar("Read")
INTERMIXED = True  # options may come between the words
NO_MATPLOTLIB = ("plot draws with matplotlib, which this Python does not have: apt-get install python3-matplotlib, "
                 "then run plot with /usr/bin/python3")


def add_arguments(parser: argparse.ArgumentParser) -> None:
    """Adds the words and options of plot."""
    parser.add_argument("trace", metavar="TRACE", help="a trace; - is the standard input")
    parser.add_argument("words", metavar="STATION [BRANCH ..]", nargs="*", help="the station, and the branches to draw")
    parser.add_argument("--what", choices=("line", "busy", "stay"),
                        help="line or busy at a server, stay at a sink; without it line or stay")
    parser.add_argument("--alone", action="store_true", help="draw what each branch computed alone")
    parser.add_argument("--census", action="store_true", help="draw how many jobs are in the network")
    parser.add_argument("--panels", action="store_true", help="draw each branch in a panel of its own")
    parser.add_argument("--band", type=names_in, default=[], metavar="TRACE,..",
                        help="further traces of the same branches with other seeds")
    parser.add_argument("--title", metavar="TEXT", help="the picture's title")
    parser.add_argument("--from", dest="begin", type=whole_number, default=0, metavar="TIME",
                        help="the first time to draw")
    parser.add_argument("--to", dest="stop", type=whole_number, metavar="TIME",
                        help="the time at which the picture ends")
    parser.add_argument("--model", metavar="FILE", help="the model: the picture ends at its horizon, and a dotted line "
                        "shows the station's servers or room, if any branch reaches them")
    parser.add_argument("--solo", action="store_true",
                        help="the traces are those of `solo` or `resume`, which write no report")
    parser.add_argument("--output", default="-", metavar="FILE",
                        help="a file .svg, .png or .pdf; - is the standard output")


def pictures_module() -> Any:
    """Returns the module that draws, if there is matplotlib."""
    try:
        import matplotlib.figure  # noqa: F401  (late: only plot needs it)
    except ImportError:
        raise PlanningError(NO_MATPLOTLIB) from None
    from . import pictures
    return pictures


def kind_of_file(output: str) -> str:
    """Returns svg, png or pdf, by the end of the file's name."""
    kind = "svg" if output == "-" else output.lower().rpartition(".")[2]
    if kind not in ("svg", "png", "pdf"):
        raise PlanningError(f"the picture's name must end in .svg, .png or .pdf: {output}")
    return kind


def read_trace(options: argparse.Namespace, read: Callable[[Branches], Read],
               wanted: Optional[List[str]] = None) -> Read:
    """Returns what `read` makes of the trace's branches, or of those that are wanted.

    Notes in `options.cut` whether a branch that was read may not be whole.
    """
    with trace_lines(options.trace, wanted) as lines:
        trace = traces.Trace(lines)
        result = read(trace.branches())
        options.cut = traces.is_cut(trace, options.solo)
    return result


def span_of(options: argparse.Namespace, model: Optional[models.Model], last: int) -> Tuple[int, int]:
    """Returns the first time to draw and the end of the picture: --to, the horizon, or after the last message."""
    end = options.stop
    if end is None:
        end = model.horizon if model else last + 1
    if end <= options.begin:
        raise PlanningError(f"no time is left to draw: from {options.begin} to {end}")
    return options.begin, end


def capacity(station: models.Station, figure: str) -> Optional[Tuple[int, str]]:
    """Returns a station's servers or room in the model, with a label."""
    if figure == "busy":
        return station.servers, f"model: {station.servers} servers"
    return (station.room, f"model: room {station.room}") if figure == "line" else None


def station_picture(options: argparse.Namespace, model: Optional[models.Model], pictures: Any) -> Any:
    """Returns the picture of one figure of a station."""
    name, branches = options.words[0], options.words[1:]
    station = model.station(name) if model else None
    reader = StationReader(name, options.what)
    if model and not station:
        raise PlanningError(f"the model has no station {name}: it has {', '.join(one.name for one in model.stations)}")
    if station:
        reader.settle(station.kind)
    series = read_trace(options, lambda trace: read_series(trace, reader, branches), branches)
    if reader.figure is None:
        raise PlanningError(f"the branches have no message at a station {name}")
    span = span_of(options, model, max(one.end for one in series))
    limit = capacity(station, reader.figure) if station else None
    if options.band:
        if reader.figure == "stay":
            raise PlanningError("--band shows line, busy and the census, not stay")
        return band_picture(options, series, lambda: StationReader(name, reader.figure), span, pictures)
    return pictures.draw_series(series, reader.figure, name, span, limit, options.panels, options.title)


def census_picture(options: argparse.Namespace, model: Optional[models.Model], pictures: Any) -> Any:
    """Returns the picture of how many jobs are in the network."""
    if options.what:
        raise PlanningError("--census and --what exclude each other")
    names = options.words
    series = read_trace(options, lambda trace: read_series(trace, CensusReader(), names), names)
    span = span_of(options, model, max(one.end for one in series))
    if options.band:
        return band_picture(options, series, CensusReader, span, pictures)
    return pictures.draw_series(series, "census", "", span, None, options.panels, options.title)


def band_picture(options: argparse.Namespace, series: List[Series], reader: Callable[[], StationReader],
                 span: Tuple[int, int], pictures: Any) -> Any:
    """Returns the picture of the branches of several traces, each with another seed."""
    names = [one.branch for one in series]
    seeds = [series]
    cut = options.cut
    for path in options.band:
        more = argparse.Namespace(**{**vars(options), "trace": path})
        seeds.append(read_trace(more, lambda trace: read_series(trace, reader(), names), names))
        cut = cut or more.cut
    options.cut = cut
    bands = [band_of([one[place] for one in seeds], *span, pictures.COLUMNS) for place in range(len(names))]
    figure, station = (reader().figure or reader().what or "line"), reader().station
    return pictures.draw_bands(bands, figure, station, span, len(seeds), options.panels, options.title)


def alone_picture(options: argparse.Namespace, model: Optional[models.Model], pictures: Any) -> Any:
    """Returns the picture of what each branch computed alone."""
    if options.what:
        raise PlanningError("--alone and --what exclude each other")
    shares = Shares(options.begin, options.stop)
    read_trace(options, lambda trace: shares.read(trace, options.words))
    if not any(sum(row.handled) for row in shares.rows):
        raise PlanningError("the branches have no message in the time to draw")
    return pictures.draw_shares(shares, span_of(options, model, shares.last))


def run(options: argparse.Namespace) -> int:
    """Draws what the options ask for and returns the status."""
    kind = kind_of_file(options.output)
    if not (options.words or options.alone or options.census):
        raise PlanningError("plot needs a station, --census or --alone")
    if options.alone and (options.census or options.panels or options.band):
        raise PlanningError("--alone goes with none of --census, --panels and --band")
    pictures = pictures_module()
    model = models.read_model(options.model) if options.model else None
    draw = alone_picture if options.alone else census_picture if options.census else station_picture
    picture = draw(options, model, pictures)
    if options.output == "-":
        pictures.write(picture, sys.stdout.buffer, kind)
    else:
        with whole_file(options.output, "wb") as output:
            pictures.write(picture, output.file, kind)
    return CutTrace.status if options.cut else 0
