"""Draws what series.py and shares.py read. This is the only module that needs matplotlib; plot.py imports it late."""
from typing import Any, Dict, List, Optional, Tuple

import matplotlib
from matplotlib.colors import LinearSegmentedColormap
from matplotlib.figure import Figure

from .series import Band, Series, shown
from .shares import Row, Shares

COLUMNS = 1000
# Okabe and Ito's colours, which colour-blind readers can distinguish; yellow is hard to see on white and comes last
COLOURS = ("#000000", "#D55E00", "#0072B2", "#009E73", "#CC79A7", "#56B4E9", "#E69F00", "#F0E442")
# each of the first eight is another in grey, too
STYLES: List[Any] = ["solid", (0, (6, 2)), (0, (2, 1.5)), (0, (8, 2, 2, 2)), (0, (12, 3)), (0, (1, 1)),
                     (0, (4, 2, 1, 2, 1, 2)), (0, (3, 4))]
MARKERS = ("", "o", "s", "^", "D", "v", "x", "+", "P", "*", "<", ">")
MARKED = 12
TITLES = {"census": "Jobs in the network{}", "line": "Jobs that wait at {}", "busy": "Busy servers at {}",
          "stay": "Time in the network of each job that reaches {}"}
UNITS = {"census": "jobs", "line": "jobs", "busy": "servers", "stay": "time (in the model's unit)"}
TIME = "time (in the model's unit)"
SETTINGS = {
    "svg.hashsalt": "cloner", "svg.fonttype": "none", "savefig.bbox": "tight", "font.size": 10,
    "axes.spines.top": False, "axes.spines.right": False, "axes.axisbelow": True, "axes.titlelocation": "left",
    "grid.color": "#E5E5E5",
}
matplotlib.rcdefaults()
matplotlib.rcParams.update(SETTINGS)

PALE_TO_SOLID = LinearSegmentedColormap.from_list("alone", ["#DCE7F3", "#6C9BC9", "#08306B"])
TALL_ROW, LOW_ROW, MAX_TALL_ROWS = 0.24, 0.1, 48


def write(figure: Figure, output: Any, kind: str) -> None:
    """Writes a picture into a file, without a date or the library's version."""
    facts = {"svg": {"Date": None, "Creator": None}, "png": {"Software": None},
             "pdf": {"CreationDate": None, "Producer": None, "Creator": None}}
    figure.savefig(output, format=kind, dpi=130, metadata=facts[kind])


def draw_series(series: List[Series], what: str, station: str, span: Tuple[int, int],
                limit: Optional[Tuple[int, str]], panels: bool = False, title: Optional[str] = None) -> Figure:
    """Returns the picture of one figure of a station: all branches in one, or each in a panel of its own.

    `limit` is a value to mark if a branch reaches it, with its label.
    """
    rows = len(series) if panels else 1
    figure = Figure(figsize=(10, 1.2 + 1.5 * rows if panels else 4.6))
    every = figure.subplots(rows, 1, sharex=True, sharey=True, squeeze=False)[:, 0]
    for place, one in enumerate(series):
        axes = every[place if panels else 0]
        draw_branch(axes, one, place, what, span)
        if panels:
            axes.set_ylabel(one.branch)
    mark_decisions(every, series, span, panels)
    if limit and any(value >= limit[0] for one in series for value in one.values):
        for axes in every:
            axes.axhline(limit[0], color="#777777", linewidth=1.2, linestyle="dotted", label=limit[1], zorder=4)
    finish(every, title or TITLES[what].format(station), UNITS[what], span, panels)
    return figure


def draw_bands(bands: List[Band], what: str, station: str, span: Tuple[int, int], seeds: int, panels: bool = False,
               title: Optional[str] = None) -> Figure:
    """Returns the picture of a figure over several seeds: the mean as a line, and from least to greatest as a band."""
    rows = len(bands) if panels else 1
    figure = Figure(figsize=(10, 1.2 + 1.5 * rows if panels else 4.6))
    every = figure.subplots(rows, 1, sharex=True, sharey=True, squeeze=False)[:, 0]
    for place, band in enumerate(bands):
        axes = every[place if panels else 0]
        look = look_of(place, band.branch)
        axes.plot(band.times, band.mean, linewidth=1.3, markevery=max(1, len(band.times) // MARKED), **look)
        axes.fill_between(band.times, band.least, band.greatest, color=look["color"], alpha=0.18, linewidth=0,
                          step="post")
        if panels:
            axes.set_ylabel(band.branch)
    said = title or f"{TITLES[what].format(station)}: mean, least and greatest of {seeds} seeds"
    finish(every, said, UNITS[what], span, panels)
    return figure


def finish(every: Any, title: str, unit: str, span: Tuple[int, int], panels: bool) -> None:
    """Gives the panels their title, axes and legend."""
    every[0].set_title(title)
    every[-1].set_xlabel(TIME)
    for axes in every:
        axes.set_xlim(span)
        axes.set_ylim(bottom=0)
        whole_numbers(axes)
        axes.grid(True)
    if not panels:
        every[0].set_ylabel(unit)
        every[0].legend(loc="upper left", bbox_to_anchor=(1.01, 1.02), frameon=False, markerscale=1.2)


def mark_decisions(every: Any, series: List[Series], span: Tuple[int, int], panels: bool) -> None:
    """Marks the decisions of each branch above the time axis; in one picture, those that not all branches have."""
    common = set.intersection(*(set(one.sets) for one in series)) if not panels and len(series) > 1 else set()
    for place, one in enumerate(series):
        axes = every[place if panels else 0]
        times = sorted({time for time in one.sets if span[0] <= time < span[1]} - common)
        if times:
            axes.plot(times, [0.015] * len(times), linestyle="none", marker="^", markersize=6, zorder=5,
                      color=COLOURS[place % len(COLOURS)], transform=axes.get_xaxis_transform())


def look_of(place: int, branch: str) -> Dict[str, Any]:
    """Returns how a branch is drawn: another colour, and in grey another dash and marker."""
    return {"color": COLOURS[place % len(COLOURS)], "linestyle": STYLES[place % len(STYLES)],
            "marker": MARKERS[place % len(MARKERS)], "markersize": 4.5, "label": branch, "zorder": 3 - place / 100}


def whole_numbers(axes: Any) -> None:
    """Labels the axes with whole numbers, written in full."""
    axes.ticklabel_format(style="plain", useOffset=False)
    for axis in (axes.xaxis, axes.yaxis):
        axis.get_major_locator().set_params(integer=True)


def draw_branch(axes: Any, one: Series, place: int, what: str, span: Tuple[int, int]) -> None:
    """Draws one branch. Earlier branches cover later ones."""
    points = shown(one, what, span[0], span[1], COLUMNS)
    times, values = [time for time, _ in points], [value for _, value in points]
    look = look_of(place, one.branch)
    if what == "stay":
        look.update(linestyle="none", marker=MARKERS[place % len(MARKERS)] or ".", markersize=2.5)
        axes.plot(times, values, **look)
    else:
        axes.step(times, values, where="post", linewidth=1.1, markevery=max(1, len(times) // MARKED), **look)


def share_of(row: Row, number: int) -> float:
    """Returns the share of a stretch's messages that no earlier branch has; not a number if there are none."""
    return row.own[number] / row.handled[number] if row.handled[number] else float("nan")


def draw_shares(shares: Shares, span: Tuple[int, int]) -> Figure:
    """Returns the picture of what each branch computed alone: a row for each, and its share in per cent."""
    rows, used = shares.rows, (shares.last - shares.begin) // shares.width + 1
    tall = len(rows) <= MAX_TALL_ROWS
    figure = Figure(figsize=(10, max(2.6, 1.2 + len(rows) * (TALL_ROW if tall else LOW_ROW))))
    axes = figure.add_subplot()
    image = axes.imshow([[share_of(row, number) for number in range(used)] for row in rows],
                        cmap=PALE_TO_SOLID, vmin=0, vmax=1, aspect="auto", interpolation="nearest",
                        extent=(shares.begin, shares.begin + used * shares.width, len(rows) - 0.5, -0.5))
    own, handled = sum(sum(row.own) for row in rows), sum(sum(row.handled) for row in rows)
    axes.set(title=f"What each branch computed alone: {own:,} of {handled:,} messages", xlabel=TIME, xlim=span)
    whole_numbers(axes)
    size = 10 if tall else 5
    axes.set_yticks(range(len(rows)))
    axes.set_yticklabels([row.branch for row in rows], fontsize=size)
    axes.tick_params(axis="y", length=0)
    axes.spines["left"].set_visible(False)
    axes.hlines([place + 0.5 for place in range(len(rows))], *span, color="white", linewidth=2 if tall else 0.5)
    for place, row in enumerate(rows):
        share = 100 * sum(row.own) / max(1, sum(row.handled))
        axes.text(1.01, place, f"{share:.1f} %", transform=axes.get_yaxis_transform(), va="center", fontsize=size)
    axes.annotate("alone", (1.01, 1), xycoords="axes fraction", xytext=(0, 4), textcoords="offset points",
                  fontsize=size)
    bar = figure.colorbar(image, ax=axes, pad=0.1, fraction=0.02)
    bar.set_label("share of messages that\nno earlier branch has")
    return figure
