"""Draws a model as a network, in the language of Graphviz' dot."""
import argparse
import os
from typing import List, Tuple

from .check_flow import initial, shares
from .models import Model, Station, read_model

DESCRIPTION = """Draws the stations and links of a model, in the language of Graphviz' dot.

    cloner-planning diagram MODEL | dot -Tsvg > network.svg

Each station has its name, kind and parameters, each link its delay. Where a job's link is drawn by chance,
the link has its share in per cent."""

SHAPES = {"source": 'cds, margin="0.25,0.13"', "server": "box", "delay": "ellipse", "router": "diamond",
          "sink": "doublecircle"}
COLOURS = {"source": "#d9ead3", "server": "#cfe2f3", "delay": "#fff2cc", "router": "#ead1dc", "sink": "#eeeeee"}


def add_arguments(parser: argparse.ArgumentParser) -> None:
    """Adds the words of the command line."""
    parser.add_argument("model", metavar="MODEL", help="a model file that cloner accepts")


def quoted(text: str) -> str:
    """Returns a text as a string of dot; `\\n` stays a line break."""
    return '"' + text.replace("\\", "\\\\").replace('"', '\\"').replace("\n", "\\n") + '"'


def span(pair: Tuple[int, int]) -> str:
    """Returns a range in words."""
    least, greatest = pair
    return f"{least}" if least == greatest else f"{least} to {greatest}"


def parameters(station: Station, model: Model) -> str:
    """Returns the parameters of a station in one line."""
    if station.kind == "source":
        job_class = f", class {station.job_class}" if model.format == 2 else ""
        return f"every {span(station.every)}, jobs {station.jobs}{job_class}"
    if station.kind == "server":
        order = ", by class" if station.order == "class" else ""
        return f"servers {station.servers}, room {station.room}, service {span(station.service)}{order}"
    if station.kind == "delay":
        return f"hold {span(station.hold)}"
    return f"by {station.by}" if station.kind == "router" else ""


def node(station: Station, model: Model) -> str:
    """Returns the line of one station."""
    lines = [station.name, station.kind, parameters(station, model)]
    label = quoted("\n".join(line for line in lines if line))
    colour = quoted(COLOURS[station.kind])
    return f"  {quoted(station.name)} [label={label}, shape={SHAPES[station.kind]}, fillcolor={colour}];"


def percent(share: float) -> str:
    """Returns a share in per cent, with one figure after the point unless it is whole."""
    value = 100 * share
    return f"{value:.0f} %" if abs(value - round(value)) < 0.05 and value >= 1 else f"{value:.1f} %"


def edges(station: Station, parts: List[float]) -> List[str]:
    """Returns the lines of a station's links."""
    lines = []
    for place, (link, share) in enumerate(zip(station.links, parts), 1):
        label = f"delay {link.delay}"
        if len(station.links) > 1:
            label += f"\n{place}. in turn" if station.by == "turn" else f"\n{percent(share)}"
        lines.append(f"  {quoted(station.name)} -> {quoted(link.to)} [label={quoted(label)}];")
    return lines


def dot_lines(model: Model, title: str) -> List[str]:
    """Returns the whole drawing, line by line."""
    settings = initial(model)
    lines = [f"digraph {quoted(title)} {{", "  rankdir=LR;", f"  label={quoted(title)};",
             '  node [style=filled, fontname="sans-serif", fontsize=11];',
             '  edge [fontname="sans-serif", fontsize=10];']
    lines += [node(station, model) for station in model.stations]
    for station in model.stations:
        if station.links:
            lines += edges(station, shares(station, settings))
    return lines + ["}"]


def run(options: argparse.Namespace) -> int:
    """Prints the drawing; returns 0."""
    for line in dot_lines(read_model(options.model), os.path.basename(options.model)):
        print(line)
    return 0
