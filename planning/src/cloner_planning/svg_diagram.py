"""Draws a model as a network in SVG, with Python alone: stations in columns by their distance from the sources."""
from html import escape
from typing import Dict, List, Tuple

from .check_flow import initial, shares
from .diagram import COLOURS, parameters, percent
from .models import Model

WIDTH, HEIGHT, GAP_X, GAP_Y = 176, 58, 84, 26


def columns_of(model: Model) -> List[List[str]]:
    """Returns the stations in columns: sources first, each other one after the nearest that leads to it, sinks last."""
    column = {station.name: 0 for station in model.stations if station.kind == "source"}
    front = list(column)
    while front:
        name = front.pop(0)
        for link in model.known(name).links:
            if link.to not in column:
                column[link.to] = column[name] + 1
                front.append(link.to)
    sinks = [station.name for station in model.stations if station.kind == "sink"]
    last = max([place for name, place in column.items() if name not in sinks], default=0)
    for station in model.stations:
        column.setdefault(station.name, last)
        if station.kind == "sink":
            column[station.name] = last + 1
    found = [[name for name, place in column.items() if place == number] for number in range(last + 2)]
    return [names for names in found if names]


def places_of(model: Model) -> Dict[str, Tuple[int, int]]:
    """Returns the upper left corner of each station."""
    columns = columns_of(model)
    most = max(map(len, columns))
    found = {}
    for number, names in enumerate(columns):
        top = (most - len(names)) * (HEIGHT + GAP_Y) // 2
        for row, name in enumerate(names):
            found[name] = (10 + number * (WIDTH + GAP_X), 10 + top + row * (HEIGHT + GAP_Y))
    return found


def way(start: Tuple[int, int], end: Tuple[int, int], label: str) -> str:
    """Returns an arrow from one station to another, with its label."""
    back = end[0] <= start[0]
    x1, y1 = (start[0] + WIDTH, start[1] + HEIGHT // 2) if not back else (start[0] + WIDTH // 2, start[1] + HEIGHT)
    x2, y2 = (end[0], end[1] + HEIGHT // 2) if not back else (end[0] + WIDTH // 2, end[1] + HEIGHT)
    bend = f"M{x1},{y1} C{x1 + 40},{y1} {x2 - 40},{y2} {x2},{y2}" if not back else \
        f"M{x1},{y1} C{x1},{y1 + 50} {x2},{y2 + 50} {x2},{y2}"
    middle = ((x1 + x2) // 2, (y1 + y2) // 2 + (36 if back else -4))
    return (f'<path d="{bend}" fill="none" stroke="#555" marker-end="url(#end)"/>'
            f'<text x="{middle[0]}" y="{middle[1]}" text-anchor="middle" font-size="10">{escape(label)}</text>')


def svg_of(model: Model) -> str:
    """Returns the drawing."""
    places, settings = places_of(model), initial(model)
    width = max(x for x, _ in places.values()) + WIDTH + 10
    height = max(y for _, y in places.values()) + HEIGHT + 60
    parts = [f'<svg viewBox="0 0 {width} {height}" role="img" '
             'aria-label="the stations and links of the model">',
             '<defs><marker id="end" viewBox="0 0 8 8" refX="8" refY="4" markerWidth="8" markerHeight="8" '
             'orient="auto"><path d="M0,0 L8,4 L0,8 z" fill="#555"/></marker></defs>']
    for station in model.stations:
        several = len(station.links) > 1
        for link, share in zip(station.links, shares(station, settings) if station.links else []):
            label = f"{link.delay}" + (f", {percent(share)}" if several and station.by != "turn" else "")
            parts.append(way(places[station.name], places[link.to], label))
    for station in model.stations:
        x, y = places[station.name]
        lines = [f"{station.name} ({station.kind})", *parameters(station, model).split(", ")]
        lines = lines[:1] + [", ".join(lines[1:3]), ", ".join(lines[3:])]
        parts.append(f'<rect x="{x}" y="{y}" width="{WIDTH}" height="{HEIGHT}" rx="6" '
                     f'fill="{COLOURS[station.kind]}" stroke="#555"/>')
        for row, line in enumerate(lines):
            size = 12 if row == 0 else 10
            parts.append(f'<text x="{x + WIDTH // 2}" y="{y + 18 + 16 * row}" text-anchor="middle" '
                         f'font-size="{size}">{escape(line)}</text>')
    return "\n".join(parts) + "\n</svg>\n"
