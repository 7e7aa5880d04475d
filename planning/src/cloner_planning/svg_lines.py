"""Draws how many wait at a server over time in several branches, in SVG, with Python alone."""
from html import escape
from typing import List, Optional, Sequence, Tuple

from .series import Series, shown
from .units import Unit, by_clock

WIDTH, HEIGHT, LEFT, BOTTOM, TOP = 760, 240, 46, 34, 10
COLUMNS = 380
COLOURS = ("#000000", "#D55E00", "#0072B2", "#009E73", "#CC79A7", "#56B4E9", "#E69F00", "#7F7F7F")
DASHES = ("", "6 3", "2 2", "8 3 2 3", "12 4", "4 4", "1 3", "10 2 2 2 2 2")
MAX_LINES = len(COLOURS)


def step_of(greatest: float) -> int:
    """Returns the distance of the lines of a grid up to a greatest value."""
    step = 1
    while greatest / step > 6:
        step = step * 2 if str(step)[0] in "15" else step // 2 * 5
    return step


def path_of(points: Sequence[Tuple[int, int]], span: Tuple[int, int], greatest: int) -> str:
    """Returns the path of a figure in steps."""
    def place(time: int, value: int) -> Tuple[float, float]:
        x = LEFT + (time - span[0]) / (span[1] - span[0]) * (WIDTH - LEFT - 8)
        return x, TOP + (1 - value / greatest) * (HEIGHT - TOP - BOTTOM)
    parts = []
    for number, (time, value) in enumerate(points):
        x, y = place(time, value)
        parts.append(f"M{x:.1f},{y:.1f}" if number == 0 else f"H{x:.1f}V{y:.1f}")
    return "".join(parts)


def svg_of(series: List[Series], span: Tuple[int, int], title: str, unit: Optional[Unit]) -> str:
    """Returns the picture of the branches' lines over a span of time."""
    drawn = [shown(one, "line", span[0], span[1], COLUMNS) for one in series]
    greatest = max([value for points in drawn for _, value in points] + [1])
    parts = [f'<svg viewBox="0 0 {WIDTH} {HEIGHT + 16 * len(series)}" role="img" '
             f'aria-label="{escape(title)}">']
    height = HEIGHT - TOP - BOTTOM
    for value in range(0, greatest + 1, step_of(greatest)):
        y = TOP + (1 - value / greatest) * height
        parts.append(f'<path d="M{LEFT},{y:.1f}H{WIDTH - 8}" stroke="#E5E5E5"/>'
                     f'<text x="{LEFT - 6}" y="{y + 4:.1f}" text-anchor="end" font-size="11">{value}</text>')
    for number in range(5):
        time = span[0] + (span[1] - span[0]) * number // 4
        x = LEFT + number / 4 * (WIDTH - LEFT - 8)
        said = by_clock(time, unit) if unit and unit.clock is not None else f"{time / unit.size if unit else time:g}"
        anchor = "start" if number == 0 else "end" if number == 4 else "middle"
        parts.append(f'<text x="{x:.1f}" y="{HEIGHT - BOTTOM + 16}" text-anchor="{anchor}" '
                     f'font-size="11">{said}</text>')
    for number, (one, points) in reversed([*enumerate(zip(series, drawn))]):  # earlier branches cover later ones
        look = f'stroke="{COLOURS[number]}" stroke-dasharray="{DASHES[number]}" fill="none" stroke-width="1.3"'
        y = HEIGHT + 16 * number
        parts.append(f'<path d="{path_of(points, span, greatest)}" {look}/>'
                     f'<path d="M{LEFT},{y}H{LEFT + 44}" {look}/>'
                     f'<text x="{LEFT + 52}" y="{y + 4}" font-size="12">{escape(one.branch)}</text>')
    return "\n".join(parts) + "\n</svg>\n"
