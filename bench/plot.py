"""Lines in panels as SVG, by the standard library alone: how cost grows."""
import html
import math

WIDTH, HEIGHT, LEFT, TOP, GAP = 300, 220, 56, 44, 28
COLORS = {"cloner": "#1f5fa8", "plain": "#999999"}


class Panel:
    """One panel: a title, what the axes say, and lines by name, each a list of points."""

    def __init__(self, title, across, lines):
        self.title, self.across, self.lines = title, across, lines
        points = [point for line in lines.values() for point in line]
        self.least = min(x for x, _ in points)
        self.most = max(x for x, _ in points)
        self.top = max(2.0, max(y for _, y in points) * 1.1)

    def place(self, point):
        """Where a point stands in the panel; the first axis is logarithmic."""
        span = math.log(self.most / self.least) or 1.0
        across = math.log(point[0] / self.least) / span
        return LEFT + across * WIDTH, TOP + HEIGHT * (1 - point[1] / self.top)


def text(x, y, said, anchor="middle", size=12):
    """A text at a place."""
    return (f'<text x="{x:.1f}" y="{y:.1f}" font-size="{size}" text-anchor="{anchor}" '
            f'font-family="sans-serif">{html.escape(said)}</text>')


def short(number):
    """A number for an axis."""
    for size, letter in ((1000000, "M"), (1000, "k")):
        if number >= size:
            return f"{number / size:g}{letter}"
    return f"{number:g}"


def axes(panel):
    """The frame of a panel, with its marks and texts."""
    parts = [f'<rect x="{LEFT}" y="{TOP}" width="{WIDTH}" height="{HEIGHT}" fill="none" stroke="#cccccc"/>',
             text(LEFT + WIDTH / 2, TOP - 14, panel.title, size=13),
             text(LEFT + WIDTH / 2, TOP + HEIGHT + 36, panel.across)]
    for x in sorted({point[0] for line in panel.lines.values() for point in line}):
        at = panel.place((x, 0))
        parts.append(text(at[0], at[1] + 16, short(x), size=10))
    step = 0.5 if panel.top <= 4 else math.ceil(panel.top / 6)
    for mark in range(int(panel.top / step) + 1):
        y = panel.place((panel.least, mark * step))[1]
        parts.append(f'<line x1="{LEFT}" x2="{LEFT + WIDTH}" y1="{y:.1f}" y2="{y:.1f}" stroke="#eeeeee"/>')
        parts.append(text(LEFT - 8, y + 4, f"{mark * step:g}", anchor="end", size=10))
    return parts


def drawn(panel):
    """The parts of a panel: axes, lines, and the lines' names."""
    parts = axes(panel)
    for number, (name, line) in enumerate(panel.lines.items()):
        color = COLORS.get(name, "#b05010")
        places = [panel.place(point) for point in line]
        joined = " ".join(f"{x:.1f},{y:.1f}" for x, y in places)
        parts.append(f'<polyline points="{joined}" fill="none" stroke="{color}" stroke-width="2"/>')
        parts += [f'<circle cx="{x:.1f}" cy="{y:.1f}" r="3" fill="{color}"/>' for x, y in places]
        parts.append(f'<rect x="{LEFT + 10}" y="{TOP + 10 + 18 * number}" width="12" height="4" fill="{color}"/>')
        parts.append(text(LEFT + 28, TOP + 16 + 18 * number, name, anchor="start"))
    return parts


def svg(panels):
    """The panels side by side, as the text of an SVG file."""
    wide, high = (LEFT + WIDTH + GAP) * len(panels), TOP + HEIGHT + 52
    parts = [f'<svg xmlns="http://www.w3.org/2000/svg" width="{wide}" height="{high}" viewBox="0 0 {wide} {high}">',
             f'<rect width="{wide}" height="{high}" fill="white"/>']
    for number, panel in enumerate(panels):
        parts.append(f'<g transform="translate({number * (LEFT + WIDTH + GAP)},0)">')
        parts += drawn(panel)
        parts.append("</g>")
    return "\n".join(parts + ["</svg>", ""])
