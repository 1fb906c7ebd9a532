"""Charts as SVG text: axes, lines with markers, points that are named, legends. Numbers in, text out."""

import re
from math import log10
from typing import NamedTuple, Sequence

Point = tuple[float, float]

INK = "#000000"
GRID = "#d9d9d9"
FONT = "font-family=\"Helvetica, Arial, 'DejaVu Sans', sans-serif\""
TEXT_SIZE = 12
MARKER_SIZE = 4.0
LEGEND_LINE = 18.0
LEGEND_SAMPLE = 40.0
BELOW_AXIS = 66.0
RING_SIZE = 8.0
TEXT_LINE = 16.0
BESIDE_FRAME = 14.0
# Characters that no XML text may have, escaped or not.
FORBIDDEN = re.compile("[^\t\n\r\x20-\ud7ff\ue000-\ufffd\U00010000-\U0010ffff]")


class Axis(NamedTuple):
    """A named axis. A logarithmic one begins above 0."""

    name: str
    first: float
    last: float
    ticks: list[int]
    logarithmic: bool = False

    def share(self, value: float) -> float:
        """Where a value lies between the axis's ends: 0 to 1. Large whole numbers are subtracted before they are rounded."""
        if self.logarithmic:
            return (log10(value) - log10(self.first)) / (log10(self.last) - log10(self.first))
        return (value - self.first) / (self.last - self.first)


class Style(NamedTuple):
    """How a line looks; dashes and markers tell lines apart without colour."""

    colour: str = INK
    dashes: str = ""
    marker: str = ""


class Line(NamedTuple):
    style: Style
    points: list[Point]
    markers: list[Point]


class Band(NamedTuple):
    """The area between two lines over the same places."""

    colour: str
    lower: list[Point]
    upper: list[Point]


class Entry(NamedTuple):
    style: Style
    says: str


class Name(NamedTuple):
    """A point that is named: lines of text right of the frame, and a ring around the point."""

    colour: str
    point: Point
    says: list[str]


class Chart(NamedTuple):
    title: str
    across: Axis
    up: Axis
    bands: list[Band]
    lines: list[Line]
    legend: list[Entry]
    subtitle: str = ""
    names: Sequence[Name] = ()


class Frame(NamedTuple):
    """Where a chart's axes stand in the picture, and how far left of them the name of the upward one."""

    left: float
    top: float
    width: float
    height: float
    beside: float = 46.0

    def place(self, chart: Chart, point: Point) -> Point:
        return (
            self.left + self.width * chart.across.share(point[0]),
            self.top + self.height * (1 - chart.up.share(point[1])),
        )


def number(value: float) -> str:
    """One decimal is finer than a screen's dot."""
    return f"{value:.1f}".removesuffix(".0")


def pairs(points: list[Point]) -> str:
    return " ".join(f"{number(x)},{number(y)}" for x, y in points)


def escaped(says: str) -> str:
    return FORBIDDEN.sub("\ufffd", says).replace("&", "&amp;").replace("<", "&lt;").replace(">", "&gt;")


def words(at: Point, says: str, more: str = "") -> str:
    return f'<text x="{number(at[0])}" y="{number(at[1])}"{more}>{escaped(says)}</text>'


def stroke(first: Point, last: Point, colour: str) -> str:
    (x1, y1), (x2, y2) = first, last
    ends = f'x1="{number(x1)}" y1="{number(y1)}" x2="{number(x2)}" y2="{number(y2)}"'
    return f'<line {ends} stroke="{colour}"/>'


def polyline(points: list[Point], style: Style) -> str:
    dashes = f' stroke-dasharray="{style.dashes}"' if style.dashes else ""
    look = f'fill="none" stroke="{style.colour}" stroke-width="1.6"{dashes}'
    return f'<polyline points="{pairs(points)}" {look}/>'


# Markers as corners around their middle, in parts of the marker's size.
CORNERS = {
    "square": [(-0.9, -0.9), (0.9, -0.9), (0.9, 0.9), (-0.9, 0.9)],
    "diamond": [(0, -1.3), (1.3, 0), (0, 1.3), (-1.3, 0)],
    "triangle": [(0, -1.2), (1.1, 0.9), (-1.1, 0.9)],
}


def marker(at: Point, style: Style) -> str:
    look = f'fill="{style.colour}" stroke="#ffffff" stroke-width="0.7"'
    x, y = at
    if style.marker == "circle":
        return f'<circle cx="{number(x)}" cy="{number(y)}" r="{number(MARKER_SIZE)}" {look}/>'
    corners = [(x + MARKER_SIZE * dx, y + MARKER_SIZE * dy) for dx, dy in CORNERS[style.marker]]
    return f'<polygon points="{pairs(corners)}" {look}/>'


def tick_number(value: int) -> str:
    return f"{value:,}"


def tick_text(axis: Axis, value: int) -> list[str]:
    """A logarithmic axis names powers of ten; their exponents stand higher."""
    if not axis.logarithmic:
        return [tick_number(value)]
    return ["10", str(round(log10(value)))]


def tick_words(at: Point, texts: list[str], more: str) -> str:
    if len(texts) == 1:
        return words(at, texts[0], more)
    place = f'x="{number(at[0])}" y="{number(at[1])}"'
    raised = f'<tspan dy="-5" font-size="{TEXT_SIZE - 3}">{texts[1]}</tspan>'
    return f"<text {place}{more}>{texts[0]}{raised}</text>"


def draw_grid(chart: Chart, frame: Frame) -> list[str]:
    bottom, right = frame.top + frame.height, frame.left + frame.width
    drawn: list[str] = []
    for value in chart.across.ticks:
        x, _ = frame.place(chart, (value, chart.up.first))
        drawn.append(stroke((x, frame.top), (x, bottom), GRID))
        texts = tick_text(chart.across, value)
        drawn.append(tick_words((x, bottom + 18), texts, ' text-anchor="middle"'))
    for value in chart.up.ticks:
        _, y = frame.place(chart, (chart.across.first, value))
        drawn.append(stroke((frame.left, y), (right, y), GRID))
        texts = tick_text(chart.up, value)
        drawn.append(tick_words((frame.left - 7, y + 4), texts, ' text-anchor="end"'))
    return drawn


def draw_axes(chart: Chart, frame: Frame) -> list[str]:
    bottom, middle = frame.top + frame.height, frame.left + frame.width / 2
    beside = (frame.left - frame.beside, frame.top + frame.height / 2)
    turned = f' text-anchor="middle" transform="rotate(-90 {number(beside[0])} {number(beside[1])})"'
    return [
        stroke((frame.left, frame.top), (frame.left, bottom), INK),
        stroke((frame.left, bottom), (frame.left + frame.width, bottom), INK),
        words((middle, bottom + 40), chart.across.name, ' text-anchor="middle"'),
        words(beside, chart.up.name, turned),
        *draw_titles(chart, (frame.left, frame.top - 14)),
    ]


def draw_titles(chart: Chart, at: Point) -> list[str]:
    """The title, and under it the subtitle where there is one."""
    x, y = at
    bold = f' font-weight="bold" font-size="{TEXT_SIZE + 2}"'
    if not chart.subtitle:
        return [words(at, chart.title, bold)]
    return [words((x, y - TEXT_LINE), chart.title, bold), words(at, chart.subtitle)]


def draw_band(band: Band, chart: Chart, frame: Frame) -> str:
    around = [frame.place(chart, point) for point in band.upper + band.lower[::-1]]
    return f'<polygon points="{pairs(around)}" fill="{band.colour}" fill-opacity="0.13"/>'


def draw_line(line: Line, chart: Chart, frame: Frame) -> list[str]:
    drawn = [polyline([frame.place(chart, point) for point in line.points], line.style)]
    return drawn + [marker(frame.place(chart, point), line.style) for point in line.markers]


def pushed_down(heights: list[float], limit: float, distance: float) -> list[float]:
    """Heights from the top down, none above a limit, each at least a distance below the one before."""
    pushed: list[float] = []
    for height in heights:
        pushed.append(max(height, limit))
        limit = pushed[-1] + distance
    return pushed


def spread(heights: list[float], distance: float, top: float, bottom: float) -> list[float]:
    """Heights from the top down, moved so that texts there are apart and within the frame."""
    down = pushed_down(heights, top, distance)
    up = pushed_down([-height for height in reversed(down)], -bottom, distance)
    return [-height for height in reversed(up)]


def draw_names(chart: Chart, frame: Frame) -> list[str]:
    """The names in the order of their points, the topmost first."""
    named = sorted(((frame.place(chart, name.point), name) for name in chart.names), key=lambda pair: pair[0][1])
    distance = TEXT_LINE * (1 + max((len(name.says) for name in chart.names), default=0))
    heights = spread([y for (_, y), _ in named], distance, frame.top, frame.top + frame.height - TEXT_LINE / 2)
    right = frame.left + frame.width
    return [part for (at, name), height in zip(named, heights) for part in draw_name(name, at, right, height)]


def draw_name(name: Name, at: Point, right: float, height: float) -> list[str]:
    """A ring around the point, a thin line to its name, and the name's lines right of the frame around a height."""
    (x, y), beside = at, right + BESIDE_FRAME
    way = pairs([(x + RING_SIZE, y), (right, y), (beside - 4, height)])
    first = height + 4 - TEXT_LINE * (len(name.says) - 1) / 2
    look = f'fill="none" stroke="{name.colour}"'
    return [
        f'<circle cx="{number(x)}" cy="{number(y)}" r="{number(RING_SIZE)}" {look} stroke-width="1.6"/>',
        f'<polyline points="{way}" {look} stroke-width="0.8" stroke-dasharray="2 2"/>',
        *(words((beside, first + TEXT_LINE * position), says) for position, says in enumerate(name.says)),
    ]


def draw_entry(entry: Entry, at: Point) -> list[str]:
    x, y = at
    drawn = [polyline([(x, y), (x + LEGEND_SAMPLE, y)], entry.style)]
    if entry.style.marker:
        drawn.append(marker((x + LEGEND_SAMPLE / 2, y), entry.style))
    return drawn + [words((x + LEGEND_SAMPLE + 8, y + 4), entry.says)]


def draw_legend(chart: Chart, frame: Frame) -> list[str]:
    """Under the axis, where no line runs."""
    drawn: list[str] = []
    top = frame.top + frame.height + BELOW_AXIS
    for position, entry in enumerate(chart.legend):
        drawn += draw_entry(entry, (frame.left, top + LEGEND_LINE * position))
    return drawn


def draw(chart: Chart, frame: Frame) -> list[str]:
    drawn = draw_grid(chart, frame) + draw_axes(chart, frame)
    drawn += [draw_band(band, chart, frame) for band in chart.bands]
    for line in chart.lines:
        drawn += draw_line(line, chart, frame)
    return drawn + draw_names(chart, frame) + draw_legend(chart, frame)


def picture(width: int, height: int, title: str, parts: list[str]) -> str:
    """The whole file. The white ground keeps it readable on a dark page."""
    return "\n".join([
        f'<svg xmlns="http://www.w3.org/2000/svg" viewBox="0 0 {width} {height}" '
        f'width="{width}" height="{height}" role="img" {FONT} font-size="{TEXT_SIZE}" fill="{INK}">',
        f"<title>{escaped(title)}</title>",
        f'<rect width="{width}" height="{height}" fill="#ffffff"/>',
        *parts,
        "</svg>",
    ]) + "\n"
