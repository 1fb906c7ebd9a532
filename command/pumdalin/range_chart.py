"""The chart of least and most over a range of one parameter."""

import os

from pumdalin.answers import Extreme, Extremes, Figures
from pumdalin.chart import (
    BELOW_AXIS, BESIDE_FRAME, LEGEND_LINE,
    Axis, Band, Chart, Entry, Frame, Line, Name, Point, Style, draw, picture, tick_number,
)
from pumdalin.inputs import ParameterRange

# Colours that stay apart for eyes that see red and green alike.
LEAST_STYLE = Style("#0072b2", "6 4", "circle")
MOST_STYLE = Style("#d55e00", "", "square")
BAND_COLOUR = "#808080"

WIDTH = 560.0
HEIGHT = 320.0
TOP = 60.0
MARGIN = 20.0
# No usual font has wider digits, nor wider letters of a title on the whole.
CHARACTER = 7.7
TITLE_CHARACTER = 9.0

MOST_CYCLES_TICKS = 6
MOST_VALUES_TICKS = 16
# So many values can be told apart when each has its marker.
MOST_MARKERS = 40


def range_svg(name: str, fixed: dict[int, int], over: ParameterRange, figures: list[Figures], extremes: Extremes) -> bytes:
    """The chart as SVG. `figures` are those at each value, `fixed` the values of other parameters, numbered from 0."""
    chart = range_chart(os.path.basename(name), subtitle(fixed, over), over, figures, extremes)
    frame, right = frame_of(chart)
    room = max(WIDTH + right, CHARACTER * len(chart.subtitle))
    height = TOP + HEIGHT + BELOW_AXIS + LEGEND_LINE * len(chart.legend)
    fitting = chart._replace(title=shortened(chart.title, int(room / TITLE_CHARACTER)))
    whole_title = f"{chart.title}: {chart.subtitle}"
    return picture(round(frame.left + room), round(height), whole_title, draw(fitting, frame)).encode("utf-8", "replace")


def subtitle(fixed: dict[int, int], over: ParameterRange) -> str:
    values = f"= {over.first}" if over.first == over.last else f"from {over.first} to {over.last}"
    others = ", ".join(f"p{number + 1} = {value}" for number, value in fixed.items())
    return f"least and most cycles for {over.name} {values}" + (f", with {others}" if others else "")


def range_chart(title: str, says: str, over: ParameterRange, figures: list[Figures], extremes: Extremes) -> Chart:
    least: list[Point] = list(zip(over.values(), (figure.least for figure in figures)))
    most: list[Point] = list(zip(over.values(), (figure.most for figure in figures)))
    least_style, most_style = (with_markers(style, len(figures)) for style in (LEAST_STYLE, MOST_STYLE))
    return Chart(
        title, values_axis(over), cycles_axis(extremes.least.cycles, extremes.most.cycles),
        [Band(BAND_COLOUR, least, most)], [line_of(most_style, most), line_of(least_style, least)],
        [Entry(most_style, "most"), Entry(least_style, "least")], says,
        [named("most", most_style, extremes.most, over), named("least", least_style, extremes.least, over)],
    )


def with_markers(style: Style, count: int) -> Style:
    """The style with its marker, or without it where there are too many values."""
    return style if count <= MOST_MARKERS else style._replace(marker="")


def line_of(style: Style, points: list[Point]) -> Line:
    return Line(style, points, points if style.marker else [])


def named(word: str, style: Style, extreme: Extreme, over: ParameterRange) -> Name:
    says = [f"{word} {extreme.cycles:,}", f"at {over.name} = {extreme.value}"]
    return Name(style.colour, (extreme.value, extreme.cycles), says)


def values_axis(over: ParameterRange) -> Axis:
    """Wider than the range, so that its ends, or its only value, stand inside."""
    room = max(0.5, (over.last - over.first) / 40)
    longest = max(len(tick_number(value)) for value in (over.first, over.last))
    step = tick_step(over.last - over.first, min(MOST_VALUES_TICKS, int(WIDTH / CHARACTER) // (longest + 1)))
    first = -(-over.first // step) * step
    return Axis(over.name, over.first - room, over.last + room, list(range(first, over.last + 1, step)))


def cycles_axis(least: int, most: int) -> Axis:
    """From 0, unless the figures lie close together far above it."""
    bottom = least if least < most < 2 * least else 0
    step = tick_step(most - bottom, MOST_CYCLES_TICKS)
    first = bottom // step * step
    last = max(-(-most // step), first // step + 1) * step
    return Axis("cycles", first, last, list(range(first, last + 1, step)))


def tick_step(span: int, most_steps: int) -> int:
    """The smallest of 1, 2, 5, 10, 20 and so on that takes at most so many steps for a span."""
    power = 1
    while span > 5 * power * most_steps:
        power *= 10
    return next(step for step in (power, 2 * power, 5 * power) if span <= step * most_steps)


def frame_of(chart: Chart) -> tuple[Frame, float]:
    """The frame, with room on its left for the numbers of the cycles, and the room on its right for the names."""
    numbers = CHARACTER * max(len(tick_number(tick)) for tick in chart.up.ticks)
    names = CHARACTER * max(len(says) for name in chart.names for says in name.says)
    beside = numbers + MARGIN
    return Frame(beside + MARGIN, TOP, WIDTH, HEIGHT, beside), BESIDE_FRAME + names


def shortened(text: str, length: int) -> str:
    return text if len(text) <= length else text[:length - 1] + "\N{HORIZONTAL ELLIPSIS}"
