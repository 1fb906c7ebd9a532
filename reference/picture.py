"""The picture of the README: figures over a parameter, and visits against trips.

    python3 picture.py FILE [--check]

writes FILE, or with --check compares it with what stands there. Least and most
come from going over every trip, visits from their definition.
"""

from typing import NamedTuple

import trips
import visiting
from known import END, UNIT, form, loop
from pumdalin.chart import Axis, Band, Chart, Entry, Frame, Line, Point, Style, draw, picture
from pumdalin.inputs import Parameters
from pumdalin.records import Choice, Form, NextArm, Record, Work
from stored import main

LARGEST_PARAMETER = 24
MARK_EVERY = 4
TRIP_LIMIT = 100_000
SIZES = [1, 2, 3, 5, 8, 13, 21, 34, 55, 89, 144, 233, 377, 610]

# Colours that stay apart for eyes that see red and green alike.
BLUE, ORANGE, GREEN, PURPLE = "#0072b2", "#d55e00", "#009e73", "#aa4499"
SOLID, DASHED, DOTTED, MIXED = "", "7 4", "2 3", "9 3 2 3"

N: Form = form(p=(1,))
I: Form = form(i=1)


class Sheet(NamedTuple):
    """Records in which N is parameter 1."""

    says: str
    colour: str
    marker: str
    records: list[Record]


TRIANGLE = Sheet(
    "closed: i 1 to N, j i to N, work 3 to 4", BLUE, "circle",
    [loop(form(1), N), loop(I, N), Work(3, 4), END, END],
)
UNEVEN = Sheet(
    "i walked: i 1 to N, j 1 to i by 2, work 3 to 4", ORANGE, "square",
    [loop(form(1), N), loop(form(1), I, stride=2), Work(3, 4), END, END],
)
CHOICE = Sheet(
    "i ranked: i 1 to N, a choice of j 1 to i and work 4", GREEN, "triangle",
    [loop(form(1), N), Choice(), loop(form(1), I), UNIT, END, NextArm(), Work(4, 4), END, END],
)
THREE_DEEP = Sheet(
    "closed: i 1 to N, j i to N, k j to N", PURPLE, "diamond",
    [loop(form(1), N), loop(I, N), loop(form(j=1), N), UNIT, END, END, END],
)
CHOICE_IN_TWO = Sheet(
    "i walked, j ranked: i, j 1 to N, a choice of k 1 to i and work 1", GREEN, "triangle",
    [loop(form(1), N), loop(form(1), N), Choice(), loop(form(1), I), UNIT, END, NextArm(), UNIT,
     END, END, END],
)


def at(value: int) -> Parameters:
    return (value, 0, 0, 0)


def figures_over_parameter(sheet: Sheet) -> tuple[list[Point], list[Point]]:
    """Least and most at each N."""
    least: list[Point] = []
    most: list[Point] = []
    for value in range(LARGEST_PARAMETER + 1):
        bounds = trips.time(sheet.records, at(value), TRIP_LIMIT)
        least.append((value, bounds.least))
        most.append((value, bounds.most))
    return least, most


def visits_against_trips(sheet: Sheet) -> list[Point]:
    """Trips and visits at growing N, as far as the trips can be gone over."""
    points: list[Point] = []
    for value in SIZES:
        try:
            made = trips.trips(sheet.records, at(value), TRIP_LIMIT)
        except trips.TooMany:
            break
        points.append((made, visiting.visits(sheet.records, at(value), TRIP_LIMIT)))
    return points


def figures_chart() -> Chart:
    bands: list[Band] = []
    lines: list[Line] = []
    legend: list[Entry] = []
    for sheet in (TRIANGLE, UNEVEN, CHOICE):
        least, most = figures_over_parameter(sheet)
        bands.append(Band(sheet.colour, least, most))
        for points, dashes in ((most, SOLID), (least, DASHED)):
            style = Style(sheet.colour, dashes, sheet.marker)
            lines.append(Line(style, points, points[::MARK_EVERY]))
        legend.append(Entry(Style(sheet.colour, SOLID, sheet.marker), sheet.says))
    legend += [Entry(Style(dashes=SOLID), "most"), Entry(Style(dashes=DASHED), "least")]
    return Chart(
        "(a) Least and most over a parameter",
        Axis("N: the value of parameter 1", 0, LARGEST_PARAMETER, list(range(0, 25, 4))),
        Axis("cycles", 0, 1200, list(range(0, 1201, 200))),
        bands, lines, legend,
    )


def visits_chart() -> Chart:
    every_trip = Style(dashes=DOTTED)
    lines = [Line(every_trip, [(1, 1), (TRIP_LIMIT, TRIP_LIMIT)], [])]
    legend = [Entry(every_trip, "every trip visited")]
    shown = [
        (CHOICE_IN_TWO, MIXED, CHOICE_IN_TWO.says),
        (UNEVEN, DASHED, "i walked: i 1 to N, j 1 to i by 2"),
        (THREE_DEEP, SOLID, THREE_DEEP.says),
        (TRIANGLE, SOLID, "closed: i 1 to N, j i to N"),
    ]
    for sheet, dashes, says in shown:
        style = Style(sheet.colour, dashes, sheet.marker)
        points = visits_against_trips(sheet)
        lines.append(Line(style, points, points))
        legend.append(Entry(style, says))
    powers = [10 ** power for power in range(6)]
    return Chart(
        "(b) Visits against trips",
        Axis("trips made by all loops, at growing N", 1, TRIP_LIMIT, powers, True),
        Axis("visits: trips worked through", 1, TRIP_LIMIT, powers, True),
        [], lines, legend,
    )


def svg() -> bytes:
    left = draw(figures_chart(), Frame(72, 40, 400, 310))
    right = draw(visits_chart(), Frame(576, 40, 400, 310))
    title = "Least and most cycles over a parameter, and visits against trips"
    return picture(1000, 508, title, left + right).encode()


if __name__ == "__main__":
    main(svg)
