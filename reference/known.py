"""The sheets with known figures, in the order of the requirement's list; then one of document 02, C-19."""

from typing import NamedTuple, Optional

from pumdalin.answers import Answer, Figures, Refusal
from pumdalin.inputs import Parameters
from pumdalin.records import Choice, End, Form, Loop, NextArm, Record, Work, encode_all


def form(constant: int = 0, i: int = 0, j: int = 0, k: int = 0, p: tuple[int, ...] = ()) -> Form:
    """A form by its factors; those not given are 0."""
    return Form(constant, (i, j, k), tuple(p) + (0,) * (4 - len(p)))


def loop(
    lower: Form, upper: Form, stride: int = 1, start: int = 0, step: int = 0, skip: Optional[int] = None
) -> Loop:
    return Loop(start, step, stride, lower, upper, skip)


def span(
    first: int, last: int, stride: int = 1, start: int = 0, step: int = 0, skip: Optional[int] = None
) -> Loop:
    """A loop between two constants."""
    return loop(form(first), form(last), stride, start, step, skip)


UNIT = Work(1, 1)
END = End()
ZERO: Parameters = (0, 0, 0, 0)


class Known(NamedTuple):
    """A sheet, its answer, and c, r or w for each loop in sheet order."""

    tells: str
    records: list[Record]
    parameters: Parameters
    budget: int
    answer: Answer
    ways: str

    def sheet(self) -> bytes:
        return encode_all(self.records)


EMPTY: list[Record] = []
COSTS = [span(0, 9, start=2, step=1), Work(3, 5), END]
TRIANGLE = [span(0, 9), loop(form(0), form(-1, i=1)), UNIT, END, END]
PARTLY_EMPTY = [span(1, 7), loop(form(i=1), form(2)), UNIT, END, END]
UNEVEN = [span(0, 9), loop(form(0), form(i=1), stride=2), UNIT, END, END]
EVEN = [span(0, 18, stride=2), loop(form(0), form(i=1), stride=2), UNIT, END, END]
THREE_DEEP = [
    span(0, 9), loop(form(i=1), form(10)), loop(form(-3, i=1), form(7, j=1)),
    UNIT, END, END, END,
]
PARAMETER = [
    loop(form(1), form(p=(1,))), loop(form(i=1), form(p=(1,))), UNIT, END, END,
]
LOOP_IN_ARM = [
    span(0, 9), Choice(), loop(form(0), form(-1, i=1)), UNIT, END, NextArm(),
    Work(4, 4), END, END,
]
NO_TRIP = [span(0, -1, stride=3), UNIT, END]
# A loop of 2,048 trips, loops in it of 2,048 - i, as many works as 128 records have room for; all costs the largest.
LONG_OUTER = span(0, 2047, start=4095, step=4095)
LONG_INNER = loop(form(), form(2047, i=-1), start=4095, step=4095)
LARGEST_TERMS = [LONG_OUTER, *[LONG_INNER] * 3, *[Work(4095, 4095)] * 120, *[END] * 4]

MARKED = [
    Known("empty sheet", EMPTY, ZERO, 100, Figures(0, 0, 0), ""),
    Known("start 2, step 1, i 0 to 9, work 3 to 5", COSTS, ZERO, 100, Figures(42, 62, 1), "c"),
    Known("i 0 to 9, j 0 to i - 1", TRIANGLE, ZERO, 100, Figures(45, 45, 3), "cc"),
    Known("i 1 to 7, j i to 2", PARTLY_EMPTY, ZERO, 100, Figures(3, 3, 9), "wc"),
    Known("i 0 to 9, j 0 to i by 2", UNEVEN, ZERO, 100, Figures(30, 30, 20), "wc"),
    Known("i 0 to 18 by 2, j 0 to i by 2", EVEN, ZERO, 100, Figures(55, 55, 4), "cc"),
    Known("i 0 to 9, j i to 10, k i - 3 to j + 7", THREE_DEEP, ZERO, 100,
          Figures(935, 935, 15), "ccc"),
    Known("i 1 to N, j i to N, N 100", PARAMETER, (100, 0, 0, 0), 100,
          Figures(5050, 5050, 4), "cc"),
    Known("i 1 to N, j i to N, N 0", PARAMETER, ZERO, 100, Figures(0, 0, 0), "cc"),
    Known("i 0 to 9 over a choice of (j 0 to i - 1) and work 4 to 4", LOOP_IN_ARM, ZERO, 100,
          Figures(30, 55, 19), "rc"),
    Known("i 0 to -1 by 3", NO_TRIP, ZERO, 100, Figures(0, 0, 0), "c"),
]

OTHERS = [
    Known("i 0 to 2,047", [span(0, 2047), UNIT, END], ZERO, 100, Figures(2048, 2048, 1), "c"),
    Known("i 0 to 2,048", [span(0, 2048), UNIT, END], ZERO, 100, Refusal(6, 0), ""),
    Known("20 visits, budget 20", UNEVEN, ZERO, 20, Figures(30, 30, 20), "wc"),
    Known("20 visits, budget 19", UNEVEN, ZERO, 19, Refusal(8, 0), ""),
]

# More trips than can be gone over: no listing has such a sheet, since what listings expect is gone over trip by trip.
TOO_MANY_TRIPS = [
    Known("i 0 to 2,047, j, k and l each 0 to 2,047 - i, 120 works", LARGEST_TERMS, ZERO, 100,
          Figures(2181362195304718335, 2181362195304718335, 64), "cccc"),
]
