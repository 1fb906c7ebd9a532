"""Calls over a range of a parameter, with their answers worked out by hand from document 02, C-14.

i, j from outside in; a body that is not said is work 1. A loop takes 25 bytes, one of kind 6 takes 27, a work 5, any
other record 1. Of loops that are closed a visit is one of their first trips: one of a loop with none inside, two of one
around such loops.
"""

from typing import NamedTuple, Sequence

from conversions import lent_bytes
from counting_down import nest
from known import END, LOOP_IN_ARM, PARAMETER, TRIANGLE, UNEVEN, UNIT, ZERO, form, loop, span
from long_sheets import FAULTS, works
from parameter_ranges import RANGE_AREA, Extremes, ParameterRange, RangeAnswer
from pumdalin.answers import Refusal
from pumdalin.inputs import LARGEST_BUDGET, PARAMETER_RANGE, Parameters
from pumdalin.records import COST_LIMIT, Choice, Loop, NextArm, Record, Work, encode_all

BUDGET = 300
LOWEST, HIGHEST = PARAMETER_RANGE


class RangeCase(NamedTuple):
    """A call, the area that the C call is lent, and the answer of the library call."""

    tells: str
    sheet: bytes
    parameters: Parameters
    budget: int
    over: ParameterRange
    area: bytes
    answer: RangeAnswer


def over(
    tells: str, records: Sequence[Record], first: int, last: int, answer: RangeAnswer, number: int = 1,
    parameters: Parameters = ZERO, budget: int = BUDGET, area: int = RANGE_AREA,
) -> RangeCase:
    """Over parameter 1 unless said."""
    sheet = encode_all(list(records))
    return RangeCase(tells, sheet, parameters, budget, ParameterRange(number, first, last), lent_bytes(area), answer)


def with_sheet(tells: str, sheet: bytes, first: int, last: int, answer: Refusal, budget: int = BUDGET) -> RangeCase:
    """A sheet whose bytes need not be records."""
    return over(tells, [], first, last, answer, budget=budget)._replace(sheet=sheet)


def to_p1(start: int = 1, stride: int = 1) -> Loop:
    """From a first index to p1."""
    return loop(form(start), form(p=(1,)), stride)


def from_p1(last: int, stride: int = 1) -> Loop:
    """From p1 to a last index."""
    return loop(form(p=(1,)), form(last), stride)


def around(outer: Loop, least: int = 1, most: int = 1) -> list[Record]:
    return [outer, Work(least, most), END]


def hill(top: int) -> list[Record]:
    """p1 trips of top - p1 trips each, for p1 from 0 to top: 4 visits where both have two trips or more."""
    return nest(to_p1(), from_p1(top - 1))


# As many cycles as p1, or none; a visit where p1 is 1 or more.
RISING = around(to_p1())
# As many as 11 - p1.
FALLING = around(from_p1(10))
# As many as p1 without its sign.
VALLEY = RISING + around(from_p1(-1))
# The same, and none from -2 to 0.
FLAT_VALLEY = RISING + around(from_p1(-3))
# 6 where p1 is even, 5 where it is odd.
ZIGZAG = around(to_p1(0, 2)) + around(from_p1(8, 2))

SHAPES = [
    over("figures rise, 1 to 16 colorants", RISING, 1, 16, Extremes(1, 1, 16, 16, 16)),
    over("figures fall", FALLING, 1, 10, Extremes(1, 10, 10, 1, 10)),
    over("figures fall and rise", VALLEY, -3, 2, Extremes(0, 0, 3, -3, 5)),
    # 9, 16, 21, 24, 25, 24, 21, 16
    over("figures rise and fall", hill(10), 1, 8, Extremes(9, 1, 25, 5, 2 + 7 * 4)),
    # 5, 4, 3, 2, 1, 0, 1, 2, 3
    over("the least is in the middle of negative values", around(from_p1(-5)) + around(to_p1(-3)), -9, -1,
         Extremes(0, -4, 5, -9, 8)),
    over("least falls while most rises", around(to_p1(), 0, 3) + FALLING, 1, 10, Extremes(1, 10, 31, 10, 20)),
    over("least rises while most falls", RISING + around(from_p1(10), 0, 3), 1, 10, Extremes(1, 1, 31, 1, 20)),
    over("one value", RISING, 7, 7, Extremes(7, 7, 7, 7, 1)),
    over("one value, least and most differ", around(to_p1(), 2, 5), 3, 3, Extremes(6, 3, 15, 3, 1)),
    over("one negative value", FALLING, -7, -7, Extremes(18, -7, 18, -7, 1)),
    over("one value, 0", VALLEY, 0, 0, Extremes(0, 0, 0, 0, 0)),
    over("two values", RISING, 3, 4, Extremes(3, 3, 4, 4, 2)),
    over("negative values", FALLING, -6, -2, Extremes(13, -2, 17, -6, 5)),
    over("from negative to positive values", FALLING, -1, 2, Extremes(9, 2, 12, -1, 4)),
]

TIES = [
    over("all values alike", TRIANGLE, 3, 6, Extremes(45, 3, 45, 3, 12)),
    over("least: the first three alike", RISING, -2, 2, Extremes(0, -2, 2, 2, 2)),
    over("least: the last three alike", around(from_p1(-1)), -2, 2, Extremes(0, 0, 2, -2, 2)),
    over("least: three in the middle alike; most: the first and the last", FLAT_VALLEY, -4, 2, Extremes(0, -2, 2, -4, 4)),
    # p1 times 9 - p1: 8, 14, 18, 20, 20, 18, 14, 8
    over("most: two in the middle alike; least: the first and the last", hill(9), 2, 7, Extremes(14, 2, 20, 4, 24)),
    over("most: the first two alike", hill(9), 4, 7, Extremes(14, 7, 20, 4, 16)),
    over("most: the last two alike", hill(9), 2, 5, Extremes(14, 2, 20, 4, 16)),
    over("alike by pairs, rising", around(to_p1(0, 2)), 0, 7, Extremes(1, 0, 4, 6, 8)),
    over("alike by pairs, falling", around(from_p1(9, 2)), 0, 7, Extremes(2, 6, 5, 0, 8)),
    over("every other value alike, most first", ZIGZAG, 0, 7, Extremes(5, 1, 6, 0, 16)),
    over("every other value alike, least first", ZIGZAG, 1, 8, Extremes(5, 1, 6, 2, 16)),
    over("two values alike", ZIGZAG[:3], 2, 3, Extremes(2, 2, 2, 2, 2)),
]

LENGTHS = [
    over("256 values", RISING, 1, 256, Extremes(1, 1, 256, 256, 256)),
    over("257 values", RISING, 1, 257, Refusal(11, 0)),
    over("256 values around 0, empty sheet", [], -128, 127, Extremes(0, -128, 0, -128, 0)),
    over("257 values around 0, empty sheet", [], -128, 128, Refusal(11, 0)),
    over("256 values, the last are the extremes", FALLING, -245, 10, Extremes(1, 10, 256, -245, 256)),
    over("255 values", FALLING, -244, 10, Extremes(1, 10, 255, -244, 255)),
    over("the lowest 256 values", [UNIT], LOWEST, LOWEST + 255, Extremes(1, LOWEST, 1, LOWEST, 0)),
    over("the lowest 257 values", [UNIT], LOWEST, LOWEST + 256, Refusal(11, 0)),
    over("the highest 256 values", [UNIT], HIGHEST - 255, HIGHEST, Extremes(1, HIGHEST - 255, 1, HIGHEST - 255, 0)),
    over("the highest 257 values", [UNIT], HIGHEST - 256, HIGHEST, Refusal(11, 0)),
    over("the lowest value alone", [UNIT], LOWEST, LOWEST, Extremes(1, LOWEST, 1, LOWEST, 0)),
    over("the highest value alone", [UNIT], HIGHEST, HIGHEST, Extremes(1, HIGHEST, 1, HIGHEST, 0)),
    over("a loop at the lowest values", around(from_p1(-32760)), LOWEST, -32765, Extremes(6, -32765, 9, LOWEST, 4)),
    over("a loop at the highest values", around(to_p1(32760)), 32764, HIGHEST, Extremes(5, 32764, 8, HIGHEST, 4)),
    over("minus the lowest value, which leaves 16 bits", around(loop(form(32765), form(p=(-1,)))), LOWEST, -32765,
         Extremes(1, -32765, 4, LOWEST, 4)),
    over("a large factor", around(loop(form(), form(p=(127,)))), 14, 16, Extremes(1779, 14, 2033, 16, 3)),
]

# Ranges that are refused whatever the sheet, the parameters and the budget.
REFUSED_RANGES = [
    ("number 0", ParameterRange(0, 1, 3)),
    ("number 5", ParameterRange(5, 1, 3)),
    ("number 6", ParameterRange(6, 1, 3)),
    ("number 255", ParameterRange(255, 1, 3)),
    ("number 257, whose low byte is 1", ParameterRange(257, 1, 3)),
    ("number 65,537, whose low bytes are 1", ParameterRange(65537, 1, 3)),
    ("number 2^31 + 1", ParameterRange(2 ** 31 + 1, 1, 3)),
    ("number 2^32 - 1", ParameterRange(2 ** 32 - 1, 1, 3)),
    ("number 2^32 - 4", ParameterRange(2 ** 32 - 4, 1, 3)),
    ("first above last", ParameterRange(1, 3, 2)),
    ("first far above last", ParameterRange(1, 300, -300)),
    ("first above last, both negative", ParameterRange(2, -2, -3)),
    ("first 0 above last -1", ParameterRange(4, 0, -1)),
    ("the highest above the lowest", ParameterRange(1, HIGHEST, LOWEST)),
    ("first above last by 255", ParameterRange(1, 255, 0)),
    ("257 values", ParameterRange(3, 0, 256)),
    ("512 values", ParameterRange(1, 0, 511)),
    ("32,768 values, 0 to the highest", ParameterRange(1, 0, HIGHEST)),
    ("32,769 values, the lowest to 0", ParameterRange(1, LOWEST, 0)),
    ("65,536 values", ParameterRange(1, LOWEST, HIGHEST)),
    ("65,535 values", ParameterRange(1, LOWEST + 1, HIGHEST)),
    ("number 0, first above last", ParameterRange(0, 1, 0)),
    ("number 5, 257 values", ParameterRange(5, 0, 256)),
    ("number 0, one value", ParameterRange(0, 0, 0)),
]


def refused_first(tells: str, asked: ParameterRange) -> list[RangeCase]:
    """11 before 7, before a refused sheet, and before 6 and 8 at every value."""
    alone = over("", RISING, *asked[1:], Refusal(11, 0), asked.number)
    return [
        alone._replace(tells=f"11 before 7: {tells}", budget=0),
        alone._replace(tells=f"11 before 1: {tells}", sheet=b"\x01"),
        alone._replace(tells=f"11 before 6: {tells}", sheet=encode_all([span(0, 2048), END])),
        alone._replace(tells=f"11 before 8: {tells}", sheet=encode_all(UNEVEN), budget=1),
        alone._replace(tells=f"11 before 7 and 2: {tells}", sheet=b"\x07", budget=2 ** 32 - 1),
    ]


RANGES = [
    over(f"11: {tells}", RISING, asked.first, asked.last, Refusal(11, 0), asked.number) for tells, asked in REFUSED_RANGES
] + [
    *refused_first("number 0", ParameterRange(0, 1, 3)),
    *refused_first("number 5", ParameterRange(5, 1, 3)),
    *refused_first("first above last", ParameterRange(1, 3, 2)),
    *refused_first("257 values", ParameterRange(1, 0, 256)),
]

BUDGETS = [
    over("budget 0", RISING, 1, 3, Refusal(7, 0), budget=0),
    over("budget 1,000,000", RISING, 1, 3, Extremes(1, 1, 3, 3, 3), budget=LARGEST_BUDGET),
    over("budget 1,000,001", RISING, 1, 3, Refusal(7, 0), budget=LARGEST_BUDGET + 1),
    over("budget 2^32 - 1", RISING, 1, 3, Refusal(7, 0), budget=2 ** 32 - 1),
    over("budget 65,536", RISING, 1, 3, Extremes(1, 1, 3, 3, 3), budget=65536),
    over("budget 0, no visit to make", RISING, -3, 0, Refusal(7, 0), budget=0),
    over("budget 0, empty sheet, 256 values", [], 0, 255, Refusal(7, 0), budget=0),
    over("7 before 6", RISING, 2049, 2051, Refusal(7, 0), budget=0),
    over("7 before 6 of the last value", RISING, 2047, 2049, Refusal(7, 0), budget=LARGEST_BUDGET + 1),
    *[with_sheet(f"7 before {number}: {tells}", sheet, 1, 3, Refusal(7, 0), budget=0) for tells, number, sheet in FAULTS],
]

# After a work, whatever the range: 1 to 5 do not rest on the parameters.
READER = [
    *[with_sheet(f"{tells} after a work", encode_all([UNIT]) + sheet, -1, 3, Refusal(number, 5))
      for tells, number, sheet in FAULTS],
    *[with_sheet(f"{tells}, 256 values", sheet, 0, 255, Refusal(number, 0)) for tells, number, sheet in FAULTS[:5]],
    over("129 records", works(129), 1, 3, Refusal(4, 640)),
    over("a loop is open at the end", RISING[:2], 1, 3, Refusal(5, 30)),
    over("a loop is open at the end, 6 at the first value", RISING[:2], 2049, 2050, Refusal(5, 30)),
    over("3 of a later record before 6", [*RISING, Work(2, 1)], 2049, 2050, Refusal(3, 31)),
    with_sheet("2 of a later record before 8", encode_all(RISING) + b"\x07", 1, 3, Refusal(2, 31), budget=1),
    with_sheet("1 of a later record before 6 and 8", encode_all(RISING) + b"\x01", 2048, 2050, Refusal(1, 31), budget=1),
]

# 100 times p1 upward, and back to 0: each has a ceiling above 2,048 on its side alone.
FAR_UP = [loop(form(), form(p=(100,))), END]
FAR_DOWN = [loop(form(p=(100,)), form()), END]

CEILINGS = [
    over("6 at the first value", [UNIT, *RISING], 2049, 2051, Refusal(6, 5)),
    over("6 at the second value", [UNIT, *RISING], 2048, 2051, Refusal(6, 5)),
    over("6 at the last value", [UNIT, *RISING], 2046, 2049, Refusal(6, 5)),
    over("2,048 trips at the last value", RISING, 2046, 2048, Extremes(2046, 2046, 2048, 2048, 3)),
    over("6 at one value", RISING, 2049, 2049, Refusal(6, 0)),
    over("6 at the first value alone", around(from_p1(0)), -2048, -2046, Refusal(6, 0)),
    over("6 at the last of 256 values", RISING, 1794, 2049, Refusal(6, 0)),
    over("6 at the highest value", FALLING + RISING, HIGHEST, HIGHEST, Refusal(6, 31)),
    over("6 at the first and at the last value, each in a loop of its own", FAR_DOWN + FAR_UP, -21, 21, Refusal(6, 0)),
    over("the first value's 6 stands after the last one's", FAR_UP + FAR_DOWN, -21, 21, Refusal(6, 26)),
    over("the last value's 6 alone", FAR_UP + FAR_DOWN, -20, 21, Refusal(6, 0)),
    over("6 of two loops at the first value", FAR_UP + RISING + FAR_UP, 21, 22, Refusal(6, 0)),
    over("6 of one loop at the first value, of one before it at the second", RISING + FAR_UP, 2048, 2049, Refusal(6, 31)),
    over("6 in a loop that makes no trip", [span(0, -1), *RISING, END], 2048, 2049, Refusal(6, 25)),
    over("6 by a parameter that is fixed", around(loop(form(1), form(p=(0, 1)))), 1, 3, Refusal(6, 0),
         parameters=(0, 2049, 0, 0)),
    over("6 at a later value before 8 of an earlier one", [UNIT, *RISING], 2046, 2049, Refusal(6, 5), budget=1),
    over("6 at the last value, the budget spent to the end", RISING, 2047, 2049, Refusal(6, 0), budget=2),
    over("6 at a later value, 20 visits at each and a budget of 1", UNEVEN + RISING, 2048, 2049, Refusal(6, 57), budget=1),
    over("6 at the first value, 8 without it", UNEVEN + RISING, 2049, 2050, Refusal(6, 57), budget=1),
    over("6 at the last of 256 values, the budget spent at the first", RISING, 1794, 2049, Refusal(6, 0), budget=1),
]

VISITS = [
    over("8 by the sum alone", RISING, 1, 4, Refusal(8, 0), budget=3),
    over("the sum is the budget", RISING, 1, 4, Extremes(1, 1, 4, 4, 4), budget=4),
    over("the sum is the budget, no visit at the first value", RISING, 0, 3, Extremes(0, 0, 3, 3, 3), budget=3),
    over("8 at the last value", RISING, 0, 3, Refusal(8, 0), budget=2),
    over("8 at the second value", RISING, 1, 9, Refusal(8, 0), budget=1),
    over("the budget spent, and no visit at the rest", around(from_p1(3)), 1, 6, Extremes(0, 4, 3, 1, 3), budget=3),
    over("8 before values without visits", around(from_p1(3)), 1, 6, Refusal(8, 0), budget=2),
    over("the budget spent at the first value", around(from_p1(1)), 1, 9, Extremes(0, 2, 1, 1, 1), budget=1),
    over("the budget spent, then a visit at the last value", VALLEY, -1, 1, Refusal(8, 0), budget=1),
    over("two visits, one on either side", VALLEY, -1, 1, Extremes(0, 0, 1, -1, 2), budget=2),
    over("no visit at any value", RISING, -9, 0, Extremes(0, -9, 0, -9, 0), budget=1),
    over("8 at one value", UNEVEN, 5, 5, Refusal(8, 0), budget=19),
    over("20 visits at one value, budget 20", UNEVEN, 5, 5, Extremes(30, 5, 30, 5, 20), budget=20),
    over("20 visits at each of two values, budget 40", UNEVEN, 5, 6, Extremes(30, 5, 30, 5, 40), budget=40),
    over("20 visits at each of two values, budget 39", UNEVEN, 5, 6, Refusal(8, 0), budget=39),
    over("256 visits, budget 256", RISING, 1, 256, Extremes(1, 1, 256, 256, 256), budget=256),
    over("256 visits, budget 255", RISING, 1, 256, Refusal(8, 0), budget=255),
]

# p2 + p3 + p4 - p1 + 1 trips.
ALL_FOUR = around(loop(form(p=(1,)), form(p=(0, 1, 1, 1))))
GIVEN = (1, 2, 3, 4)
# Over each parameter by its number: 10 - p1, 7 + p2, 6 + p3, 5 + p4 trips.
EACH_PARAMETER = {
    1: (0, 3, Extremes(7, 3, 10, 0, 4)),
    2: (5, 7, Extremes(12, 5, 14, 7, 3)),
    3: (-2, 0, Extremes(4, -2, 6, 0, 3)),
    4: (8, 9, Extremes(13, 8, 14, 9, 2)),
}


def with_given(number: int, value: int) -> Parameters:
    """The parameters with another value given for the one that is ranged."""
    return ParameterRange(number, 0, 0).at(GIVEN, value)


PARAMETERS = [
    over(f"parameter {number}, {value} is given for it", ALL_FOUR, first, last, answer, number, with_given(number, value))
    for number, (first, last, answer) in EACH_PARAMETER.items() for value in (GIVEN[number - 1], first - 1, LOWEST, HIGHEST)
] + [
    over("6 at the value that is given, which is not looked at", RISING, 1, 3, Extremes(1, 1, 3, 3, 3),
         parameters=(HIGHEST, 0, 0, 0)),
    over("an extreme at the value that is given", VALLEY, 1, 3, Extremes(1, 1, 3, 3, 3), parameters=(0, 0, 0, 0)),
    over("20 visits at the value that is given", [loop(form(1), form(p=(0, 1))), *RISING, END], 1, 2,
         Extremes(2, 1, 4, 2, 8), parameters=(20, 2, 0, 0)),
    *[over(f"parameter {number}, which no form has", TRIANGLE, -2, 2, Extremes(45, -2, 45, -2, 15), number)
      for number in (1, 2, 3, 4)],
    over("parameter 2, which no form has, parameter 1 is fixed", RISING, -5, 9, Extremes(6, -5, 6, -5, 15), 2, (6, 0, 0, 0)),
]

# i 0..9 over a choice of j 0..i+p1-1, as many trips as i + p1, and work 4.
RANKED = [LOOP_IN_ARM[0], Choice(), loop(form(), form(-1, i=1, p=(1,))), *LOOP_IN_ARM[3:]]

SORTS = [
    over("empty sheet", [], 1, 16, Extremes(0, 1, 0, 1, 0)),
    over("no loop", [Work(5, 9), UNIT], -3, 4, Extremes(6, -3, 10, -3, 0)),
    # p1 trips of j for i from 0 to p1, one less each; i 0 visits none of j
    over("closed, i 0..p1 { j 0..i-1 }", nest(to_p1(0), loop(form(), form(-1, i=1))), 8, 10, Extremes(36, 8, 55, 10, 9)),
    over("closed, i 1..p1 { j i..p1 }", PARAMETER, 99, 101, Extremes(4950, 99, 5151, 101, 12)),
    over("three deep, i, j and k 1..p1", nest(to_p1(), to_p1(), to_p1()), 2, 4, Extremes(8, 2, 64, 4, 10 + 15 + 15)),
    # 1, 1, 2, 2, .. of i 0 to p1; two visits of each
    over("walked, i 0..p1 { j 0..i by 2 }", nest(to_p1(0), loop(form(), form(i=1), 2)), 7, 9, Extremes(20, 7, 30, 9, 54)),
    # walked at 5, since j may fall below no trips: 7 visits of i and 5 of j
    over("walked at one value, closed at the others, i 1..7 { j i..p1 }",
         nest(span(1, 7), loop(form(i=1), form(p=(1,)))), 5, 7, Extremes(15, 5, 28, 7, 12 + 4 + 4)),
    # at 3 the arms cross, and all ten trips are visited; at 4 and 5 the loop is always slower
    over("ranked, not settled at one value, settled at the others", RANKED, 3, 5, Extremes(39, 3, 95, 5, 20 + 4 + 4)),
    over("ranked, settled at all values", RANKED, 4, 6, Extremes(40, 4, 105, 6, 12)),
    over("a skip above start", [loop(form(1), form(p=(1,)), start=5, skip=9), UNIT, END], -1, 3, Extremes(6, 1, 9, -1, 3)),
    over("a skip below start", [loop(form(1), form(p=(1,)), start=9, skip=2), UNIT, END], -1, 2, Extremes(2, -1, 11, 2, 2)),
    over("start and step", [loop(form(1), form(p=(1,)), start=7, step=2), UNIT, END], 0, 3, Extremes(7, 0, 16, 3, 3)),
    over("counting down, i p1..1", around(from_p1(1, -1)), 1, 4, Extremes(1, 1, 4, 4, 4)),
    over("counting down by 3, i p1..0", around(from_p1(0, -3)), 0, 7, Extremes(1, 0, 3, 6, 8)),
    over("counting down to p1", around(to_p1(5, -1)), 1, 7, Extremes(0, 6, 5, 1, 5)),
    over("a choice of a loop and a work", [Choice(), *RISING, NextArm(), Work(4, 6), END], 2, 8, Extremes(2, 2, 8, 8, 7)),
    over("the work is both extremes", [Choice(), *RISING, NextArm(), Work(0, 9), END], 2, 8, Extremes(0, 2, 9, 2, 7)),
    over("the arms cross", [Choice(), *RISING, NextArm(), *FALLING, END], 2, 9, Extremes(2, 2, 9, 2, 16)),
    over("a body of no cycles", [to_p1(), END], 0, 3, Extremes(0, 0, 0, 0, 3)),
]


def large(trips: int) -> int:
    """Loops of 2,048 trips, three deep in one of so many, around 120 works; all costs are the largest."""
    inside = 120 * COST_LIMIT
    for count in (2048, 2048, 2048, trips):
        inside = COST_LIMIT + count * (inside + COST_LIMIT)
    return inside


COSTLY = [loop(form(), form(p=(1,)), start=COST_LIMIT, step=COST_LIMIT)]
LARGE = COSTLY + [span(0, 2047, start=COST_LIMIT, step=COST_LIMIT)] * 3
# 2, 3 and 4 of the first trips from inside out, and 1 of the innermost loop
LARGE_VISITS = 4 * (1 + 3 * (1 + 2 * (1 + 1)))
MANY_LOOPS = [loop(form(), form(p=(1,)), start=2, step=1), END] * 64

LONG = [
    over("128 records", works(125) + RISING, 1, 3, Extremes(126, 1, 128, 3, 3)),
    over("129 records, the last an end", works(126) + RISING, 1, 3, Refusal(4, 660)),
    over("6 in the last loop of 128 records", works(125) + RISING, 2047, 2049, Refusal(6, 625)),
    over("64 loops, the budget just enough", MANY_LOOPS, 0, 3, Extremes(192, 0, 384, 3, 256), budget=256),
    over("64 loops, the budget one less", MANY_LOOPS, 0, 3, Refusal(8, 0), budget=255),
    over("figures above 2^62", [*LARGE, *[Work(COST_LIMIT, COST_LIMIT)] * 120, *[END] * 4], 2045, 2047,
         Extremes(large(2046), 2045, large(2048), 2047, 3 * LARGE_VISITS)),
    over("figures above 2^62, most alone", [*LARGE, *[Work(0, COST_LIMIT)] * 120, *[END] * 4], 2047, 2047,
         Extremes(large(2048) - 2048 ** 4 * 120 * COST_LIMIT, 2047, large(2048), 2047, LARGE_VISITS)),
]

AREAS = [
    over("area of 43 bytes: the last three stay", FALLING, -1, 2, Extremes(9, 2, 12, -1, 4), area=43),
    over("area of 64 bytes", FALLING, -1, 2, Extremes(9, 2, 12, -1, 4), area=64),
    over("area of 39 bytes", FALLING, -1, 2, Extremes(9, 2, 12, -1, 4), area=39),
    over("area of 24 bytes, which suffices for figures", RISING, 1, 3, Extremes(1, 1, 3, 3, 3), area=24),
    over("no area", RISING, 1, 3, Extremes(1, 1, 3, 3, 3), area=0),
    over("empty sheet, area of 41 bytes", [], LOWEST, LOWEST, Extremes(0, LOWEST, 0, LOWEST, 0), area=41),
    over("9 before 11", RISING, 1, 0, Refusal(11, 0), area=39),
    over("9 before 7", RISING, 1, 3, Refusal(7, 0), budget=0, area=39),
    over("9 before 5", [END], 1, 3, Refusal(5, 0), area=39),
    over("9 before 6", RISING, 2049, 2049, Refusal(6, 0), area=0),
    over("9 before 8", RISING, 1, 3, Refusal(8, 0), budget=1, area=39),
    over("11 leaves an area of 50 bytes", RISING, 1, 0, Refusal(11, 0), area=50),
    over("6 leaves an area of 50 bytes", RISING, 2048, 2049, Refusal(6, 0), area=50),
    over("8 leaves an area of 50 bytes", RISING, 1, 3, Refusal(8, 0), budget=2, area=50),
]

RANGE_CALLS = (
    SHAPES + TIES + LENGTHS + RANGES + BUDGETS + READER + CEILINGS + VISITS + PARAMETERS + SORTS + LONG + AREAS
)
