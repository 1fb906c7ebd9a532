"""Sheets of loops that count down, with their answers worked out by hand from document 02, C-17.

A loop says where it starts, where it ends and its stride; i, j, k, l from outside in. The body
is work 1 unless said. A loop takes 25 bytes, one of kind 6 takes 27, a work 5, any other record 1.
"""

from typing import Sequence

from known import END, UNIT, ZERO, form, loop, span
from pumdalin.answers import Answer, Figures, Refusal
from pumdalin.inputs import Parameters
from pumdalin.records import Choice, Loop, NextArm, Record, Work, encode_all
from readings import Reading

BUDGET = 99


def nest(*loops: Loop) -> list[Record]:
    """Loops inside one another, around work 1."""
    return [*loops, UNIT, *[END] * len(loops)]


def reading(
    tells: str, records: Sequence[Record], answer: Answer, ways: str = "", *ceilings: int,
    parameters: Parameters = ZERO, budget: int = BUDGET,
) -> Reading:
    return Reading(parameters, budget, encode_all(list(records)), answer, ways, list(ceilings), tells)


def figures(cycles: int, visits: int) -> Figures:
    """Where least and most are the same."""
    return Figures(cycles, cycles, visits)


def first_parameter(value: int) -> Parameters:
    """The others are 0."""
    return value, 0, 0, 0


TRIPS = [
    reading("down by 1, i 9..0", nest(span(9, 0, -1)), figures(10, 1), "c", 10),
    reading("the lower form is still the start, i 0..9 by -1", nest(span(0, 9, -1)), figures(0, 0), "c", 0),
    reading("the last trip before the end, i 10..0 by -4", nest(span(10, 0, -4)), figures(3, 1), "c", 3),
    reading("rounded down, D -1 by -3, i 0..1 by -3", nest(span(0, 1, -3)), figures(0, 0), "c", 0),
    reading("stride -1,000, i 2000..0", nest(span(2000, 0, -1000)), figures(3, 1), "c", 3),
    reading("D -1,000 by -1,000, i -500..500", nest(span(-500, 500, -1000)), figures(0, 0), "c", 0),
]

SLANTED = [
    reading("the upper bound falls, i 9..0 by -1 { j 0..i-1 }", nest(span(9, 0, -1), loop(form(), form(-1, i=1))),
            figures(45, 4), "cc", 10, 9),
    reading("the start rises, i 0..9 { j i-1..0 by -1 }", nest(span(0, 9), loop(form(-1, i=1), form(), -1)),
            figures(45, 3), "cc", 10, 9),
    reading("the end rises, i 0..3 { j 5..i by -1 }", nest(span(0, 3), loop(form(5), form(i=1), -1)),
            figures(18, 4), "cc", 4, 6),
    reading("the start falls with i, i 3..0 by -1 { j i..3 }", nest(span(3, 0, -1), loop(form(i=1), form(3))),
            figures(10, 4), "cc", 4, 4),
    reading("D as one form, i 0..9 { j i..i by -1 }", nest(span(0, 9), loop(form(i=1), form(i=1), -1)),
            figures(10, 4), "cc", 10, 1),
    reading("i moves k's end by j's start, i 3..0 by -1 { j i..i+2 { k 0..j } }",
            nest(span(3, 0, -1), loop(form(i=1), form(2, i=1)), loop(form(), form(j=1))),
            figures(42, 15), "ccc", 4, 3, 6),
    reading("and by one that counts down, i 3..0 by -1 { j i+2..i by -1 { k 0..j } }",
            nest(span(3, 0, -1), loop(form(2, i=1), form(i=1), -1), loop(form(), form(j=1))),
            figures(42, 15), "ccc", 4, 3, 6),
    reading("up, down and up, i 0..3 { j i..0 by -1 { k 0..j } }",
            nest(span(0, 3), loop(form(i=1), form(), -1), loop(form(), form(j=1))), figures(20, 13), "ccc", 4, 4, 4),
    reading("a choice over a loop, i 9..0 by -1 { choice { j i-1..0 by -1 or work 4 } }", [
        span(9, 0, -1), Choice(), loop(form(-1, i=1), form(), -1), UNIT, END, NextArm(), Work(4, 4), END, END,
    ], Figures(30, 55, 19), "rc", 10, 9),
]

# How far an index goes: from the lower form's largest value down to the upper form's smallest.
INDEX_RANGES = [
    reading("down to the end, i 7..1 by -1 { j 3..i }", nest(span(7, 1, -1), loop(form(3), form(i=1))),
            figures(15, 12), "wc", 7, 5),
    reading("to the end, and not to the last trip, i 10..0 by -4 { j 2..i }",
            nest(span(10, 0, -4), loop(form(2), form(i=1))), figures(15, 6), "wc", 3, 9),
    reading("from the start's largest value, i 0..3 { j i..0 by -1 { k j..1 } }",
            nest(span(0, 3), loop(form(i=1), form(), -1), loop(form(j=1), form(1))), figures(11, 21), "wwc", 4, 4, 2),
    reading("to the end's smallest value, i 0..3 { j 4..i by -1 { k j..2 by -1 } }",
            nest(span(0, 3), loop(form(4), form(i=1), -1), loop(form(j=1), form(2), -1)),
            figures(23, 29), "wwc", 4, 5, 3),
    reading("a loop without a trip lies at its start, i 2..7 by -1 { j 0..2-i }",
            nest(span(2, 7, -1), loop(form(), form(2, i=-1))), figures(0, 0), "cc", 0, 1),
    reading("and at its largest one, i 0..3 { j i..9 by -1 { k j..5 } }",
            nest(span(0, 3), loop(form(i=1), form(9), -1), loop(form(j=1), form(5))), figures(0, 4), "wcc", 4, 0, 3),
    reading("the ceiling by the end, i 0..-9 by -1 { j 0..2039-i }",
            nest(span(0, -9, -1), loop(form(), form(2039, i=-1))), Refusal(6, 25)),
    reading("the ceiling by the start, i 0..9 { j i..0 by -1 { k 0..j+2039 } }",
            nest(span(0, 9), loop(form(i=1), form(), -1), loop(form(), form(2039, j=1))), Refusal(6, 50)),
    reading("the ceiling of a loop without a trip, i 2..7 by -1 { j 0..i+2046 }",
            nest(span(2, 7, -1), loop(form(), form(2046, i=1))), Refusal(6, 25)),
    reading("parameters, i p1..1 by -1 { j i..1 by -1 } with p1 0",
            nest(loop(form(p=(1,)), form(1), -1), loop(form(i=1), form(1), -1)), figures(0, 0), "cc", 0, 0),
    reading("and with p1 -5", nest(loop(form(p=(1,)), form(1), -1), loop(form(i=1), form(1), -1)),
            figures(0, 0), "wc", 0, 0, parameters=first_parameter(-5)),
]

# Both tests for closing take the stride's size.
CLOSING = [
    reading("uneven by -2, i 0..9 { j i..0 by -2 }", nest(span(0, 9), loop(form(i=1), form(), -2)),
            figures(30, 20), "wc", 10, 5),
    reading("one visit more than the budget", nest(span(0, 9), loop(form(i=1), form(), -2)), Refusal(8, 0), budget=19),
    reading("even by -2, i 0..18 by 2 { j i..0 by -2 }", nest(span(0, 18, 2), loop(form(i=1), form(), -2)),
            figures(55, 4), "cc", 10, 10),
    reading("even by 2 in one that counts down, i 18..0 by -2 { j 0..i by 2 }",
            nest(span(18, 0, -2), loop(form(), form(i=1), 2)), figures(55, 4), "cc", 10, 10),
    # With one of the two signs wrong, a trip of i would move k's D by 2, which 3 does not divide.
    reading("pushes that cancel, i 3..0 by -1 { j i+6..i by -3 { k j..i-9 by -3 } }",
            nest(span(3, 0, -1), loop(form(6, i=1), form(i=1), -3), loop(form(j=1), form(-9, i=1), -3)),
            figures(4 * (6 + 5 + 4), 15), "ccc", 4, 3, 7),
    reading("directions that cancel, i 0..3 { j -i..-i-6 by -3 { k i+j+9..0 by -3 } }",
            nest(span(0, 3), loop(form(i=-1), form(-6, i=-1), -3), loop(form(9, i=1, j=1), form(), -3)),
            figures(4 * (4 + 3 + 2), 15), "ccc", 4, 3, 5),
    reading("i moves j by its start, i 0..3 { j 2i+5..i by -1 { k 0..j by 2 } }",
            nest(span(0, 3), loop(form(5, i=2), form(i=1), -1), loop(form(), form(j=1), 2)),
            figures(12 + 19 + 28 + 38, 64), "wwc", 4, 9, 6),
    reading("the smallest D is minus the size, i 0..3 { j 0..2 by -2 }", nest(span(0, 3), span(0, 2, -2)),
            figures(0, 2), "cc", 4, 0),
    reading("and one less, i 0..3 { j 0..3 by -2 }", nest(span(0, 3), span(0, 3, -2)), figures(0, 4), "wc", 4, 0),
    reading("the smallest D is below the size, i 0..3 { j 2..0 by -3 }", nest(span(0, 3), span(2, 0, -3)),
            figures(4, 4), "cc", 4, 1),
]

SKIPS = [
    reading("skip in place of start, i 0..1 by -1, start 5, skip 2", nest(span(0, 1, -1, start=5, step=9, skip=2)),
            figures(2, 0), "c", 0),
    reading("a skip that differs asks for a D of 0, i 9..0 by -1 { j i..0 by -1, start 5, skip 1 }",
            nest(span(9, 0, -1), loop(form(i=1), form(), -1, start=5, skip=1)), figures(105, 4), "cc", 10, 10),
    reading("and -1 is too few, i 0..3 { j i-1..0 by -1, start 5, skip 1 }",
            nest(span(0, 3), loop(form(-1, i=1), form(), -1, start=5, skip=1)), figures(22, 7), "wc", 4, 3),
    reading("so it is by -2, i 0..3 { j 2i-1..0 by -2, start 5, skip 1 }",
            nest(span(0, 3), loop(form(-1, i=2), form(), -2, start=5, skip=1)), figures(22, 7), "wc", 4, 3),
]

REFUSED = [
    reading("stride -1,001", nest(span(2000, 0, -1001)), Refusal(3, 0)),
    reading("stride 0", nest(span(2000, 0, 0)), Refusal(3, 0)),
    reading("stride -32,768", nest(span(2000, 0, -32768)), Refusal(3, 0)),
    reading("stride -1,001 of kind 6, in a loop", nest(span(1, 0, -1), span(1, 0, -1001, skip=1)), Refusal(3, 25)),
    reading("i 2,048..0 by -1", nest(span(2048, 0, -1)), Refusal(6, 0)),
]

# More of the same, some with more trips than computed examples should have.
FURTHER = [
    reading("start, step and work as up, i 9..0, start 2, step 1, work 3..5", [
        span(9, 0, -1, start=2, step=1), Work(3, 5), END,
    ], Figures(42, 62, 1), "c", 10),
    reading("equal bounds are one trip, i 4..4 by -1", nest(span(4, 4, -1)), figures(1, 1), "c", 1),
    reading("down below 0, i -3..-9 by -2", nest(span(-3, -9, -2)), figures(4, 1), "c", 4),
    reading("D 2 by -3, i 2..0 by -3", nest(span(2, 0, -3)), figures(1, 1), "c", 1),
    reading("parameters, i p1..1 by -1 with p1 7", nest(loop(form(p=(1,)), form(1), -1)), figures(7, 1), "c", 7,
            parameters=first_parameter(7)),
    reading("a negative factor of a parameter, i -p1..1 by -1 with p1 -7", nest(loop(form(p=(-1,)), form(1), -1)),
            figures(7, 1), "c", 7, parameters=first_parameter(-7)),
    reading("both fall, i 9..0 by -1 { j i-1..0 by -1 }", nest(span(9, 0, -1), loop(form(-1, i=1), form(), -1)),
            figures(45, 4), "cc", 10, 9),
    reading("a negative factor, i 0..3 { j -i..-5 by -1 }", nest(span(0, 3), loop(form(i=-1), form(-5), -1)),
            figures(18, 4), "cc", 4, 6),
    reading("by the stride and not by 1, i 9..0 by -3 { j i..0 by -1 }",
            nest(span(9, 0, -3), loop(form(i=1), form(), -1)), figures(22, 4), "cc", 4, 10),
    reading("a start that follows a start, i 5..1 by -1 { j i..1 by -1 { k j..1 by -1 } }",
            nest(span(5, 1, -1), loop(form(i=1), form(1), -1), loop(form(j=1), form(1), -1)),
            figures(35, 15), "ccc", 5, 5, 5),
    reading("down, up and down, i 3..0 by -1 { j i..4 { k j+2..i-1 by -1 } }",
            nest(span(3, 0, -1), loop(form(i=1), form(4)), loop(form(2, j=1), form(-1, i=1), -1)),
            figures(9 + 15 + 22 + 30, 15), "ccc", 4, 5, 8),
    reading("start in place of skip, i 1..0 by -1, start 5, skip 2", nest(span(1, 0, -1, start=5, skip=2)),
            figures(7, 1), "c", 2),
    reading("a skip equal to start asks no more than kind 2, i 0..9 { j i-1..0 by -1, start 3, skip 3 }",
            nest(span(0, 9), loop(form(-1, i=1), form(), -1, start=3, skip=3)), figures(75, 3), "cc", 10, 9),
    reading("skip in the last trips, i 3..0 by -1 { j 2..i by -1, start 1, skip 4 }",
            nest(span(3, 0, -1), loop(form(2), form(i=1), -1, start=1, skip=4)), figures(4 + 2 + 3 + 4, 7), "wc", 4, 3),
    reading("stride 32,767", nest(span(0, 2000, 32767)), Refusal(3, 0)),
    reading("3 before 5, a fifth depth with stride -1,001", nest(*[span(1, 0, -1)] * 4, span(1, 0, -1001)),
            Refusal(3, 100)),
    reading("a fifth depth with stride -1,000", nest(*[span(1, 0, -1)] * 4, span(1, 0, -1000)), Refusal(5, 100)),
    reading("6 in a loop, i 0..1 { j i+2047..0 by -1 }", nest(span(0, 1), loop(form(2047, i=1), form(), -1)),
            Refusal(6, 25)),
    reading("6 by the size, i 32767..-32768 by -31", nest(span(32767, -32768, -31)), Refusal(6, 0)),
    reading("i 2,047..0 by -1", nest(span(2047, 0, -1)), figures(2048, 1), "c", 2048),
    reading("the ends of the constants, i 32767..-32768 by -32", nest(span(32767, -32768, -32)),
            figures(2048, 1), "c", 2048),
    reading("i 100p1..0 by -1,000 with p1 20,470", nest(loop(form(p=(100,)), form(), -1000)),
            figures(2048, 1), "c", 2048, parameters=first_parameter(20470)),
    reading("and with p1 20,480", nest(loop(form(p=(100,)), form(), -1000)), Refusal(6, 0),
            parameters=first_parameter(20480)),
    reading("i p1..1 by -1 { j i..1 by -1 } with p1 100",
            nest(loop(form(p=(1,)), form(1), -1), loop(form(i=1), form(1), -1)), figures(5050, 4), "cc", 100, 100,
            parameters=first_parameter(100)),
    reading("D's factor 255, i 0..3 { j 127i..-128i by -1 }", nest(span(0, 3), loop(form(i=127), form(i=-128), -1)),
            figures(1534, 4), "cc", 4, 766),
    reading("the largest ceiling in one that counts down, i 0..-2047 by -1 { j 0..-i }",
            nest(span(0, -2047, -1), loop(form(), form(i=-1))), figures(2098176, 4), "cc", 2048, 2048),
    reading("down, up and down, i 9..0 by -1 { j i..10 { k j+7..i-3 by -1 } }",
            nest(span(9, 0, -1), loop(form(i=1), form(10)), loop(form(7, j=1), form(-3, i=1), -1)),
            figures(935, 15), "ccc", 10, 11, 21),
    reading("four deep, i 9..0 by -1 { j i..0 by -1 { k j..0 by -1 { l k..0 by -1 } } }",
            nest(span(9, 0, -1), loop(form(i=1), form(), -1), loop(form(j=1), form(), -1), loop(form(k=1), form(), -1)),
            figures(715, 64), "cccc", 10, 10, 10, 10),
]

# Each other reading of document 02 answers one of these otherwise.
TELLING_DOWN = TRIPS + SLANTED + INDEX_RANGES + CLOSING + SKIPS + REFUSED

COUNTING_DOWN = TELLING_DOWN + FURTHER
