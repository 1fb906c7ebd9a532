"""Sheets with the reason of each of their loops, worked out by hand from document 02, C-11, C-12 and C-17.

A loop takes 25 bytes, one of kind 6 takes 27, a work 5, any other record 1.
"""

from typing import NamedTuple, Optional

import known
from known import END, UNIT, ZERO, form, loop, span
from pumdalin.inputs import Parameters
from pumdalin.records import Choice, Form, NextArm, Record, encode_all
from reasons import HoldsLoop, Reason, TooFewTrips, UnevenIn


class KnownReasons(NamedTuple):
    """A sheet, and for each loop in sheet order its reason, None if it is closed."""

    tells: str
    records: list[Record]
    reasons: list[Optional[Reason]]
    parameters: Parameters = ZERO

    def sheet(self) -> bytes:
        return encode_all(self.records)


CHOICE = Choice()
NEXT = NextArm()
FOUR = span(0, 3)
# loops in a loop i: one that passes every test, one that has too few trips, one that is uneven
FINE = loop(form(0), form(i=1))
FEW = loop(form(i=1), form(2))
ODD = loop(form(0), form(i=1), stride=2)


def three_deep(lower: Form, upper: Form) -> list[Record]:
    """i and j 0 to 3, k by 2 between these forms."""
    return [FOUR, FOUR, loop(lower, upper, stride=2), UNIT, END, END, END]


def four_deep(**factors: int) -> list[Record]:
    """i, j and k 0 to 3, l by 2 from 0 to the sum of indexes."""
    return [FOUR, FOUR, FOUR, loop(form(0), form(**factors), stride=2), UNIT, END, END, END, END]


CHOICES = [
    KnownReasons("a choice that holds a loop", known.LOOP_IN_ARM, [HoldsLoop(25), None]),
    KnownReasons("a choice in a choice: the outer one", [
        FOUR, CHOICE, CHOICE, FINE, END, END, END, END,
    ], [HoldsLoop(25), None]),
    KnownReasons("a choice in a second arm: the outer one", [
        FOUR, CHOICE, UNIT, NEXT, CHOICE, FINE, END, END, END, END,
    ], [HoldsLoop(25), None]),
    KnownReasons("the first choice holds no loop", [
        FOUR, CHOICE, UNIT, END, CHOICE, FINE, END, END, END,
    ], [HoldsLoop(32), None]),
    KnownReasons("the last of three arms holds the loop", [
        FOUR, CHOICE, UNIT, NEXT, NEXT, FINE, END, END, END,
    ], [HoldsLoop(25), None]),
    KnownReasons("two choices that hold loops: the first", [
        FOUR, CHOICE, FINE, END, END, CHOICE, FINE, END, END, END,
    ], [HoldsLoop(25), None, None]),
    KnownReasons("a choice after a loop with too few trips", [
        span(0, 9), FEW, UNIT, END, CHOICE, FINE, END, END, END,
    ], [HoldsLoop(56), None, None]),
    KnownReasons("a choice after an uneven loop", [
        span(0, 9), ODD, END, CHOICE, FINE, END, END, END,
    ], [HoldsLoop(51), None, None]),
    KnownReasons("a choice in an inner loop", [
        FOUR, FOUR, CHOICE, FINE, END, END, END, END,
    ], [HoldsLoop(50), HoldsLoop(50), None]),
    KnownReasons("a choice in an inner loop stands before one of the body", [
        FOUR, FOUR, CHOICE, FINE, END, END, END, CHOICE, FINE, END, END, END,
    ], [HoldsLoop(50), HoldsLoop(50), None, None]),
    KnownReasons("a choice of the body stands before one in an inner loop", [
        FOUR, CHOICE, FINE, END, END, FOUR, CHOICE, FINE, END, END, END, END,
    ], [HoldsLoop(25), None, HoldsLoop(78), None]),
    KnownReasons("a nest in an arm", [
        FOUR, CHOICE, FOUR, loop(form(0), form(j=1), stride=2), END, END, END, END,
    ], [HoldsLoop(25), UnevenIn(51, 26), None]),
    KnownReasons("a choice that holds no loop, around an inner loop's body", [
        FOUR, FINE, CHOICE, UNIT, END, END, END,
    ], [None, None]),
    KnownReasons("choices that hold no loop", [
        FOUR, CHOICE, CHOICE, UNIT, NEXT, END, NEXT, UNIT, END, ODD, END, END,
    ], [UnevenIn(41, 0), None]),
    KnownReasons("a choice around a sheet's loop", [CHOICE, FOUR, FINE, END, END, END], [None, None]),
    KnownReasons("nests in the arms of a sheet's choice", [
        CHOICE, span(0, 9), ODD, UNIT, END, END, NEXT, span(0, 9), FEW, UNIT, END, END, NEXT, FOUR, END, END,
    ], [UnevenIn(26, 1), None, TooFewTrips(84), None, None]),
]

FEW_TRIPS = [
    KnownReasons("too few trips", known.PARTLY_EMPTY, [TooFewTrips(25), None]),
    KnownReasons("too few trips, and uneven", [
        span(0, 9), loop(form(i=1), form(6), stride=2), UNIT, END, END,
    ], [TooFewTrips(25), None]),
    KnownReasons("D is minus the stride", [
        FOUR, loop(form(0), form(-3), stride=3), END, END,
    ], [None, None]),
    KnownReasons("D is one less than minus the stride", [
        FOUR, loop(form(0), form(-4), stride=3), END, END,
    ], [TooFewTrips(25), None]),
    KnownReasons("the smallest D is minus the stride", [
        span(0, 8, stride=2), loop(form(0), form(-2, i=1), stride=2), END, END,
    ], [None, None]),
    KnownReasons("the smallest D is one less than minus the stride", [
        span(0, 8, stride=2), loop(form(0), form(-3, i=1), stride=2), END, END,
    ], [TooFewTrips(25), None]),
    KnownReasons("too few trips, four deep", [
        FOUR, FOUR, FOUR, span(0, -5), END, END, END, END,
    ], [TooFewTrips(75), TooFewTrips(75), TooFewTrips(75), None]),
    KnownReasons("a loop that is never entered", [span(0, -1), span(0, -2), END, END], [TooFewTrips(25), None]),
    KnownReasons("a parameter of -1", [
        FOUR, loop(form(0), form(p=(1,))), END, END,
    ], [None, None], (-1, 0, 0, 0)),
    KnownReasons("a parameter of -2", [
        FOUR, loop(form(0), form(p=(1,))), END, END,
    ], [TooFewTrips(25), None], (-2, 0, 0, 0)),
]

UNEVEN = [
    KnownReasons("uneven", known.UNEVEN, [UnevenIn(25, 0), None]),
    KnownReasons("even by the outer stride", known.EVEN, [None, None]),
    KnownReasons("uneven in i alone", three_deep(form(0), form(i=1)), [UnevenIn(50, 0), None, None]),
    KnownReasons("uneven in j alone", three_deep(form(0), form(j=1)), [UnevenIn(50, 25), UnevenIn(50, 25), None]),
    KnownReasons("uneven in i and j", three_deep(form(0), form(i=1, j=1)), [UnevenIn(50, 0), UnevenIn(50, 25), None]),
    KnownReasons("uneven by the lower form", three_deep(form(i=-1), form(0)), [UnevenIn(50, 0), None, None]),
    KnownReasons("uneven in i by j's lower form", [
        FOUR, loop(form(i=1), form(3, i=1)), loop(form(0), form(j=1), stride=2), END, END, END,
    ], [UnevenIn(50, 0), UnevenIn(50, 25), None]),
    KnownReasons("even in i by j's lower form", [
        FOUR, loop(form(i=1), form(3, i=1)), loop(form(0), form(1, i=-1, j=1), stride=2), END, END, END,
    ], [UnevenIn(50, 25), UnevenIn(50, 25), None]),
    KnownReasons("even in i by its stride", [
        span(0, 6, stride=2), FOUR, loop(form(0), form(i=1, j=1), stride=2), END, END, END,
    ], [UnevenIn(50, 25), UnevenIn(50, 25), None]),
    KnownReasons("l uneven in i", four_deep(i=1), [UnevenIn(75, 0), None, None, None]),
    KnownReasons("l uneven in j", four_deep(j=1), [UnevenIn(75, 25), UnevenIn(75, 25), None, None]),
    KnownReasons("l uneven in k", four_deep(k=1), [UnevenIn(75, 50), UnevenIn(75, 50), UnevenIn(75, 50), None]),
    KnownReasons("l uneven in i and k", four_deep(i=1, k=1), [
        UnevenIn(75, 0), UnevenIn(75, 50), UnevenIn(75, 50), None,
    ]),
    KnownReasons("l uneven in j and k", four_deep(j=1, k=1), [
        UnevenIn(75, 25), UnevenIn(75, 25), UnevenIn(75, 50), None,
    ]),
    KnownReasons("l uneven in all", four_deep(i=1, j=1, k=1), [
        UnevenIn(75, 0), UnevenIn(75, 25), UnevenIn(75, 50), None,
    ]),
]

SEVERAL = [
    KnownReasons("a fine loop, one with too few trips, an uneven one", [
        span(0, 9), FINE, END, FEW, END, ODD, END, END,
    ], [TooFewTrips(51), None, None, None]),
    KnownReasons("an uneven loop before one with too few trips", [
        span(0, 9), ODD, END, FEW, END, END,
    ], [UnevenIn(25, 0), None, None]),
    KnownReasons("an uneven loop inside before one with too few trips", [
        span(0, 9), FOUR, loop(form(0), form(j=1), stride=2), END, END, FEW, END, END,
    ], [UnevenIn(50, 25), UnevenIn(50, 25), None, None]),
    KnownReasons("an uneven loop before one inside it with too few trips", [
        span(0, 9), ODD, span(0, -5), END, END, END,
    ], [UnevenIn(25, 0), TooFewTrips(50), None]),
    KnownReasons("nests after one another", known.UNEVEN + known.TRIANGLE + known.PARTLY_EMPTY, [
        UnevenIn(25, 0), None, None, None, TooFewTrips(139), None,
    ]),
    KnownReasons("closed nests", known.TRIANGLE + known.THREE_DEEP, [None] * 5),
]

# Offsets of three and four digits, the last ones in sheets of 64 and of 128 records.
FAR = [
    KnownReasons("a choice after 20 works", [UNIT] * 20 + known.LOOP_IN_ARM, [HoldsLoop(125), None]),
    KnownReasons("too few trips after 20 works", [UNIT] * 20 + known.PARTLY_EMPTY, [TooFewTrips(125), None]),
    KnownReasons("uneven after 30 loops", [FOUR, END] * 30 + [FOUR, ODD, END, END], [
        *[None] * 30, UnevenIn(805, 780), None,
    ]),
    KnownReasons("a choice after 64 works", [UNIT] * 64 + known.LOOP_IN_ARM, [HoldsLoop(345), None]),
    KnownReasons("a choice as the 121st of 128 records", [UNIT] * 119 + known.LOOP_IN_ARM, [HoldsLoop(620), None]),
    KnownReasons("too few trips as the 125th of 128 records", [UNIT] * 123 + known.PARTLY_EMPTY, [
        TooFewTrips(640), None,
    ]),
    KnownReasons("uneven after 62 loops", [FOUR, END] * 62 + [FOUR, ODD, END, END], [
        *[None] * 62, UnevenIn(1637, 1612), None,
    ]),
    KnownReasons("a loop around 63 loops, the last but one uneven", [
        FOUR, *[FINE, END] * 61, ODD, END, FINE, END, END,
    ], [UnevenIn(1611, 0), *[None] * 63]),
]

# Loops in a loop i that make no trip in its first trip: their skip is equal to start, below it, above it.
SAME = loop(form(0), form(-1, i=1), start=3, skip=3)
LESS = loop(form(0), form(-1, i=1), start=3, skip=1)
MORE = loop(form(0), form(-1, i=1), start=3, skip=5)
# Never without a trip.
ALWAYS = loop(form(0), form(i=1), start=3, skip=1)

SKIPS = [
    KnownReasons("a skip below start", [FOUR, LESS, UNIT, END, END], [TooFewTrips(25), None]),
    KnownReasons("a skip above start", [FOUR, MORE, UNIT, END, END], [TooFewTrips(25), None]),
    KnownReasons("a skip equal to start", [FOUR, SAME, UNIT, END, END], [None, None]),
    KnownReasons("a trip at least, whatever the skip", [FOUR, ALWAYS, UNIT, END, END], [None, None]),
    KnownReasons("D is -1, though not below minus the stride", [
        FOUR, span(0, -1, stride=1000, start=1, skip=0), END, END,
    ], [TooFewTrips(25), None]),
    KnownReasons("a skip equal to start, D below minus the stride", [
        FOUR, span(0, -2, start=1, skip=1), END, END,
    ], [TooFewTrips(25), None]),
    KnownReasons("too few trips by its skip, and uneven", [
        FOUR, loop(form(0), form(-1, i=1), stride=2, start=3, skip=1), END, END,
    ], [TooFewTrips(25), None]),
    KnownReasons("uneven, with a trip at least", [
        FOUR, loop(form(0), form(i=1), stride=2, start=3, skip=1), END, END,
    ], [UnevenIn(25, 0), None]),
    KnownReasons("a skip two deep", [
        FOUR, FOUR, loop(form(0), form(-1, i=1), start=3, skip=1), END, END, END,
    ], [TooFewTrips(50), TooFewTrips(50), None]),
    KnownReasons("a skip four deep", [
        FOUR, FOUR, FOUR, span(0, -1, start=1, skip=0), END, END, END, END,
    ], [TooFewTrips(75), TooFewTrips(75), TooFewTrips(75), None]),
    KnownReasons("a loop that is never entered", [
        span(0, -1), span(0, -1, start=2, skip=1), END, END,
    ], [TooFewTrips(25), None]),
    KnownReasons("its own skip is not asked", [span(0, -1, start=2, skip=1), FINE, END, END], [None, None]),
    KnownReasons("a choice after a skip", [
        FOUR, LESS, END, CHOICE, FINE, END, END, END,
    ], [HoldsLoop(53), None, None]),
    KnownReasons("a skip in a choice", [FOUR, CHOICE, LESS, END, END, END], [HoldsLoop(25), None]),
    KnownReasons("a fine loop, an uneven one, one with a skip", [
        span(0, 3, skip=9), ALWAYS, END, ODD, END, LESS, END, END,
    ], [UnevenIn(55, 0), None, None, None]),
    KnownReasons("a parameter that leaves no trip", [
        FOUR, loop(form(0), form(p=(1,)), start=1, skip=0), END, END,
    ], [TooFewTrips(25), None], (-1, 0, 0, 0)),
    KnownReasons("a parameter that leaves one", [
        FOUR, loop(form(0), form(p=(1,)), start=1, skip=0), END, END,
    ], [None, None]),
    KnownReasons("a skip after 30 loops of kind 6", [span(0, 3, skip=1), END] * 30 + [FOUR, LESS, END, END], [
        *[None] * 30, TooFewTrips(865), None,
    ]),
    KnownReasons("a skip after 62 loops of kind 6", [span(0, 3, skip=1), END] * 62 + [FOUR, LESS, END, END], [
        *[None] * 62, TooFewTrips(1761), None,
    ]),
]

FOUR_DOWN = span(3, 0, -1)
# Loops in a loop i whose D is i or i - 1, each from that down to 0.
FINE_DOWN = loop(form(i=1), form(), -1)
LESS_DOWN = loop(form(-1, i=1), form(), -1, start=3, skip=1)
ODD_DOWN = loop(form(i=1), form(), -2)

DOWN = [
    KnownReasons("both count down", [FOUR_DOWN, FINE_DOWN, END, END], [None, None]),
    KnownReasons("too few trips where i ends", [
        span(7, 1, -1), loop(form(3), form(i=1)), UNIT, END, END,
    ], [TooFewTrips(25), None]),
    KnownReasons("too few trips where i starts", [
        span(9, 3, -1), loop(form(7), form(i=1), -1), UNIT, END, END,
    ], [TooFewTrips(25), None]),
    KnownReasons("D is minus the stride's size", [FOUR, span(0, 3, -3), END, END], [None, None]),
    KnownReasons("D is one less than minus the stride's size", [
        FOUR_DOWN, span(0, 4, -3), END, END,
    ], [TooFewTrips(25), None]),
    KnownReasons("the smallest D is minus the stride's size", [
        span(8, 0, -2), loop(form(-2, i=1), form(), -2), END, END,
    ], [None, None]),
    KnownReasons("the smallest D is one less than minus the stride's size", [
        span(8, 0, -2), loop(form(-3, i=1), form(), -2), END, END,
    ], [TooFewTrips(25), None]),
    KnownReasons("too few trips and uneven, counting down", [
        span(0, 9), loop(form(6), form(i=1), -2), END, END,
    ], [TooFewTrips(25), None]),
    KnownReasons("uneven by -2", [FOUR, ODD_DOWN, END, END], [UnevenIn(25, 0), None]),
    KnownReasons("uneven by -2 in one that counts down", [FOUR_DOWN, ODD_DOWN, END, END], [UnevenIn(25, 0), None]),
    KnownReasons("even by -2 by the outer stride", [span(6, 0, -2), ODD_DOWN, END, END], [None, None]),
    KnownReasons("uneven in j alone, which counts down", [
        FOUR, FOUR_DOWN, loop(form(j=1), form(), -2), END, END, END,
    ], [UnevenIn(50, 25), UnevenIn(50, 25), None]),
    KnownReasons("uneven in i by j's start", [
        FOUR_DOWN, loop(form(i=1), form(-3, i=1), -1), loop(form(6, j=1), form(), -2), END, END, END,
    ], [UnevenIn(50, 0), UnevenIn(50, 25), None]),
    KnownReasons("even in i by j's start", [
        FOUR_DOWN, loop(form(i=1), form(-3, i=1), -1), loop(form(7, i=-1, j=1), form(), -3), END, END, END,
    ], [UnevenIn(50, 25), UnevenIn(50, 25), None]),
    KnownReasons("even in i by j's start, which falls as i grows", [
        FOUR, loop(form(i=-1), form(-3, i=-1), -1), loop(form(7, i=1, j=1), form(), -3), END, END, END,
    ], [UnevenIn(50, 25), UnevenIn(50, 25), None]),
    KnownReasons("even in i by j's start, and not by its end", [
        FOUR, loop(form(5, i=2), form(i=1), -1), loop(form(), form(j=1), 2), END, END, END,
    ], [UnevenIn(50, 25), UnevenIn(50, 25), None]),
    KnownReasons("l uneven in i and k", [
        FOUR_DOWN, FOUR, FOUR_DOWN, loop(form(i=1, k=1), form(), -2), END, END, END, END,
    ], [UnevenIn(75, 0), UnevenIn(75, 50), UnevenIn(75, 50), None]),
    KnownReasons("j goes down to its end's smallest value", [
        FOUR, loop(form(4), form(i=1), -1), loop(form(j=1), form(2), -1), END, END, END,
    ], [TooFewTrips(50), TooFewTrips(50), None]),
    KnownReasons("j starts at its start's largest value", [
        FOUR, FINE_DOWN, loop(form(j=1), form(1)), END, END, END,
    ], [TooFewTrips(50), TooFewTrips(50), None]),
    KnownReasons("j does not start above its start's largest value", [
        FOUR, FINE_DOWN, loop(form(j=1), form(2)), END, END, END,
    ], [None, None, None]),
    KnownReasons("without a trip i lies at its start", [
        span(2, 7, -1), loop(form(), form(2, i=-1)), END, END,
    ], [None, None]),
    KnownReasons("a choice after a loop with too few trips, counting down", [
        span(9, 0, -1), FEW, UNIT, END, CHOICE, FINE_DOWN, END, END, END,
    ], [HoldsLoop(56), None, None]),
    KnownReasons("an uneven loop before one with too few trips, counting down", [
        span(9, 0, -1), ODD_DOWN, END, FEW, END, END,
    ], [UnevenIn(25, 0), None, None]),
    KnownReasons("a skip below start, counting down", [FOUR, LESS_DOWN, END, END], [TooFewTrips(25), None]),
    KnownReasons("a skip equal to start, counting down", [
        FOUR, loop(form(-1, i=1), form(), -1, start=3, skip=3), END, END,
    ], [None, None]),
    KnownReasons("a trip at least, whatever the skip, counting down", [
        FOUR_DOWN, loop(form(i=1), form(), -1, start=3, skip=1), END, END,
    ], [None, None]),
    KnownReasons("D is -1, though not below minus the stride's size", [
        FOUR_DOWN, span(0, 1, -1000, start=1, skip=0), END, END,
    ], [TooFewTrips(25), None]),
    KnownReasons("a parameter of 2 that leaves one trip too few", [
        FOUR_DOWN, loop(form(), form(p=(1,)), -1), END, END,
    ], [TooFewTrips(25), None], (2, 0, 0, 0)),
]

KNOWN_REASONS = CHOICES + FEW_TRIPS + UNEVEN + SEVERAL + FAR + SKIPS + DOWN
