"""Sheets of ranked loops, with their answers worked out by hand from document 02, C-18.

i, j, k, l from outside in; a body that is not said is work 1. An arm is given by its least and most in the
first trips, and <a, b, ..> are the coefficients of a Newton series. A loop takes 25 bytes, a choice 1.
"""

from counting_down import first_parameter, reading
from known import END, UNIT, form, loop, span
from pumdalin.answers import Figures, Refusal
from pumdalin.records import Choice, Loop, NextArm, Record, Work

# Bounds of a loop in i 0..9: as many trips as i + 1, i, 10 - i.
GROWING = loop(form(), form(i=1))
FROM_NONE = loop(form(), form(-1, i=1))
FALLING = loop(form(), form(9, i=-1))


def arms(*each: list[Record]) -> list[Record]:
    """A choice of these arms."""
    first, *others = each
    return [Choice(), *first, *[record for arm in others for record in (NextArm(), *arm)], END]


def around(outer: Loop, *inside: list[Record]) -> list[Record]:
    """A loop around what follows one another."""
    return [outer, *[record for part in inside for record in part], END]


def each(inner: Loop, least: int = 1, most: int = 1) -> list[Record]:
    """A loop over a work."""
    return around(inner, [Work(least, most)])


def steady(least: int, most: int) -> list[Record]:
    """An arm that takes the same in every trip."""
    return [Work(least, most)]


TEN = span(0, 9)
NOTHING: list[Record] = []

SETTLED = [
    # <2, 2> above <1, 1>, <3, 3> above <2, 2>
    reading("two ways through, one always slower, i 0..9 { choice { j 0..i work 2..3 or j 0..i work 1..2 } }",
            around(TEN, arms(each(GROWING, 2, 3), each(GROWING, 1, 2))), Figures(55, 165, 6), "rcc", 10, 10, 10),
    reading("a loop and nothing, i 0..9 { choice { j 0..i or } }",
            around(TEN, arms(each(GROWING), NOTHING)), Figures(0, 55, 4), "rc", 10, 10),
    # <0, 1> above <0, 0>: the tie in the first trip counts for both
    reading("equal in the first trip, i 0..9 { choice { j 0..i-1 or } }",
            around(TEN, arms(each(FROM_NONE), NOTHING)), Figures(0, 45, 3), "rc", 10, 9),
    reading("equal arms, i 0..9 { choice { j 0..9-i or j 0..9-i } }",
            around(TEN, arms(each(FALLING), each(FALLING))), Figures(55, 55, 6), "rcc", 10, 10, 10),
    # <10, -1> below <10, 0>: a falling arm
    reading("one falls from the other, i 0..9 { choice { j 0..9-i or work 10 } }",
            around(TEN, arms(each(FALLING), steady(10, 10))), Figures(55, 100, 4), "rc", 10, 10),
    # least 5 against <1, 1>, unsettled; with a third arm of 0 that one is the fastest
    reading("the third arm is the fastest and the slowest, i 0..9 { choice { work 5 or j 0..i or j 0..i work 0..6 } }",
            around(TEN, arms(steady(5, 5), each(GROWING), each(GROWING, 0, 6))), Figures(0, 330, 6), "rcc", 10, 10, 10),
    # most <1, 0>, <0, 1>, <1, 1>
    reading("the third arm is above two that cross, i 0..9 { choice { work 0..1 or j 0..i-1 work 0..1 or j 0..i work 0..1 } }",
            around(TEN, arms(steady(0, 1), each(FROM_NONE, 0, 1), each(GROWING, 0, 1))),
            Figures(0, 55, 5), "rcc", 10, 9, 10),
    reading("the second arm is the slowest, i 0..9 { choice { or j 0..i or work 1 } }",
            around(TEN, arms(NOTHING, each(GROWING), steady(1, 1))), Figures(0, 55, 4), "rc", 10, 10),
    reading("the second arm is the fastest, i 0..9 { choice { j 0..i or or j 0..i work 2 } }",
            around(TEN, arms(each(GROWING), NOTHING, each(GROWING, 2, 2))), Figures(0, 110, 6), "rcc", 10, 10, 10),
    # least <2, 2> and <1, 1>, most <2, 2> and <4, 4>
    reading("the slowest arm is also the fastest, i 0..9 { choice { j 0..i work 2 or j 0..i work 1..4 } }",
            around(TEN, arms(each(GROWING, 2, 2), each(GROWING, 1, 4))), Figures(55, 220, 6), "rcc", 10, 10, 10),
    # least <0, 0>, <1, 1>; most <0, 0>, <1, 1>
    reading("the fastest arm is another than the slowest, i 0..9 { choice { j 0..i or work 0 } }",
            around(TEN, arms(each(GROWING), steady(0, 0))), Figures(0, 55, 4), "rc", 10, 10),
    reading("two choices, i 0..9 { choice { j 0..i or }; choice { work 3 or j 0..9-i work 0 } }",
            around(TEN, arms(each(GROWING), NOTHING), arms(steady(3, 3), each(FALLING, 0, 0))),
            Figures(0, 85, 6), "rcc", 10, 10, 10),
    reading("a choice without loops beside one, i 0..9 { choice { work 1..9 or work 2..8 }; choice { j 0..i } }",
            around(TEN, arms(steady(1, 9), steady(2, 8)), arms(each(GROWING))), Figures(65, 145, 4), "rc", 10, 10),
    reading("a loop beside the choice, i 0..9 { j 0..9-i; choice { j 0..i or } }",
            around(TEN, each(FALLING), arms(each(GROWING), NOTHING)), Figures(55, 110, 6), "rcc", 10, 10, 10),
    reading("a choice without loops in an arm, i 0..9 { choice { choice { work 1 or work 2 }; j 0..i or } }",
            around(TEN, arms(arms(steady(1, 1), steady(2, 2)) + each(GROWING), NOTHING)), Figures(0, 75, 4), "rc", 10, 10),
    reading("a choice without loops in a loop of an arm, i 0..9 { choice { j 0..i { choice { work 1 or work 2 } } } }",
            around(TEN, arms(around(GROWING, arms(steady(1, 1), steady(2, 2))))), Figures(55, 110, 4), "rc", 10, 10),
    # sums of 1, 3, 6, .. 55
    reading("height 2, i 0..9 { choice { j 0..i { k 0..j } or } }",
            around(TEN, arms(around(GROWING, each(loop(form(), form(j=1)))), NOTHING)),
            Figures(0, 220, 13), "rcc", 10, 10, 10),
    # the arm of height 1 is compared in three trips too
    reading("arms of heights 2 and 1, i 0..9 { choice { j 0..i { k 0..j } or j 0..i } }",
            around(TEN, arms(around(GROWING, each(loop(form(), form(j=1)))), each(GROWING))),
            Figures(55, 220, 16), "rccc", 10, 10, 10, 10),
    reading("height 3, i 0..9 { choice { j 0..i { k 0..j { l 0..k } } or } }",
            around(TEN, arms(around(GROWING, around(loop(form(), form(j=1)), each(loop(form(), form(k=1))))), NOTHING)),
            Figures(0, 715, 41), "rccc", 10, 10, 10, 10),
    reading("down, i 9..0 by -1 { choice { j i..9 or } }",
            around(span(9, 0, -1), arms(each(loop(form(i=1), form(9))), NOTHING)), Figures(0, 55, 4), "rc", 10, 10),
    reading("start, skip and step, i 0..9 start 2 step 1 { choice { j 0..i start 5 skip 1 step 2 or work 8 } }",
            around(span(0, 9, start=2, step=1),
                   arms(each(loop(form(), form(i=1), start=5, step=2, skip=1)), steady(8, 8))),
            Figures(92, 227, 4), "rc", 10, 10),
    reading("after it, i 0..9 { choice { j 0..i or } }; i 0..4 { choice { j 0..i } }",
            around(TEN, arms(each(GROWING), NOTHING)) + around(span(0, 4), arms(each(GROWING))),
            Figures(15, 70, 8), "rcrc", 10, 10, 5, 5),
]

NOT_SETTLED = [
    # <20, -2> and <10, -1>: the coefficient -2 is the smaller one, so neither is above
    reading("both fall to the same, i 0..9 { choice { j 0..9-i work 2 or j 0..9-i } }",
            around(TEN, arms(each(FALLING, 2, 2), each(FALLING))), Figures(55, 110, 30), "rcc", 10, 10, 10),
    # <10, -1> against <0, 0>: coefficients decide, though no value in ten trips is below 0
    reading("it falls towards nothing, i 0..9 { choice { j 0..9-i or } }",
            around(TEN, arms(each(FALLING), NOTHING)), Figures(0, 55, 20), "rc", 10, 10),
    reading("the same down, i 9..0 by -1 { choice { j 0..i or } }",
            around(span(9, 0, -1), arms(each(GROWING), NOTHING)), Figures(0, 55, 20), "rc", 10, 10),
    # <1, 1> and <4, 0>
    reading("they cross, i 0..9 { choice { j 0..i or work 4 } }",
            around(TEN, arms(each(GROWING), steady(4, 4))), Figures(34, 61, 20), "rc", 10, 10),
    # most <1, 1>, <4, 0>; the least is settled
    reading("only the most crosses, i 0..9 { choice { j 0..i work 0..1 or work 0..4 } }",
            around(TEN, arms(each(GROWING, 0, 1), steady(0, 4))), Figures(0, 61, 20), "rc", 10, 10),
    reading("only the least crosses, i 0..9 { choice { j 0..i work 1..9 or work 4..9 } }",
            around(TEN, arms(each(GROWING, 1, 9), steady(4, 9))), Figures(34, 495, 20), "rc", 10, 10),
    # <1, 1> and <0, 2>: 1, 2, 3 and 0, 2, 4; equal in trip 1
    reading("they meet in the second trip, i 0..9 { choice { j 0..i or j 0..i-1 work 2 } }",
            around(TEN, arms(each(GROWING), each(FROM_NONE, 2, 2))), Figures(54, 91, 29), "rcc", 10, 10, 9),
    # 10, 9 is above 1, 2 in both trips, <10, -1> against <1, 1> is not
    reading("above in the first trips, i 0..9 { choice { j 0..9-i or j 0..i } }",
            around(TEN, arms(each(FALLING), each(GROWING))), Figures(30, 80, 30), "rcc", 10, 10, 10),
    reading("the second choice crosses, i 0..9 { choice { j 0..i or }; choice { j 0..9-i or work 5 } }",
            around(TEN, arms(each(GROWING), NOTHING), arms(each(FALLING), steady(5, 5))),
            Figures(40, 120, 30), "rcc", 10, 10, 10),
    # most <0, 1>, <3, 0> and <5, 0>: the last is not above the first
    reading("each is below the next at first, i 0..9 { choice { j 0..i-1 or work 3 or work 5 } }",
            around(TEN, arms(each(FROM_NONE), steady(3, 3), steady(5, 5))), Figures(24, 60, 19), "rc", 10, 9),
    # 1, 3, 6 against 2, 3, 4: <1, 2, 1> and <2, 1, 0>
    reading("height 2, i 0..5 { choice { j 0..i { k 0..j } or j 0..i+1 } }",
            around(span(0, 5), arms(around(GROWING, each(loop(form(), form(j=1)))), each(loop(form(), form(1, i=1))))),
            Figures(26, 57, 34), "rccc", 6, 6, 6, 7),
]

# 10, 20, 30 and 0, 1, 3: <10, 10, 0> and <0, 1, 1>, which cross after 20 trips.
LATE = [
    reading("they cross after the last trip, i 0..9 { choice { j 0..i work 10 or j 0..i-1 { k 0..j } } }",
            around(TEN, arms(each(GROWING, 10, 10), around(FROM_NONE, each(loop(form(), form(j=1)))))),
            Figures(165, 550, 54), "rccc", 10, 10, 9, 9),
]

FEW_TRIPS = [
    reading("fewer trips than height + 1, i 0..0 { choice { j 0..i or work 4 } }",
            around(span(0, 0), arms(each(GROWING), steady(4, 4))), Figures(1, 4, 2), "rc", 1, 1),
    reading("as many trips as height + 1, i 0..1 { choice { j 0..i or work 4 } }",
            around(span(0, 1), arms(each(GROWING), steady(4, 4))), Figures(3, 8, 4), "rc", 2, 2),
    reading("one trip more, i 0..2 { choice { j 0..i or } }",
            around(span(0, 2), arms(each(GROWING), NOTHING)), Figures(0, 6, 4), "rc", 3, 3),
    reading("no trip, i 0..-1 { choice { j 0..i or work 4 } }",
            around(span(0, -1), arms(each(GROWING), steady(4, 4))), Figures(0, 0, 0), "rc", 0, 1),
]

# In i 0..9 the second arm is steady; at p1 = 0 it has no cycle, at p1 = 4 the two cross.
BY_PARAMETER = around(TEN, arms(each(GROWING), each(loop(form(1), form(p=(1,))))))

# In i 0..3: <1, 1> against <i, 0>.
BY_INDEX = around(span(0, 4), arms(each(loop(form(), form(j=1))), each(loop(form(1), form(i=1)))))
INNER_SETTLED = around(span(0, 4), arms(each(loop(form(), form(j=1))), NOTHING))
# 9 to 16 in 5 trips
INNER_CROSSING = around(span(0, 4), arms(each(loop(form(), form(j=1))), steady(2, 2)))

DECIDED_ANEW = [
    reading("by a parameter, 0: settled", BY_PARAMETER, Figures(0, 55, 4), "rcc", 10, 10, 0,
            parameters=first_parameter(0)),
    reading("by a parameter, 1: settled", BY_PARAMETER, Figures(10, 55, 6), "rcc", 10, 10, 1,
            parameters=first_parameter(1)),
    reading("by a parameter, 4: not settled", BY_PARAMETER, Figures(34, 61, 30), "rcc", 10, 10, 4,
            parameters=first_parameter(4)),
    # at i = 0 and 1 settled, with 4 and 6 visits; at i = 2 and 3 not, with 15 each
    reading("at each entry, i 0..3 { j 0..4 { choice { k 0..j or k 1..i } } }", around(span(0, 3), BY_INDEX),
            Figures(26, 64, 44), "wrcc", 4, 5, 5, 3),
    reading("one after the other, i 0..1 { j 0..4 { choice { k 0..j or } }; j 0..4 { choice { k 0..j or work 2 } } }",
            around(span(0, 1), INNER_SETTLED, INNER_CROSSING), Figures(18, 62, 30), "wrcrc", 2, 5, 5, 5, 5),
    reading("in an arm of a walked loop, i 0..1 { choice { j 0..4 { choice { k 0..j or work 2 } } or work 5 } }",
            around(span(0, 1), arms(INNER_CROSSING, steady(5, 5))), Figures(10, 32, 22), "wrc", 2, 5, 5),
    reading("in an arm of the sheet, choice { i 0..9 { choice { j 0..i or } } or work 3 }",
            arms(around(TEN, arms(each(GROWING), NOTHING)), steady(3, 3)), Figures(0, 55, 4), "rc", 10, 10),
]

# What else bars closing, and so ranking too.
BARRED = [
    reading("a choice in an arm holds a loop, i 0..9 { choice { choice { j 0..i-1 } } }",
            around(TEN, arms(arms(each(FROM_NONE)))), Figures(45, 45, 19), "wc", 10, 9),
    reading("a choice in an inner loop holds one, i 0..1 { j 0..9 { choice { k 0..j-1 } } }",
            around(span(0, 1), around(TEN, arms(each(loop(form(), form(-1, j=1)))))), Figures(90, 90, 8), "wrc", 2, 10, 9),
    reading("a choice in an inner loop beside one in the body, i 0..1 { choice { j 0..1 }; j 0..9 { choice { k 0..j-1 } } }",
            around(span(0, 1), arms(each(span(0, 1))), around(TEN, arms(each(loop(form(), form(-1, j=1)))))),
            Figures(94, 94, 10), "wcrc", 2, 2, 10, 9),
    reading("a loop in an arm is uneven, i 0..9 { choice { j 0..i by 2 or } }",
            around(TEN, arms(each(loop(form(), form(i=1), stride=2)), NOTHING)), Figures(0, 30, 20), "wc", 10, 5),
    reading("a loop in an arm may have too few trips, i 1..7 { choice { j i..2 or } }",
            around(span(1, 7), arms(each(loop(form(i=1), form(2))), NOTHING)), Figures(0, 3, 9), "wc", 7, 2),
    reading("a loop beside the choice is uneven, i 0..9 { j 0..i by 2; choice { j 0..i or } }",
            around(TEN, each(loop(form(), form(i=1), stride=2)), arms(each(GROWING), NOTHING)),
            Figures(30, 85, 30), "wcc", 10, 5, 10),
    reading("a skip that differs, i 0..3 { choice { j 0..i-1 start 5 skip 2 or } }",
            around(span(0, 3), arms(each(loop(form(), form(-1, i=1), start=5, skip=2)), NOTHING)),
            Figures(0, 23, 7), "wc", 4, 3),
]

BUDGETS = [
    reading("6 visits, budget 6", around(TEN, arms(each(GROWING, 2, 3), each(GROWING, 1, 2))), Figures(55, 165, 6),
            "rcc", 10, 10, 10, budget=6),
    reading("6 visits, budget 5", around(TEN, arms(each(GROWING, 2, 3), each(GROWING, 1, 2))), Refusal(8, 0), budget=5),
    reading("20 visits, budget 20", around(TEN, arms(each(GROWING), steady(4, 4))), Figures(34, 61, 20), "rc", 10, 10,
            budget=20),
    reading("20 visits, budget 19", around(TEN, arms(each(GROWING), steady(4, 4))), Refusal(8, 0), budget=19),
]

# The loops of height 3 in the last arm or the first, and as many empty arms as 128 records have room for: of four trips 476 are kept.
DEEP_ARM = around(GROWING, around(loop(form(), form(j=1)), around(loop(form(), form(k=1), step=1))))
MANY = [NOTHING] * 117

MANY_ARMS = [
    reading("119 arms, the last has loops", around(TEN, arms(NOTHING, *MANY, DEEP_ARM)),
            Figures(0, 715, 41), "rccc", 10, 10, 10, 10),
    reading("119 arms, the first has loops", around(TEN, arms(DEEP_ARM, NOTHING, *MANY)),
            Figures(0, 715, 41), "rccc", 10, 10, 10, 10),
    # <1, 3, 3, 1> and <2, 0, 0, 0>; the last arm takes 0
    reading("118 arms, the first two cross", around(TEN, arms(DEEP_ARM, steady(2, 2), *MANY[:-1])),
            Figures(0, 716, 125), "rccc", 10, 10, 10, 10, budget=125),
]

# The largest costs and trips: in trip i an arm of three loops of i + 1 trips each, around 117 works, and an empty one.
MOST_TRIPS = 2048
LARGE = 4095
LARGE_LOOP = loop(form(), form(i=1), start=LARGE, step=LARGE)
LARGE_WORKS = 117


def large_arm(trips: int) -> int:
    """Start, plus for each trip the body and one step, three times."""
    cycles = LARGE_WORKS * LARGE
    for _ in range(3):
        cycles = LARGE + trips * (cycles + LARGE)
    return cycles


LARGEST = [
    # 4, 11, 16 and 16 visits in the first trips
    reading("the largest coefficients, i 0..2047 { choice { j, k and l each 0..i around 117 works or } }",
            around(span(0, MOST_TRIPS - 1),
                   arms([LARGE_LOOP] * 3 + [Work(LARGE, LARGE)] * LARGE_WORKS + [END] * 3, NOTHING)),
            Figures(0, sum(large_arm(trip + 1) for trip in range(MOST_TRIPS)), 47), "rccc", *[MOST_TRIPS] * 4),
]

RANKED_SHEETS = SETTLED + NOT_SETTLED + LATE + FEW_TRIPS + DECIDED_ANEW + BARRED + BUDGETS + MANY_ARMS + LARGEST
