"""Examples.antt of the crate `ranges`: figures over a range of a parameter."""

import antt
from antt import Equation, inner, integer, octets, term
from parameter_ranges import ParameterRange, RangeAnswer, range_called
from pumdalin.answers import Refusal
from range_calls import RANGE_CALLS, RangeCase

# Of the calls by hand those with few values and trips: the checker has to compute them. All others are stored cases.
COMPUTED = [
    "figures fall and rise",
    "figures rise and fall",
    "one value, least and most differ",
    "from negative to positive values",
    "least: the first three alike",
    "least: three in the middle alike; most: the first and the last",
    "most: two in the middle alike; least: the first and the last",
    "256 values around 0, empty sheet",
    "257 values around 0, empty sheet",
    "a loop at the lowest values",
    "11: number 0",
    "11: number 5",
    "11: number 2^32 - 1",
    "11: first above last",
    "11 before 7: first above last",
    "11 before 1: number 5",
    "11 before 6: 257 values",
    "11 before 8: number 0",
    "budget 0",
    "budget 1,000,000",
    "budget 1,000,001",
    "7 before 2: kind 7",
    "3 of a later record before 6",
    "a loop is open at the end, 6 at the first value",
    "6 at the last value",
    "6 of one loop at the first value, of one before it at the second",
    "6 at a later value before 8 of an earlier one",
    "8 by the sum alone",
    "the sum is the budget",
    "the budget spent, and no visit at the rest",
    "parameter 1, 32767 is given for it",
    "parameter 2, 2 is given for it",
    "parameter 3, -32768 is given for it",
    "parameter 4, 4 is given for it",
    "6 at the value that is given, which is not looked at",
    "parameter 4, which no form has",
    "walked at one value, closed at the others, i 1..7 { j i..p1 }",
    "ranked, not settled at one value, settled at the others",
    "a skip above start",
    "counting down to p1",
]

# The same of the C call: what it returns and leaves in its area.
COMPUTED_AREAS = [
    "area of 43 bytes: the last three stay",
    "area of 39 bytes",
    "no area",
    "9 before 11",
    "11 leaves an area of 50 bytes",
    "8 leaves an area of 50 bytes",
]


def parameter_range(over: ParameterRange) -> str:
    """A range, as an argument."""
    values = [inner(integer(value)) for value in (over.first, over.last)]
    return inner(term("parameter range", str(over.number), *values))


def range_answer(result: RangeAnswer) -> str:
    if isinstance(result, Refusal):
        return term("refusal", *[str(number) for number in result])
    least, least_at, most, most_at, visits = result
    found = term("extremes found", str(least), inner(integer(least_at)), str(most), inner(integer(most_at)), str(visits))
    return term("answered", inner(found))


def named(names: list[str]) -> list[RangeCase]:
    calls = {case.tells: case for case in RANGE_CALLS}
    return [calls[tells] for tells in names]


def given(case: RangeCase) -> list[str]:
    """What the library call takes."""
    return [octets(case.sheet), antt.parameters(case.parameters), str(case.budget), parameter_range(case.over)]


def range_equations() -> list[Equation]:
    return [Equation(case.tells, term("extremes", *given(case)), range_answer(case.answer)) for case in named(COMPUTED)]


def area_equations() -> list[Equation]:
    found: list[Equation] = []
    for case in named(COMPUTED_AREAS):
        result = range_called(case.answer, case.area)
        right = term("called", str(result.number), octets(result.area))
        found.append(Equation(case.tells, term("range call", *given(case), octets(case.area)), right))
    return found


def ranges_file(group: int) -> str:
    comments = ["Figures over a range of a parameter and what the C call stores of them, by cases, from raw bytes."]
    theorems = antt.grouped("extremes", range_equations(), group) + antt.grouped("range-calls", area_equations(), group)
    return antt.file_text("Examples.antt", comments, theorems)
