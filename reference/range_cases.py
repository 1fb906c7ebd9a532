"""Stored cases of the call over a range of a parameter and of its C call, for the program that runs them.

    python3 range_cases.py FILE [--check]

writes FILE, or with --check compares it with what stands there. Numbers have the
low byte first, signed ones are in two's complement. A case has the header of
sheet_cases.py, 12 bytes:

    0   1   10
    1   1   the refusal's number of the library call, 0 if there is none
    2   2   the sheet's length
    4   2   0
    6   2   the refusal's place, 0 if there is none
    8   2   the length of the area that the C call is lent, at most 64
    10  2   0

Then comes the sheet, and after it 61 bytes:

    0   8   the four parameters, signed, 2 bytes each
    8   4   the budget
    12  4   the parameter's number
    16  2   the first value, signed
    18  2   the last value, signed
    20  1   the number that the C call returns
    21  40  what the C call stores where it returns 0: least, its value, most, its
            value, visits, 8 bytes each; zeros where the library call refuses

Where the C call returns another number it stores nothing. With an area that is
too short it returns 9, while the library call, which takes none, answers.
"""

from random import Random
from typing import Iterator

import readings
from calls import eight_bytes_each
from conversions import lent_bytes
from generate import SIZES, Case, cases, long_case
from parameter_ranges import RANGE_AREA, ParameterRange, range_called
from pumdalin.answers import Refusal
from pumdalin.inputs import encode_parameters
from pumdalin.records import two_bytes_each
from range_calls import RANGE_CALLS, RangeCase
from ranged import ranged, with_edges
from ranked import ranked_case
from stored import main
from walked import walked_case

SEED = 2055
RANGES = 10
# of the small and the middle size each, six sheets each: a valid, a damaged, a hostile, two walked, a ranked one
RANDOM_SHEETS = 18
RANDOM_LONG_SHEETS = 10
# The program has so much room for an area.
MOST_AREA = 64


def range_case(case: RangeCase) -> bytes:
    assert len(case.area) <= MOST_AREA, case.tells
    refused = isinstance(case.answer, Refusal)
    number, place = case.answer if refused else (0, 0)
    stored = bytes(RANGE_AREA) if refused else eight_bytes_each(case.answer)
    head = bytes([RANGES, number]) + two_bytes_each(len(case.sheet), 0, place, len(case.area), 0)
    given = encode_parameters(case.parameters) + case.budget.to_bytes(4, "little") + encode_range(case.over)
    return head + case.sheet + given + bytes([range_called(case.answer, case.area).number]) + stored


def encode_range(over: ParameterRange) -> bytes:
    values = [value.to_bytes(2, "little", signed=True) for value in (over.first, over.last)]
    return over.number.to_bytes(4, "little") + b"".join(values)


def kept_ranges() -> list[RangeCase]:
    """The calls by hand, and those of document 02."""
    return RANGE_CALLS + [
        RangeCase(f"{line.request} {line.tells}", line.sheet, line.parameters, line.budget, line.over,
                  lent_bytes(RANGE_AREA), line.answer)
        for line in readings.parse_ranges()
    ]


def random_ranges(random: Random) -> Iterator[RangeCase]:
    for case in random_cases(random):
        for (kept, over), result in with_edges(ranged(random, case)):
            area = lent_bytes(random.choice([RANGE_AREA] * 6 + [RANGE_AREA - 1, RANGE_AREA + 1, MOST_AREA]))
            yield RangeCase("random", kept.sheet, kept.parameters, kept.budget, over, area, result)


def random_cases(random: Random) -> Iterator[Case]:
    for name in ("small", "middle"):
        for _ in range(RANDOM_SHEETS):
            yield from cases(random, 1, SIZES[name])
            yield from [walked_case(random), walked_case(random), ranked_case(random)]
    yield from [long_case(random) for _ in range(RANDOM_LONG_SHEETS)]


def all_cases() -> bytes:
    made = kept_ranges() + list(random_ranges(Random(SEED)))
    return b"".join(map(range_case, made))


if __name__ == "__main__":
    main(all_cases)
