"""Stored cases of the converters and their C calls, for the program that runs them.

    python3 converter_cases.py FILE [--check]

writes FILE, or with --check compares it with what stands there. A case has the
header of sheet_cases.py: its first byte is 8 for the converter to kind 6, 9 for
the one to kind 2; its second is the refusal's number of the library call, 0 if
there is none. The other numbers are the length of what follows the sheet, the
refusal's place or the new sheet's length, and the lengths of the area and of the
buffer that are lent. What follows is the number that the C call returns, 1 byte,
and the new sheet, where the library call stores it.
"""

from random import Random
from typing import Iterator

import readings
from conversions import CONVERSIONS, CONVERTERS, LONGEST, Conversion, with_equal_skips
from converters import convert_called, stored
from generate import SIZES, Case, cases, long_case
from known import MARKED
from known_reasons import DOWN, SKIPS
from long_calls import LONG_CONVERSIONS
from pumdalin.answers import Refusal
from pumdalin.records import LOOP, SKIP_LOOP, encode_all, two_bytes_each
from sheet import read
from stored import answered, main
from walked import walked_case

SEED = 2054
# of each size, four sheets each: valid, damaged, hostile, walked
RANDOM_SHEETS = 12
RANDOM_LONG_SHEETS = 14
WHICH = {SKIP_LOOP: 8, LOOP: 9}
# The program has so much room for a buffer and for an area.
MOST_BUFFER = 2048
MOST_AREA = 32


def converter_case(case: Conversion) -> bytes:
    assert len(case.buffer) <= MOST_BUFFER and len(case.area) <= MOST_AREA, case.tells
    converted = case.converted()
    number, value, new = answered(stored(converted, case.buffer))
    follows = bytes([convert_called(converted, case.buffer, case.area).number]) + new
    head = bytes([WHICH[case.kind], number])
    head += two_bytes_each(len(case.sheet), len(follows), value, len(case.area), len(case.buffer))
    return head + case.sheet + follows


def kept_conversions() -> list[Conversion]:
    """The cases by hand, those of document 02, and known sheets and the longest ones both ways."""
    made = CONVERSIONS + [long.case for long in LONG_CONVERSIONS]
    for line in readings.parse_conversions():
        made.append(Conversion(line.tells, line.kind, line.sheet, bytes(line.room), bytes(8)))
    sheets = [known.sheet() for known in MARKED + SKIPS + DOWN]
    for sheet in sheets + [encode_all(records) for records in LONGEST]:
        for kind in CONVERTERS:
            made += exact(kind, sheet)
            # and back
            made += [back for there in exact(kind, sheet) for back in exact(LOOP, there.converted())]
    return made


def exact(kind: int, sheet: bytes) -> list[Conversion]:
    """The conversion with just as much as it takes; nothing where it is refused."""
    converted = CONVERTERS[kind](sheet)
    if isinstance(converted, Refusal):
        return []
    return [Conversion("kept", kind, sheet, bytes(len(converted)), bytes(8))]


def random_conversions(random: Random) -> Iterator[Conversion]:
    """Sheets of all sorts both ways; the sheets that can be read also with every skip its start."""
    for case in random_cases(random):
        yield random_conversion(random, SKIP_LOOP, case.sheet)
        yield random_conversion(random, LOOP, case.sheet)
        if not isinstance(read(case.sheet), Refusal):
            yield random_conversion(random, LOOP, with_equal_skips(case.sheet))


def random_cases(random: Random) -> Iterator[Case]:
    for size in SIZES.values():
        yield from cases(random, RANDOM_SHEETS, size)
        yield from [walked_case(random) for _ in range(RANDOM_SHEETS)]
    yield from [long_case(random) for _ in range(RANDOM_LONG_SHEETS)]


def random_conversion(random: Random, kind: int, sheet: bytes) -> Conversion:
    """Mostly with enough lent; now and then with one byte less than that, or nothing."""
    converted = CONVERTERS[kind](sheet)
    needed = len(sheet) if isinstance(converted, Refusal) else len(converted)
    room = random.choice([needed, needed, needed + random.randint(1, 9), max(0, needed - 1), 0])
    area = random.choice([8, 8, 8, 9, 7, 0])
    return Conversion("random", kind, sheet, bytes(min(room, MOST_BUFFER)), bytes(area))


def all_cases() -> bytes:
    made = kept_conversions() + list(random_conversions(Random(SEED)))
    return b"".join(map(converter_case, made))


if __name__ == "__main__":
    main(all_cases)
