"""Sheets at the limit of 64 records that there was before document 02, C-19, and at that of 128, with their answers.

The answers are worked out by hand. A loop takes 25 bytes, one of kind 6 takes 27, a work 5, any other record 1. The
body of a loop is empty unless said.
"""

from typing import Callable

from counting_down import figures, first_parameter, reading
from known import END, MARKED, UNEVEN, UNIT, Known, form, loop, span
from pumdalin.answers import Answer, Figures, Refusal
from pumdalin.records import Choice, NextArm, Record, Work, encode, encode_all
from readings import Reading

# One below each limit, just as many, and one more.
COUNTS = (63, 64, 65, 127, 128, 129)
# The first and the last record beyond 64 that a sheet may have, and the first that it may not.
NUMBERS = (65, 128, 129)
CHOICE = Choice()
NEXT = NextArm()
ONE_TRIP = span(0, 0)
TOO_HIGH = span(0, 2048)


def works(count: int) -> list[Record]:
    """Work 1, so many times."""
    return [UNIT] * count


def choices(count: int) -> list[Record]:
    """So many records of a byte each, after which nothing is open: a place is then how many records stand before it."""
    first = [CHOICE, NEXT, END] if count % 2 else []
    return first + [CHOICE, END] * ((count - len(first)) // 2)


def raw_reading(tells: str, sheet: bytes, answer: Refusal) -> Reading:
    """A refused sheet whose bytes are no records."""
    return reading(tells, [], answer)._replace(sheet=sheet)


def limited(count: int, answer: Answer, place: int) -> Answer:
    """The answer, or 4 at the place where the 129th record begins."""
    return answer if count <= 128 else Refusal(4, place)


def counted_works(count: int) -> Reading:
    return reading(f"{count} works", works(count), limited(count, figures(count, 0), 128 * 5))


def counted_choices(count: int) -> Reading:
    return reading(f"{count} records of choices", choices(count), limited(count, figures(0, 0), 128))


def counted_arms(count: int) -> Reading:
    """A choice of many arms; the last one has both extremes. A work stands before it where the count is even."""
    before = works(1 - count % 2)
    arms = [Work(5, 5), NEXT] * ((count - len(before) - 3) // 2)
    answer = Figures(len(before) + 3, len(before) + 9, 0)
    return reading(f"{count} records, a choice of {len(arms) // 2 + 1} arms", [*before, CHOICE, *arms, Work(3, 9), END],
                   limited(count, answer, 1 + 63 * 6 + 5))


def counted_body(count: int) -> Reading:
    """A loop of ten trips around works. Its end is the last record."""
    return reading(f"{count} records, a loop around {count - 2} works", [span(0, 9), *works(count - 2), END],
                   limited(count, figures(10 * (count - 2), 1), 25 + 127 * 5), "c", 10)


def counted_loops(count: int) -> Reading:
    """As many loops as there is room for, each of 2 + 4 cycles; a work before them where the count is odd."""
    loops = count // 2
    return reading(f"{count} records, {loops} loops", works(count % 2) + [span(0, 3, start=2, step=1), END] * loops,
                   limited(count, figures(count % 2 + 6 * loops, loops), 5 + 64 * 26 - 1), "c" * loops, *[4] * loops)


def counted_skips(count: int) -> Reading:
    """The same of kind 6, none of which makes a trip: no sheet of so many records is longer."""
    loops = count // 2
    records = works(count % 2) + [span(0, -1, start=1, skip=3), END] * loops
    return reading(f"{count} records, {loops} loops of kind 6", records,
                   limited(count, figures(count % 2 + 3 * loops, 0), 5 + 64 * 28 - 1), "c" * loops, *[0] * loops)


def counted_nest(count: int) -> Reading:
    """Works, then four loops of two trips in one another: 2, 2, 2 and 1 trips are visited."""
    return reading(f"{count} records, a nest after {count - 9} works",
                   works(count - 9) + [span(0, 1)] * 4 + [UNIT] + [END] * 4,
                   limited(count, figures(count - 9 + 16, 2 * (1 + 2 * (1 + 2 * (1 + 1)))), 120 * 5 + 100 + 5 + 3),
                   "cccc", 2, 2, 2, 2)


SORTS: list[Callable[[int], Reading]] = [
    counted_works, counted_choices, counted_arms, counted_body, counted_loops, counted_skips, counted_nest,
]
COUNTED = [sort(count) for sort in SORTS for count in COUNTS]


# Of the loops of the marked sheets but the empty one.
KNOWN_CEILINGS = [
    (10,), (10, 9), (7, 2), (10, 5), (10, 10), (10, 11, 21), (100, 100), (0, 0), (10, 9), (0,),
]


def known_last(known: Known, ceilings: tuple[int, ...]) -> Reading:
    """A marked sheet after works, so that there are 128 records: what is known of it stays, and the works add up."""
    count = 128 - len(known.records)
    least, most, visits = known.answer
    return reading(f"after {count} works: {known.tells}", works(count) + known.records,
                   Figures(count + least, count + most, visits), known.ways, *ceilings, parameters=known.parameters)


KNOWN_LAST = [known_last(*known) for known in zip(MARKED[1:], KNOWN_CEILINGS)]


# Wrong as any record of a sheet with nothing open, and by what number.
FAULTS: list[tuple[str, int, bytes]] = [
    ("a work that is cut", 1, encode(UNIT)[:-1]),
    ("a kind of a work alone", 1, b"\x01"),
    ("a loop that is cut", 1, encode(ONE_TRIP)[:-1]),
    ("a loop of kind 6 that is cut", 1, encode(span(0, 0, skip=1))[:-1]),
    ("kind 0", 2, b"\x00"),
    ("kind 7", 2, b"\x07"),
    ("kind 255 with bytes after it", 2, b"\xff" + bytes(30)),
    ("a least above its most", 3, encode(Work(2, 1))),
    ("a stride of 0", 3, encode(span(0, 0, 0))),
    ("a factor of its own depth", 3, encode(loop(form(), form(i=1)))),
    ("a skip of 4,096", 3, encode(span(0, 0, skip=4096))),
    ("an end with nothing open", 5, b"\x03"),
    ("a next arm with nothing open", 5, b"\x05"),
]


def faulty(tells: str, number: int, record: bytes) -> list[Reading]:
    """The fault as the 65th, the 128th and the 129th record; then it is 4, before any other."""
    found: list[Reading] = []
    for at in NUMBERS:
        answer = Refusal(number, at - 1) if at <= 128 else Refusal(4, 128)
        found.append(raw_reading(f"record {at} is {tells}", encode_all(choices(at - 1)) + record, answer))
    return found


# The place is that of the 128th record, though bytes follow it.
BEFORE_THE_LIMIT = [
    raw_reading(f"record 128 is {tells}, and a record after it", encode_all(choices(127)) + record + b"\x04",
                Refusal(number, 127))
    for tells, number, record in FAULTS if number in (2, 3, 5)
]


def misplaced(at: int) -> list[Reading]:
    """The record with this number is one too many of those that are open, or stands in the wrong one."""
    def line(tells: str, before: list[Record], last: Record, number: int = 5) -> Reading:
        records = choices(at - 1 - len(before)) + before
        answer = Refusal(number if at <= 128 else 4, len(encode_all(records)))
        return reading(f"record {at} is {tells}", [*records, last], answer)

    return [
        line("a fifth loop depth", [ONE_TRIP] * 4, ONE_TRIP),
        line("a fifth loop depth of kind 6", [ONE_TRIP] * 4, span(0, 0, skip=1)),
        line("a fifth loop depth with a stride of 0", [ONE_TRIP] * 4, span(0, 0, 0), 3),
        line("a ninth open choice", [CHOICE] * 8, CHOICE),
        line("a ninth open record, a loop", [CHOICE] * 8, ONE_TRIP),
        line("a next arm in a loop in a choice", [CHOICE, ONE_TRIP], NEXT),
    ]


def left_open(at: int) -> list[Reading]:
    """After so many records something is open; the place is the length."""
    def line(tells: str, last: list[Record]) -> Reading:
        records = choices(at - len(last)) + last
        answer = Refusal(5, len(encode_all(records))) if at <= 128 else Refusal(4, len(encode_all(records[:128])))
        return reading(f"{tells} after {at} records", records, answer)

    return [
        line("a choice is open", [CHOICE]),
        line("a loop is open", [ONE_TRIP]),
        line("eight records are open", [ONE_TRIP] * 4 + [CHOICE] * 4),
    ]


SLANTED = [span(0, 1), loop(form(), form(2047, i=1)), END, END]
BY_PARAMETER = works(126) + [loop(form(), form(p=(1,))), END]

CEILINGS = [
    reading("6 at the 65th record", works(64) + [TOO_HIGH, END], Refusal(6, 320)),
    reading("6 at the 127th record", works(126) + [TOO_HIGH, END], Refusal(6, 630)),
    reading("6 in a loop, at the 126th record", works(124) + SLANTED, Refusal(6, 645)),
    reading("6 at the first of two", works(64) + [TOO_HIGH, END] * 2, Refusal(6, 320)),
    reading("6 in a second arm", choices(123) + [CHOICE, NEXT, TOO_HIGH, END, END], Refusal(6, 125)),
    reading("6 by a parameter", BY_PARAMETER, Refusal(6, 630), parameters=first_parameter(2048)),
    reading("a ceiling of 2,048 by a parameter", BY_PARAMETER, figures(126, 1), "c", 2048,
            parameters=first_parameter(2047)),
    reading("6 before 8", [ONE_TRIP, END] * 63 + [TOO_HIGH, END], Refusal(6, 63 * 26), budget=1),
    reading("open at the end before 6", works(127) + [TOO_HIGH], Refusal(5, 660)),
    reading("4 before 6", works(127) + [TOO_HIGH, END], Refusal(4, 660)),
]

UNEVEN_LAST = works(123) + UNEVEN

VISITS = [
    reading("64 visits, budget 64", [ONE_TRIP, END] * 64, figures(0, 64), "c" * 64, *[1] * 64, budget=64),
    reading("64 visits, budget 63", [ONE_TRIP, END] * 64, Refusal(8, 0), budget=63),
    reading("20 visits after 123 works, budget 20", UNEVEN_LAST, figures(123 + 30, 20), "wc", 10, 5, budget=20),
    reading("20 visits after 123 works, budget 19", UNEVEN_LAST, Refusal(8, 0), budget=19),
    reading("4 before 8", [ONE_TRIP, END] * 64 + [UNIT], Refusal(4, 64 * 26), budget=1),
    reading("7 before 4", works(129), Refusal(7, 0), budget=0),
    reading("7 before 4, budget 1,000,001", works(129), Refusal(7, 0), budget=1_000_001),
    reading("128 works of 0 to 4,095", [Work(0, 4095)] * 128, Figures(0, 128 * 4095, 0)),
]

LONG_SHEETS = (
    COUNTED + KNOWN_LAST + [line for fault in FAULTS for line in faulty(*fault)] + BEFORE_THE_LIMIT
    + [line for at in NUMBERS for line in misplaced(at)] + [line for at in COUNTS[2:] for line in left_open(at)]
    + CEILINGS + VISITS
)
