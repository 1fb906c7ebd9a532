"""Calls of the writer, the converters, the C call and the text call at both limits of records, with their answers.

They are worked out by hand, as those of long_sheets.py. A loop takes 25 bytes, one of kind 6 takes 27, a work 5, any
other record 1.
"""

from typing import NamedTuple, Union

import call_cases
from call_cases import CallCase, program_input
from conversions import ABOVE, BELOW, EQUAL, PLAIN, Conversion, lent_bytes
from known import END, LONG_OUTER, ZERO, span
from long_sheets import CHOICE, COUNTS, FAULTS, NUMBERS, choices, works
from pumdalin.answers import Refusal
from pumdalin.records import LOOP, SKIP_LOOP, Record, Work, encode_all
from sheet import RawRecord, raw
from writer_cases import END_ENTRY, SKIP_ENTRY, WORK_ENTRY, WriterCase


class LongWrite(NamedTuple):
    """A case of the writer, and the length or the refusal that it answers."""

    case: WriterCase
    answer: Union[int, Refusal]


def long_write(
    tells: str, entries: list[RawRecord], count: int, answer: Union[int, Refusal], room: int
) -> LongWrite:
    """The caller lends 128 entries, whatever the count."""
    return LongWrite(WriterCase(tells, entries[:128], count, lent_bytes(room)), answer)


def counted_writes(count: int) -> list[LongWrite]:
    """Works, and as many loops of kind 6 as there is room for, into buffers that are just long enough."""
    loops = [WORK_ENTRY] * (count % 2) + [SKIP_ENTRY, END_ENTRY] * (count // 2)
    works_length, loops_length = 5 * count, 5 * (count % 2) + 28 * (count // 2)
    refused = Refusal(4, 0) if count > 128 else None
    return [
        long_write(f"{count} works", [WORK_ENTRY] * count, count, refused or works_length, works_length),
        long_write(f"{count} records, loops of kind 6", loops, count, refused or loops_length, loops_length),
    ]


def entries_of(records: list[Record]) -> list[RawRecord]:
    return [raw(record) for record in records]


# Wrong as any entry with nothing open, and by what number.
WRONG_ENTRIES = [
    ("kind 7", RawRecord(kind=7), 2),
    ("a least above its most", raw(Work(2, 1)), 3),
    ("an end with a skip", END_ENTRY._replace(skip=1), 3),
    ("an end with nothing open", END_ENTRY, 5),
]


def wrong_writes(at: int, count: int) -> list[LongWrite]:
    """A wrong entry as the one with this number; 4 for a count of 129 comes before any other."""
    found: list[LongWrite] = []
    for tells, entry, number in WRONG_ENTRIES:
        answer = Refusal(number, at - 1) if count <= 128 else Refusal(4, 0)
        entries = entries_of(choices(at - 1)) + [entry]
        found.append(long_write(f"count {count}, entry {at} is {tells}", entries, count, answer, 200))
    return found


def open_write(at: int) -> LongWrite:
    """Something is open after so many entries; the place is the length."""
    entries = entries_of(choices(at - 1) + [CHOICE])
    return long_write(f"a choice is open after {at} entries", entries, at, Refusal(5, at), 200)


def past_the_count(count: int) -> LongWrite:
    """What stands past the count is not looked at."""
    entries = entries_of(choices(count)) + [RawRecord(kind=9)]
    return long_write(f"{count} entries, and one of no kind past the count", entries, count, count, count + 3)


LONG_WRITES = [
    *[write for count in COUNTS for write in counted_writes(count)],
    *wrong_writes(65, 65), *wrong_writes(128, 128), *wrong_writes(128, 129),
    open_write(65), open_write(128),
    *[past_the_count(count) for count in (64, 65, 127)],
    long_write("65 works, a byte short", [WORK_ENTRY] * 65, 65, Refusal(9, 0), 324),
    long_write("128 works, a byte short", [WORK_ENTRY] * 128, 128, Refusal(9, 0), 639),
    long_write("128 works, the room of 64", [WORK_ENTRY] * 128, 128, Refusal(9, 0), 320),
    long_write("64 loops of kind 6, a byte short", [SKIP_ENTRY, END_ENTRY] * 64, 128, Refusal(9, 0), 1791),
    long_write("64 loops of kind 6, three bytes more: they stay", [SKIP_ENTRY, END_ENTRY] * 64, 128, 1792, 1795),
    long_write("4 before 9", [WORK_ENTRY] * 128, 129, Refusal(4, 0), 0),
]


class LongConversion(NamedTuple):
    """A case of a converter: the new sheet or the refusal of the library call, and the number of the C call."""

    case: Conversion
    answer: Union[bytes, Refusal]
    number: int


def long_conversion(
    tells: str, kind: int, sheet: bytes, answer: Union[bytes, Refusal], room: int = 0, area: int = 8
) -> LongConversion:
    """So much room, or what the new sheet takes; the C call answers as the library call, save for a short area."""
    refused = isinstance(answer, Refusal)
    number = answer.number if refused else 0 if area >= 8 else 9
    room = room if refused else max(room, len(answer))
    name = f"to kind {kind}, {tells}"
    return LongConversion(Conversion(name, kind, sheet, lent_bytes(room), lent_bytes(area)), answer, number)


def counted_conversions(count: int) -> list[LongConversion]:
    """Works, which stay, and loops, which all become of the other kind, a work before them where the count is odd."""
    plain, equal = [encode_all(works(count % 2) + one * (count // 2)) for one in (PLAIN, EQUAL)]
    many = encode_all(works(count))
    made = [
        (SKIP_LOOP, "works", many, many, 640), (LOOP, "works", many, many, 640),
        (SKIP_LOOP, "loops", plain, equal, 5 + 64 * 26 - 1), (LOOP, "loops", equal, plain, 5 + 64 * 28 - 1),
    ]
    return [long_conversion(f"{count} records, {tells}", kind, old, new if count <= 128 else Refusal(4, place))
            for kind, tells, old, new, place in made]


def wrong_conversions(at: int) -> list[LongConversion]:
    """A wrong record as the one with this number; before it, to kind 2, a loop that alone would be 10."""
    found: list[LongConversion] = []
    for tells, number, record in FAULTS:
        for kind, before in ((SKIP_LOOP, choices(at - 1)), (LOOP, BELOW + choices(at - 3))):
            place = len(encode_all(before))
            answer = Refusal(number if at <= 128 else 4, place)
            found.append(long_conversion(f"record {at} is {tells}", kind, encode_all(before) + record, answer))
    return found


def open_conversions(at: int) -> list[LongConversion]:
    """Open at the end comes before 10 and 9 as well."""
    found: list[LongConversion] = []
    for kind, before in ((SKIP_LOOP, choices(at - 1)), (LOOP, BELOW + choices(at - 3))):
        sheet = encode_all(before + [CHOICE])
        answer = Refusal(5, len(sheet)) if at <= 128 else Refusal(4, len(sheet) - 1)
        found.append(long_conversion(f"a choice is open after {at} records", kind, sheet, answer))
    return found


MOST_PLAIN = encode_all(PLAIN * 64)
MOST_EQUAL = encode_all(EQUAL * 64)

LONG_CONVERSIONS = [
    *[one for count in COUNTS for one in counted_conversions(count)],
    *[one for at in NUMBERS for one in wrong_conversions(at)],
    *[one for at in NUMBERS for one in open_conversions(at)],
    long_conversion("10 at the 65th, a skip below start", LOOP, encode_all(works(64) + BELOW), Refusal(10, 320), 400),
    long_conversion("10 at the 127th, a skip above start", LOOP, encode_all(works(126) + ABOVE), Refusal(10, 630), 700),
    long_conversion("10 at the 125th and not at the 127th", LOOP, encode_all(EQUAL * 62 + BELOW + ABOVE),
                    Refusal(10, 62 * 28), 1800),
    long_conversion("10 before 9", LOOP, encode_all(works(126) + BELOW), Refusal(10, 630)),
    long_conversion("4 before 10", LOOP, encode_all(BELOW + choices(127)), Refusal(4, 28 + 126), 200),
    long_conversion("64 loops, a byte short", SKIP_LOOP, MOST_PLAIN, Refusal(9, 0), 1791),
    long_conversion("64 loops, the room of the old sheet", SKIP_LOOP, MOST_PLAIN, Refusal(9, 0), 1664),
    long_conversion("64 loops, three bytes more: they stay", SKIP_LOOP, MOST_PLAIN, MOST_EQUAL, 1795, 9),
    long_conversion("64 loops, an area of 7 bytes", SKIP_LOOP, MOST_PLAIN, MOST_EQUAL, area=7),
    long_conversion("64 loops, a byte short", LOOP, MOST_EQUAL, Refusal(9, 0), 1663),
    long_conversion("64 loops, three bytes more: they stay", LOOP, MOST_EQUAL, MOST_PLAIN, 1667, 9),
    long_conversion("64 loops, an area of 7 bytes", LOOP, MOST_EQUAL, MOST_PLAIN, area=7),
    long_conversion("64 loops of kind 6 stay", SKIP_LOOP, MOST_EQUAL, MOST_EQUAL),
    long_conversion("64 loops of kind 2 stay", LOOP, MOST_PLAIN, MOST_PLAIN),
]


class LongCall(NamedTuple):
    """A case of the C call, the number that it returns, and the three numbers in the area where that is 0."""

    case: CallCase
    number: int
    figures: tuple[int, ...] = ()


def long_call(tells: str, records: list[Record], area: int, budget: int, number: int, *figures: int) -> LongCall:
    case = CallCase(tells, encode_all(records), ZERO, budget, call_cases.area(area))
    return LongCall(case, number, figures)


LOOPS = [span(0, 3, start=2, step=1), END] * 64

LONG_C_CALLS = [
    long_call("65 works, area of 24 bytes", works(65), 24, 1, 0, 65, 65, 0),
    long_call("128 works, area of 27 bytes: the last three stay", works(128), 27, 1, 0, 128, 128, 0),
    long_call("128 works, area of 23 bytes", works(128), 23, 1, 9),
    long_call("129 works, area of 24 bytes", works(129), 24, 1, 4),
    long_call("9 before 4", works(129), 23, 1, 9),
    long_call("64 loops, area of 25 bytes", LOOPS, 25, 64, 0, 384, 384, 64),
    long_call("64 loops, 8 leaves the area", LOOPS, 25, 63, 8),
    long_call("6 at the 127th record leaves the area", works(126) + [span(0, 2048), END], 24, 1, 6),
]


class LongText(NamedTuple):
    """An input of `bound`, and what it prints."""

    tells: str
    data: bytes
    text: str


def walked_nest(at: int) -> str:
    """The lines of a nest of four at an offset: the innermost loop falls below no trips in each around it."""
    few = f"loop {at + 75} may fall below no trips\n"
    around = [f"loop {at + deeper} walked ceiling 1\n" + few for deeper in (0, 25, 50)]
    return "".join(around) + f"loop {at + 75} closed ceiling 0\n"


PLAIN_LINES = "".join(f"loop {26 * at} closed ceiling 4\n" for at in range(64))
SKIP_LINES = "".join(f"loop {28 * at} closed ceiling 4\n" for at in range(64))
LARGEST_FIGURE = [*[LONG_OUTER] * 4, *[Work(4095, 4095)] * 120, *[END] * 4]
LARGEST_LINES = ("best 8716910610010341375 worst 8716910610010341375 visits 64\n"
                 + "".join(f"loop {25 * at} closed ceiling 2048\n" for at in range(4)))

LONG_TEXTS = [
    LongText("64 loops", program_input(encode_all(LOOPS)), "best 384 worst 384 visits 64\n" + PLAIN_LINES),
    # Its last records are past the 1,741 bytes that `bound` looked at before C-19.
    LongText("64 loops of kind 6", program_input(MOST_EQUAL), "best 192 worst 192 visits 64\n" + SKIP_LINES),
    LongText("64 loops, of which 48 are walked", call_cases.MOST_REASONS,
             "best 0 worst 0 visits 48\n" + "".join(walked_nest(104 * at) for at in range(16))),
    LongText("the largest figure", program_input(encode_all(LARGEST_FIGURE)), LARGEST_LINES),
    LongText("bytes past the 128th record", program_input(encode_all(choices(128)) + b"\x09"), "refused 4 at 128\n"),
    LongText("a 128th record of no kind", program_input(encode_all(choices(127)) + b"\x09"), "refused 2 at 127\n"),
    LongText("more than 3,469 bytes", program_input(encode_all(works(128)) + bytes(3400)), "refused 4 at 640\n"),
    LongText("a 127th record of no kind, after 63 loops of kind 6", program_input(encode_all(EQUAL * 63) + b"\x09"),
             "refused 2 at 1764\n"),
]
