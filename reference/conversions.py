"""Cases of the two converters and of their C calls: every refusal and place, buffers and areas."""

from dataclasses import replace
from typing import NamedTuple

from converters import Converted, from_skips, to_skips
from known import END, UNIT, form, loop, span
from pumdalin.answers import Refusal
from pumdalin.records import LOOP, SKIP_LOOP, Choice, Loop, NextArm, Record, Work, encode_all
from sheet import read

CONVERTERS = {SKIP_LOOP: to_skips, LOOP: from_skips}


def with_equal_skips(sheet: bytes) -> bytes:
    """The sheet with every skip equal to its start; as it is where it can not be read."""
    records = read(sheet)
    if isinstance(records, Refusal):
        return sheet
    return encode_all([
        replace(record, skip=record.start) if isinstance(record, Loop) and record.skip is not None else record
        for record in records
    ])


class Conversion(NamedTuple):
    """A sheet, the kind that its loops are to have, and what is lent; the library call takes no area."""

    tells: str
    kind: int
    sheet: bytes
    buffer: bytes
    area: bytes

    def converted(self) -> Converted:
        return CONVERTERS[self.kind](self.sheet)


def lent_bytes(length: int) -> bytes:
    return bytes(201 + i % 50 for i in range(length))


def conversion(
    tells: str, kind: int, records: list[Record], spare: int = 0, area: int = 8
) -> Conversion:
    """Into a buffer that has so many bytes more than the new sheet, or fewer."""
    sheet = encode_all(records)
    converted = CONVERTERS[kind](sheet)
    assert not isinstance(converted, Refusal), tells
    return Conversion(tells, kind, sheet, lent_bytes(len(converted) + spare), lent_bytes(area))


def refused(
    tells: str, kind: int, number: int, place: int, sheet: bytes, room: int = 0, area: int = 0
) -> Conversion:
    """With a refusal that comes before 9, whatever is lent; worked out by hand."""
    assert CONVERTERS[kind](sheet) == Refusal(number, place), tells
    return Conversion(tells, kind, sheet, lent_bytes(room), lent_bytes(area))


# A loop of kind 2, and of kind 6 with its skip equal to start, below it and above it.
PLAIN = [span(0, 3, start=3), END]
EQUAL = [span(0, 3, start=3, skip=3), END]
BELOW = [span(0, 3, start=3, skip=1), END]
ABOVE = [span(0, 3, start=3, skip=4), END]
SECOND_BYTE = [span(0, 3, start=3, skip=3 + 256), END]
NO_LOOP: list[Record] = [Choice(), Work(1, 300), NextArm(), END]
# Loops that count down; the bytes of -769 differ.
PLAIN_DOWN = [span(3, 0, -769, start=3), END]
EQUAL_DOWN = [span(3, 0, -769, start=3, skip=3), END]
BELOW_DOWN = [span(3, 0, -1000, start=3, skip=1), END]
NESTED_DOWN = [span(3, 0, -1, start=258), loop(form(i=1), form(i=-1), -1000, start=3, skip=3), UNIT, END, END]
# All kinds; the loop inside has a factor.
ALL_KINDS = [
    Choice(), span(-2, 4095, stride=3, start=258, step=7), loop(form(i=-1), form(5, i=1), skip=772), UNIT, END, END,
    NextArm(), *EQUAL, END,
]
ALL_EQUAL = [
    Choice(), span(-2, 4095, stride=3, start=258, step=7, skip=258), loop(form(i=-1), form(5, i=1), skip=0), UNIT, END,
    END, NextArm(), *PLAIN, END,
]
# As many loops as 128 records have room for: of one kind, of both in turn, in nests of four.
LONGEST = [
    PLAIN * 64, EQUAL * 64, (PLAIN + EQUAL) * 32,
    (PLAIN[:1] * 4 + [END] * 4) * 16, (EQUAL[:1] * 4 + [END] * 4) * 16, (PLAIN[:1] + EQUAL[:1] * 3 + [END] * 4) * 16,
]
SHORT_LOOP = encode_all(EQUAL)[:26]
HIGH_SKIP = encode_all([span(0, 3, skip=4096), END])
LONG_STRIDE = encode_all([span(3, 0, -1001, start=3, skip=3), END])
TOO_MANY = b"\x04\x03" * 64 + b"\x03"

TO_SKIPS = [
    conversion("kind 2 becomes kind 6, its skip its start", SKIP_LOOP, PLAIN),
    conversion("to kind 6, buffer one byte short", SKIP_LOOP, PLAIN, spare=-1),
    conversion("to kind 6, buffer three bytes longer: they stay", SKIP_LOOP, PLAIN, spare=3),
    conversion("to kind 6, a buffer that holds the old sheet", SKIP_LOOP, PLAIN, spare=-2),
    conversion("kind 6 stays, a skip below start", SKIP_LOOP, BELOW),
    conversion("kind 6 stays, a skip above start", SKIP_LOOP, ABOVE),
    conversion("to kind 6, all kinds", SKIP_LOOP, ALL_KINDS),
    conversion("to kind 6, no loop", SKIP_LOOP, NO_LOOP),
    conversion("to kind 6, no loop, buffer one byte short", SKIP_LOOP, NO_LOOP, spare=-1),
    conversion("to kind 6, empty sheet", SKIP_LOOP, []),
    conversion("to kind 6, empty sheet, the buffer stays", SKIP_LOOP, [], spare=2),
    conversion("to kind 6, a loop that counts down", SKIP_LOOP, PLAIN_DOWN),
    conversion("kind 6 stays, a loop that counts down", SKIP_LOOP, BELOW_DOWN),
    conversion("to kind 6, loops that count down, both kinds", SKIP_LOOP, NESTED_DOWN),
    refused("to kind 6, stride -1,001", SKIP_LOOP, 3, 0, LONG_STRIDE, 30, 8),
    refused("to kind 6, 1 before 9", SKIP_LOOP, 1, 0, SHORT_LOOP),
    refused("to kind 6, 2 before 9", SKIP_LOOP, 2, 1, b"\x04\x07"),
    refused("to kind 6, 3 before 9", SKIP_LOOP, 3, 0, HIGH_SKIP),
    refused("to kind 6, 4 before 9", SKIP_LOOP, 4, 128, TOO_MANY),
    refused("to kind 6, 5 before 9", SKIP_LOOP, 5, 26, encode_all(PLAIN + [END])),
    refused("to kind 6, open at the end before 9", SKIP_LOOP, 5, 25, encode_all(PLAIN[:1])),
    refused("to kind 6, a refusal leaves buffer and area", SKIP_LOOP, 3, 0, HIGH_SKIP, 30, 9),
]

FROM_SKIPS = [
    conversion("kind 6 becomes kind 2", LOOP, EQUAL),
    conversion("to kind 2, buffer one byte short", LOOP, EQUAL, spare=-1),
    conversion("to kind 2, buffer three bytes longer: they stay", LOOP, EQUAL, spare=3),
    conversion("kind 2 stays", LOOP, PLAIN),
    conversion("to kind 2, all kinds", LOOP, ALL_EQUAL),
    conversion("to kind 2, no loop", LOOP, NO_LOOP),
    conversion("to kind 2, empty sheet", LOOP, []),
    conversion("to kind 2, empty sheet, the buffer stays", LOOP, [], spare=2),
    conversion("to kind 2, a loop that counts down", LOOP, EQUAL_DOWN),
    conversion("kind 2 stays, a loop that counts down", LOOP, PLAIN_DOWN),
    conversion("to kind 2, loops that count down, both kinds", LOOP, NESTED_DOWN),
    refused("10: a loop that counts down", LOOP, 10, 0, encode_all(BELOW_DOWN), 40, 8),
    refused("stride -1,001 of a later record before 10", LOOP, 3, 28, encode_all(BELOW_DOWN) + LONG_STRIDE),
    refused("10: a skip below start", LOOP, 10, 0, encode_all(BELOW), 40, 8),
    refused("10: a skip above start", LOOP, 10, 0, encode_all(ABOVE), 40, 8),
    refused("10: a skip that differs in its second byte", LOOP, 10, 0, encode_all(SECOND_BYTE), 40, 8),
    refused("10 before 9", LOOP, 10, 0, encode_all(BELOW)),
    refused("10 at the first of two, by the old sheet", LOOP, 10, 28, encode_all(EQUAL + BELOW + ABOVE), 90, 8),
    refused("10 after a loop of kind 2", LOOP, 10, 31, encode_all([UNIT] + PLAIN + ABOVE), 90, 8),
    refused("10 in a loop", LOOP, 10, 27, encode_all(EQUAL[:1] + BELOW + [END]), 90, 8),
    refused("1 of a later record before 10", LOOP, 1, 28, encode_all(BELOW) + SHORT_LOOP),
    refused("2 of a later record before 10", LOOP, 2, 28, encode_all(BELOW) + b"\x07"),
    refused("3 of a later record before 10", LOOP, 3, 28, encode_all(BELOW + [Work(2, 1)])),
    refused("4 before 10", LOOP, 4, 154, encode_all(BELOW) + TOO_MANY),
    refused("5 of a later record before 10", LOOP, 5, 28, encode_all(BELOW + [END])),
    refused("open at the end before 10", LOOP, 5, 27, encode_all(BELOW[:1])),
]

AREAS = [
    conversion("to kind 6, area of 9 bytes: the last stays", SKIP_LOOP, PLAIN, area=9),
    conversion("to kind 6, area of 7 bytes", SKIP_LOOP, PLAIN, area=7),
    conversion("to kind 6, no area", SKIP_LOOP, [], area=0),
    conversion("to kind 6, neither buffer nor area long enough", SKIP_LOOP, PLAIN, spare=-1, area=7),
    conversion("to kind 2, area of 9 bytes: the last stays", LOOP, EQUAL, area=9),
    conversion("to kind 2, area of 7 bytes", LOOP, EQUAL, area=7),
    conversion("to kind 2, no area", LOOP, [], area=0),
    refused("10 before an area of 7 bytes", LOOP, 10, 0, encode_all(BELOW), 40, 7),
    refused("3 before an area of 7 bytes", SKIP_LOOP, 3, 0, HIGH_SKIP, 40, 7),
]

CONVERSIONS = TO_SKIPS + FROM_SKIPS + AREAS
