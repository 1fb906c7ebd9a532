"""Cases of the C calls, the record reader, the program, and reasons read back."""

from typing import NamedTuple

import calls
import known
from known import ZERO, form, loop, span
from pumdalin import inputs
from pumdalin.inputs import Parameters
from pumdalin.records import Choice, End, NextArm, Work, encode, encode_all

TRIANGLE = encode_all(known.TRIANGLE)
UNEVEN = encode_all(known.UNEVEN)
PARAMETER = encode_all(known.PARAMETER)
ONE_WORK = encode(Work(3, 5))
WIDE = encode_all([Work(1, 300), span(0, 2047, start=4095, step=4095), Work(0, 4095), End()])
NO_TRIP = encode_all([span(0, -1, start=5, step=9, skip=2), Work(3, 5), End()])
SKIPPED = encode_all([span(0, 3), loop(form(), form(-1, i=1), start=5, skip=1), Work(3, 5), End(), End()])
DOWN = encode_all([span(9, 0, -1), loop(form(i=1), form(), -2), Work(1, 2), End(), End()])
SMALL = encode_all([Choice(), span(0, 3), Work(1, 2), End(), NextArm(), End()])


class CallCase(NamedTuple):
    tells: str
    sheet: bytes
    parameters: Parameters
    budget: int
    area: bytes


def area(length: int) -> bytes:
    return bytes(101 + i for i in range(length))


C_CALL_CASES = [
    CallCase("area of 24 bytes", TRIANGLE, ZERO, 100, area(24)),
    CallCase("area of 27 bytes: the last three stay", TRIANGLE, ZERO, 100, area(27)),
    CallCase("area of 23 bytes", TRIANGLE, ZERO, 100, area(23)),
    CallCase("no area", TRIANGLE, ZERO, 100, b""),
    CallCase("9 before 7 and 2", b"\x09", ZERO, 0, area(1)),
    CallCase("empty sheet", b"", ZERO, 1, area(24)),
    CallCase("low byte first", WIDE, ZERO, 1, area(25)),
    CallCase("a parameter", PARAMETER, (100, 0, 0, 0), 4, area(24)),
    CallCase("budget 0", TRIANGLE, ZERO, 0, area(24)),
    CallCase("budget 1,000,000", ONE_WORK, ZERO, 1_000_000, area(24)),
    CallCase("budget 1,000,001", ONE_WORK, ZERO, 1_000_001, area(24)),
    CallCase("budget 2^32 - 1, before 2", b"\x09", ZERO, 2 ** 32 - 1, area(25)),
    CallCase("1", TRIANGLE[:20], ZERO, 1, area(26)),
    CallCase("2", ONE_WORK + b"\x07", ZERO, 1, area(26)),
    CallCase("3", encode(Work(0, 4096)), ZERO, 1, area(24)),
    CallCase("4", b"\x04\x03" * 64 + b"\x09", ZERO, 1, area(24)),
    CallCase("5", b"\x03", ZERO, 1, area(24)),
    CallCase("5, open at the end", b"\x04", ZERO, 1, area(24)),
    CallCase("6", encode_all([span(0, 2048), End()]), ZERO, 1, area(24)),
    CallCase("skip in place of start", NO_TRIP, ZERO, 1, area(24)),
    CallCase("counting down", DOWN, ZERO, 20, area(24)),
    CallCase("counting down, stride -1,001", encode_all([span(1, 0, -1001), End()]), ZERO, 1, area(24)),
    CallCase("20 visits, budget 20", UNEVEN, ZERO, 20, area(24)),
    CallCase("20 visits, budget 19", UNEVEN, ZERO, 19, area(24)),
]


class ReaderCase(NamedTuple):
    tells: str
    sheet: bytes
    offset: int


READER_CASES = [
    ReaderCase("choice", SMALL, 0),
    ReaderCase("loop", SMALL, 1),
    ReaderCase("work", SMALL, 26),
    ReaderCase("end", SMALL, 31),
    ReaderCase("next arm", SMALL, 32),
    ReaderCase("last record", SMALL, 33),
    ReaderCase("the sheet's end", SMALL, 34),
    ReaderCase("past the sheet's end", SMALL, 35),
    ReaderCase("empty sheet", b"", 0),
    ReaderCase("inside a body", SMALL, 2),
    ReaderCase("loop, one byte short", SMALL[:25], 1),
    ReaderCase("loop, just whole", SMALL[:26], 1),
    ReaderCase("kind alone", b"\x02", 0),
    ReaderCase("work, one byte short", ONE_WORK[:4], 0),
    ReaderCase("work, just whole", ONE_WORK, 0),
    ReaderCase("kind 0", b"\x00", 0),
    ReaderCase("loop of kind 6, just whole", NO_TRIP[:27], 0),
    ReaderCase("loop of kind 6, one byte short", NO_TRIP[:26], 0),
    ReaderCase("after a loop of kind 6", NO_TRIP, 27),
    ReaderCase("kind 7", ONE_WORK + b"\x07", 5),
    ReaderCase("kind 255", b"\x03\xff\x03", 1),
    ReaderCase("fields are not looked at", b"\x01\xff\xff\x00\x00", 0),
]


class TextCase(NamedTuple):
    tells: str
    data: bytes


def program_input(sheet: bytes, parameters: Parameters = ZERO, budget: int = 100) -> bytes:
    """The program's input; parameters 0 and budget 100 unless said."""
    return inputs.program_input(sheet, parameters, budget)


PARAMETERS_SHEET = encode_all([
    loop(form(p=(1, 0, 0, -2)), form(p=(0, 3, -1)), stride=2), Work(1, 10), End(),
])

TEXT_CASES = [
    TextCase("the printed example", program_input(TRIANGLE)),
    TextCase("walked", program_input(UNEVEN)),
    TextCase("empty sheet", program_input(b"")),
    TextCase("no input", b""),
    TextCase("11 bytes", program_input(b"")[:11]),
    TextCase("2 at a place of two digits", program_input(ONE_WORK * 2 + b"\x07")),
    TextCase("skip in place of start", program_input(NO_TRIP)),
    TextCase("walked, since skip and start differ", program_input(SKIPPED)),
    TextCase("counting down, walked", program_input(DOWN)),
    TextCase("budget 0", program_input(TRIANGLE, ZERO, 0)),
    TextCase("budget's third byte", program_input(ONE_WORK, ZERO, 65536)),
    TextCase("budget's fourth byte", program_input(ONE_WORK, ZERO, 2 ** 24 + 1)),
    TextCase("8", program_input(TRIANGLE, ZERO, 2)),
    TextCase("6 in the second loop", program_input(encode_all(
        [span(0, 1), loop(form(), form(2047, i=1)), End(), End()]))),
    TextCase("parameters in order, signed", program_input(PARAMETERS_SHEET, (-5, 4, -300, 20))),
    TextCase("parameters 2 and 4 negative", program_input(PARAMETERS_SHEET, (5, -4, -300, -20))),
    TextCase("a large figure", program_input(WIDE)),
]


class ReasonCase(NamedTuple):
    tells: str
    line: bytes


REASON_CASES = [
    ReasonCase("a choice's line", b"choice 25 holds a loop\n"),
    ReasonCase("a line of too few trips", b"loop 50 may fall below no trips\n"),
    ReasonCase("an uneven loop's line", b"loop 1574 is uneven in loop 0\n"),
    ReasonCase("offset 0", b"choice 0 holds a loop\n"),
    ReasonCase("a leading zero", b"choice 01 holds a loop\n"),
    ReasonCase("a leading zero in the second offset", b"loop 50 is uneven in loop 00\n"),
    ReasonCase("offset 65,535", b"loop 65535 may fall below no trips\n"),
    ReasonCase("offset 65,536", b"loop 65536 may fall below no trips\n"),
    ReasonCase("second offset 65,535", b"loop 65535 is uneven in loop 65535\n"),
    ReasonCase("second offset 65,536", b"loop 65535 is uneven in loop 65536\n"),
    ReasonCase("offset 65,536 + 25", b"choice 65561 holds a loop\n"),
    ReasonCase("no offset", b"choice  holds a loop\n"),
    ReasonCase("no second offset", b"loop 50 is uneven in loop \n"),
    ReasonCase("a loop's phrase after a choice", b"choice 25 may fall below no trips\n"),
    ReasonCase("a choice's phrase after a loop", b"loop 25 holds a loop\n"),
    ReasonCase("no line feed", b"choice 25 holds a loop"),
    ReasonCase("no line feed after the second offset", b"loop 50 is uneven in loop 25"),
    ReasonCase("a line feed too much", b"choice 25 holds a loop\n\n"),
    ReasonCase("two lines", b"choice 25 holds a loop\nchoice 25 holds a loop\n"),
    ReasonCase("nothing", b""),
    ReasonCase("a line feed", b"\n"),
    ReasonCase("the figures line", b"best 45 worst 45 visits 3\n"),
    ReasonCase("a loop's line", b"loop 0 walked ceiling 10\n"),
]


class TextCallCase(NamedTuple):
    tells: str
    data: bytes
    buffer: bytes
    area: bytes


def text_call_case(
    tells: str, data: bytes, spare: int = 0, area_length: int = calls.LENGTH_AREA
) -> TextCallCase:
    """The call with a buffer that has so many bytes more than the text, or fewer."""
    text_length = len(calls.program_text(data))
    return TextCallCase(tells, data, b"\xbb" * (text_length + spare), area(area_length))


PRINTED = program_input(TRIANGLE)
REFUSED = program_input(ONE_WORK + b"\x07")
WALKED = program_input(UNEVEN)
MOST_LINES = program_input(encode_all([span(0, 2047, start=4095, step=4095), End()] * 64))
# 64 loops, of which 48 are walked
MOST_REASONS = program_input(encode_all(([span(0, 0)] * 3 + [span(0, -5)] + [End()] * 4) * 16))
TOO_LONG = program_input(b"\x04\x03" * 2000)

TEXT_CALL_CASES = [
    text_call_case("buffer as long as the text", PRINTED),
    text_call_case("buffer one byte short", PRINTED, spare=-1),
    TextCallCase("no buffer", PRINTED, b"", area(8)),
    text_call_case("buffer five bytes longer: they stay", PRINTED, spare=5),
    text_call_case("area of 11 bytes: the last three stay", PRINTED, area_length=11),
    text_call_case("area of 7 bytes", PRINTED, area_length=7),
    text_call_case("no area", PRINTED, area_length=0),
    text_call_case("9 before 12", PRINTED, spare=-1, area_length=7),
    TextCallCase("neither buffer nor area: 9", PRINTED, b"", b""),
    TextCallCase("12 with an area of 11 bytes: all stay", PRINTED, b"", area(11)),
    text_call_case("a refusal is text", REFUSED, spare=2),
    text_call_case("a refusal is text, buffer one byte short", REFUSED, spare=-1),
    text_call_case("budget 0 is text", program_input(TRIANGLE, ZERO, 0)),
    text_call_case("empty sheet", program_input(b"")),
    text_call_case("11 bytes of input", PRINTED[:11]),
    text_call_case("11 bytes of input, buffer one byte short", PRINTED[:11], spare=-1),
    text_call_case("no input", b"", spare=3),
    TextCallCase("no input and no buffer: 12", b"", b"", area(8)),
    TextCallCase("nothing at all: 9", b"", b"", b""),
    text_call_case("a line for each of 64 loops", MOST_LINES),
    text_call_case("a line for each of 64 loops, buffer one byte short", MOST_LINES, spare=-1),
    text_call_case("a reason's line", WALKED),
    text_call_case("a reason's line, buffer one byte short", WALKED, spare=-1),
    text_call_case("a reason's line, buffer one byte longer: it stays", WALKED, spare=1),
    text_call_case("48 reasons", MOST_REASONS),
    text_call_case("48 reasons, buffer one byte short", MOST_REASONS, spare=-1),
    text_call_case("more input than bound reads", TOO_LONG),
]
