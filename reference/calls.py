"""The library call, the C calls and the text of `bound`."""

from typing import NamedTuple, Sequence, Union

import stages
import trips
import visiting
from nest import ReckonedLoop, accepted, loop_reports
from pumdalin.answers import Answer, Figures, Refusal
from pumdalin.inputs import HEADER_LENGTH, LARGEST_BUDGET, Parameters, from_input
from pumdalin.records import Record
from sheet import read
from trips import Bounds, TooMany

ANSWER_LENGTH = 24
LENGTH_AREA = 8
INPUT_LIMIT = 3469

# Up to so many trips the figures come from going over every trip.
TRIP_LIMIT = 4_000


def answer(sheet: bytes, parameters: Parameters, budget: int) -> Answer:
    """The library call: 7; 1 to 5; 6; 8; or the figures."""
    if not is_budget(budget):
        return Refusal(7, 0)
    records = accepted(sheet, parameters)
    if isinstance(records, Refusal):
        return records
    try:
        return figures(records, parameters, budget)
    except TooMany:
        return Refusal(8, 0)


def is_budget(budget: int) -> bool:
    return 1 <= budget <= LARGEST_BUDGET


def figures(records: list[Record], parameters: Parameters, most_visits: int) -> Figures:
    """The figures of a sheet that is not refused 1 to 6; TooMany where it takes more visits than these."""
    visits = visiting.visits(records, parameters, most_visits)
    bounds = times(records, parameters)
    return Figures(bounds.least, bounds.most, visits)


def times(records: list[Record], parameters: Parameters) -> Bounds:
    """Least and most of a sheet that is not refused 1 to 6.

    A closed sheet can have 2,048^4 trips, which nobody can go over. So where
    there are more than TRIP_LIMIT trips, the figures are those of the stages.
    The tests check that both agree wherever the trips can be gone over.
    """
    try:
        return trips.time(records, parameters, TRIP_LIMIT)
    except TooMany:
        nest = stages.nest_from(records, parameters)
        return stages.run_stages(nest, LARGEST_BUDGET).current


def reports(sheet: bytes, parameters: Parameters) -> list[ReckonedLoop]:
    """The loop reports of a sheet; none where it is refused 1 to 5."""
    records = read(sheet)
    if isinstance(records, Refusal):
        return []
    return loop_reports(records, parameters)


class Called(NamedTuple):
    """The C call's number, and the whole area after it."""

    number: int
    area: bytes


def c_call(sheet: bytes, parameters: Parameters, budget: int, area: bytes) -> Called:
    """The C call, from the library call's answer."""
    return called(answer(sheet, parameters, budget), area)


def called(result: Union[Sequence[int], Refusal], area: bytes, length: int = ANSWER_LENGTH) -> Called:
    """9, for an area shorter than the answer, comes before every other refusal; a refusal writes nothing."""
    if len(area) < length:
        return Called(9, area)
    if isinstance(result, Refusal):
        return Called(result.number, area)
    return Called(0, eight_bytes_each(result) + area[length:])


def eight_bytes_each(numbers: Sequence[int]) -> bytes:
    """What an area takes: low byte first, negative numbers in two's complement. Every figure is below 2^63."""
    return b"".join(number.to_bytes(8, "little", signed=True) for number in numbers)


def program_text(data: bytes) -> bytes:
    """What `bound` prints for its standard input."""
    data = data[:INPUT_LIMIT]
    if len(data) < HEADER_LENGTH:
        return b"refused 1 at 0\n"
    sheet, parameters, budget = from_input(data)
    return answer_text(answer(sheet, parameters, budget), reports(sheet, parameters))


def answer_text(result: Answer, loops: list[ReckonedLoop]) -> bytes:
    """The text of an answer; a refusal's has no line for a loop."""
    if isinstance(result, Refusal):
        return f"refused {result.number} at {result.place}\n".encode()
    lines = [f"best {result.least} worst {result.most} visits {result.visits}\n"]
    lines += [loop.text() for loop in loops]
    return "".join(lines).encode()


class Lent(NamedTuple):
    """The number of a call that stores a text or a sheet, and the whole buffer and area after it."""

    number: int
    buffer: bytes
    area: bytes


def lent(data: bytes, buffer: bytes, area: bytes) -> Lent:
    """The bytes at the buffer's start and their length at the area's; all others stay."""
    length = len(data).to_bytes(LENGTH_AREA, "little")
    return Lent(0, data + buffer[len(data):], length + area[LENGTH_AREA:])


def text_call(data: bytes, buffer: bytes, area: bytes) -> Lent:
    """The C call that stores what `bound` prints for the same input."""
    return text_called(program_text(data), buffer, area)


def text_called(text: bytes, buffer: bytes, area: bytes) -> Lent:
    """9 comes before 12, and both write nothing; a refusal of the sheet is text like any other."""
    if len(area) < LENGTH_AREA:
        return Lent(9, buffer, area)
    if len(buffer) < len(text):
        return Lent(12, buffer, area)
    return lent(text, buffer, area)
