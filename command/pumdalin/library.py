"""The proved calls, in the package's shared library."""

import ctypes
from functools import cached_property
from pathlib import Path
from typing import Callable, Optional, Union

from pumdalin import VERSION
from pumdalin.answers import (
    RANGE_REFUSALS, READER_REFUSALS, SKIP_DIFFERS, Extreme, Extremes, Figures, Refusal, Report, read_report,
)
from pumdalin.errors import CommandError
from pumdalin.inputs import ParameterRange, Parameters, filled, program_input
from pumdalin.records import LOOP, PARAMETERS, SKIP_LOOP, signed

# The name carries the first number of the version.
LIBRARY_NAME = f"libpumdalin.so.{VERSION.partition('.')[0]}"

FIRST_BUFFER_LENGTH = 16_384
# So many bytes has each number in an answer area.
NUMBER_LENGTH = 8
TEXT_TOO_LONG = 12

TEXT_CALL = "pumdalin_text"
FIGURES_CALL = "pumdalin_figures"
RANGE_CALL = "pumdalin_range"

# The converters, by the one kind that the loops of the new sheet have.
CONVERTERS = {SKIP_LOOP: "pumdalin_with_skips", LOOP: "pumdalin_without_skips"}
# A loop's 25 bytes may become 27, and no other record grows: so many times the sheet's bytes hold the new one.
MOST_GROWTH = 2

BYTES = (ctypes.c_char_p, ctypes.c_size_t)
VALUES = (ctypes.c_int16,) * PARAMETERS + (ctypes.c_uint32,)
RANGE = (ctypes.c_uint32, ctypes.c_int16, ctypes.c_int16)


class Library:
    """The calls of the shared library at a path."""

    def __init__(self, path: Path) -> None:
        self.path = path

    @cached_property
    def calls(self) -> ctypes.CDLL:
        return ctypes.CDLL(str(self.path))

    def call(self, name: str, *taken: type) -> Callable[..., int]:
        """The call of a name, which takes arguments of these types and returns 0 or the number of a refusal."""
        try:
            call = getattr(self.calls, name)
        except (OSError, AttributeError) as error:
            raise CommandError(f"the package's library can't be used: {error}; "
                               "install the package anew, on x86-64") from error
        call.argtypes, call.restype = taken, ctypes.c_uint32
        found: Callable[..., int] = call
        return found

    def stored(self, name: str, data: bytes, length: int) -> Union[bytes, int]:
        """What a call stores for an input in a buffer of so many bytes, or the number of its refusal."""
        buffer, area = ctypes.create_string_buffer(length), ctypes.create_string_buffer(NUMBER_LENGTH)
        number = self.call(name, *BYTES * 3)(data, len(data), buffer, length, area, NUMBER_LENGTH)
        return number if number else buffer.raw[:int.from_bytes(area.raw, "little")]

    def numbers(self, name: str, taken: tuple[type, ...], given: tuple[object, ...], count: int) -> Union[list[int], int]:
        """So many numbers that a call stores in its answer area, or the number of its refusal."""
        length = count * NUMBER_LENGTH
        area = ctypes.create_string_buffer(length)
        number = self.call(name, *taken, *BYTES)(*given, area, length)
        return number if number else [signed(area.raw[at:at + NUMBER_LENGTH]) for at in range(0, length, NUMBER_LENGTH)]

    def text(self, data: bytes) -> bytes:
        """What `bound` prints for its input. The buffer grows until the text fits."""
        length = FIRST_BUFFER_LENGTH
        while True:
            stored = self.stored(TEXT_CALL, data, length)
            if isinstance(stored, bytes):
                return stored
            if stored != TEXT_TOO_LONG:
                raise unforeseen(TEXT_CALL, stored)
            length *= 2

    def converted(self, sheet: bytes, kind: int) -> Optional[bytes]:
        """A sheet that the reader accepts with all its loops of one kind; none where that is refused 10."""
        stored = self.stored(CONVERTERS[kind], sheet, MOST_GROWTH * len(sheet))
        if isinstance(stored, bytes):
            return stored
        if kind != LOOP or stored != SKIP_DIFFERS:
            raise unforeseen(CONVERTERS[kind], stored)
        return None

    def report(self, sheet: bytes, parameters: Parameters, budget: int) -> Report:
        """The answer for a sheet at its parameters and budget, and what is said of its loops."""
        return read_report(self.text(program_input(sheet, parameters, budget)).decode("ascii"))

    def figures(self, sheet: bytes, parameters: Parameters, budget: int) -> Figures:
        """The figures of a sheet where they are known not to be refused."""
        stored = self.numbers(FIGURES_CALL, BYTES + VALUES, (sheet, len(sheet), *parameters, budget), len(Figures._fields))
        if isinstance(stored, int):
            raise unforeseen(FIGURES_CALL, stored)
        return Figures(*stored)

    def extremes(self, sheet: bytes, parameters: Parameters, budget: int, over: ParameterRange) -> Union[Extremes, int]:
        """Least and most over a range of a parameter, or the number of the refusal: the call does not hand out its place."""
        stored = self.numbers(RANGE_CALL, BYTES + VALUES + RANGE, (sheet, len(sheet), *parameters, budget, *over), 5)
        if isinstance(stored, int):
            if stored not in RANGE_REFUSALS:
                raise unforeseen(RANGE_CALL, stored)
            return stored
        least, least_value, most, most_value, visits = stored
        return Extremes(Extreme(least, least_value), Extreme(most, most_value), visits)

    def reader_refusal(self, sheet: bytes) -> Optional[Refusal]:
        """The refusal of the reader of sheets, which asks neither parameters nor budget."""
        answer = self.report(sheet, filled(()), 1).answer
        return answer if isinstance(answer, Refusal) and answer.number in READER_REFUSALS else None


def unforeseen(name: str, number: int) -> CommandError:
    return CommandError(f"the call {name} returned {number}, which it never does here")
