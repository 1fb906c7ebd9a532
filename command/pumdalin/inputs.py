"""What a call is asked with: four parameters, a budget and a sheet, and their bytes; or a range of one parameter."""

from typing import NamedTuple

from pumdalin.ranges import SIGNED_16, UNSIGNED_32
from pumdalin.records import PARAMETERS, signed, unsigned

Parameters = tuple[int, int, int, int]

LARGEST_BUDGET = 1_000_000
HEADER_LENGTH = 12

PARAMETER_RANGE = SIGNED_16
BUDGET_RANGE = (1, LARGEST_BUDGET)
# What the bytes of a budget hold; that one is out of its range is for the proved call to say.
STORED_BUDGET_RANGE = UNSIGNED_32

# Likewise of a range over one parameter: its number, and how many values it has.
NUMBER_RANGE = (1, PARAMETERS)
STORED_NUMBER_RANGE = UNSIGNED_32
MOST_VALUES = 256


class ParameterRange(NamedTuple):
    """The values of one parameter, numbered from 1, from the first to the last."""

    number: int
    first: int
    last: int

    @property
    def name(self) -> str:
        return f"p{self.number}"

    def values(self) -> range:
        return range(self.first, self.last + 1)


def filled(values: tuple[int, ...]) -> Parameters:
    """Four parameters; those without a value are 0."""
    first, second, third, fourth = values + (0,) * (PARAMETERS - len(values))
    return first, second, third, fourth


def without_value(used: list[int], values: tuple[int, ...]) -> list[int]:
    """The parameters among these, numbered from 0, that no value is given for."""
    return [parameter for parameter in used if parameter >= len(values)]


def with_value(parameters: Parameters, number: int, value: int) -> Parameters:
    """The parameters with another value of one of them, numbered from 1."""
    return filled((*parameters[:number - 1], value, *parameters[number:]))


def encode_parameters(parameters: Parameters) -> bytes:
    """2 bytes each, low byte first."""
    return b"".join(value.to_bytes(2, "little", signed=True) for value in parameters)


def program_input(sheet: bytes, parameters: Parameters, budget: int) -> bytes:
    """What `bound` and the text call read: four parameters of 2 bytes, the budget of 4, the sheet."""
    return encode_parameters(parameters) + budget.to_bytes(4, "little") + sheet


def from_input(data: bytes) -> tuple[bytes, Parameters, int]:
    """Sheet, parameters and budget of an input that has its first 12 bytes."""
    parameters = filled(tuple(signed(data[2 * i:2 * i + 2]) for i in range(PARAMETERS)))
    return data[HEADER_LENGTH:], parameters, unsigned(data[8:HEADER_LENGTH])
