"""Two files of sheets with their answers: readings.txt has those that tell readings of the
papers apart, telling.txt those that tell a definition from one that is wrong in one place.
requests.txt has calls that tell readings of document 02 apart.

A line of the first two: four parameters, budget, sheet in hex (- if empty), `=>`, then
`ok LEAST MOST VISITS WAYS CEILINGS` (c, r or w by loop; - if there is none) or
`refused NUMBER PLACE`; last `#` and what it tells. A line of the third: the request, the
input of `bound` in hex, `=>`, then the printed text with | for each line feed; last the same.
Or the request, `to6` or `to2`, the length of the buffer, the sheet, `=>`, then `ok`, the new
sheet's length and the new sheet, or `refused NUMBER PLACE`; last the same. Or the request,
`range`, four parameters, budget, the parameter's number, its first and last value, the sheet,
`=>`, then `ok LEAST ITS-VALUE MOST ITS-VALUE VISITS` or `refused NUMBER PLACE`; last the same.
"""

import os
from typing import NamedTuple, Union

from parameter_ranges import Extremes, ParameterRange, RangeAnswer
from pumdalin.answers import Answer, Figures, Refusal
from pumdalin.inputs import Parameters
from pumdalin.records import LOOP, SKIP_LOOP

HERE = os.path.dirname(os.path.abspath(__file__))
READINGS = os.path.join(HERE, "readings.txt")
TELLING = os.path.join(HERE, "telling.txt")
REQUESTS = os.path.join(HERE, "requests.txt")

# The kind that loops get from each converter.
CONVERTERS = {"to6": SKIP_LOOP, "to2": LOOP}
RANGE = "range"


class Reading(NamedTuple):
    parameters: Parameters
    budget: int
    sheet: bytes
    answer: Answer
    ways: str
    ceilings: list[int]
    tells: str


class Printed(NamedTuple):
    request: str
    data: bytes
    text: bytes
    tells: str


class RequestedConversion(NamedTuple):
    request: str
    kind: int
    room: int
    sheet: bytes
    answer: Union[bytes, Refusal]
    tells: str


class RequestedRange(NamedTuple):
    request: str
    parameters: Parameters
    budget: int
    over: ParameterRange
    sheet: bytes
    answer: RangeAnswer
    tells: str


def from_hex(text: str) -> bytes:
    return bytes.fromhex("" if text == "-" else text)


def parse_line(line: str) -> Reading:
    case, _, tells = line.partition("#")
    given, _, expected = case.partition("=>")
    *numbers, sheet = given.split()
    words = expected.split()
    figures = tuple(int(word) for word in words[1:4])
    answered = words[0] == "ok"
    return Reading(
        tuple(int(number) for number in numbers[:4]),
        int(numbers[4]),
        from_hex(sheet),
        Figures(*figures) if answered else Refusal(*figures),
        words[4].replace("-", "") if answered else "",
        [int(c) for c in words[5].split(",") if c != "-"] if answered else [],
        tells.strip(),
    )


def parse_request(line: str) -> Printed:
    case, _, tells = line.partition("#")
    given, _, text = case.partition("=>")
    request, data = given.split()
    return Printed(
        request,
        bytes.fromhex(data),
        text.strip().replace("|", "\n").encode(),
        tells.strip(),
    )


def parse_conversion(line: str) -> RequestedConversion:
    case, _, tells = line.partition("#")
    given, _, expected = case.partition("=>")
    request, converter, room, sheet = given.split()
    word, number, value = expected.split()
    answer = from_hex(value) if word == "ok" else Refusal(int(number), int(value))
    assert isinstance(answer, Refusal) or len(answer) == int(number), line
    return RequestedConversion(request, CONVERTERS[converter], int(room), from_hex(sheet), answer, tells.strip())


def parse_range(line: str) -> RequestedRange:
    case, _, tells = line.partition("#")
    given, _, expected = case.partition("=>")
    request, _, *values, sheet = given.split()
    numbers = [int(value) for value in values]
    word, *found = expected.split()
    answer = (Extremes if word == "ok" else Refusal)(*map(int, found))
    return RequestedRange(
        request, tuple(numbers[:4]), numbers[4], ParameterRange(*numbers[5:]), from_hex(sheet), answer, tells.strip())


def call_of(line: str) -> str:
    """The word for the call of a request's line; a line of `bound` has its input there."""
    return line.split()[1]


def is_conversion(line: str) -> bool:
    return call_of(line) in CONVERTERS


def is_range(line: str) -> bool:
    return call_of(line) == RANGE


def lines_of(path: str) -> list[str]:
    """The lines of a file, save those that are empty or comments."""
    with open(path, encoding="utf-8") as file:
        lines = [line.strip() for line in file]
    return [line for line in lines if line and not line.startswith("#")]


def parse_file(path: str) -> list[Reading]:
    return [parse_line(line) for line in lines_of(path)]


def parse_requests() -> list[Printed]:
    """Those of `bound`."""
    return [parse_request(line) for line in lines_of(REQUESTS) if not is_conversion(line) and not is_range(line)]


def parse_conversions() -> list[RequestedConversion]:
    return [parse_conversion(line) for line in lines_of(REQUESTS) if is_conversion(line)]


def parse_ranges() -> list[RequestedRange]:
    return [parse_range(line) for line in lines_of(REQUESTS) if is_range(line)]
