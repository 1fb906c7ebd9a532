"""Figures over a range of one parameter, document 02, C-14: the library call and its C call."""

from typing import NamedTuple, Optional, Union

from calls import Called, called, figures, is_budget
from nest import accepted
from pumdalin.answers import Figures, Refusal
from pumdalin.inputs import Parameters
from pumdalin.records import PARAMETERS, Record
from sheet import read
from trips import TooMany

MOST_VALUES = 256
RANGE_AREA = 40


class ParameterRange(NamedTuple):
    """The values from the first to the last of the parameter with this number."""

    number: int
    first: int
    last: int

    def is_allowed(self) -> bool:
        return 1 <= self.number <= PARAMETERS and 1 <= len(self.values()) <= MOST_VALUES

    def values(self) -> range:
        return range(self.first, self.last + 1)

    def at(self, parameters: Parameters, value: int) -> Parameters:
        """The parameters at a value of the range: the one that is given for this parameter is not looked at."""
        return (*parameters[:self.number - 1], value, *parameters[self.number:])


class Extremes(NamedTuple):
    """The smallest least and the largest most, each with the smallest value that gives it, and the visits added up."""

    least: int
    least_at: int
    most: int
    most_at: int
    visits: int


RangeAnswer = Union[Extremes, Refusal]


def extremes(sheet: bytes, parameters: Parameters, budget: int, over: ParameterRange) -> RangeAnswer:
    """The library call: 11; 7; 1 to 6 of the first value that has one; 8; or the extremes."""
    if not over.is_allowed():
        return Refusal(11, 0)
    if not is_budget(budget):
        return Refusal(7, 0)
    refusal = first_refusal(sheet, parameters, over)
    if refusal is not None:
        return refusal
    try:
        return extremes_of(figures_over(read(sheet), parameters, budget, over))
    except TooMany:
        return Refusal(8, 0)


def first_refusal(sheet: bytes, parameters: Parameters, over: ParameterRange) -> Optional[Refusal]:
    """1 to 6 of the first value that has one. It comes before 8, so no value's visits are looked at."""
    for value in over.values():
        found = accepted(sheet, over.at(parameters, value))
        if isinstance(found, Refusal):
            return found
    return None


def figures_over(
    records: list[Record], parameters: Parameters, budget: int, over: ParameterRange
) -> dict[int, Figures]:
    """The figures at each value; TooMany where all visits together pass the budget."""
    found: dict[int, Figures] = {}
    left = budget
    for value in over.values():
        found[value] = figures(records, over.at(parameters, value), left)
        left -= found[value].visits
    return found


def extremes_of(found: dict[int, Figures]) -> Extremes:
    """Values ascend, and of equal ones `min` and `max` take the first."""
    least_at = min(found, key=lambda value: found[value].least)
    most_at = max(found, key=lambda value: found[value].most)
    visits = sum(each.visits for each in found.values())
    return Extremes(found[least_at].least, least_at, found[most_at].most, most_at, visits)


def range_call(sheet: bytes, parameters: Parameters, budget: int, over: ParameterRange, area: bytes) -> Called:
    """The C call, from the library call's answer."""
    return range_called(extremes(sheet, parameters, budget, over), area)


def range_called(result: RangeAnswer, area: bytes) -> Called:
    """The area takes the five numbers of the extremes, in their order."""
    return called(result, area, RANGE_AREA)
