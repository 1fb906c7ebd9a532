"""Tests that the calls kept of ranges tell other readings of document 02, C-14 apart."""

import unittest
from typing import Callable, Optional
from unittest import mock

import parameter_ranges
from calls import Called, figures, is_budget
from nest import accepted
from parameter_ranges import (
    Extremes, ParameterRange, RangeAnswer, extremes_of, figures_over, first_refusal, range_called,
)
from pumdalin.answers import Figures, Refusal
from pumdalin.inputs import Parameters
from pumdalin.records import PARAMETERS, Record
from range_calls import LONG, RANGE_CALLS
from sheet import read
from trips import TooMany

Found = dict[int, Figures]

# Those with few values first, since they tell most; those with the most trips tell nothing more.
KEPT = sorted([case for case in RANGE_CALLS if case not in LONG], key=lambda case: len(case.over.values()))
# What the readings below put something else in place of.
right_at = ParameterRange.at


def cut_number(bits: int) -> Callable[[ParameterRange], bool]:
    """As if the parameter's number had so many bits."""
    return lambda over: (1 <= over.number % 2 ** bits <= PARAMETERS) and 1 <= len(over.values()) <= 256


def within(smallest: int, largest: int, most_values: int) -> Callable[[ParameterRange], bool]:
    """As if other numbers of a parameter, or another count of values, were allowed."""
    return lambda over: smallest <= over.number <= largest and 1 <= len(over.values()) <= most_values


def from_zero(over: ParameterRange, parameters: Parameters, value: int) -> Parameters:
    """As if parameters were numbered from 0."""
    return right_at(over._replace(number=over.number + 1), parameters, value)[:PARAMETERS]


# Other readings of a range: a function of it, and what it would be.
WRONG_RANGES: dict[str, tuple[str, Callable]] = {
    "the value given is taken": ("at", lambda over, parameters, value: parameters),
    "the value given is added": ("at", lambda over, parameters, value: right_at(
        over, parameters, parameters[over.number - 1] + value)),
    "parameters are numbered from 0": ("at", from_zero),
    "always parameter 1": ("at", lambda over, parameters, value: (value, *parameters[1:])),
    "the last value is left out": ("values", lambda over: range(over.first, max(over.last, over.first + 1))),
    "the first value is left out": ("values", lambda over: range(min(over.first + 1, over.last), over.last + 1)),
    "a first value above the last is turned round":
        ("values", lambda over: range(min(over.first, over.last), max(over.first, over.last) + 1)),
    "256 values are refused": ("is_allowed", within(1, 4, 255)),
    "257 values are allowed": ("is_allowed", within(1, 4, 257)),
    "number 0 is allowed": ("is_allowed", within(0, 4, 256)),
    "number 5 is allowed": ("is_allowed", within(1, 5, 256)),
    "parameter 4 is refused": ("is_allowed", within(1, 3, 256)),
    "the number's low byte": ("is_allowed", cut_number(8)),
    "the number's low two bytes": ("is_allowed", cut_number(16)),
    "the number without its highest bit": ("is_allowed", cut_number(31)),
}


def value_for(found: Found, pick: Callable, of: Callable[[Figures], int], last: bool) -> int:
    """The first value, or the last, that has the smallest or the largest of its figures."""
    best = pick(of(each) for each in found.values())
    values = [value for value, each in found.items() if of(each) == best]
    return values[-1 if last else 0]


def least_of(each: Figures) -> int:
    return each.least


def most_of(each: Figures) -> int:
    return each.most


def last_of_equals(least_too: bool, most_too: bool) -> Callable[[Found], Extremes]:
    def wrong(found: Found) -> Extremes:
        return extremes_of(found)._replace(
            least_at=value_for(found, min, least_of, least_too), most_at=value_for(found, max, most_of, most_too))
    return wrong


def figures_at_the_least(found: Found) -> Extremes:
    """As if most were that of the value with the smallest least."""
    right = extremes_of(found)
    return right._replace(most=found[right.least_at].most, most_at=right.least_at)


def changed(change: Callable[[Extremes, Found], dict[str, int]]) -> Callable[[Found], Extremes]:
    """The right extremes with other fields."""
    def wrong(found: Found) -> Extremes:
        right = extremes_of(found)
        return right._replace(**change(right, found))
    return wrong


# Other readings of what is found at the values.
WRONG_EXTREMES: dict[str, Callable[[Found], Extremes]] = {
    "least: the last of equal values": last_of_equals(True, False),
    "most: the last of equal values": last_of_equals(False, True),
    "most at the value of the smallest least": figures_at_the_least,
    "the smallest most": changed(lambda right, found: {"most": min(each.most for each in found.values())}),
    "the largest least": changed(lambda right, found: {"least": max(each.least for each in found.values())}),
    "the visits of one value": changed(lambda right, found: {"visits": max(each.visits for each in found.values())}),
    "the values from 0": changed(lambda right, found: {"least_at": right.least_at - min(found)}),
    "the value of the most from 0": changed(lambda right, found: {"most_at": right.most_at - min(found)}),
    "values without a sign": changed(lambda right, found: {"least_at": right.least_at % 65536}),
    "the value of the most without a sign": changed(lambda right, found: {"most_at": right.most_at % 65536}),
    "the two values exchanged": changed(lambda right, found: {"least_at": right.most_at, "most_at": right.least_at}),
}


def each_alone(records: list[Record], parameters: Parameters, budget: int, over: ParameterRange) -> Found:
    """As if each value had the whole budget."""
    return {value: figures(records, over.at(parameters, value), budget) for value in over.values()}


def up_to_the_last(records: list[Record], parameters: Parameters, budget: int, over: ParameterRange) -> Found:
    """As if no value could follow where the budget is spent, though it takes no visit."""
    found: Found = {}
    for value in over.values():
        if sum(each.visits for each in found.values()) >= budget:
            raise TooMany
        found[value] = figures(records, over.at(parameters, value), budget)
    return figures_over(records, parameters, budget, over)


# Other readings of the budget.
WRONG_BUDGETS: dict[str, Callable[..., Found]] = {
    "a budget for each value": each_alone,
    "8 where the sum is the budget": lambda records, parameters, budget, over: figures_over(
        records, parameters, budget - 1, over),
    "one visit more than the budget": lambda records, parameters, budget, over: figures_over(
        records, parameters, budget + 1, over),
    "8 where the budget is spent before the last value": up_to_the_last,
}


def all_refusals(sheet: bytes, parameters: Parameters, over: ParameterRange) -> list[Refusal]:
    found = [accepted(sheet, over.at(parameters, value)) for value in over.values()]
    return [each for each in found if isinstance(each, Refusal)]


def last_refusal(sheet: bytes, parameters: Parameters, over: ParameterRange) -> Optional[Refusal]:
    found = all_refusals(sheet, parameters, over)
    return found[-1] if found else None


def first_in_the_sheet(sheet: bytes, parameters: Parameters, over: ParameterRange) -> Optional[Refusal]:
    """As if the first loop came before the first value."""
    return min(all_refusals(sheet, parameters, over), key=lambda each: each.place, default=None)


def at_the_first_value(sheet: bytes, parameters: Parameters, over: ParameterRange) -> Optional[Refusal]:
    """As if the first value alone could be refused."""
    return first_refusal(sheet, parameters, over._replace(last=over.first))


def of_the_given_value(sheet: bytes, parameters: Parameters, over: ParameterRange) -> Optional[Refusal]:
    """As if the value that is given had to be allowed too."""
    found = accepted(sheet, parameters)
    return found if isinstance(found, Refusal) else first_refusal(sheet, parameters, over)


# Other readings of whose refusal is the answer.
WRONG_REFUSALS: dict[str, Callable[..., Optional[Refusal]]] = {
    "the last refused value's": last_refusal,
    "that of the first loop in the sheet": first_in_the_sheet,
    "the first value's alone": at_the_first_value,
    "the given value's too": of_the_given_value,
}

Asked = Callable[[bytes, Parameters, int, ParameterRange], RangeAnswer]
Check = Callable[[bytes, Parameters, int, ParameterRange], Optional[Refusal]]


def range_check(sheet: bytes, parameters: Parameters, budget: int, over: ParameterRange) -> Optional[Refusal]:
    return None if over.is_allowed() else Refusal(11, 0)


def budget_check(sheet: bytes, parameters: Parameters, budget: int, over: ParameterRange) -> Optional[Refusal]:
    return None if is_budget(budget) else Refusal(7, 0)


def reader_check(sheet: bytes, parameters: Parameters, budget: int, over: ParameterRange) -> Optional[Refusal]:
    records = read(sheet)
    return records if isinstance(records, Refusal) else None


def ceiling_check(sheet: bytes, parameters: Parameters, budget: int, over: ParameterRange) -> Optional[Refusal]:
    return first_refusal(sheet, parameters, over)


def visits_check(sheet: bytes, parameters: Parameters, budget: int, over: ParameterRange) -> Optional[Refusal]:
    """8 where the visits up to a value pass the budget, as far as no value is refused 6."""
    left = budget
    for value in over.values():
        records = accepted(sheet, over.at(parameters, value))
        if isinstance(records, Refusal):
            return None
        try:
            left -= figures(records, over.at(parameters, value), left).visits
        except TooMany:
            return Refusal(8, 0)
    return None


def in_order(*checks: Check) -> Asked:
    """As if these were checked in this order, and then all others."""
    def wrong(sheet: bytes, parameters: Parameters, budget: int, over: ParameterRange) -> RangeAnswer:
        for check in checks:
            refusal = check(sheet, parameters, budget, over)
            if refusal is not None:
                return refusal
        return parameter_ranges.extremes(sheet, parameters, budget, over)
    return wrong


WRONG_ORDERS: dict[str, Asked] = {
    "7 before 11": in_order(budget_check, range_check),
    "11 after 1 to 5": in_order(reader_check, range_check),
    "11 after 7 and 1 to 5": in_order(budget_check, reader_check, range_check),
    "11 after 6": in_order(lambda *given: None if reader_check(*given) else ceiling_check(*given), range_check),
    "11 after 8": in_order(lambda *given: None if budget_check(*given) else visits_check(*given), range_check),
    "1 to 5 before 7": in_order(range_check, reader_check, budget_check),
    "6 before 7": in_order(range_check, lambda *given: None if reader_check(*given) else ceiling_check(*given)),
    "8 of earlier values before a later 6": in_order(range_check, budget_check, visits_check),
}

# Other readings of the C call, from the library call's answer.
WRONG_AREAS: dict[str, Callable[[RangeAnswer, bytes], Called]] = {
    "an area of 24 bytes suffices": lambda result, area: wrongly_long(result, area, 24),
    "an area of 39 bytes suffices": lambda result, area: wrongly_long(result, area, 39),
    "an area of 41 bytes is asked for": lambda result, area: (
        Called(9, area) if len(area) < 41 else range_called(result, area)),
    "9 comes last": lambda result, area: (
        Called(result.number, area) if isinstance(result, Refusal) else range_called(result, area)),
    "a refusal clears the area": lambda result, area: range_called(result, area)._replace(
        area=bytes(len(area)) if isinstance(result, Refusal) else range_called(result, area).area),
    "bytes past the answer are cleared": lambda result, area: (
        range_called(result, area)._replace(area=range_called(result, area).area[:40] + bytes(len(area[40:])))),
    "least and most before their values": lambda result, area: range_called(
        result if isinstance(result, Refusal) else Extremes(
            result.least, result.most, result.least_at, result.most_at, result.visits), area),
}


def wrongly_long(result: RangeAnswer, area: bytes, length: int) -> Called:
    """As if so many bytes sufficed; what has no room is left out."""
    called = range_called(result, area.ljust(40))
    return Called(9, area) if len(area) < length else called._replace(area=called.area[:len(area)])


class WrongRanges(unittest.TestCase):
    """Each other reading answers a kept call otherwise."""

    def differs(self, asked: Asked) -> bool:
        return any(asked(case.sheet, case.parameters, case.budget, case.over) != case.answer for case in KEPT)

    def check_patched(self, target: object, name: str, tells: str, wrong: Callable) -> None:
        with self.subTest(tells), mock.patch.object(target, name, wrong):
            self.assertTrue(self.differs(parameter_ranges.extremes))

    def test_right(self) -> None:
        self.assertFalse(self.differs(in_order(range_check, budget_check, ceiling_check, visits_check)))

    def test_ranges(self) -> None:
        for tells, (name, wrong) in WRONG_RANGES.items():
            self.check_patched(ParameterRange, name, tells, wrong)

    def test_functions(self) -> None:
        for name, functions in [
            ("extremes_of", WRONG_EXTREMES), ("figures_over", WRONG_BUDGETS), ("first_refusal", WRONG_REFUSALS),
        ]:
            for tells, wrong in functions.items():
                self.check_patched(parameter_ranges, name, tells, wrong)

    def test_orders(self) -> None:
        for tells, wrong in WRONG_ORDERS.items():
            with self.subTest(tells):
                self.assertTrue(self.differs(wrong))

    def test_areas(self) -> None:
        for tells, wrong in WRONG_AREAS.items():
            with self.subTest(tells):
                self.assertTrue(any(wrong(case.answer, case.area) != range_called(case.answer, case.area)
                                    for case in KEPT))


if __name__ == "__main__":
    unittest.main()
