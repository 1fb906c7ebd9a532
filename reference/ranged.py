"""Random calls over a range of a parameter, on sheets in which most loops rest on that parameter."""

from dataclasses import replace
from random import Random
from typing import NamedTuple

from generate import Case
from parameter_ranges import MOST_VALUES, Extremes, ParameterRange, RangeAnswer, extremes
from pumdalin.answers import Refusal
from pumdalin.inputs import PARAMETER_RANGE
from pumdalin.records import CEILING_LIMIT, PARAMETERS, Form, Loop, encode_all
from sheet import read

LOWEST, HIGHEST = PARAMETER_RANGE
# The reckoning goes over the trips at each value: longer sheets get few values.
SHORT_SHEET = 120


class Ranged(NamedTuple):
    """A sheet with parameters and budget, and a range."""

    case: Case
    over: ParameterRange

    def answer(self) -> RangeAnswer:
        return extremes(self.case.sheet, self.case.parameters, self.case.budget, self.over)

    def with_budget(self, budget: int) -> "Ranged":
        return self._replace(case=self.case._replace(budget=budget))


def ranged(random: Random, case: Case) -> Ranged:
    """The case with a range; its sheet is changed so that the range matters."""
    over = hostile_range(random) if random.random() < 0.06 else parameter_range(random, len(case.sheet) <= SHORT_SHEET)
    return Ranged(case._replace(sheet=resting_on(random, case.sheet, over.number)), over)


def parameter_range(random: Random, long: bool) -> ParameterRange:
    """Mostly a few values near 0; at times around the ceilings' limit, at an end of 16 bits, or as many as there may be."""
    count = random.choice([1, 2, 3, 4, 5, random.randint(1, 16)])
    if long and random.random() < 0.05:
        count = random.choice([MOST_VALUES - 1, MOST_VALUES, MOST_VALUES])
    near = random.randint(-10, 10)
    around_limit = CEILING_LIMIT - random.randint(0, count)
    first = random.choice([near] * 12 + [-count // 2] * 4 + [around_limit, LOWEST, HIGHEST - count + 1])
    return ParameterRange(random.randint(1, PARAMETERS), first, first + count - 1)


def hostile_range(random: Random) -> ParameterRange:
    """Refused 11, save by chance: another number, the first above the last, too many values, or any of 16 bits."""
    first = random.randint(-300, 300)
    last = first + random.randint(0, 9)
    number = random.randint(1, PARAMETERS)
    others = [random.randint(LOWEST, HIGHEST) for _ in range(2)]
    return random.choice([
        ParameterRange(random.choice([0, PARAMETERS + 1, 2 ** 32 - 1, random.randrange(2 ** 32)]), first, last),
        ParameterRange(number, last + 1, first),
        ParameterRange(number, first, first + random.choice([MOST_VALUES, MOST_VALUES + 1, 1000])),
        ParameterRange(number, *others),
        ParameterRange(number, LOWEST, HIGHEST),
    ])


def resting_on(random: Random, sheet: bytes, number: int) -> bytes:
    """The sheet with the parameter in the bounds of most loops; as it is where it can not be read."""
    records = read(sheet)
    if isinstance(records, Refusal) or not 1 <= number <= PARAMETERS:
        return sheet
    return encode_all([with_factors(random, record, number) if isinstance(record, Loop) else record for record in records])


def with_factors(random: Random, loop: Loop, number: int) -> Loop:
    """The loop with the same factor of the parameter in both forms, or in one of them another."""
    factor = random.choice([0, 0, 1, 1, -1, 2])
    upper = factor + random.choice([0, 0, 1, -1, loop.stride % 100])
    return replace(loop, lower=with_factor(loop.lower, number, factor), upper=with_factor(loop.upper, number, upper))


def with_factor(form: Form, number: int, factor: int) -> Form:
    factors = (*form.parameters[:number - 1], factor, *form.parameters[number:])
    return form._replace(parameters=factors)


def with_edges(asked: Ranged) -> list[tuple[Ranged, RangeAnswer]]:
    """The call with its answer, and where it has visits also with a budget of just these, and of one less."""
    result = asked.answer()
    answered = [(asked, result)]
    if isinstance(result, Extremes) and result.visits > 1:
        answered.append((asked.with_budget(result.visits), result))
        answered.append((asked.with_budget(result.visits - 1), Refusal(8, 0)))
    return answered
