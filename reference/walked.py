"""Random sheets of nests whose loops are mostly walked, for reasons of all sorts."""

from dataclasses import replace
from random import Random
from typing import Callable, NamedTuple

import generate
from directions import turned_at_times
from generate import Case, cost, factors, skip, work
from nest import Range, asked_difference, form_range, index_range
from pumdalin.inputs import Parameters
from pumdalin.records import MOST_LOOPS_DEEP, MOST_RECORDS, Choice, End, Form, Loop, NextArm, Record, encode_all


class Aim(NamedTuple):
    """How often a loop stands in a choice, has too few trips, is uneven."""

    choice: float
    few: float
    uneven: float


AIMS = [
    Aim(0.4, 0, 0), Aim(0, 0.4, 0), Aim(0, 0, 0.5),
    Aim(0, 0.2, 0.4), Aim(0.15, 0.2, 0.4),
    # one test that fails in a large nest, or none
    Aim(0, 0.1, 0), Aim(0, 0, 0.2),
]

BUDGET = 2000


def slant(random: Random, aim: Aim, enclosing: int, stride: int) -> tuple[int, ...]:
    """Factors of D: multiples of the stride, save one where the loop is to be uneven."""
    own = list(factors(random, enclosing, 1, stride))
    if enclosing and random.random() < aim.uneven:
        own[random.randrange(enclosing)] += 1
    return tuple(own)


def smallest_difference(random: Random, aim: Aim, enclosing: int, loop: Loop) -> int:
    """Mostly what closing asks or a little more, at times less; the outermost loop has trips."""
    if not enclosing:
        return loop.stride * random.randint(1, 4)
    asked = asked_difference(loop)
    if random.random() < aim.few:
        return asked - random.randint(1, 3)
    return asked + random.choice([0, 0, 1, loop.stride, random.randint(0, 3 * loop.stride)])


def nested_loop(random: Random, aim: Aim, ranges: list[Range], parameters: Parameters) -> Loop:
    """A loop in loops whose indexes have these ranges."""
    # 1 divides everything
    stride = random.randint(2 if aim.uneven else 1, 4)
    lower = Form(random.randint(-4, 4), factors(random, len(ranges), 1), generate.parameter_factors(random))
    change = slant(random, aim, len(ranges), stride)
    spread = form_range(Form(0, change), ranges, parameters).smallest
    start = cost(random)
    loop = Loop(start, cost(random), stride, lower, lower, skip(random, start))
    width = smallest_difference(random, aim, len(ranges), loop) - spread
    upper = tuple(l + c for l, c in zip(lower.indexes, change))
    return turned_at_times(random, replace(loop, upper=Form(lower.constant + width, upper, lower.parameters)))


def nest(random: Random, aim: Aim, ranges: list[Range], parameters: Parameters) -> list[Record]:
    """A loop with one or two parts in its body."""
    loop = nested_loop(random, aim, ranges, parameters)
    inner = ranges + [index_range(loop, ranges, parameters)]
    records: list[Record] = [loop]
    for _ in range(random.choice([1, 1, 2])):
        records += part(random, aim, inner, parameters)
    return records + [End()]


def part(random: Random, aim: Aim, ranges: list[Range], parameters: Parameters) -> list[Record]:
    """A nest, in choices at times; or a work or a choice of works."""
    if len(ranges) == MOST_LOOPS_DEEP or random.random() < 0.15:
        return random.choice([[work(random)], [Choice(), work(random), NextArm(), End()]])
    inside = nest(random, aim, ranges, parameters)
    if random.random() >= aim.choice:
        return inside
    return in_choice(random, in_choice(random, inside) if random.random() < 0.3 else inside)


def in_choice(random: Random, arm: list[Record]) -> list[Record]:
    """A choice with this arm, and at times another before or after it."""
    other: list[Record] = [work(random)]
    return [Choice(), *random.choice([arm, [*other, NextArm(), *arm], [*arm, NextArm(), *other]]), End()]


def fitting(make: Callable[[], list[Record]]) -> list[Record]:
    """What is made, and made again where it has too many records."""
    while True:
        records = make()
        if len(records) <= MOST_RECORDS:
            return records


def nests_case(kind: str, random: Random, nests: Callable[[Random, Parameters], list[Record]]) -> Case:
    """Nests at small parameters."""
    largest = random.choice([0, 3, 10])
    parameters = tuple(random.randint(-largest, largest) for _ in range(4))
    return Case(kind, encode_all(nests(random, parameters)), parameters, BUDGET)


def walked_nests(random: Random, aim: Aim, parameters: Parameters) -> list[Record]:
    """One or two nests, after works at times. A few have more than eight records open together, so that they are refused."""
    # after 64 works the nests stand beyond the limit of records before document 02, C-19
    records: list[Record] = [work(random)] * random.choice([0, 0, 0, 1, 20, 64])
    for _ in range(random.choice([1, 1, 2])):
        records += nest(random, aim, [], parameters)
    return records


def walked_records(random: Random, parameters: Parameters) -> list[Record]:
    aim = random.choice(AIMS)
    return fitting(lambda: walked_nests(random, aim, parameters))


def walked_case(random: Random) -> Case:
    return nests_case("walked", random, walked_records)
