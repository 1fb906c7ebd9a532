"""Tests of figures over a range of one parameter, document 02, C-14."""

import os
import struct
import unittest
from functools import cache
from random import Random

import consistency
from calls import answer
from generate import SIZES, Case, cases, long_case
from known import MARKED, TRIANGLE, ZERO
from parameter_ranges import MOST_VALUES, Extremes, ParameterRange, RangeAnswer, extremes, range_call
from pumdalin.answers import Refusal
from pumdalin.inputs import Parameters
from pumdalin.records import PARAMETERS, encode_all
from range_calls import FALLING, RANGE_CALLS, RISING
from ranged import Ranged, ranged, with_edges
from ranked import ranked_case
from readings import parse_ranges
from sheet import read
from trips import Bounds
from walked import walked_case

SHEETS = int(os.environ.get("SHEETS", "600")) // 20
# Fewer sheets may have none of some refusal.
ENOUGH_SHEETS = 30


def by_single_calls(sheet: bytes, parameters: Parameters, budget: int, over: ParameterRange) -> RangeAnswer:
    """The answer over a range that is allowed, from the library call at each value."""
    single = {value: answer(sheet, over.at(parameters, value), budget) for value in over.values()}
    refused = [found for found in single.values() if isinstance(found, Refusal)]
    for found in refused:
        if found.number != 8:
            return found
    if refused or sum(found.visits for found in single.values()) > budget:
        return Refusal(8, 0)
    least = min(found.least for found in single.values())
    most = max(found.most for found in single.values())
    return Extremes(
        least, min(value for value, found in single.items() if found.least == least),
        most, min(value for value, found in single.items() if found.most == most),
        sum(found.visits for found in single.values()))


class KeptCalls(unittest.TestCase):
    def test_requests(self) -> None:
        lines = parse_ranges()
        self.assertEqual({line.request for line in lines}, {"C-14"})
        for line in lines:
            with self.subTest(line.tells or line.sheet.hex()):
                self.assertEqual(extremes(line.sheet, line.parameters, line.budget, line.over), line.answer)

    def test_by_hand(self) -> None:
        for case in RANGE_CALLS:
            with self.subTest(case.tells):
                self.assertEqual(extremes(case.sheet, case.parameters, case.budget, case.over), case.answer)

    def test_areas(self) -> None:
        """Signed numbers of 8 bytes; 9 before all, and a refusal leaves every byte."""
        for case in RANGE_CALLS:
            found = range_call(case.sheet, case.parameters, case.budget, case.over, case.area)
            with self.subTest(case.tells):
                if len(case.area) < 40:
                    self.assertEqual(found, (9, case.area))
                elif isinstance(case.answer, Refusal):
                    self.assertEqual(found, (case.answer.number, case.area))
                else:
                    self.assertEqual(found, (0, struct.pack("<QqQqQ", *case.answer) + case.area[40:]))


class Calls(unittest.TestCase):
    def test_area(self) -> None:
        """9, 10, 11, 12 trips at 2, 1, 0, -1."""
        over = ParameterRange(1, -1, 2)
        stored = bytes.fromhex("0900000000000000 0200000000000000 0c00000000000000 ffffffffffffffff 0400000000000000")
        sheet = encode_all(FALLING)
        self.assertEqual(range_call(sheet, ZERO, 4, over, b"\xaa" * 43), (0, stored + b"\xaa" * 3))
        self.assertEqual(range_call(sheet, ZERO, 4, over, b"\xaa" * 39), (9, b"\xaa" * 39))
        self.assertEqual(range_call(sheet, ZERO, 3, over, b"\xaa" * 40), (8, b"\xaa" * 40))
        self.assertEqual(range_call(sheet, ZERO, 0, over._replace(number=0), b"\xaa" * 40), (11, b"\xaa" * 40))

    def test_one_value(self) -> None:
        """A range of one value has the figures of the single call, whatever is given for the parameter."""
        for known in MARKED:
            least, most, visits = known.answer
            for number in range(1, PARAMETERS + 1):
                value = known.parameters[number - 1]
                over = ParameterRange(number, value, value)
                given = over.at(known.parameters, 9 - value)
                expected = Extremes(least, value, most, value, visits)
                self.assertEqual(extremes(known.sheet(), given, known.budget, over), expected)

    def test_lengths(self) -> None:
        """As many values as are allowed, wherever they lie."""
        for first in (-2 ** 15, -300, -255, -128, 0, 1, 2 ** 15 - MOST_VALUES):
            for count, allowed in [(1, True), (255, True), (256, True), (257, False), (0, False), (-1, False)]:
                over = ParameterRange(2, first, first + count - 1)
                expected = Extremes(45, first, 45, first, 3 * count) if allowed else Refusal(11, 0)
                self.assertEqual(extremes(encode_all(TRIANGLE), ZERO, 1000, over), expected)

    def test_numbers(self) -> None:
        sheet = encode_all(RISING)
        for number in (0, 5, 6, 256, 257, 2 ** 16 + 1, 2 ** 32 - 1):
            self.assertEqual(extremes(sheet, ZERO, 9, ParameterRange(number, 1, 2)), Refusal(11, 0))


def random_cases(random: Random) -> list[Case]:
    return [*cases(random, 1, SIZES["small"]), *cases(random, 1, SIZES["middle"]),
            walked_case(random), ranked_case(random), long_case(random)]


# Several tests look at the same calls.
@cache
def random_calls() -> list[tuple[Ranged, RangeAnswer]]:
    random = Random("ranges")
    asked = [ranged(random, case) for _ in range(SHEETS) for case in random_cases(random)]
    return [(each, each.answer()) for each in asked]


class RandomRanges(unittest.TestCase):
    def test_single_calls(self) -> None:
        """11 for the range, 7 for the budget, and otherwise what the single calls come to."""
        for asked, found in random_calls():
            (_, sheet, parameters, budget), over = asked
            values = over.last - over.first + 1
            with self.subTest(over=over, sheet=sheet.hex()):
                if over.number not in (1, 2, 3, 4) or values < 1 or values > 256:
                    self.assertEqual(found, Refusal(11, 0))
                else:
                    self.assertEqual(found, by_single_calls(sheet, parameters, budget, over))

    def test_edges(self) -> None:
        """Budgets of just the visits, and of one less."""
        for asked, _ in random_calls()[::4]:
            for edge, expected in with_edges(asked)[1:]:
                self.assertEqual(edge.answer(), expected)

    def test_runs(self) -> None:
        """Runs at every value lie between the extremes."""
        random = Random("runs over ranges")
        for asked, found in random_calls():
            (_, sheet, parameters, _), over = asked
            if isinstance(found, Extremes) and found.visits <= 60 and found.most < 10_000:
                for value in over.values():
                    consistency.check_runs(
                        read(sheet), over.at(parameters, value), Bounds(found.least, found.most), random)

    def test_sorts(self) -> None:
        """Each refusal comes up; many extremes are inside their range, and many at different values."""
        counts = dict.fromkeys([0, 1, 2, 3, 4, 5, 6, 7, 8, 11], 0)
        inside = apart = 0
        for asked, found in random_calls():
            counts[found.number if isinstance(found, Refusal) else 0] += 1
            if isinstance(found, Extremes):
                ends = (asked.over.first, asked.over.last)
                inside += found.least_at not in ends or found.most_at not in ends
                apart += found.least_at != found.most_at
        if SHEETS >= ENOUGH_SHEETS:
            self.assertGreater(min(counts.values()), 0, counts)
        self.assertGreater(counts[0], SHEETS)
        self.assertGreater(inside, SHEETS // 10)
        self.assertGreater(apart, SHEETS // 2)


if __name__ == "__main__":
    unittest.main()
