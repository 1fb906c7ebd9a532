"""Tests that the sheets of loops that count down tell other readings of document 02, C-17 apart."""

import contextlib
import unittest
from dataclasses import replace
from typing import Callable, Optional
from unittest import mock

import nest
import sheet
import stages
import trips
from calls import answer, reports
from counting_down import TELLING_DOWN
from known_reasons import DOWN, KnownReasons
from nest import (
    Range, counts_down, difference_of, form_range, index_range, loop_reports, push, pushed, stride_size, subtract,
    value, ways_of,
)
from pumdalin.answers import Answer, Refusal
from pumdalin.inputs import Parameters
from pumdalin.records import Loop
from readings import Reading
from reasons import Reason
from sheet import skip_of
from tree import LoopNode


def document_01_range(one: Loop, lower: Range, upper: Range) -> Range:
    return Range(lower.smallest, max(lower.smallest, upper.largest))


def to_last_trip(one: Loop, lower: Range, upper: Range) -> Range:
    bottom = min(upper.smallest, lower.largest)
    return Range(lower.largest - (lower.largest - bottom) // stride_size(one) * stride_size(one), lower.largest)


# Other readings of how far the index of a loop that counts down goes.
WRONG_RANGES = {
    "as document 01 has it": document_01_range,
    "from the lower form's smallest value":
        lambda one, lower, upper: Range(min(upper.smallest, lower.smallest), lower.smallest),
    "to the upper form's largest value":
        lambda one, lower, upper: Range(min(upper.largest, lower.largest), lower.largest),
    "to the upper form's smallest value, even above the lower's largest":
        lambda one, lower, upper: Range(min(upper.smallest, lower.largest), max(upper.smallest, lower.largest)),
    "always to the lower form's smallest value":
        lambda one, lower, upper: Range(min(upper.smallest, lower.smallest), lower.largest),
    "to the last trip": to_last_trip,
}


def wrong_index_range(wrong: Callable[[Loop, Range, Range], Range]) -> Callable[..., Range]:
    def found(one: Loop, ranges: list[Range], values: Parameters) -> Range:
        if not counts_down(one):
            return index_range(one, ranges, values)
        return wrong(one, form_range(one.lower, ranges, values), form_range(one.upper, ranges, values))
    return found


def unsized_push(around: list[LoopNode], mover: int, inner: Loop) -> int:
    """As if each trip moved an index by 1 or -1."""
    by_one = [replace(node, loop=replace(node.loop, stride=1 if node.loop.stride > 0 else -1)) for node in around]
    return push(by_one, mover, inner)


def unsigned_inner_push(around: list[LoopNode], mover: int, inner: Loop) -> int:
    """As if what a trip adds to an inner index had no sign."""
    pushes: list[int] = []
    for depth, node in enumerate(around):
        pushes.append(node.loop.stride if depth == mover else abs(pushed(node.loop.lower, pushes)))
    return pushed(difference_of(inner), pushes)


def push_by_ends(around: list[LoopNode], mover: int, inner: Loop) -> int:
    """As if an inner index that counts down moved with the end of its loop."""
    by_ends = [replace(node, loop=replace(node.loop, lower=node.loop.upper)) if counts_down(node.loop) else node
               for node in around]
    return push(by_ends, mover, inner)


# Other readings of the rest: a function of the reckoning, and what it would be.
WRONG_FUNCTIONS: dict[str, tuple[str, Callable]] = {
    "D is upper minus lower": ("difference_of", lambda one: subtract(one.upper, one.lower)),
    "a loop that counts down starts at its upper form": ("index_of", lambda one, counter, indexes, values: (
        value(one.lower if one.stride > 0 else one.upper, indexes, values) + counter * one.stride)),
    "a trip moves the index by the stride's size": ("index_of", lambda one, counter, indexes, values: (
        value(one.lower, indexes, values) + counter * abs(one.stride))),
    "trips by the stride, sign kept": ("trips_for", lambda d, one: max(0, d // one.stride + 1)),
    "trips rounded toward zero": ("trips_for", lambda d, one: max(0, int(d / abs(one.stride)) + 1)),
    "the smallest D by the stride, sign kept":
        ("asked_difference", lambda one: -one.stride if skip_of(one) == one.start else 0),
    "the smallest D whatever the skip": ("asked_difference", lambda one: -abs(one.stride)),
    "a push of 1": ("push", unsized_push),
    "a push on an inner index without its sign": ("push", unsigned_inner_push),
    "a push on an inner index by its loop's end": ("push", push_by_ends),
}

WRONG_STRIDES: dict[str, Callable[[int], bool]] = {
    "1 to 1,000": lambda stride: 1 <= stride <= 1000,
    "0 is taken": lambda stride: -1000 <= stride <= 1000,
    "-1,001 is taken": lambda stride: stride != 0 and -1001 <= stride <= 1000,
    "-999 is the least": lambda stride: stride != 0 and -999 <= stride <= 1000,
    "every size": lambda stride: stride != 0,
}


class WrongReadings(unittest.TestCase):
    """Each other reading answers a sheet otherwise that is among the computed examples."""

    def answered(self, line: Reading) -> tuple[Answer, str, list[int]]:
        """As the line has it; a reading that can not go on differs all the same."""
        try:
            result = answer(line.sheet, line.parameters, line.budget)
        except ZeroDivisionError:
            return Refusal(0, 0), "", []
        if isinstance(result, Refusal):
            return result, "", []
        found = reports(line.sheet, line.parameters)
        return result, ways_of(found), [one.ceiling for one in found]

    def reasons(self, case: KnownReasons) -> list[Optional[Reason]]:
        return [report.reason for report in loop_reports(case.records, case.parameters)]

    def differing(self, name: str, wrong: Callable) -> list[str]:
        """The sheets that are answered otherwise, or have other reasons, with one function of the reckoning changed."""
        with contextlib.ExitStack() as changed:
            for module in (nest, sheet, stages, trips):
                if hasattr(module, name):
                    changed.enter_context(mock.patch.object(module, name, wrong))
            lines = [line for line in TELLING_DOWN if self.answered(line) != (line.answer, line.ways, line.ceilings)]
            return [line.tells for line in lines] + [case.tells for case in DOWN if self.reasons(case) != case.reasons]

    def test_right(self) -> None:
        self.assertEqual(self.differing("index_range", index_range), [])

    def test_index_ranges(self) -> None:
        for tells, wrong in WRONG_RANGES.items():
            self.assertTrue(self.differing("index_range", wrong_index_range(wrong)), tells)

    def test_functions(self) -> None:
        for tells, (name, wrong) in WRONG_FUNCTIONS.items():
            self.assertTrue(self.differing(name, wrong), tells)

    def test_strides(self) -> None:
        for tells, wrong in WRONG_STRIDES.items():
            self.assertTrue(self.differing("stride_in_range", wrong), tells)


if __name__ == "__main__":
    unittest.main()
