"""Tests of what document 02, C-19 brings: sheets of up to 128 records, and figures below 2^63."""

import os
import unittest
from math import comb
from random import Random
from typing import Iterable
from unittest import mock

import calls
import consistency
import sheet
from calls import answer, c_call, program_text, reports
from conversion_checks import by_bytes, check_conversions
from converters import with_skips, with_skips_call, without_skips, without_skips_call
from generate import AT_LIMITS, SIZES, cases, long_case, long_records, parameters
from known import TOO_MANY_TRIPS, LARGEST_TERMS, ZERO
from long_calls import LARGEST_FIGURE, LONG_C_CALLS, LONG_CONVERSIONS, LONG_TEXTS, LONG_WRITES
from long_sheets import COUNTED, COUNTS, LONG_SHEETS, SORTS
from nest import ceiling_refusal, ways_of
from newton import newton
from pumdalin.answers import Figures, Refusal
from pumdalin.inputs import program_input
from pumdalin.records import LOOP, SKIP_LOOP, encode_all
from sheet import Written, read, read_as_far, write

SHEETS = int(os.environ.get("SHEETS", "600")) // 6
TRIPS = 3000
COST = 4095


class LongSheets(unittest.TestCase):
    """The answers that are worked out by hand."""

    def test_answers(self) -> None:
        for line in LONG_SHEETS:
            with self.subTest(line.tells):
                self.assertEqual(answer(line.sheet, line.parameters, line.budget), line.answer)
                if isinstance(line.answer, Figures):
                    found = reports(line.sheet, line.parameters)
                    self.assertEqual(ways_of(found), line.ways)
                    self.assertEqual([one.ceiling for one in found], line.ceilings)

    def test_counts(self) -> None:
        """Each sheet of so many records has them, and is refused 4 only where it has one too many."""
        for number, line in enumerate(COUNTED):
            count = COUNTS[number % len(COUNTS)]
            records, refusal = read_as_far(line.sheet)
            self.assertEqual(len(records), min(count, 128), line.tells)
            self.assertEqual(refusal is not None, count == 129, line.tells)
        self.assertEqual(len(COUNTED), len(COUNTS) * len(SORTS))

    def test_all_ways_agree(self) -> None:
        for line in LONG_SHEETS:
            records = read(line.sheet)
            if isinstance(line.answer, Figures):
                with self.subTest(line.tells):
                    consistency.check_round_trip(records)
                    consistency.check_stages(records, line.parameters, TRIPS)
                    consistency.check_facts(records, line.parameters)
                    check_conversions(records, line.parameters)

    def test_every_refusal(self) -> None:
        """Each number falls beyond the 64th record; 7 and 8 have no place of their own."""
        refused = [line for line in LONG_SHEETS if isinstance(line.answer, Refusal)]
        beyond = {line.answer.number for line in refused if records_before(line.sheet, line.answer.place) >= 64}
        self.assertEqual(beyond, {1, 2, 3, 4, 5, 6})
        self.assertIn(Refusal(8, 0), [line.answer for line in refused])


def records_before(given: bytes, place: int) -> int:
    """How many records stand before a place."""
    records, _ = read_as_far(given[:place])
    return len(records)


def numbers_of(answers: Iterable[object]) -> set[int]:
    return {found.number for found in answers if isinstance(found, Refusal)}


class LongCalls(unittest.TestCase):
    """The other calls: what is lent stays where they refuse."""

    def test_writer(self) -> None:
        for case, expected in LONG_WRITES:
            with self.subTest(case.tells):
                result = write(case.entries, case.count, case.buffer)
                self.assertEqual(result.answer, expected)
                if isinstance(expected, Refusal):
                    self.assertEqual(result.buffer, case.buffer)
                else:
                    self.assertEqual(len(read(result.buffer[:expected])), case.count)
                    self.assertEqual(result.buffer[expected:], case.buffer[expected:])

    def test_converters(self) -> None:
        for case, expected, number in LONG_CONVERSIONS:
            with self.subTest(case.tells):
                to_6 = case.kind == SKIP_LOOP
                found = (with_skips if to_6 else without_skips)(case.sheet, case.buffer)
                called = (with_skips_call if to_6 else without_skips_call)(case.sheet, case.buffer, case.area)
                self.assertEqual(called.number, number)
                if isinstance(expected, Refusal):
                    self.assertEqual(found, Written(expected, case.buffer))
                else:
                    self.assertEqual(found, Written(len(expected), expected + case.buffer[len(expected):]))
                    self.assertEqual(expected, by_bytes(case.sheet, case.kind))
                if number:
                    self.assertEqual(called, (number, case.buffer, case.area))

    def test_every_refusal(self) -> None:
        """Of the writer and of each converter: all that it has."""
        self.assertEqual(numbers_of(expected for _, expected in LONG_WRITES), {2, 3, 4, 5, 9})
        for kind, own in ((SKIP_LOOP, set()), (LOOP, {10})):
            expected = numbers_of(expected for case, expected, _ in LONG_CONVERSIONS if case.kind == kind)
            self.assertEqual(expected, {1, 2, 3, 4, 5, 9} | own)

    def test_c_call(self) -> None:
        for case, number, figures in LONG_C_CALLS:
            with self.subTest(case.tells):
                written = b"".join(figure.to_bytes(8, "little") for figure in figures)
                expected = written + case.area[len(written):]
                self.assertEqual(c_call(case.sheet, case.parameters, case.budget, case.area), (number, expected))

    def test_texts(self) -> None:
        for case in LONG_TEXTS:
            with self.subTest(case.tells):
                self.assertEqual(program_text(case.data).decode(), case.text)

    def test_texts_of_sheets(self) -> None:
        """A refusal's text is its line; an answer's has a line a loop, and one more for each that is not closed."""
        for line in LONG_SHEETS:
            text = program_text(program_input(line.sheet, line.parameters, line.budget)).decode()
            if isinstance(line.answer, Refusal):
                self.assertEqual(text, "refused {} at {}\n".format(*line.answer), line.tells)
            else:
                first, *loops = text.splitlines()
                self.assertEqual(first, "best {} worst {} visits {}".format(*line.answer), line.tells)
                self.assertEqual(len(loops), len(line.ways) + line.ways.count("w") + line.ways.count("r"), line.tells)

    def test_input(self) -> None:
        """The longest sheet is past the bytes that `bound` looked at before, and within those that it looks at."""
        longest = max((case.data for case in LONG_TEXTS if case.text.startswith("best")), key=len)
        self.assertTrue(1741 < len(longest) <= calls.INPUT_LIMIT)
        self.assertEqual(calls.INPUT_LIMIT, 12 + 128 * 27 + 1)


class LargestFigures(unittest.TestCase):
    """Figures that pass 2^62, and Newton's terms that leave signed 64 bits."""

    def inner_time(self, trips: int, deep: int) -> int:
        """So many loops in one another of so many trips each, around 120 works."""
        total = 120 * COST
        for _ in range(deep):
            total = COST + trips * (total + COST)
        return total

    def trip_sums(self, count: int) -> list[int]:
        """The first trips of the outermost loop, in each of which an inner loop makes 2,048 - i trips."""
        return [self.inner_time(2048 - i, 3) + COST for i in range(count)]

    def test_added_up(self) -> None:
        """Over the 2,048 values of i."""
        total = COST + sum(self.trip_sums(2048))
        (known,) = TOO_MANY_TRIPS
        self.assertEqual(known.answer, Figures(total, total, 64))
        self.assertEqual((len(LARGEST_TERMS), total), (128, 2_181_362_195_304_718_335))
        self.assertEqual(answer(known.sheet(), ZERO, 64), known.answer)
        self.assertEqual(answer(known.sheet(), ZERO, 63), Refusal(8, 0))

    def test_terms(self) -> None:
        """The differences of the first four trips, each times a binomial; the sum of the terms is that of all trips."""
        differences = self.trip_sums(4)
        terms: list[int] = []
        for order in range(4):
            terms.append(differences[0] * comb(2048, order + 1))
            differences = [later - earlier for earlier, later in zip(differences, differences[1:])]
        self.assertEqual(terms[1], -13_062_566_000_413_762_560)
        self.assertLess(terms[1], -2 ** 63)
        self.assertEqual(sum(terms), sum(self.trip_sums(2048)))
        self.assertEqual(sum(terms), newton(self.trip_sums(4), 2048))

    def test_largest(self) -> None:
        """No sheet takes longer: 2,048 trips each, and every record but the loops and their ends is a work."""
        largest = self.inner_time(2048, 4)
        self.assertTrue(2 ** 62 < largest < consistency.FIGURE_LIMIT == 2 ** 63)
        self.assertEqual(answer(encode_all(LARGEST_FIGURE), ZERO, 64), Figures(largest, largest, 64))
        self.assertEqual((len(LARGEST_FIGURE), largest), (128, 8_716_910_610_010_341_375))


class AsBefore(unittest.TestCase):
    """What the limit of 64 records did not refuse is read and written as before."""

    def check(self, given: bytes) -> bool:
        """Whether it was refused 4. The place is where the 65th record begins; all before it stands as it stood."""
        with mock.patch.object(sheet, "MOST_RECORDS", 64):
            earlier, refusal = read_as_far(given)
        records, now = read_as_far(given)
        if refusal is None or refusal.number != 4:
            self.assertEqual((records, now), (earlier, refusal))
            return False
        self.assertEqual((records[:64], refusal.place), (earlier, len(encode_all(earlier))))
        self.assertTrue(now is None or now.place >= refusal.place)
        return True

    def test_random_sheets(self) -> None:
        random = Random("before")
        made = [case for size in SIZES.values() for case in cases(random, SHEETS, size)]
        made += [long_case(random) for _ in range(SHEETS)]
        turned_down = sum(self.check(case.sheet) for case in made)
        self.assertTrue(len(made) // 10 < turned_down < len(made) // 2, turned_down)

    def test_kept_sheets(self) -> None:
        for line in LONG_SHEETS:
            self.check(line.sheet)

    def test_writer(self) -> None:
        """Up to 64 records are written alike; a larger count was refused 4."""
        for case, expected in LONG_WRITES:
            with mock.patch.object(sheet, "MOST_RECORDS", 64):
                earlier = write(case.entries, case.count, case.buffer)
            self.assertEqual(earlier.answer, expected if case.count <= 64 else Refusal(4, 0), case.tells)


class RandomSheets(unittest.TestCase):
    def test_counts(self) -> None:
        """60 to 132 records, with many at each limit."""
        random = Random("long counts")
        counts = [len(long_records(random)) for _ in range(600)]
        self.assertTrue(60 <= min(counts) <= max(counts) <= 132)
        for count in AT_LIMITS:
            self.assertGreater(counts.count(count), 600 // 24)

    def test_sheets(self) -> None:
        random = Random("long sheets")
        gone_over = 0
        for _ in range(SHEETS):
            records, values = long_records(random)[:128], parameters(random)
            if isinstance(read(encode_all(records)), Refusal):
                continue
            consistency.check_round_trip(records)
            consistency.check_facts(records, values)
            if ceiling_refusal(records, values) is None:
                gone_over += consistency.check_stages(records, values, TRIPS)
        self.assertGreater(gone_over, SHEETS // 4)

    def test_cases(self) -> None:
        """Many are answered, some are refused 4, some are damaged."""
        random = Random("long cases")
        found = [answer(case.sheet, case.parameters, 2000) for case in [long_case(random) for _ in range(SHEETS)]]
        self.assertGreater(sum(isinstance(one, Figures) for one in found), SHEETS // 3)
        numbers = {one.number for one in found if isinstance(one, Refusal)}
        self.assertTrue({2, 4} <= numbers, numbers)


if __name__ == "__main__":
    unittest.main()
