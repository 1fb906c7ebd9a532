"""Tests of what document 02, C-12 brings: what a loop without a trip costs, and the two converters."""

import os
import unittest
from random import Random

from calls import answer
from conversion_checks import by_bytes, check_conversions
from conversions import CONVERSIONS, LONGEST
from converters import with_skips, with_skips_call, without_skips, without_skips_call
from generate import SIZES, Case, cases, parameters, valid_records
from known import END, MARKED, UNIT, ZERO, form, loop, span
from known_reasons import KNOWN_REASONS
from pumdalin.answers import Figures, Refusal
from pumdalin.records import LOOP, SKIP_LOOP, Choice, Loop, NextArm, Record, Work, encode_all
from readings import TELLING, parse_conversions, parse_file
from sheet import Written, raw, read, write
from stages import first_state, nest_from, next_state
from trips import Bounds, time
from walked import walked_case

SHEETS = int(os.environ.get("SHEETS", "600")) // 6


def figures(*records: Record) -> tuple[int, ...]:
    result = answer(encode_all(list(records)), ZERO, 100)
    assert isinstance(result, Figures)
    return result


class Entry(unittest.TestCase):
    """What it costs to enter a loop, added up by hand."""

    def test_no_trip(self) -> None:
        self.assertEqual(figures(span(0, -1, start=5, step=9, skip=2), UNIT, END), (2, 2, 0))
        self.assertEqual(figures(span(0, -1, start=2, step=9, skip=4095), UNIT, END), (4095, 4095, 0))
        self.assertEqual(figures(span(0, -1, start=5, skip=0), UNIT, END), (0, 0, 0))
        self.assertEqual(figures(span(0, -1, start=5), UNIT, END), (5, 5, 0))

    def test_trips(self) -> None:
        self.assertEqual(figures(span(0, 0, start=5, step=9, skip=2), UNIT, END), (15, 15, 1))
        self.assertEqual(figures(span(0, 9, start=5, skip=4095), Work(1, 2), END), (15, 25, 1))

    def test_nests(self) -> None:
        """j makes no trip in i's first trip, 1, 2 and 3 in the others; with one more it always makes one."""
        at_times = loop(form(), form(-1, i=1), start=10, skip=1)
        self.assertEqual(figures(span(0, 3), at_times, UNIT, END, END), (1 + 3 * 10 + 6, 37, 4 + 3))
        always = loop(form(), form(i=1), start=10, skip=1)
        self.assertEqual(figures(span(0, 3), always, UNIT, END, END), (4 * 10 + 10, 50, 2 + 2))

    def test_arms(self) -> None:
        empty = span(0, -1, start=9, skip=2)
        self.assertEqual(figures(Choice(), empty, END, NextArm(), Work(4, 4), END), (2, 4, 0))
        above = span(0, -1, start=2, skip=9)
        self.assertEqual(figures(Choice(), above, END, NextArm(), Work(4, 4), END), (4, 9, 0))

    def test_stages(self) -> None:
        """Skip is paid in the stage that goes on after the loop, start in the one that opens a trip."""
        records = [span(0, -1, start=5, skip=2), END, UNIT, span(0, 0, start=7, skip=3), END]
        nest = nest_from(records, ZERO)
        opened = next_state(nest, first_state())
        self.assertEqual((opened.visits, opened.position, opened.current), (1, 4, Bounds(0, 0)))
        self.assertEqual(opened.frames[0].enclosing, Bounds(2 + 1 + 7, 10))
        self.assertEqual(next_state(nest, opened).current, Bounds(10, 10))

    def test_telling_sheets(self) -> None:
        """Each of those with a kind 6 that is answered, trip by trip."""
        gone_over = 0
        for line in parse_file(TELLING):
            records = read(line.sheet)
            if isinstance(line.answer, Figures) and b"\x06" in line.sheet:
                self.assertEqual(time(records, line.parameters, 1000), line.answer[:2], line.tells)
                gone_over += 1
        self.assertGreater(gone_over, 10)


class Fields(unittest.TestCase):
    """The skip field of the reader and of the writer."""

    def test_reader(self) -> None:
        for skip, expected in [(0, None), (4095, None), (4096, Refusal(3, 5)), (65535, Refusal(3, 5))]:
            records = [UNIT, span(0, 1, skip=skip), END]
            self.assertEqual(read(encode_all(records)), expected or records)

    def test_truncations(self) -> None:
        sheet = encode_all([UNIT, span(0, 1, skip=1), END])
        for length in range(6, 32):
            self.assertEqual(read(sheet[:length]), Refusal(1, 5))
        self.assertEqual(read(sheet[:32]), Refusal(5, 32))
        self.assertEqual(read(b"\x07" + sheet[1:]), Refusal(2, 0))

    def test_places(self) -> None:
        """Loops of both kinds count as depths and as open records."""
        deep = [span(0, 1), span(0, 1, skip=1)] * 2
        for fifth in (span(0, 1), span(0, 1, skip=1)):
            self.assertEqual(read(encode_all(deep + [fifth])), Refusal(5, 104))
        inner = loop(form(), form(i=1, j=1, k=1), skip=4)
        self.assertEqual(read(encode_all(deep[:3] + [inner] + [END] * 4))[3], inner)
        self.assertEqual(read(encode_all(deep[:2] + [inner])), Refusal(3, 52))
        self.assertEqual(read(encode_all([Choice()] * 8 + [span(0, 1, skip=1)])), Refusal(5, 8))

    def test_writer(self) -> None:
        own = raw(span(0, 1, start=3, skip=4095))
        end = raw(END)
        for entry, expected in [
            (own, 28), (own._replace(skip=4096), Refusal(3, 0)), (own._replace(kind=LOOP), Refusal(3, 0)),
            (own._replace(kind=LOOP, skip=3), Refusal(3, 0)), (own._replace(kind=LOOP, skip=0), 26),
        ]:
            self.assertEqual(write([entry, end], 2, bytes(40)).answer, expected, entry)


class Converters(unittest.TestCase):
    def test_requests(self) -> None:
        """Bytes past the new sheet stay, and a refusal leaves all."""
        for line in parse_conversions():
            with self.subTest(line.tells or line.sheet.hex()):
                buffer = b"\xaa" * line.room
                convert = with_skips if line.kind == SKIP_LOOP else without_skips
                if isinstance(line.answer, Refusal):
                    expected = Written(line.answer, buffer)
                else:
                    length = len(line.answer)
                    expected = Written(length, line.answer + buffer[length:])
                self.assertEqual(convert(line.sheet, buffer), expected)

    def test_bytes(self) -> None:
        """Each case by hand that is not refused 1 to 5 or 10."""
        for case in CONVERSIONS:
            converted = case.converted()
            if not isinstance(converted, Refusal):
                self.assertEqual(converted, by_bytes(case.sheet, case.kind), case.tells)

    def test_areas(self) -> None:
        """9 comes last, for the area as for the buffer."""
        plain, own = encode_all([span(0, 1), END]), encode_all([span(0, 1, start=3, skip=1), END])
        to_6, to_2 = with_skips_call, without_skips_call
        for call, sheet, room, area, number in [
            (to_6, plain, 28, 8, 0), (to_6, plain, 28, 7, 9), (to_6, plain, 27, 8, 9),
            (to_6, b"", 0, 8, 0), (to_6, b"", 0, 7, 9), (to_6, plain + b"\x03", 0, 0, 5),
            (to_2, plain, 26, 8, 0), (to_2, plain, 26, 7, 9), (to_2, plain, 25, 8, 9),
            (to_2, own, 0, 0, 10), (to_2, own + b"\x07", 0, 0, 2),
        ]:
            buffer, lent_area = b"\xaa" * room, b"\xbb" * area
            found = call(sheet, buffer, lent_area)
            self.assertEqual(found.number, number)
            if number:
                self.assertEqual(found, (number, buffer, lent_area))

    def test_places(self) -> None:
        loops = [span(0, 1, start=3), END, span(0, 1, start=3, skip=3), END, span(0, 1, start=3, skip=4), END]
        self.assertEqual(without_skips(encode_all(loops), b"").answer, Refusal(10, 26 + 28))
        self.assertEqual(without_skips(encode_all(loops[4:] + loops), b"").answer, Refusal(10, 0))
        self.assertEqual(without_skips(encode_all(loops) + b"\x03", b"").answer, Refusal(5, 26 + 28 + 28))
        self.assertEqual(without_skips(encode_all(loops[:4]), bytes(51)).answer, Refusal(9, 0))
        self.assertEqual(without_skips(encode_all(loops[:4]), bytes(52)).answer, 52)

    def test_known_sheets(self) -> None:
        for case in MARKED:
            check_conversions(case.records, case.parameters)
        for case in KNOWN_REASONS:
            check_conversions(case.records, case.parameters)
        for records in LONGEST:
            check_conversions(records, ZERO)

    def test_valid_sheets(self) -> None:
        for name, size in SIZES.items():
            random = Random(f"converted {name}")
            for _ in range(SHEETS):
                check_conversions(valid_records(random, size), parameters(random))

    def test_walked_sheets(self) -> None:
        random = Random("converted")
        for case in [walked_case(random) for _ in range(SHEETS)]:
            self.check(case)

    def test_damaged_and_hostile_sheets(self) -> None:
        for case in cases(Random("converted"), SHEETS, SIZES["small"]):
            self.check(case)

    def check(self, case: Case) -> None:
        """Refusals 1 to 5 are the reader's; otherwise all that holds of converters."""
        records = read(case.sheet)
        if isinstance(records, Refusal):
            for convert in (with_skips, without_skips):
                self.assertEqual(convert(case.sheet, b"\xaa" * 9), Written(records, b"\xaa" * 9))
        else:
            check_conversions(records, case.parameters)


class RandomLoops(unittest.TestCase):
    """Random sheets have loops of every sort, so that all that is checked on them is checked on skips."""

    def test_sorts(self) -> None:
        random = Random("loops")
        sheets = [encode_all(valid_records(random, size)) for size in SIZES.values() for _ in range(100)]
        sheets += [walked_case(random).sheet for _ in range(100)]
        sheets += [case.sheet for case in cases(random, 100, SIZES["small"]) if case.kind == "hostile"]
        found = [record for sheet in sheets for record in records_of(sheet) if isinstance(record, Loop)]
        for wanted in (
            lambda one: one.skip is None, lambda one: one.skip == one.start,
            lambda one: one.skip is not None and one.skip < one.start,
            lambda one: one.skip is not None and one.skip > one.start,
        ):
            self.assertGreater(sum(map(wanted, found)), len(found) // 20)


def records_of(sheet: bytes) -> list[Record]:
    records = read(sheet)
    return [] if isinstance(records, Refusal) else records


if __name__ == "__main__":
    unittest.main()
