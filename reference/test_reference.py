"""Tests of the reckoning.

    python3 test_reference.py

The environment variable READINGS names the readings file, by default
readings.txt beside this file; SHEETS sets the number of random sheets of each
kind.
"""

import contextlib
import io
import os
import unittest
from random import Random

import consistency
import known_reasons
import stages
import trips
from calls import Called, Lent, answer, c_call, program_text, reports, text_call
from counting_down import COUNTING_DOWN
from example_calls import calls_file
from example_ranges import ranges_file
from example_readings import known_file, readings_file, telling_file
from example_states import states_file
from generate import SIZES, cases, parameters, valid_records
from known import TOO_MANY_TRIPS, MARKED, OTHERS, TRIANGLE, UNIT, ZERO, Known, form, loop, span
from known_reasons import KnownReasons
from nest import ceiling_refusal, loop_reports, ways_of
from pumdalin.answers import Figures, Refusal
from pumdalin.records import COST_LIMIT, END, LOOP, SKIP_LOOP, WORK, Choice, End, Form, NextArm, encode, encode_all
from readings import READINGS, TELLING, Reading, parse_file, parse_requests
from reasons import OFFSET_LIMIT, HoldsLoop, TooFewTrips, UnevenIn, read_reason
from sheet import BLANK, Part, RawRecord, SheetEnd, Written, raw, read, record_at, write
from walked import walked_case

GIVEN = os.environ.get("READINGS", READINGS)
SHEETS = int(os.environ.get("SHEETS", "600"))
TRIPS = 3000


class KnownSheets(unittest.TestCase):
    def check(self, case: Known) -> None:
        with self.subTest(case.tells):
            self.assertEqual(answer(case.sheet(), case.parameters, case.budget), case.answer)
            if isinstance(case.answer, Figures):
                self.assertEqual(ways_of(reports(case.sheet(), case.parameters)), case.ways)

    def test_marked(self) -> None:
        for case in MARKED:
            self.check(case)

    def test_others(self) -> None:
        for case in OTHERS + TOO_MANY_TRIPS:
            self.check(case)

    def test_all_ways_agree(self) -> None:
        for case in MARKED:
            with self.subTest(case.tells):
                self.assertTrue(consistency.check_stages(case.records, case.parameters, 10_000))
                consistency.check_round_trip(case.records)
                consistency.check_facts(case.records, case.parameters)

    def test_stage_reads_the_sheet_itself(self) -> None:
        sheet = encode_all(TRIANGLE)
        state = stages.first_state()
        for _ in range(4):
            state = stages.stage(sheet, ZERO, state)
        self.assertEqual((state.current, state.visits), ((45, 45), 3))
        self.assertEqual(stages.stage(b"\x09", ZERO, state), state)


class SheetFiles(unittest.TestCase):
    """The files of sheets with their answers, line by line."""

    def test_readings(self) -> None:
        self.check(parse_file(GIVEN))

    def test_telling(self) -> None:
        self.check(parse_file(TELLING))

    def test_counting_down(self) -> None:
        self.check(COUNTING_DOWN)

    def test_requests(self) -> None:
        for printed in parse_requests():
            with self.subTest(printed.tells or printed.data.hex()):
                self.assertEqual(program_text(printed.data), printed.text)

    def check(self, lines: list[Reading]) -> None:
        for reading in lines:
            with self.subTest(reading.tells):
                result = answer(reading.sheet, reading.parameters, reading.budget)
                self.assertEqual(result, reading.answer)
                if isinstance(result, Figures):
                    found = reports(reading.sheet, reading.parameters)
                    self.assertEqual(ways_of(found), reading.ways)
                    self.assertEqual([r.ceiling for r in found], reading.ceilings)


class Reasons(unittest.TestCase):
    """Why loops are walked, on sheets that were worked out by hand."""

    def check(self, cases: list[KnownReasons]) -> None:
        for case in cases:
            with self.subTest(case.tells):
                found = loop_reports(case.records, case.parameters)
                self.assertEqual([report.reason for report in found], case.reasons)
                consistency.check_facts(case.records, case.parameters)

    def test_choices_come_first(self) -> None:
        self.check(known_reasons.CHOICES)

    def test_too_few_trips(self) -> None:
        self.check(known_reasons.FEW_TRIPS)

    def test_uneven_in_the_outermost(self) -> None:
        self.check(known_reasons.UNEVEN)

    def test_first_of_several(self) -> None:
        self.check(known_reasons.SEVERAL)

    def test_far_offsets(self) -> None:
        self.check(known_reasons.FAR)

    def test_skips(self) -> None:
        self.check(known_reasons.SKIPS)

    def test_counting_down(self) -> None:
        self.check(known_reasons.DOWN)

    def test_one_line_after_the_loop(self) -> None:
        """All tests fail in i, two in j; each has one line, and a closed loop has none."""
        records = [
            span(0, 3), span(0, 3), loop(form(1, j=1), form(0), stride=2), End(), End(),
            Choice(), span(0, 3), End(), End(), End(),
        ]
        header = bytes(8) + (100).to_bytes(4, "little")
        text = program_text(header + encode_all(records)).decode()
        self.assertEqual(text.splitlines()[1:], [
            "loop 0 walked ceiling 4", "choice 77 holds a loop",
            "loop 25 walked ceiling 4", "loop 50 may fall below no trips",
            "loop 50 closed ceiling 0", "loop 78 closed ceiling 4",
        ])

    def test_random(self) -> None:
        random = Random("walked")
        sorts = {HoldsLoop: 0, TooFewTrips: 0, UnevenIn: 0}
        for _ in range(SHEETS):
            case = walked_case(random)
            records = read(case.sheet)
            if isinstance(records, Refusal):
                continue
            consistency.check_facts(records, case.parameters)
            for sort in {type(report.reason) for report in loop_reports(records, case.parameters)} - {type(None)}:
                sorts[sort] += 1
        self.assertGreater(min(sorts.values()), SHEETS // 12)


class ReadingBack(unittest.TestCase):
    OFFSETS = [0, 1, 9, 10, 25, 100, 805, 65535]

    def test_reasons(self) -> None:
        """Different reasons have different lines, and each reads back."""
        reasons = [sort(c) for sort in (HoldsLoop, TooFewTrips) for c in self.OFFSETS]
        reasons += [UnevenIn(k, m) for k in self.OFFSETS for m in self.OFFSETS]
        self.assertEqual(len({reason.line() for reason in reasons}), len(reasons))
        for reason in reasons:
            self.assertEqual(read_reason(reason.line().encode()), reason)

    def test_lines(self) -> None:
        self.assertEqual(read_reason(b"choice 25 holds a loop\n"), HoldsLoop(25))
        self.assertEqual(read_reason(b"loop 25 may fall below no trips\n"), TooFewTrips(25))
        self.assertEqual(read_reason(b"loop 50 is uneven in loop 25\n"), UnevenIn(50, 25))

    def test_no_reasons(self) -> None:
        for line in [
            b"", b"\n", b"choice 01 holds a loop\n", b"loop 00 may fall below no trips\n",
            b"loop 50 is uneven in loop 025\n", b"choice 25 holds a loop", b"choice 25 holds a loop\n\n",
            b"choice 25 holds a loop\r\n", b" choice 25 holds a loop\n", b"choice  holds a loop\n",
            b"loop 25 holds a loop\n", b"choice 25 may fall below no trips\n", b"loop 0 walked ceiling 10\n",
            b"best 45 worst 45 visits 3\n", b"choice \xd9\xa1 holds a loop\n",
        ]:
            self.assertIsNone(read_reason(line), line)

    def test_large_offsets(self) -> None:
        numbers = (OFFSET_LIMIT, OFFSET_LIMIT + 25, 99999, 2 ** 32, 2 ** 64 + 7)
        for digits in [str(number).encode() for number in numbers] + [b"1" + b"0" * 5000]:
            self.assertIsNone(read_reason(b"choice " + digits + b" holds a loop\n"))
            self.assertIsNone(read_reason(b"loop " + digits + b" is uneven in loop 0\n"))
            self.assertIsNone(read_reason(b"loop 50 is uneven in loop " + digits + b"\n"))


class RecordReader(unittest.TestCase):
    def test_parts(self) -> None:
        sheet = encode_all(TRIANGLE)
        self.assertEqual(record_at(sheet, 0), Part(LOOP, 1, 24))
        self.assertEqual(record_at(sheet, 50), Part(WORK, 51, 4))
        self.assertEqual(record_at(sheet, 56), Part(END, 57, 0))
        self.assertEqual(record_at(sheet, 57), SheetEnd())
        self.assertEqual(record_at(sheet, 1), Refusal(2, 1))
        self.assertEqual(record_at(sheet[:54], 50), Refusal(1, 50))

    def test_skip(self) -> None:
        sheet = encode(span(0, 9, skip=1))
        self.assertEqual(record_at(sheet, 0), Part(SKIP_LOOP, 1, 26))
        self.assertEqual(record_at(sheet[:-1], 0), Refusal(1, 0))
        self.assertEqual(record_at(b"\x07" + bytes(30), 0), Refusal(2, 0))


class Writer(unittest.TestCase):
    def refused(self, entries: list[RawRecord], number: int, place: int) -> None:
        result = write(entries, len(entries), b"\xaa" * 60)
        self.assertEqual(result, Written(Refusal(number, place), b"\xaa" * 60))

    def test_refusals(self) -> None:
        work, end = raw(UNIT), raw(End())
        self.refused([work] * 129, 4, 0)
        self.refused([work] * 128, 9, 0)
        self.refused([work, BLANK], 2, 5)
        self.refused([work, work._replace(most=COST_LIMIT + 1)], 3, 5)
        self.refused([work, end._replace(least=1)], 3, 5)
        self.refused([end], 5, 0)
        self.refused([raw(Choice()), work], 5, 6)
        self.refused([raw(span(0, 1)), raw(NextArm())], 5, 25)
        self.refused([work] * 13, 9, 0)

    def test_foreign_fields(self) -> None:
        values = [("least", 1), ("most", 1), ("start", 1), ("step", 1), ("stride", 1),
                  ("lower", Form(1)), ("upper", form(p=(0, 0, 0, 1))), ("skip", 1)]
        loop_fields = {"start", "step", "stride", "lower", "upper"}
        own = {1: {"least", "most"}, 2: loop_fields, 6: loop_fields | {"skip"}}
        for kind in range(1, 7):
            for name, value in values:
                entry = RawRecord(kind=kind)._replace(**{name: value})
                result = write([raw(Choice()), entry], 2, bytes(40)).answer
                if name not in own.get(kind, set()):
                    self.assertEqual(result, Refusal(3, 1), (kind, name))


class Calls(unittest.TestCase):
    def test_area(self) -> None:
        sheet = encode_all(TRIANGLE)
        figures = b"".join(n.to_bytes(8, "little") for n in (45, 45, 3))
        self.assertEqual(c_call(sheet, ZERO, 9, b"\xaa" * 26), Called(0, figures + b"\xaa" * 2))
        self.assertEqual(c_call(sheet, ZERO, 0, b"\xaa" * 23), Called(9, b"\xaa" * 23))
        self.assertEqual(c_call(sheet, ZERO, 0, b"\xaa" * 24), Called(7, b"\xaa" * 24))
        self.assertEqual(c_call(sheet, ZERO, 2, b"\xaa" * 24), Called(8, b"\xaa" * 24))

    def test_text(self) -> None:
        header = bytes(8) + (100).to_bytes(4, "little")
        expected = (b"best 45 worst 45 visits 3\n"
                    b"loop 0 closed ceiling 10\nloop 25 closed ceiling 9\n")
        self.assertEqual(program_text(header + encode_all(TRIANGLE)), expected)
        self.assertEqual(program_text(header), b"best 0 worst 0 visits 0\n")
        self.assertEqual(program_text(header[:11]), b"refused 1 at 0\n")
        self.assertEqual(program_text(b""), b"refused 1 at 0\n")

    def test_text_of_long_input(self) -> None:
        header = bytes(8) + (100).to_bytes(4, "little")
        longest = encode_all([loop(Form(), Form(-1), skip=1), End()] * 64)
        largest = encode_all([loop(Form(), Form(-1), skip=1)] * 128)
        for sheet in (longest + bytes(2000), largest + b"\x03" * 70):
            self.assertEqual(program_text(header + sheet), program_text((header + sheet)[:3469]))


class TextCalls(unittest.TestCase):
    HEADER = bytes(8) + (100).to_bytes(4, "little")
    TEXT = b"best 0 worst 0 visits 0\n"
    LENGTH = b"\x18\0\0\0\0\0\0\0"

    def called(self, data: bytes, buffer_length: int, area_length: int) -> Lent:
        return text_call(data, b"\xbb" * buffer_length, b"\xaa" * area_length)

    def test_stored(self) -> None:
        self.assertEqual(self.called(self.HEADER, 24, 8), (0, self.TEXT, self.LENGTH))
        longer = (0, self.TEXT + b"\xbb" * 3, self.LENGTH + b"\xaa" * 2)
        self.assertEqual(self.called(self.HEADER, 27, 10), longer)

    def test_refused_sheets(self) -> None:
        """They are text, whatever the sheet or the input is refused for."""
        texts = {self.HEADER + b"\x09": b"refused 2 at 0\n", bytes(12): b"refused 7 at 0\n",
                 bytes(11): b"refused 1 at 0\n", b"": b"refused 1 at 0\n"}
        for data, text in texts.items():
            expected = (0, text + b"\xbb", b"\x0f" + bytes(7))
            self.assertEqual(self.called(data, 16, 8), expected)

    def test_refused(self) -> None:
        for buffer_length, area_length, number in [
            (24, 7, 9), (24, 0, 9), (23, 7, 9), (0, 0, 9), (23, 8, 12), (0, 8, 12), (23, 11, 12),
        ]:
            kept = (number, b"\xbb" * buffer_length, b"\xaa" * area_length)
            self.assertEqual(self.called(self.HEADER, buffer_length, area_length), kept)


class Examples(unittest.TestCase):
    """The emitted theorems have one proof for each equation."""

    def test_counts(self) -> None:
        with contextlib.redirect_stderr(io.StringIO()):
            readings_text = readings_file(GIVEN, 100, 20)
        for text in (readings_text, telling_file(20), known_file(), states_file(), calls_file(20), ranges_file(20)):
            proofs = text.count("(refl") + text.count(", refl") + text.count("= refl")
            imported = text.count("◌≡◌, refl")
            self.assertEqual(proofs - imported, text.count(" ≡ "))
            self.assertEqual(text.count("("), text.count(")"))


class RandomSheets(unittest.TestCase):
    def test_valid(self) -> None:
        for name, size in SIZES.items():
            random = Random(f"valid {name}")
            gone_over = 0
            count = SHEETS // 2 if name == "large" else SHEETS
            for _ in range(count):
                records, values = valid_records(random, size), parameters(random)
                consistency.check_round_trip(records)
                consistency.check_facts(records, values)
                if ceiling_refusal(records, values) is None:
                    consistency.check_ceilings(records, values, random)
                    gone_over += consistency.check_stages(records, values, TRIPS)
            self.assertGreater(gone_over, count // 4)

    def test_runs(self) -> None:
        random = Random("runs")
        for _ in range(SHEETS):
            records, values = valid_records(random, SIZES["small"]), parameters(random)
            try:
                bounds = trips.time(records, values, 300)
            except trips.TooMany:
                continue
            consistency.check_runs(records, values, bounds, random)

    def test_damaged_and_hostile(self) -> None:
        for case in cases(Random("damaged"), SHEETS, SIZES["small"]):
            records = read(case.sheet)
            if isinstance(records, Refusal):
                self.assertEqual(answer(case.sheet, case.parameters, 500), records)
                continue
            self.assertEqual(encode_all(records), case.sheet)
            consistency.check_facts(records, case.parameters)
            if ceiling_refusal(records, case.parameters) is None:
                consistency.check_stages(records, case.parameters, 300)


if __name__ == "__main__":
    unittest.main()
