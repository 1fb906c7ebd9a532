"""Tests of what the documents show: bytes, printed answers, the picture.

    python3 test_documents.py
"""

import os
import re
import unittest
from typing import NamedTuple

import known
import picture
from calls import answer, c_call, program_text
from nest import loop_reports, ways_of
from parameter_ranges import RANGE_AREA, Extremes, ParameterRange, extremes, range_call
from pumdalin.answers import Figures
from pumdalin.inputs import program_input
from pumdalin.listing_reader import read_listing
from pumdalin.records import Form, Loop, Record, Work, encode, encode_all, signed, unsigned
from text_limits import FIGURES_LINE_LENGTH, TEXT_LENGTH

HERE = os.path.dirname(os.path.abspath(__file__))
ROOT = os.path.dirname(HERE)

ROW = re.compile(r"^│ +(\d+) │ ((?:[0-9A-F]{2} )+) *│ ([^:│]+): ([^│]*?) +│$", re.MULTILINE)


def document(*names: str) -> str:
    with open(os.path.join(ROOT, *names), encoding="utf-8") as file:
        return file.read()


def blocks_after(text: str, heading: str) -> list[str]:
    """The fenced blocks between a heading and the next one."""
    section = re.split(r"^## ", text.split(f"\n## {heading}\n")[1], flags=re.MULTILINE)[0]
    return re.findall(r"^```\w*\n(.*?)^```$", section, re.MULTILINE | re.DOTALL)


class Row(NamedTuple):
    """A row of a drawing: where, the bytes, the field's name, its numbers."""

    offset: int
    data: bytes
    name: str
    says: str


def rows_of(block: str) -> list[Row]:
    return [
        Row(int(offset), bytes.fromhex(data), name, says)
        for offset, data, name, says in ROW.findall(block)
    ]


def numbers(*values: int) -> str:
    return ", ".join(str(value).replace("-", "−") for value in values)


def form_fields(which: str, form: Form) -> list[tuple[str, int, str]]:
    return [
        (f"{which} form, constant", 2, numbers(form.constant)),
        (f"{which} form, factors of depths 1 to 3", 3, numbers(*form.indexes)),
        (f"{which} form, factors of parameters 1 to 4", 4, numbers(*form.parameters)),
    ]


def fields(record: Record) -> list[tuple[str, int, str]]:
    """Name, length and numbers of each field of a body."""
    if isinstance(record, Work):
        return [("least", 2, numbers(record.least)), ("most", 2, numbers(record.most))]
    if isinstance(record, Loop):
        costs = [("start", record.start), ("step", record.step), ("stride", record.stride)]
        return (
            [(name, 2, numbers(value)) for name, value in costs]
            + form_fields("lower", record.lower)
            + form_fields("upper", record.upper)
        )
    return []


def expected_rows(records: list[Record]) -> list[Row]:
    """The rows of a sheet; what is said of a kind is left to the document."""
    rows: list[Row] = []
    offset = 0
    for record in records:
        data = encode(record)
        rows.append(Row(offset, data[:1], f"kind {data[0]}", ""))
        at = 1
        for name, length, says in fields(record):
            rows.append(Row(offset + at, data[at:at + length], name, says))
            at += length
        offset += len(data)
    return rows


class Format(unittest.TestCase):
    def setUp(self) -> None:
        self.text = document("docs", "FORMAT.md")

    def test_drawn_sheet(self) -> None:
        (block,) = blocks_after(self.text, "A sheet drawn")
        drawn = rows_of(block)
        self.assertEqual(b"".join(row.data for row in drawn), encode_all(known.TRIANGLE))
        without_kinds = [row._replace(says="") if row.name.startswith("kind") else row for row in drawn]
        self.assertEqual(without_kinds, expected_rows(known.TRIANGLE))

    def test_program(self) -> None:
        head, printed, walked = blocks_after(self.text, "The program")
        parameters, budget = rows_of(head)
        values = [signed(parameters.data[i:i + 2]) for i in range(0, 8, 2)]
        self.assertEqual((parameters.offset, parameters.says), (0, numbers(*values)))
        self.assertEqual((budget.offset, budget.says), (8, numbers(unsigned(budget.data))))
        data = parameters.data + budget.data + encode_all(known.TRIANGLE)
        self.assertEqual(program_text(data).decode(), printed)
        data = parameters.data + budget.data + encode_all(known.UNEVEN)
        self.assertEqual(program_text(data).decode(), walked)

    def test_area(self) -> None:
        (block,) = blocks_after(self.text, "The C call")
        area = rows_of(block)
        called = c_call(encode_all(known.TRIANGLE), known.ZERO, 100, bytes(24))
        self.assertEqual((called.number, called.area), (0, b"".join(row.data for row in area)))
        self.assertEqual([row.offset for row in area], [0, 8, 16])
        self.assertEqual([row.name for row in area], ["least", "most", "visits"])
        self.assertEqual([row.says for row in area], [numbers(unsigned(row.data)) for row in area])

    def test_range_area(self) -> None:
        (block,) = blocks_after(self.text, "The call over a range")
        area = rows_of(block)
        over = ParameterRange(1, -2, 4)
        called = range_call(encode_all(known.PARAMETER), known.ZERO, 100, over, bytes(RANGE_AREA))
        self.assertEqual((called.number, called.area), (0, b"".join(row.data for row in area)))
        self.assertEqual([row.offset for row in area], [0, 8, 16, 24, 32])
        names = ["least", "value of the least", "most", "value of the most", "visits"]
        self.assertEqual([row.name for row in area], names)
        self.assertEqual([row.says for row in area], [numbers(signed(row.data)) for row in area])

    def test_text(self) -> None:
        (block,) = blocks_after(self.text, "The text call")
        (length,) = rows_of(block)
        text = program_text(program_input(encode_all(known.TRIANGLE), known.ZERO, 100))
        self.assertEqual((length.name, unsigned(length.data), length.says), ("length", len(text), str(len(text))))
        self.assertIn(f"the first {len(text)} bytes of the buffer", self.text)


class WorkedExample(unittest.TestCase):
    def setUp(self) -> None:
        _, self.listing, self.printed, self.ranged = blocks_after(document("README.md"), "A worked example")
        self.stored = document("examples", "listings", "firmware", "dispense.listing")

    def test_listing(self) -> None:
        """The README's listing is the one of the examples, but for its comments."""
        lines = [line for line in self.stored.splitlines(keepends=True) if not line.startswith("#")]
        self.assertEqual(self.listing, "".join(lines))

    def test_printed(self) -> None:
        """What the command prints is what `bound` does, with the lines and indexes of the loops."""
        listing = read_listing(self.stored)
        (expected,) = listing.expectations
        data = program_input(listing.sheet(), expected.parameters, expected.budget)
        text = program_text(data).decode()
        self.assertEqual(document("examples", "dispense.output"), text)
        figures, *loops = text.splitlines()
        asked = "parameters 16 0 0 0 budget 100"
        lines = [figures, asked]
        for loop in loops:
            _, offset, verdict = loop.split(" ", 2)
            entry = listing.entry_at(int(offset))
            lines.append(f"line {entry.line}: loop {'ij'[entry.loops_around]} {verdict}")
        lines.append(f"line {expected.line}: as expected at {asked}: {figures}")
        self.assertEqual(self.printed.splitlines(), lines)

    def test_ranged(self) -> None:
        """What is shown of a range is what the reckoning says of it, in the README and in docs/LISTINGS.md."""
        listing = read_listing(self.stored)
        found = extremes(listing.sheet(), known.ZERO, 100, ParameterRange(1, 1, 16))
        assert isinstance(found, Extremes)
        figures = f"best {found.least} at p1 = {found.least_at} worst {found.most} at p1 = {found.most_at}"
        shown = f"{figures} visits {found.visits}\nparameters 1..16 0 0 0 budget 100\n"
        self.assertEqual(self.ranged, shown)
        self.assertIn(shown, document("docs", "LISTINGS.md"))

    def test_shown_elsewhere(self) -> None:
        """The package's README and the manual show the same."""
        (shown,) = blocks_after(document("packaging", "README.md"), "The command")
        self.assertEqual(shown, self.printed)
        self.assertIn(f".nf\n{self.printed}.fi\n", document("command", "pumdalin.1"))

    def test_manual_listing(self) -> None:
        """The manual's listing is this one with other comments, and that of docs/LISTINGS.md is a listing too."""
        manual = document("command", "pumdalin.1").split(".SH LISTINGS")[1]
        shown = read_listing(manual.split(".nf\n")[1].split(".fi\n")[0].replace("\\-", "-"))
        stored = read_listing(self.stored)
        self.assertEqual((shown.records, shown.given()), (stored.records, stored.given()))
        self.assertEqual(shown.expectations[0].answer, stored.expectations[0].answer)
        other, *_ = re.findall(r"^```\n(.*?)^```$", document("docs", "LISTINGS.md"), re.MULTILINE | re.DOTALL)
        self.assertIsInstance(answer(read_listing(other).sheet(), (16, 0, 0, 0), 1_000_000), Figures)


class Header(unittest.TestCase):
    def setUp(self) -> None:
        self.text = document("include", "pumdalin.h")

    def test_version(self) -> None:
        version = document("VERSION").strip()
        self.assertIn(f'#define PUMDALIN_VERSION "{version}"', self.text)
        for name, number in zip(("MAJOR", "MINOR", "PATCH"), version.split(".")):
            self.assertIn(f"#define PUMDALIN_VERSION_{name} {number}\n", self.text)
        self.assertIn(f"\n## {version}\n", document("CHANGELOG.md"))

    def test_text_length(self) -> None:
        self.assertIn(f"PUMDALIN_TEXT_LENGTH = {TEXT_LENGTH},", self.text)
        self.assertIn(f"at most {FIGURES_LINE_LENGTH} bytes", self.text)
        for name in ("README.md", os.path.join("docs", "FORMAT.md")):
            self.assertIn(f"{TEXT_LENGTH:,} bytes", document(name))


class Version(unittest.TestCase):
    def test_version(self) -> None:
        """The command has a copy, since no file may be a link."""
        self.assertEqual(document("command", "pumdalin", "VERSION"), document("VERSION"))


class Picture(unittest.TestCase):
    def test_stored(self) -> None:
        with open(os.path.join(ROOT, "docs", "figures.svg"), "rb") as file:
            self.assertEqual(file.read(), picture.svg())

    def test_legends(self) -> None:
        """What the legends say is closed, ranked or walked is so, at small N and large."""
        ways = [(picture.TRIANGLE, "cc"), (picture.THREE_DEEP, "ccc"), (picture.UNEVEN, "wc"),
                (picture.CHOICE, "rc"), (picture.CHOICE_IN_TWO, "wrc")]
        for sheet, expected in ways:
            for value in (1, 2, picture.LARGEST_PARAMETER, picture.SIZES[-1]):
                reports = loop_reports(sheet.records, picture.at(value))
                found = ways_of(reports)
                self.assertEqual(found, expected, sheet.says)


if __name__ == "__main__":
    unittest.main()
