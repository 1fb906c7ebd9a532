"""Tests of the command's listings against the reckoning's own sheets, known and random."""

import os
import unittest
from pathlib import Path
from random import Random

from calls import program_text
from generate import SIZES, cases, parameters, valid_records
from known import MARKED, OTHERS
from listings import reckoned_listing
from pumdalin.answers import read_report
from pumdalin.errors import ListingError
from pumdalin.inputs import Parameters, program_input
from pumdalin.listing_reader import read_listing
from pumdalin.records import encode_all
from sheet import read_as_far

EXAMPLES = Path(__file__).parent.parent / "examples" / "listings"
SHEETS = int(os.environ.get("SHEETS", "600"))
BUDGET = 77


class RandomSheets(unittest.TestCase):
    def test_printing_and_making_undo_each_other(self) -> None:
        for name, size in SIZES.items():
            random = Random(f"listing {name}")
            for _ in range(SHEETS):
                self.check_undone(encode_all(valid_records(random, size)), parameters(random))

    def test_refused_sheets(self) -> None:
        whole = 0
        for case in cases(Random("refused listing"), SHEETS, SIZES["middle"]):
            records, refusal = read_as_far(case.sheet)
            if refusal is None:
                self.check_undone(case.sheet, case.parameters)
                whole += 1
                continue
            lines = reckoned_listing(case.sheet, case.parameters, BUDGET).splitlines()
            self.assertEqual(len(lines), 2 + len(records) + 1)
            self.assertTrue(lines[-1].startswith(f"refused {refusal.number} at {refusal.place}: "))
            with self.assertRaises(ListingError) as caught:
                read_listing("\n".join(lines))
            self.assertEqual(caught.exception.line, len(lines))
        self.assertGreater(whole, SHEETS)

    def check_undone(self, sheet: bytes, values: Parameters) -> None:
        text = reckoned_listing(sheet, values, BUDGET)
        listing = read_listing(text)
        self.assertEqual((listing.sheet(), listing.given()), (sheet, (values, BUDGET)))
        self.assertEqual(reckoned_listing(listing.sheet(), values, BUDGET), text)


class Examples(unittest.TestCase):
    def test_known_sheets(self) -> None:
        """Every sheet with known figures is among the listings, and they have no other."""
        listed = []
        for path in (EXAMPLES / "known").iterdir():
            listing = read_listing(path.read_text(encoding="utf-8"))
            listed += [(listing.records, said.parameters, said.budget, said.answer) for said in listing.expectations]
        for case in MARKED + OTHERS:
            with self.subTest(case.tells):
                listed.remove((case.records, case.parameters, case.budget, case.answer))
        self.assertEqual(listed, [])

    def test_loops(self) -> None:
        """What the listings expect of loops is what is reckoned, with the reason where one is walked."""
        for path in sorted(EXAMPLES.rglob("*.listing")):
            listing = read_listing(path.read_text(encoding="utf-8"))
            for said in listing.loop_expectations:
                with self.subTest(f"{path.name}:{said.line}"):
                    text = program_text(program_input(listing.sheet(), said.parameters, said.budget)).decode()
                    self.assertIn(said.answer, read_report(text).loops)


if __name__ == "__main__":
    unittest.main()
