"""Tests of ranked loops: their lines read, how they are shown, what a listing expects of them, and what settles them.

    python3 -m unittest discover -s command/tests -t command
"""

import json
import unittest

from pumdalin.answers import CLOSED, HOLDS_LOOP, RANKED, LoopReport, Reason, read_loops, read_report
from pumdalin.commands.answer import loop_object
from pumdalin.errors import ListingError
from pumdalin.listing_reader import read_listing
from pumdalin.subjects import ListingSubject, SheetSubject, loop_lines
from tests.running import ROOT, CommandTest, run

LISTINGS = ROOT / "examples" / "listings"

TWO_WAYS = """\
loop i 0..9
  choice
    loop j 0..i
      work 2..3
    end
  or
    work 4
  end
end
"""
TEXT = "best 40 worst 165 visits 20\nloop 0 ranked ceiling 10\nchoice 25 holds a loop\nloop 26 closed ceiling 10\n"
LOOPS = [LoopReport(0, RANKED, 10, Reason(HOLDS_LOOP, (25,))), LoopReport(26, CLOSED, 10)]
LINE = "0 ranked ceiling 10: choice 25 holds a loop"

# One way through is the slower one from the first trip on: its lead grows upward, and falls downward.
UPWARD = "loop i 0..9\n  choice\n    loop j 0..i\n      work 1\n    end\n  or\n  end\nend\n"
DOWNWARD = UPWARD.replace("0..9", "9..0 by -1")


def listing_subject() -> ListingSubject:
    return ListingSubject("ways.listing", read_listing(TWO_WAYS))


class Reading(unittest.TestCase):
    def test_text(self) -> None:
        self.assertEqual(read_report(TEXT).loops, LOOPS)
        self.assertEqual([loop.whole_text() for loop in LOOPS], [LINE, "26 closed ceiling 10"])
        self.assertFalse(LOOPS[0].closed)

    def test_reason_follows(self) -> None:
        for lines in (["loop 0 ranked ceiling 10"], ["loop 0 ranked ceiling 10", "loop 26 closed ceiling 10"],
                      ["loop 0 Ranked ceiling 10", "choice 25 holds a loop"]):
            with self.subTest(lines), self.assertRaises(ValueError):
                read_loops(lines)

    def test_expected(self) -> None:
        listing = read_listing(f"{TWO_WAYS}expect loop {LINE}\n")
        self.assertEqual([said.answer for said in listing.loop_expectations], LOOPS[:1])
        with self.assertRaises(ListingError):
            read_listing(f"{TWO_WAYS}expect loop 0 ranked ceiling 10\n")


class Showing(unittest.TestCase):
    def test_lines(self) -> None:
        line, reason, hint = loop_lines(listing_subject(), LOOPS[0])
        self.assertEqual([line, reason], ["line 1: loop i ranked ceiling 10", "  choice 25 holds a loop: the choice of line 2"])
        self.assertTrue(hint.startswith("  hint: the loop is summed where in the choice of line 2, and in every other choice "))
        self.assertIn("every trip is visited, and the visits show it", hint)
        of_bytes = SheetSubject("ways.sheet", read_listing(TWO_WAYS).sheet())
        self.assertEqual(loop_lines(of_bytes, LOOPS[0])[:2], ["loop 0 ranked ceiling 10", "  choice 25 holds a loop"])
        self.assertIn(" where in choice 25, ", loop_lines(of_bytes, LOOPS[0])[2])

    def test_json(self) -> None:
        said = loop_object(listing_subject(), LOOPS[0])
        self.assertEqual((said["class"], said["closed"], said["ceiling"]), ("ranked", False, 10))
        self.assertEqual(said["reason"]["printed"], "choice 25 holds a loop")
        self.assertTrue(loop_lines(listing_subject(), LOOPS[0])[2].endswith(said["reason"]["hint"]))


class Answering(CommandTest):
    """Over the library: what the hint says settles a loop."""

    def visits(self, path: object, *words: object) -> tuple[int, int, int]:
        answer = json.loads(run(path, "--json", *words).stdout)["answer"]
        return answer["least"], answer["most"], answer["visits"]

    def test_listings(self) -> None:
        for path in sorted((LISTINGS / "ranked").glob("*.listing")):
            ended = run(path)
            self.assertEqual((ended.returncode, ended.stderr), (0, b""), path)
            self.assertIn(" ranked ceiling ", ended.stdout.decode())

    def test_counted_the_other_way(self) -> None:
        upward, downward = self.file("up.listing", UPWARD), self.file("down.listing", DOWNWARD)
        self.assertEqual((self.visits(upward), self.visits(downward)), ((0, 55, 4), (0, 55, 20)))

    def test_parted(self) -> None:
        together, parted = LISTINGS / "ranked" / "fill.listing", LISTINGS / "ranked" / "fill-settled.listing"
        (*figures, visits), (*same, fewer) = self.visits(together), self.visits(parted)
        self.assertEqual((figures, visits, fewer), (same, 36, 12))

    def test_else_if(self) -> None:
        """A choice in an arm, written as further arms of the choice around it, has the same figures."""
        nested, flat = LISTINGS / "walked" / "rinse.listing", LISTINGS / "ranked" / "rinse.listing"
        values = "--parameters", 16, 8
        (*figures, visits), (*same, fewer) = self.visits(nested, *values), self.visits(flat, *values)
        self.assertEqual((figures, visits, fewer), (same, 48, 6))

    def test_budget(self) -> None:
        """Refusal 8 follows the visits that are made."""
        listing = self.file("up.listing", UPWARD)
        self.assertEqual([run(listing, "--budget", budget).returncode for budget in (4, 3)], [0, 1])


if __name__ == "__main__":
    unittest.main()
