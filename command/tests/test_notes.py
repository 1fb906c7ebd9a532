"""Tests of the notes on loops that seem to count the wrong way for their bounds.

What the proved call is taken to say of the loops was reckoned apart from the library.
"""

import json
import unittest
from pathlib import Path
from typing import Optional

from pumdalin.answers import CLOSED, TOO_FEW_TRIPS, WALKED, LoopReport, Reason
from pumdalin.listing_reader import read_listing
from pumdalin.notes import Asked, direction_note
from pumdalin.subjects import ListingSubject, SheetSubject
from tests.running import ROOT, CommandTest, run
from tests.test_strides import FLUSH, loop_of

LISTINGS = ROOT / "examples" / "listings"
DOCUMENT = ROOT / "docs" / "LISTINGS.md"

WRONG_WAY = "work 1\n  loop i 10..1\n    work 3\n  end\n"
WRONG_WAY_NOTE = ("this loop makes no trip: it counts up from 10, which is past 1; "
                  "if trips are meant, write 10..1 by -1 to count down, or 1..10 to count up")

# From the last nozzle to the first; the inner loop is put in.
NEST = "loop i p1..1 by -1\n  loop j {}\n    work 1\n  end\nend\n"
INNER = 25
BOTH_WAYS = "write i..1 by -1 to count down, or 1..i to count up"


def nest_reports(outer: int, inner: int, inner_fails: bool = True) -> list[LoopReport]:
    """What is said of the nest's loops with these ceilings; the inner one may start far past its end, or not."""
    reason = Reason(TOO_FEW_TRIPS, (INNER,)) if inner_fails else None
    return [LoopReport(0, WALKED if inner_fails else CLOSED, outer, reason), LoopReport(INNER, CLOSED, inner)]


class Fixed(unittest.TestCase):
    """Of a loop whose distance from start to end rests on no index."""

    def check(self, written: str, values: tuple[int, ...], note: Optional[str]) -> None:
        with self.subTest(written, values=values):
            self.assertEqual(direction_note(loop_of(written), 0, [], Asked(values, [])), note)

    def test_constant(self) -> None:
        self.check("loop i 10..1", (), WRONG_WAY_NOTE)
        self.check("loop i 1..10 by -1", (), "this loop makes no trip: it counts down from 1, which is past 10; "
                   "if trips are meant, write 10..1 by -1 to count down, or 1..10 to count up")
        self.check("loop i 10..-1 by 20", (), "this loop makes no trip: it counts up from 10, which is past -1; "
                   "if trips are meant, write 10..-1 by -20 to count down, or -1..10 by 20 to count up")
        self.check("loop i 2..1", (), "this loop makes no trip: it counts up from 2, which is past 1; "
                   "if trips are meant, write 2..1 by -1 to count down, or 1..2 to count up")
        self.check("loop i 0..9\nloop j i+p1..i-2+p1 by 2", (),
                   "this loop makes no trip: it counts up from i+p1, which is past i+p1-2; "
                   "if trips are meant, write i+p1..i+p1-2 by -2 to count down, or i+p1-2..i+p1 by 2 to count up")

    def test_at_values(self) -> None:
        self.check("loop i p1..1", (16,), "this loop makes no trip at p1 = 16: it counts up from p1, which is past 1; "
                   "if trips are meant, write p1..1 by -1 to count down, or 1..p1 to count up")
        self.check("loop i 1..2p2+p1 by -3", (3, 4, 5),
                   "this loop makes no trip at p1 = 3, p2 = 4: it counts down from 1, which is past p1+2p2; "
                   "if trips are meant, write p1+2p2..1 by -3 to count down, or 1..p1+2p2 by 3 to count up")
        self.check("loop i p1+9..p1-p2", (0, -8), None)
        self.assertIsNotNone(direction_note(loop_of("loop i p1+9..p1-p2"), 0, [], Asked((0, -7), [])))

    def test_one_past_the_end(self) -> None:
        """A loop over 0 to n - 1 with n = 0, whatever its stride; without a parameter there is no such n."""
        for values in ((2,), (1,), (0,)):
            self.check("loop i p1..1", values, None)
            self.check("loop i p1..1 by 3", values, None)
            self.check("loop i 1..p1 by -1000", values, None)
        for bounds in ("0..-1", "0..-1 by 3", "-1..0 by -1", "1..0", "0..1 by -1000"):
            self.assertIn("makes no trip: ", str(direction_note(loop_of(f"loop i {bounds}"), 0, [], Asked((), []))))

    def test_trips(self) -> None:
        for bounds in ("4..4", "4..4 by -1", "1..10", "10..1 by -1"):
            self.check(f"loop i {bounds}", (), None)
        self.check("loop i p1..1 by -1", (16,), None)

    def test_unknown(self) -> None:
        """A parameter has no value, or no trip may be meant at a small one."""
        self.check("loop i p1..1", (), None)
        self.check("loop i p2..1", (16,), None)
        self.check("loop i p2+9..1", (16,), None)
        for small in (0, -5):
            self.check("loop i 0..p1-2", (small,), None)
            self.check("loop i p1-2..0 by -1", (small,), None)
        self.check("loop i p2+1..p1", (3, 8), None)


class Slanted(unittest.TestCase):
    """Of a loop whose distance rests on an index: what the proved call says of it decides."""

    def note(self, inner: str, reports: list[LoopReport]) -> Optional[str]:
        return direction_note(loop_of(NEST.format(inner)), INNER, [0], Asked((16,), reports))

    def test_one_trip_at_most(self) -> None:
        self.assertEqual(self.note("i..1", nest_reports(16, 1)),
                         "this loop makes at most one trip at p1 = 16, wherever it is met: it counts up from i to 1; "
                         f"if more are meant, {BOTH_WAYS}")
        self.assertEqual(self.note("1..i by -1", nest_reports(16, 1)),
                         "this loop makes at most one trip at p1 = 16, wherever it is met: it counts down from 1 to i; "
                         f"if more are meant, {BOTH_WAYS}")
        self.assertEqual(self.note("i..0 by 2", nest_reports(16, 0)),
                         "this loop makes no trip at p1 = 16, wherever it is met: it counts up from i to 0; "
                         "if more are meant, write i..0 by -2 to count down, or 0..i by 2 to count up")

    def test_two_trips_at_most(self) -> None:
        """Like j from n - 1 down to i + 1 with the sign forgotten."""
        self.assertEqual(self.note("p1-1..i+1", nest_reports(16, 2)),
                         "this loop makes at most two trips at p1 = 16, wherever it is met: it counts up from p1-1 to i+1; "
                         "if more are meant, write p1-1..i+1 by -1 to count down, or i+1..p1-1 to count up")

    def test_more_trips(self) -> None:
        self.assertIsNone(self.note("i..1", nest_reports(16, 3)))

    def test_around_it_no_more_trips(self) -> None:
        for ceiling in (1, 2):
            self.assertIsNone(self.note("i..1", nest_reports(ceiling, ceiling)))
            self.assertIsNotNone(self.note("i..1", nest_reports(ceiling + 1, ceiling)))

    def test_not_far_past_its_end(self) -> None:
        self.assertIsNone(self.note("i..1", nest_reports(2, 1, inner_fails=False)))

    def test_another_loop_fails(self) -> None:
        other = [LoopReport(0, WALKED, 16, Reason(TOO_FEW_TRIPS, (57,))), LoopReport(INNER, CLOSED, 1), LoopReport(57, CLOSED, 0)]
        self.assertIsNone(self.note("i..1", other))

    def test_around_it_no_trip(self) -> None:
        """Then the index lies where it never is."""
        self.assertIsNone(self.note("i..1 by -1", nest_reports(0, 0)))

    def test_not_called(self) -> None:
        self.assertIsNone(self.note("i..1", []))

    def test_meant(self) -> None:
        """Few trips may be meant at a small parameter; and a loop with a skip is told to have too few sooner."""
        self.assertIsNone(self.note("i..p2", nest_reports(16, 1)))
        self.assertIsNone(self.note("i..1 start 4 skip 1", nest_reports(16, 1)))
        self.assertIsNotNone(self.note("i..1 start 4 skip 4", nest_reports(16, 1)))


class InAListing(unittest.TestCase):
    def notes(self, written: str, *asked: tuple[int, ...]) -> list[str]:
        return ListingSubject("valve.listing", read_listing(written)).notes([Asked(values, []) for values in asked])

    def test_place(self) -> None:
        listing = WRONG_WAY + "loop i p1..1\nend\n"
        self.assertEqual(self.notes(listing, ()), [f"valve.listing:2:10: note: {WRONG_WAY_NOTE}"])
        places = [note.partition(": note: ")[0] for note in self.notes(listing, (5,))]
        self.assertEqual(places, ["valve.listing:2:10", "valve.listing:5:8"])

    def test_at_the_first_values_that_tell(self) -> None:
        (note,) = self.notes("loop i p1..1\nend\n", (0,), (5,), (6,))
        self.assertIn("makes no trip at p1 = 5: ", note)

    def test_expected(self) -> None:
        """A listing that says itself that there are few trips, at these values, has no note."""
        listing = "loop i p1..1\nend\nparameters {}\nexpect loop 0 closed ceiling {}\n"
        self.assertEqual(self.notes(listing.format(5, 0), (5,)), [])
        self.assertEqual(len(self.notes(listing.format(5, 0), (6,))), 1)
        self.assertEqual(self.notes(listing.format(5, 2), (5,)), [])
        self.assertEqual(len(self.notes(listing.format(5, 3), (5,))), 1)
        other = "loop i 1..1\nend\n" + listing.format(5, 0)
        self.assertEqual(len(self.notes(other, (5,))), 1)

    def test_of_bytes(self) -> None:
        self.assertEqual(SheetSubject("valve.sheet", read_listing(WRONG_WAY).sheet()).notes([Asked((), [])]), [])

    def test_in_the_document(self) -> None:
        """The note that docs/LISTINGS.md shows is that of the flush without its first `by -1`."""
        listing = read_listing(FLUSH.read_text().replace("loop i p1..1 by -1", "loop i p1..1"))
        (note,) = ListingSubject(FLUSH.name, listing).notes([Asked((16,), [])])
        self.assertIn(f"\n    {note}\n", DOCUMENT.read_text())


class AsAUserDoesIt(CommandTest):
    def wrong_way(self) -> Path:
        return self.file("wrong.listing", WRONG_WAY)

    def test_note(self) -> None:
        """On the standard error, and the answer is what it was."""
        listing = self.wrong_way()
        note = f"{listing}:2:10: note: {WRONG_WAY_NOTE}\n"
        ended = run(listing)
        self.assertEqual((ended.returncode, ended.stderr.decode()), (0, note))
        self.assertTrue(ended.stdout.startswith(b"best 1 worst 1 visits 0\n"), ended.stdout)
        as_json = run(listing, "--json")
        self.assertEqual((as_json.returncode, as_json.stderr.decode()), (0, note))
        self.assertEqual(json.loads(as_json.stdout)["answer"], {"least": 1, "most": 1, "visits": 0})

    def test_slanted(self) -> None:
        """A sign that is forgotten in, or put into, the inner loop of a flush, of a back solve and of a drain."""
        for name, written, instead, most in (
            ("firmware/flush", "i..1 by -1", "i..1", "one trip"), ("firmware/flush", "i..1 by -1", "1..i by -1", "one trip"),
            ("kernels/back-solve", "p1-1..i+1 by -1", "p1-1..i+1", "two trips"),
            ("walked/drain", "i..1 by -2", "i..1 by 2", "one trip"),
        ):
            text = (LISTINGS / f"{name}.listing").read_text()
            self.assertIn(f"loop j {written}", text)
            records = text.partition("\nexpect")[0].replace(f"loop j {written}", f"loop j {instead}")
            ended = run(self.file("wrong.listing", f"{records}\n"))
            self.assertEqual(ended.returncode, 0)
            note = ended.stderr.decode()
            self.assertRegex(note, rf":\d+:10: note: this loop makes at most {most} at p1 = \d+, wherever it is met: it counts ")
            self.assertIn(f"write {written} to count down", note)

    def test_at_what_is_expected(self) -> None:
        """Also where only a later expectation's values tell."""
        listing = self.file("down.listing", "loop i p1..1\nend\nparameters 0\nexpect 0 0 visits 0\nparameters 16\nexpect 0 0 visits 0\n")
        self.assertIn(":1:8: note: this loop makes no trip at p1 = 16: it counts up", run(listing).stderr.decode())

    def test_other_commands(self) -> None:
        listing = self.wrong_way()
        note = f"{listing}:2:10: note: {WRONG_WAY_NOTE}\n"
        sheet = read_listing(WRONG_WAY).sheet()
        made = run("make", listing)
        self.assertEqual((made.returncode, made.stdout, made.stderr.decode()), (0, sheet, note))
        converted = run("convert", listing, "--to", "2")
        self.assertEqual((converted.returncode, converted.stdout, converted.stderr.decode()), (0, sheet, note))
        printed = run("print", given=sheet)
        self.assertEqual((printed.returncode, printed.stderr), (0, b""))

    def test_at_the_values_asked_with(self) -> None:
        listing = self.file("down.listing", "loop i p1..1\nend\nparameters 1\n")
        self.assertEqual(run(listing).stderr, b"")
        ended = run(listing, "--parameters", "5")
        self.assertIn(":1:8: note: this loop makes no trip at p1 = 5: it counts up", ended.stderr.decode())
        self.assertEqual(run("make", listing).stderr, b"")

    def test_refused(self) -> None:
        ended = run(given=b"loop i 10..1\nend\nwork 5..3\n")
        self.assertEqual(ended.returncode, 1)
        self.assertNotIn(b"note", ended.stderr)

    def test_every_listing(self) -> None:
        """No listing of the repository has a note, whatever values it gives."""
        paths = sorted(LISTINGS.rglob("*.listing"))
        self.assertGreater(len(paths), 40)
        for path in paths:
            self.assertNotIn(b": note: this loop", run(path).stderr, path)


if __name__ == "__main__":
    unittest.main()
