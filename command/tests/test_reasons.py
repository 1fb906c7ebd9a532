"""Tests of why a loop is walked: the lines read, how they are shown, and what a listing expects of a loop.

The texts are those that `bound` prints for these sheets, reckoned apart from the library.
"""

import unittest

from pumdalin.answers import (
    CLOSED, HOLDS_LOOP, TOO_FEW_TRIPS, UNEVEN, WALKED, Figures, LoopReport, Reason, Refusal, Report, read_loops, read_reason_line,
    read_report,
)
from pumdalin.commands.answer import Check, check_object, loop_object, said_of, said_text
from pumdalin.errors import ListingError
from pumdalin.listing_reader import Expectation, read_listing
from pumdalin.listing_text import listing_lines
from pumdalin.subjects import ListingSubject, SheetSubject, Subject, loop_lines

# Each sort, with its line.
REASONS = {
    Reason(HOLDS_LOOP, (25,)): "choice 25 holds a loop",
    Reason(TOO_FEW_TRIPS, (25,)): "loop 25 may fall below no trips",
    Reason(UNEVEN, (50, 0)): "loop 50 is uneven in loop 0",
}

IN_ARM = "loop i 0..9\n  choice\n    choice\n      loop j 0..i-1\n        work 1\n      end\n    end\n  end\nend\n"
IN_ARM_TEXT = "best 45 worst 45 visits 19\nloop 0 walked ceiling 10\nchoice 25 holds a loop\nloop 27 closed ceiling 9\n"

TOO_FEW = "# two of the reasons: this one comes first\nloop i 0..9\n  loop j i..6 by 2\n    work 1\n  end\nend\n"
TOO_FEW_TEXT = "best 16 worst 16 visits 17\nloop 0 walked ceiling 10\nloop 25 may fall below no trips\nloop 25 closed ceiling 4\n"

NESTED = "loop i 0..9\n  loop j 0..9\n    loop k 0..i+j by 2\n      work 0..1\n      work 1\n    end\n  end\nend\n"
NESTED_TEXT = """\
best 525 worst 1050 visits 210
loop 0 walked ceiling 10
loop 50 is uneven in loop 0
loop 25 walked ceiling 10
loop 50 is uneven in loop 25
loop 50 closed ceiling 10
"""
NESTED_LOOPS = [LoopReport(0, WALKED, 10, Reason(UNEVEN, (50, 0))), LoopReport(25, WALKED, 10, Reason(UNEVEN, (50, 25))),
                LoopReport(50, CLOSED, 10)]


def listing_subject(text: str) -> ListingSubject:
    return ListingSubject("valve.listing", read_listing(text))


def sheet_subject(text: str) -> SheetSubject:
    return SheetSubject("valve.sheet", read_listing(text).sheet())


def lines_of(subject: Subject, text: str) -> list[str]:
    return [line for loop in read_report(text).loops for line in loop_lines(subject, loop)]


class Reading(unittest.TestCase):
    def test_each_sort(self) -> None:
        for reason, line in REASONS.items():
            self.assertEqual((read_reason_line(line), reason.text()), (reason, line))
        self.assertEqual(len({reason.sort for reason in REASONS}), 3)

    def test_offsets(self) -> None:
        self.assertEqual(read_reason_line("loop 1599 is uneven in loop 1574"), Reason(UNEVEN, (1599, 1574)))
        self.assertEqual(read_reason_line("choice 0 holds a loop"), Reason(HOLDS_LOOP, (0,)))

    def test_no_reason(self) -> None:
        for line in ("", "choice 01 holds a loop", "choice holds a loop", "choice -1 holds a loop", "choice 25 holds a loop ",
                     " choice 25 holds a loop", "Choice 25 holds a loop", "choice 25 holds a loop\n", "loop 25 holds a loop",
                     "choice 25 may fall below no trips", "loop 50 is uneven in loop", "loop 50 is uneven in choice 0",
                     "loop 50 is uneven in loop 00", "loop \N{ARABIC-INDIC DIGIT THREE} may fall below no trips",
                     "loop 25 walked ceiling 3", f"choice {'9' * 21} holds a loop"):
            with self.subTest(line), self.assertRaisesRegex(ValueError, "^no reason's line: "):
                read_reason_line(line)

    def test_text(self) -> None:
        self.assertEqual(read_report(NESTED_TEXT), Report(Figures(525, 1050, 210), NESTED_LOOPS))
        self.assertEqual(read_report(IN_ARM_TEXT).loops,
                         [LoopReport(0, WALKED, 10, Reason(HOLDS_LOOP, (25,))), LoopReport(27, CLOSED, 9)])
        self.assertEqual(read_report(TOO_FEW_TEXT).loops,
                         [LoopReport(0, WALKED, 10, Reason(TOO_FEW_TRIPS, (25,))), LoopReport(25, CLOSED, 4)])
        self.assertEqual(read_report("refused 6 at 0\n"), Report(Refusal(6, 0), []))

    def test_damaged_texts(self) -> None:
        """A reason's line stands after a walked loop's and after no other; the message names the line that is wrong."""
        walked, closed, reason = "loop 0 walked ceiling 10", "loop 25 closed ceiling 4", "loop 25 may fall below no trips"
        for lines, message in [
            ([walked], "no reason's line: ''"),
            ([walked, closed], f"no reason's line: '{closed}'"),
            ([walked, walked, reason], f"no reason's line: '{walked}'"),
            ([walked, reason, reason], f"no loop's line: '{reason}'"),
            ([walked, reason, closed, reason], f"no loop's line: '{reason}'"),
            ([reason, walked], f"no loop's line: '{reason}'"),
            ([closed, ""], "no loop's line: ''"),
            ([walked, "", reason], "no reason's line: ''"),
            (["loop 00 closed ceiling 4"], "no loop's line: 'loop 00 closed ceiling 4'"),
            (["loop 0 open ceiling 4"], "no loop's line: 'loop 0 open ceiling 4'"),
        ]:
            with self.subTest(lines), self.assertRaises(ValueError) as caught:
                read_report("\n".join(["best 1 worst 1 visits 1", *lines]) + "\n")
            self.assertEqual(str(caught.exception), message)


class Showing(unittest.TestCase):
    def test_choice_that_holds_a_loop(self) -> None:
        """Of nested choices the outer one, by its line; of a sheet in bytes by its offset."""
        self.assertEqual(lines_of(listing_subject(IN_ARM), IN_ARM_TEXT), [
            "line 1: loop i walked ceiling 10",
            "  choice 25 holds a loop: the choice of line 2",
            "  hint: in the listing alone, write a choice that stands in an arm, as that of an else if, as further arms of the "
            "choice around it: the loop is ranked where only choices directly in it hold loops; or, in code and listing alike, "
            "put the choice of line 2 inside each innermost loop that it holds, where an arm without that loop is empty; what "
            "an arm has beside its loops gets a choice of its own, before or after them",
            "line 4: loop j closed ceiling 9"])
        shown = lines_of(sheet_subject(IN_ARM), IN_ARM_TEXT)
        self.assertEqual(shown[:2], ["loop 0 walked ceiling 10", "  choice 25 holds a loop"])
        self.assertIn(" put choice 25 inside each", shown[2])
        self.assertEqual(shown[3:], ["loop 27 closed ceiling 9"])

    def test_too_few_trips(self) -> None:
        self.assertEqual(lines_of(listing_subject(TOO_FEW), TOO_FEW_TEXT), [
            "line 2: loop i walked ceiling 10",
            "  loop 25 may fall below no trips: the loop j of line 3",
            "  hint: over the ranges of the indexes around it, the loop j of line 3 may start past its end by more than its "
            "stride; in code and listing alike, limit the loops around it, or change its bounds, so that upper - lower >= "
            "-stride; or, where the code counts down from i to 6, write i..6 by -2 in the listing alone",
            "line 3: loop j closed ceiling 4"])
        shown = lines_of(sheet_subject(TOO_FEW), TOO_FEW_TEXT)
        self.assertEqual(shown[1], "  loop 25 may fall below no trips")
        self.assertIn(", loop 25 may start past", shown[2])

    def test_uneven(self) -> None:
        """Each walked loop has its own reason after its own line."""
        shown = lines_of(listing_subject(NESTED), NESTED_TEXT)
        self.assertEqual([line for line in shown if "hint" not in line], [
            "line 1: loop i walked ceiling 10", "  loop 50 is uneven in loop 0: the loop k of line 3, the loop i of line 1",
            "line 2: loop j walked ceiling 10", "  loop 50 is uneven in loop 25: the loop k of line 3, the loop j of line 2",
            "line 3: loop k closed ceiling 10"])
        self.assertEqual(shown[5], "  hint: each trip of the loop j of line 2 changes upper - lower of the loop k of line 3 by "
                         "an amount that the inner stride does not divide; in code and listing alike, choose the outer "
                         "stride, or the factors in the inner bounds, so that it does")
        shown = lines_of(sheet_subject(NESTED), NESTED_TEXT)
        self.assertEqual(shown[3:5], ["loop 25 walked ceiling 10", "  loop 50 is uneven in loop 25"])
        self.assertIn("each trip of loop 25 changes upper - lower of loop 50 by", shown[5])

    def test_printed_listing(self) -> None:
        """As `bound` prints it, since each record has its offset beside it."""
        lines = listing_lines(read_listing(NESTED).sheet(), None, NESTED_LOOPS, (), None)
        self.assertEqual([line.partition("# ")[2] for line in lines][:3], [
            "0 walked ceiling 10: loop 50 is uneven in loop 0", "25 walked ceiling 10: loop 50 is uneven in loop 25",
            "50 closed ceiling 10"])
        self.assertEqual(read_listing("\n".join(lines)).sheet(), read_listing(NESTED).sheet())

    def test_as_json(self) -> None:
        listing, sheet = listing_subject(NESTED), sheet_subject(NESTED)
        hint = loop_lines(listing, NESTED_LOOPS[1])[2].removeprefix("  hint: ")
        self.assertEqual(loop_object(listing, NESTED_LOOPS[1]), {
            "line": 2, "index": "j", "offset": 25, "class": "walked", "closed": False, "ceiling": 10,
            "reason": {"sort": "uneven", "offsets": (50, 25), "lines": [3, 2], "printed": "loop 50 is uneven in loop 25",
                       "hint": hint}})
        hint = loop_lines(sheet, NESTED_LOOPS[0])[2].removeprefix("  hint: ")
        self.assertEqual(loop_object(sheet, NESTED_LOOPS[0]), {
            "offset": 0, "class": "walked", "closed": False, "ceiling": 10,
            "reason": {"sort": "uneven", "offsets": (50, 0), "printed": "loop 50 is uneven in loop 0", "hint": hint}})
        self.assertIsNone(loop_object(listing, NESTED_LOOPS[2])["reason"])

    def test_sorts_as_json(self) -> None:
        in_arm, too_few = read_report(IN_ARM_TEXT).loops[0], read_report(TOO_FEW_TEXT).loops[0]
        for said, expected in [
            (loop_object(listing_subject(IN_ARM), in_arm), ("holds-loop", (25,), [2], "choice 25 holds a loop")),
            (loop_object(listing_subject(TOO_FEW), too_few), ("too-few-trips", (25,), [3], "loop 25 may fall below no trips")),
        ]:
            reason = said["reason"]
            assert isinstance(reason, dict)
            self.assertEqual(tuple(reason[name] for name in ("sort", "offsets", "lines", "printed")), expected)


class Expecting(unittest.TestCase):
    def expected(self, line: str) -> LoopReport:
        (expectation,) = read_listing(NESTED + line).loop_expectations
        return expectation.answer

    def test_read(self) -> None:
        self.assertEqual(self.expected("expect loop 50 closed ceiling 10"), NESTED_LOOPS[2])
        for written in ("expect loop 25 walked ceiling 10: loop 50 is uneven in loop 25  # comment",
                        "expect  loop 25 walked ceiling 10 :loop 50 is  uneven in loop 25"):
            self.assertEqual(self.expected(written), NESTED_LOOPS[1])
        for reason, line in REASONS.items():
            self.assertEqual(self.expected(f"expect loop 0 walked ceiling 3: {line}"), LoopReport(0, WALKED, 3, reason))

    def test_written_as_read(self) -> None:
        for loop in NESTED_LOOPS:
            self.assertEqual(self.expected(f"expect {said_text(loop)}"), loop)
            self.assertEqual(read_loops(f"loop {loop.whole_text()}".split(": ")), [loop])

    def test_values_in_force(self) -> None:
        """Parameters and budget are those above it, and the first expectation's are the listing's."""
        loop = "expect loop 0 closed ceiling 5"
        listing = read_listing(f"parameters 5\nbudget 7\n{loop}\nloop i 1..p1\nend\nparameters 6\nexpect 0 0 visits 1\n{loop}")
        self.assertEqual(listing.loop_expectations, [Expectation(3, (5,), 7, LoopReport(0, CLOSED, 5)),
                                                     Expectation(8, (6,), 7, LoopReport(0, CLOSED, 5))])
        self.assertEqual([said.line for said in listing.all_expectations()], [3, 7, 8])
        self.assertEqual(listing.given(), ((5,), 7))

    def test_mistakes(self) -> None:
        for written, column, words in [
            ("expect loop 0 walked ceiling 10", 8, "write a loop as bound prints it and, if it is not closed, a colon and the reason"),
            ("expect loop 0 walked ceiling 10:", 8, "write a loop as bound prints it"),
            ("expect loop 0 closed ceiling 10: loop 50 is uneven in loop 0", 8, "write a loop as bound prints it"),
            ("expect loop 0 walked ceiling 10: loop 50 is odd in loop 0", 8, "write a loop as bound prints it"),
            ("expect loop 0 walked ceiling 10: choice 025 holds a loop", 8, "write a loop as bound prints it"),
            ("expect loop 0 closed ceiling 10: loop 50 closed ceiling 10", 8, "write a loop as bound prints it"),
            ("expect loop i closed ceiling 10", 8, "write a loop as bound prints it"),
            ("expect loop", 8, "write a loop as bound prints it"),
            ("expect loop 26 closed ceiling 10", 1, "no loop stands at 26 of the sheet; write the offset of a loop: 0, 25, 50"),
            ("expect loop 75 closed ceiling 10", 1, "no loop stands at 75 of the sheet"),
        ]:
            with self.subTest(written), self.assertRaises(ListingError) as caught:
                read_listing(NESTED + written)
            self.assertEqual((caught.exception.line, caught.exception.column), (9, column))
            self.assertIn(words, caught.exception.message)
        with self.assertRaisesRegex(ListingError, "^1:1: no loop stands at 0 of the sheet; .*: there is none$"):
            read_listing("expect loop 0 closed ceiling 1\nwork 1")
        with self.assertRaisesRegex(ListingError, "^3:1: p1, which line 1 uses, has no value here"):
            read_listing("loop i 1..p1\nend\nexpect loop 0 closed ceiling 1")

    def test_checked(self) -> None:
        """The loop at the same offset, with its reason; of a refused sheet the refusal is answered."""
        report = read_report(NESTED_TEXT)
        for loop in NESTED_LOOPS:
            self.assertEqual(said_of(loop, report), loop)
        self.assertEqual(said_of(NESTED_LOOPS[0], Report(Refusal(8, 0), [])), Refusal(8, 0))
        self.assertEqual(said_of(Figures(1, 2, 3), report), report.answer)
        for expected, holds in [(NESTED_LOOPS[0], True), (NESTED_LOOPS[0]._replace(reason=NESTED_LOOPS[1].reason), False),
                                (NESTED_LOOPS[0]._replace(ceiling=9), False), (LoopReport(0, CLOSED, 10), False)]:
            self.assertEqual(Check(Expectation(9, (), 5, expected), NESTED_LOOPS[0], []).holds(), holds)
        self.assertFalse(Check(Expectation(9, (), 5, NESTED_LOOPS[0]), Refusal(8, 0), []).holds())

    def test_as_json(self) -> None:
        said = check_object(Check(Expectation(9, (), 5, NESTED_LOOPS[2]), NESTED_LOOPS[0], NESTED_LOOPS))
        self.assertEqual(said, {
            "line": 9, "parameters": (0, 0, 0, 0), "budget": 5, "holds": False,
            "expected": {"offset": 50, "class": "closed", "closed": True, "ceiling": 10, "reason": None},
            "answered": {"offset": 0, "class": "walked", "closed": False, "ceiling": 10, "reason": "loop 50 is uneven in loop 0"}})


if __name__ == "__main__":
    unittest.main()
