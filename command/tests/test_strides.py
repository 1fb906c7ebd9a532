"""Tests of loops that count down: read, printed, refused and hinted at.

The texts are those that `bound` prints for these sheets, reckoned apart from the library.
"""

import json
import unittest
from typing import Optional

from pumdalin.answers import Refusal, read_report
from pumdalin.commands.answer import loop_object
from pumdalin.errors import ListingError
from pumdalin.hints import bytes_hint, listing_hint
from pumdalin.listing_reader import read_listing
from pumdalin.listing_text import listing_lines
from pumdalin.records import End, Form, Loop, Record, Work, decode_before, encode_all, stride_in_range
from pumdalin.refusals import REFUSALS
from pumdalin.subjects import ListingSubject, SheetSubject, loop_lines
from tests.running import ROOT, CommandTest, run

FLUSH = ROOT / "examples" / "listings" / "firmware" / "flush.listing"

EVERY_FIELD = "loop i 0..1\nloop j i-1..2p1-3p4+300 by -5 start 258 step 7"
# The second line as bytes, with the stride in two's complement.
EVERY_FIELD_BYTES = "02 02 01 07 00 fb ff ff ff 01 00 00 00 00 00 00 2c 01 00 00 00 02 00 00 fd"

# The loop j starts up to 4 past its end, counting down by {}.
PAST_END = "loop i 1..12\n  loop j 8..i by {} start 4\n    work 1\n  end\nend\n"
PAST_END_TEXT = """\
best {0} worst {0} visits 20
loop 0 walked ceiling 12
loop 25 may fall below no trips
loop 25 closed ceiling {1}
"""
# The loop j makes no trip at i = 9, and then costs its skip.
SKIPPED = "loop i 0..9\n  loop j 9..i+1 by -1 start 4 skip 1\n    work 1\n  end\nend\n"
SKIPPED_TEXT = """\
best 82 worst 82 visits 19
loop 0 walked ceiling 10
loop 25 may fall below no trips
loop 25 closed ceiling 9
"""
# A trip of i changes the distance of j by 1.
UNEVEN = "loop i 9..0 by -1\n  loop j i..0 by -2\n    work 1\n  end\nend\n"
UNEVEN_TEXT = """\
best 30 worst 30 visits 20
loop 0 walked ceiling 10
loop 25 is uneven in loop 0
loop 25 closed ceiling 5
"""


def loop_of(written: str) -> Loop:
    """The last loop of a listing."""
    return [record for record in read_listing(written).records if isinstance(record, Loop)][-1]


def with_stride(stride: int, skip: Optional[int] = None) -> Loop:
    return Loop(2, 3, stride, Form(9), Form(0), skip)


class Reading(unittest.TestCase):
    def test_strides(self) -> None:
        for written, stride in {
            "": 1, "by 1": 1, "by -1": -1, "by - 1": -1, "by -1000": -1000, "by 1000": 1000, "by -0": 0,
        }.items():
            with self.subTest(written):
                self.assertEqual(loop_of(f"loop i 9..0 {written}"), Loop(0, 0, stride, Form(9), Form(0)))

    def test_start_comes_first(self) -> None:
        """The lower form is where the loop starts, whatever its direction."""
        self.assertEqual(loop_of("loop i p1..1 by -1"), Loop(0, 0, -1, Form(0, (0, 0, 0), (1, 0, 0, 0)), Form(1)))

    def test_minus_of_a_bound(self) -> None:
        self.assertEqual(loop_of("loop i 9..1 -1"), Loop(0, 0, 1, Form(9), Form(0)))
        self.assertEqual(loop_of("loop i 9..-1 by -1"), Loop(0, 0, -1, Form(9), Form(-1)))

    def test_any_order(self) -> None:
        for written in ("by -2 start 3 skip 1 step 4", "skip 1 step 4 by -2 start 3", "step 4 skip 1 start 3 by -2"):
            self.assertEqual(loop_of(f"loop i 9..0 {written}"), Loop(3, 4, -2, Form(9), Form(0), 1))

    def test_bytes(self) -> None:
        """The bytes of a loop with every field, as the documents give them."""
        sheet = read_listing(EVERY_FIELD).sheet()
        self.assertEqual(sheet[25:].hex(" "), EVERY_FIELD_BYTES)
        self.assertEqual(decode_before(sheet, len(sheet))[1], read_listing(EVERY_FIELD).records[1])

    def test_field(self) -> None:
        """Two bytes, low byte first, in two's complement."""
        for stride, field in {1: "0100", 1000: "e803", -1: "ffff", -1000: "18fc", -32768: "0080", 32767: "ff7f"}.items():
            sheet = encode_all([with_stride(stride)])
            self.assertEqual(sheet[5:7].hex(), field)
            self.assertEqual(decode_before(sheet, len(sheet)), [with_stride(stride)])

    def test_mistakes(self) -> None:
        for written, column, words in [
            ("by", 15, "write the stride, a number from -1000 to 1000 without 0, here; this is the end of the line"),
            ("by x", 16, "write the stride, a number from -1000 to 1000 without 0, here; this is 'x'"),
            ("by -", 17, "write the stride, a number from -1000 to 1000 without 0, here"),
            ("by --1", 17, "write the stride, a number"),
            ("by -p1", 17, "write the stride, a number"),
            ("by 32768", 16, "the stride is 32768; write a number from -1000 to 1000 without 0"),
            ("by -32769", 16, "the stride is -32769; write a number from -1000 to 1000 without 0"),
            ("by -1 by 1", 19, "write start or skip or step, or nothing more, here; this is 'by'"),
            ("by -1-1", 18, "write start or skip or step, or nothing more, here; this is '-'"),
            ("1", 13, "write + or - or by or start or skip or step, or nothing more, here; this is '1'"),
            ("by -1 start 1 skip 1 step 1 1", 41, "write nothing more here; this is '1'"),
            ("start -1", 19, "the start is -1; write a number from 0 to 4095"),
            ("step -1", 18, "the step is -1; write a number from 0 to 4095, since it is what a trip costs; the stride stands after by"),
        ]:
            with self.subTest(written), self.assertRaises(ListingError) as caught:
                read_listing(f"work 1\nloop i 9..0 {written}\nend")
            self.assertEqual((caught.exception.line, caught.exception.column), (2, column))
            self.assertIn(words, caught.exception.message)


class Printing(unittest.TestCase):
    def test_printed(self) -> None:
        for stride, text in {1: "", -1: " by -1", 2: " by 2", -1000: " by -1000"}.items():
            lines = listing_lines(encode_all([with_stride(stride), End()]), None, [], (), None)
            self.assertEqual(lines[0].partition("#")[0].rstrip(), f"loop i 9..0{text} start 2 step 3")

    def test_made_of_what_was_printed(self) -> None:
        """Sheets come back to the byte, with both kinds of loops, and with strides that the reader refuses."""
        for stride in (1, -1, 2, -2, 1000, -1000, 0, 1001, -1001, 32767, -32768):
            for skip in (None, 0, 2):
                records: list[Record] = [with_stride(stride, skip), Work(0, 3), End()]
                sheet = encode_all(records)
                self.assertEqual(read_listing("\n".join(listing_lines(sheet, None, [], (), None))).sheet(), sheet)


class Ranges(unittest.TestCase):
    def test_in_range(self) -> None:
        for stride, fits in {-1001: False, -1000: True, -1: True, 0: False, 1: True, 1000: True, 1001: False}.items():
            self.assertEqual(stride_in_range(stride), fits)
            hint = listing_hint(read_listing(f"work 1\nloop i 9..0 by {stride}\nend"), Refusal(3, 5))
            said = f"column 16: the stride is {stride}, and is to be from -1000 to 1000 without 0"
            self.assertEqual(hint, None if fits else said)

    def test_limit_in_words(self) -> None:
        self.assertIn("; stride -1,000 to 1,000 without 0; ", REFUSALS[3].limit)

    def test_hints_to_bytes(self) -> None:
        for stride in (0, -1001, 1001):
            hint = bytes_hint(encode_all([Loop(0, 0, stride, Form(9), Form(0))]), Refusal(3, 0))
            self.assertEqual(hint, f"the record there is 'loop i 9..0 by {stride}'")


class Reasons(unittest.TestCase):
    """What is asked of the bounds of a loop that counts down is lower - upper, held against the size of the stride."""

    def hint(self, written: str, text: str) -> str:
        """The hint below the first loop of the listing; of the sheet in bytes and in JSON it says the same."""
        listing = read_listing(written)
        walked = read_report(text).loops[0]
        of_listing, of_bytes = ListingSubject("valve.listing", listing), SheetSubject("valve.sheet", listing.sheet())
        hint = loop_lines(of_listing, walked)[2].removeprefix("  hint: ")
        named = hint.replace("the loop j of line 2", "loop 25").replace("the loop i of line 1", "loop 0")
        self.assertEqual(loop_lines(of_bytes, walked)[2], f"  hint: {named}")
        reason = loop_object(of_listing, walked)["reason"]
        assert isinstance(reason, dict)
        self.assertEqual(reason["hint"], hint)
        return hint

    def test_less_than_none(self) -> None:
        for stride, figure, ceiling in ((-1, 84, 8), (-2, 68, 4)):
            self.assertEqual(
                self.hint(PAST_END.format(stride), PAST_END_TEXT.format(figure, ceiling)),
                "over the ranges of the indexes around it, the loop j of line 2, which counts down from its lower bound, may start "
                "past its end by more than the size of its stride; in code and listing alike, limit the loops around it, or change "
                f"its bounds, so that lower - upper >= {stride}; or, where the code counts up from 8 to i, write "
                f"{'8..i' if stride == -1 else '8..i by 2'} in the listing alone")

    def test_no_trip(self) -> None:
        self.assertEqual(
            self.hint(SKIPPED, SKIPPED_TEXT),
            "over the ranges of the indexes around it, the loop j of line 2, which counts down from its lower bound, may make no "
            "trip, and its skip differs from its start; in code and listing alike, limit the loops around it, or change its "
            "bounds, so that lower - upper >= 0 and it always makes a trip; or let it cost its start without a trip too, and then "
            "lower - upper >= -1 is enough")

    def test_uneven(self) -> None:
        self.assertEqual(
            self.hint(UNEVEN, UNEVEN_TEXT),
            "each trip of the loop i of line 1 changes lower - upper of the loop j of line 2, which counts down from its lower "
            "bound, by an amount that the inner stride does not divide; in code and listing alike, choose the outer stride, or the "
            "factors in the inner bounds, so that it does")
        upward = self.hint(UNEVEN.replace("j i..0 by -2", "j 0..i by 2"), UNEVEN_TEXT)
        self.assertIn("changes upper - lower of the loop j of line 2 by an amount", upward)


class AsAUserDoesIt(CommandTest):
    def test_answered(self) -> None:
        listing = self.file("down.listing", "loop i p1..1 by -1\n  loop j i..1 by -1\n    work 1\n  end\nend\n")
        self.check(run(listing, "--parameters", "9"), 0, "best 45 worst 45 visits 4\nparameters 9 0 0 0 budget 1000000\n"
                   "line 1: loop i closed ceiling 9\nline 2: loop j closed ceiling 9\n")
        sheet = self.sheet(listing.read_text())
        self.check(run("--bytes", sheet, "--parameters", "9"), 0, "best 45 worst 45 visits 4\n"
                   "parameters 9 0 0 0 budget 1000000\nloop 0 closed ceiling 9\nloop 25 closed ceiling 9\n")
        self.check(run("print", sheet), 0, "loop i p1..1 by -1   # 0\n  loop j i..1 by -1  # 25\n    work 1           # 50\n"
                   "  end                # 55\nend                  # 56\n")

    def test_same_as_counting_up(self) -> None:
        """A loop that counts down has the trips of one that counts up over the negated bounds."""
        def answer(bounds: str) -> bytes:
            return run(given=f"loop i {bounds} start 2 skip 1 step 3\nwork 4..5\nend\n".encode()).stdout
        for down, up in {
            "9..0 by -1": "-9..0", "9..0 by -4": "-9..0 by 4", "0..1 by -3": "0..-1 by 3", "3..3 by -7": "-3..-3 by 7",
        }.items():
            self.assertEqual(answer(down), answer(up))
            self.assertIn(b"best ", answer(down))

    def test_refused(self) -> None:
        for stride in (0, -1001, 1001):
            listing = self.file("wrong.listing", f"loop i 9..0 by {stride}\nend\n")
            hint = f"hint: column 16: the stride is {stride}, and is to be from -1000 to 1000 without 0"
            self.check(run(listing), 1, "", "wrong.listing:1: refused 3 at 0", "limit: ", "stride -1,000 to 1,000 without 0", hint)
            refusal = json.loads(run(listing, "--json").stdout)["refusal"]
            self.assertEqual((refusal["number"], refusal["hint"]), (3, hint.removeprefix("hint: ")))
        for stride in (-1000, -1, 1000):
            self.assertEqual(run("make", given=f"loop i 9..9 by {stride}\nend\n".encode()).returncode, 0)

    def test_ceiling(self) -> None:
        """Counted by the size of the stride."""
        for written, status in {"2047..0 by -1": 0, "2048..0 by -1": 1, "4095..0 by -2": 0, "4096..0 by -2": 1}.items():
            self.assertEqual(run(given=f"loop i {written}\nend\n".encode()).returncode, status)

    def test_converted(self) -> None:
        """The stride keeps its sign there and back."""
        listing = "loop i p1..1 by -1 start 4\n  loop j i..1 by -1000 start 5\n  end\nend\n"
        skipping = listing.replace("start 4", "start 4 skip 4").replace("start 5", "start 5 skip 5")
        with_skips = run("convert", "--to", "6", given=listing.encode()).stdout
        self.assertEqual(with_skips, read_listing(skipping).sheet())
        back = run("convert", "--bytes", "--to", "2", given=with_skips).stdout
        self.assertEqual(back, read_listing(listing).sheet())

    def test_flush(self) -> None:
        """Every expectation holds, and nothing is noted."""
        ended = run(FLUSH)
        self.assertEqual((ended.returncode, ended.stderr), (0, b""))
        self.assertEqual(ended.stdout.count(b"as expected"), 8)


if __name__ == "__main__":
    unittest.main()
