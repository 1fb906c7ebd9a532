"""Tests of loops with a skip (kind 6): read, printed, refused, and why the loops around them are walked.

The texts are those that `bound` prints for these sheets, reckoned apart from the library.
"""

import unittest

from pumdalin.answers import Refusal, read_report
from pumdalin.commands.answer import loop_object
from pumdalin.errors import ListingError
from pumdalin.hints import bytes_hint, listing_hint
from pumdalin.listing_reader import read_listing
from pumdalin.listing_text import listing_lines
from pumdalin.records import (
    LOOP, SKIP_LOOP, End, Form, Loop, Record, Work, decode_before, encode_all, kind_of, loops_among, offsets,
)
from pumdalin.subjects import ListingSubject, SheetSubject, loop_lines

UP_TO_9 = Loop(0, 0, 1, Form(0), Form(9))
EVERY_FIELD = "loop i 0..1\nloop j i-1..2p1-3p4+300 by 5 start 258 skip 515 step 7"
# The second line as bytes: that of kind 2 but for the kind, then the skip.
EVERY_FIELD_BYTES = "06 02 01 07 00 05 00 ff ff 01 00 00 00 00 00 00 2c 01 00 00 00 02 00 00 fd 03 02"

# The loop j makes no trip at i = 0; {} is its skip.
NEST = "loop i 0..9\n  loop j 0..i-1 start 4 skip {}\n    work 1\n  end\nend\n"
NEST_TEXT = """\
best {0} worst {0} visits 19
loop 0 walked ceiling 10
loop 25 may fall below no trips
loop 25 closed ceiling 9
"""
# With i up to 12 it starts up to 4 past its end; {} may be its skip.
PAST_END = "loop i 1..12\n  loop j i..8 start 4{}\n    work 1\n  end\nend\n"
PAST_END_TEXT = """\
best {0} worst {0} visits 20
loop 0 walked ceiling 12
loop 25 may fall below no trips
loop 25 closed ceiling 8
"""


def first_record(written: str) -> Record:
    return read_listing(written).records[0]


def printed(records: list[Record]) -> list[str]:
    """The lines of a sheet's listing, without offsets."""
    return [line.partition("#")[0].strip() for line in listing_lines(encode_all(records), None, [], (), None)]


class Reading(unittest.TestCase):
    def test_kind(self) -> None:
        """A loop is of kind 6 exactly where a skip is written, also one that equals the start."""
        for written, kind in {
            "loop i 0..9": LOOP, "loop i 0..9 start 4": LOOP, "loop i 0..9 skip 0": SKIP_LOOP,
            "loop i 0..9 start 4 skip 4": SKIP_LOOP, "loop i 0..9 skip 4": SKIP_LOOP,
        }.items():
            with self.subTest(written):
                self.assertEqual(kind_of(first_record(written)), kind)

    def test_bytes(self) -> None:
        """The bytes of a loop with every field, as the documents give them."""
        sheet = read_listing(EVERY_FIELD).sheet()
        self.assertEqual(sheet[25:].hex(" "), EVERY_FIELD_BYTES)
        self.assertEqual(decode_before(sheet, len(sheet))[1], read_listing(EVERY_FIELD).records[1])

    def test_any_order(self) -> None:
        for written in ("by 2 start 3 skip 1 step 4", "skip 1 step 4 by 2 start 3", "step 4 skip 1 start 3 by 2"):
            self.assertEqual(first_record(f"loop i 0..9 {written}"), Loop(3, 4, 2, Form(0), Form(9), 1))

    def test_nesting(self) -> None:
        """Loops of both kinds are loops: for the names of indexes, for bounds, for what is open, for offsets."""
        listing = read_listing("loop i 0..9 skip 1\nchoice\nloop j 0..i\nloop k j..i skip 0\nwork 1\n"
                               "end\nend\nend\nend\nloop i 0..1\nend\nexpect loop 28 closed ceiling 10\n")
        self.assertEqual([entry.loops_around for entry in listing.entries], [0, 1, 1, 2, 3, 3, 2, 1, 1, 0, 1])
        self.assertEqual(listing.loop_offsets(), [0, 28, 53, 89])
        self.assertEqual(listing.open_kinds, [])
        self.assertEqual(loops_among([SKIP_LOOP, LOOP, SKIP_LOOP]), 3)

    def test_mistakes(self) -> None:
        for written, column, words in [
            ("loop i 0..9 skip", 17, "write the skip, a number from 0 to 4095, here; this is the end of the line"),
            ("loop i 0..9 skip x", 18, "write the skip, a number from 0 to 4095, here; this is 'x'"),
            ("loop i 0..9 skip p1", 18, "write the skip, a number"),
            ("loop i 0..9 skip -1", 18, "the skip is -1; write a number from 0 to 4095"),
            ("loop i 0..9 skip 65536", 18, "the skip is 65536; write a number from 0 to 4095"),
            ("loop i 0..9 skip " + "9" * 5000, 18, "more than 40 digits"),
            ("loop i 0..9 skip \N{ARABIC-INDIC DIGIT THREE}", 18, "write the skip, a number"),
            ("loop i 0..9 skip 1 skip 1", 20, "write by or start or step, or nothing more,"),
            ("loop i 0..9 skip 1..2", 19, "write by or start or step"),
            ("loop i 0..9 skip 1 2", 20, "write by or start or step"),
            ("loop i 0..9 Skip 1", 13, "write + or - or by or start or skip or step"),
            ("loop i 0..skip 1", 11, "write a number or one of p1"),
            ("work 3 skip 1", 8, "write nothing more"),
            ("choice skip 1", 8, "write nothing more"),
            ("skip 1", 1, "write one of the words work, loop, choice, or, end, parameters, budget, expect"),
        ]:
            with self.subTest(written), self.assertRaises(ListingError) as caught:
                read_listing(f"work 1\n{written}\nend")
            self.assertEqual((caught.exception.line, caught.exception.column), (2, column))
            self.assertIn(words, caught.exception.message)

    def test_word_in_a_comment(self) -> None:
        self.assertEqual(first_record("loop i 0..9 # skip 3"), UP_TO_9)


class Printing(unittest.TestCase):
    def test_printed(self) -> None:
        """A skip stands after the start, and is written whatever it is."""
        for skip, text in {None: "loop i 0..9", 0: "loop i 0..9 skip 0", 4095: "loop i 0..9 skip 4095"}.items():
            loop = Loop(0, 0, 1, Form(0), Form(9), skip)
            self.assertEqual(printed([loop, End()]), [text, "end"])
        self.assertEqual(printed([Loop(3, 4, 2, Form(0), Form(9), 3), End()])[0], "loop i 0..9 by 2 start 3 skip 3 step 4")

    def test_indents_and_names(self) -> None:
        records = [Loop(0, 0, 1, Form(0), Form(9), 1), UP_TO_9, Loop(0, 0, 1, Form(0), Form(0, (0, 1, 0)), 0), Work(1, 1),
                   End(), End(), End()]
        lines = listing_lines(encode_all(records), None, [], (), None)
        self.assertEqual(lines, [
            "loop i 0..9 skip 1      # 0", "  loop j 0..9           # 27", "    loop k 0..j skip 0  # 52",
            "      work 1            # 79", "    end                 # 84", "  end                   # 85",
            "end                     # 86"])

    def test_made_of_what_was_printed(self) -> None:
        """Sheets come back to the byte, with each loop of its kind."""
        for start in (0, 1, 4095):
            for skip in (None, 0, 1, 4095):
                records: list[Record] = [Loop(start, 2, 3, Form(-7, (0, 0, 0), (1, 0, 0, -1)), Form(9), skip), Work(0, 3), End()]
                sheet = encode_all(records)
                self.assertEqual(read_listing("\n".join(listing_lines(sheet, None, [], (), None))).sheet(), sheet)

    def test_offsets(self) -> None:
        self.assertEqual(offsets([UP_TO_9, Loop(0, 0, 1, Form(0), Form(9), 0), End(), End()]), [0, 25, 52, 53, 54])


class LeftToTheReaderOfSheets(unittest.TestCase):
    def test_made(self) -> None:
        """A skip that the bytes hold is made, whatever its range; that it is refused is for the proved reader to say."""
        for skip in (4096, 65535):
            made = read_listing(f"loop i 0..9 skip {skip}\nend")
            self.assertEqual(made.sheet()[25:27], skip.to_bytes(2, "little"))
            self.assertEqual(listing_hint(made, Refusal(3, 0)),
                             f"column 18: the skip is {skip}, and is to be from 0 to 4095")

    def test_hints(self) -> None:
        """The first number out of its range, in the order in which a listing is printed."""
        def hint(written: str, number: int, place: int) -> str:
            return str(listing_hint(read_listing(written), Refusal(number, place)))
        self.assertIn("the stride is 0", hint("loop i 0..9 skip 4096 by 0", 3, 0))
        self.assertIn("the start is 5000", hint("loop i 0..9 skip 4096 start 5000", 3, 0))
        self.assertIn("column 18: the skip is 4096", hint("loop i 0..9 skip 4096 step 4096", 3, 0))
        deep = "".join(f"loop {name} 0..1 skip 0\n" for name in "ijklm")
        self.assertIn("line 4 is at depth 4", hint(deep, 5, 108))
        mixed = "loop i 0..1\nloop j 0..1 skip 0\nloop k 0..1\nloop l 0..1 skip 0\nloop m 0..1\n"
        self.assertIn("line 4 is at depth 4", hint(mixed, 5, 104))
        self.assertIn("the loop of line 2 is still open", hint("choice\nloop i 0..1 skip 0\nor", 5, 28))
        self.assertEqual(hint("choice\nloop i 0..1 skip 0\n", 5, 28), "nothing ends what line 2 opens")

    def test_hints_to_bytes(self) -> None:
        loop = encode_all([Loop(5, 0, 1, Form(0), Form(9), 4096)])
        self.assertEqual(bytes_hint(loop, Refusal(3, 0)), "the record there is 'loop i 0..9 start 5 skip 4096'")
        nested = encode_all([Loop(0, 0, 1, Form(0), Form(9), 0)]) + loop
        self.assertEqual(bytes_hint(nested, Refusal(3, 27)), "the record there is 'loop j 0..9 start 5 skip 4096'")
        for length in (1, 25, 26):
            cut = loop[:length]
            self.assertEqual(bytes_hint(cut, Refusal(1, 0)), f"the bytes there are {cut.hex(' ')}")
        self.assertEqual(bytes_hint(b"\x07", Refusal(2, 0)), "the byte there is 7")


class Reasons(unittest.TestCase):
    """Too few trips: less than a trip for a loop whose skip differs from its start, less than none for another."""

    def hints(self, written: str, text: str) -> tuple[str, str]:
        """The hints below the first loop, of the listing and of the sheet in bytes; in JSON they are the same."""
        listing = read_listing(written)
        walked = read_report(text).loops[0]
        said = []
        for subject in (ListingSubject("valve.listing", listing), SheetSubject("valve.sheet", listing.sheet())):
            hint = loop_lines(subject, walked)[2].removeprefix("  hint: ")
            reason = loop_object(subject, walked)["reason"]
            assert isinstance(reason, dict)
            self.assertEqual((reason["sort"], reason["hint"]), ("too-few-trips", hint))
            said.append(hint)
        return said[0], said[1]

    def test_no_trip(self) -> None:
        for skip, figure in ((0, 81), (1, 82), (5, 86)):
            of_listing, of_bytes = self.hints(NEST.format(skip), NEST_TEXT.format(figure))
            self.assertEqual(
                of_listing, "over the ranges of the indexes around it, the loop j of line 2 may make no trip, and its skip "
                "differs from its start; in code and listing alike, limit the loops around it, or change its bounds, so that "
                "upper - lower >= 0 and it always makes a trip; or let it cost its start without a trip too, and then "
                "upper - lower >= -stride is enough")
            self.assertEqual(of_bytes, of_listing.replace("the loop j of line 2", "loop 25"))

    def test_less_than_none(self) -> None:
        """Without a skip, or with one that equals the start, the hint is that of any loop."""
        for skip in ("", " skip 4"):
            of_listing, of_bytes = self.hints(PAST_END.format(skip), PAST_END_TEXT.format(84))
            self.assertIn("the loop j of line 2 may start past its end by more than its stride; ", of_listing)
            self.assertIn("so that upper - lower >= -stride; or, where the code counts down from i to 8, write i..8 by -1", of_listing)
            self.assertIn("loop 25 may start past its end", of_bytes)
        self.assertIn("may make no trip", self.hints(PAST_END.format(" skip 3"), PAST_END_TEXT.format(80))[0])


if __name__ == "__main__":
    unittest.main()
