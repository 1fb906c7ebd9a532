"""Tests of listings: what is read, what is printed, which mistakes are found and how they are named."""

import unittest
from typing import Callable

from pumdalin.answers import CLOSED, Figures, LoopReport, Refusal
from pumdalin.characters import decoded
from pumdalin.errors import ListingError
from pumdalin.hints import listing_hint
from pumdalin.listing_reader import Expectation, Listing, read_listing
from pumdalin.listing_text import form_text, listing_lines
from pumdalin.records import (
    Choice, End, Form, Loop, NextArm, Work, decode_before, encode_all, used_parameters,
)

TRIANGLE = [Loop(0, 0, 1, Form(0), Form(9)), Loop(0, 0, 1, Form(0), Form(-1, (1, 0, 0))), Work(1, 1), End(), End()]
TRIANGLE_LOOPS = [LoopReport(0, CLOSED, 10), LoopReport(25, CLOSED, 9)]
TRIANGLE_LISTING = """\
parameters 3
budget 100
loop i 0..9      # 0 closed ceiling 10
  loop j 0..i-1  # 25 closed ceiling 9
    work 1       # 50
  end            # 55
end              # 56
"""


def text(lines: list[str]) -> str:
    return "".join(line + "\n" for line in lines)


class Printing(unittest.TestCase):
    def test_forms(self) -> None:
        texts = {
            Form(): "0", Form(-7): "-7", Form(0, (1, 0, 0)): "i", Form(0, (-1, 0, 0)): "-i",
            Form(-7, (2, -3, 0), (1, 0, 0, 0)): "2i-3j+p1-7",
            Form(5, (0, 0, -128), (0, 127, 0, -1)): "-128k+127p2-p4+5",
            Form(-32768): "-32768",
        }
        for form, expected in texts.items():
            self.assertEqual(form_text(form), expected)

    def test_listing(self) -> None:
        sheet = encode_all(TRIANGLE)
        self.assertEqual(text(listing_lines(sheet, None, TRIANGLE_LOOPS, (3,), 100)), TRIANGLE_LISTING)
        self.assertEqual(listing_lines(b"", None, [], (), None), [])
        self.assertEqual(listing_lines(b"\x04\x03", None, [], (), None), ["choice  # 0", "end     # 1"])

    def test_refused(self) -> None:
        lines = listing_lines(b"\x04\x03\x09", Refusal(2, 2), [], (), None)
        self.assertEqual(lines, ["choice  # 0", "end     # 1", "refused 2 at 2: no kind of record has this number"])
        self.assertEqual(listing_lines(b"\x04", Refusal(5, 1), [], (), None)[-1],
                         "refused 5 at 1: a loop or a choice is still open at the sheet's end")
        with self.assertRaises(ListingError) as caught:
            read_listing(text(lines))
        self.assertEqual((caught.exception.line, caught.exception.column), (3, 1))


class Making(unittest.TestCase):
    def bound(self, written: str) -> Form:
        """A bound of a loop inside three others."""
        around = "loop i 0..1\nloop j 0..1\nloop k 0..1\n"
        innermost = read_listing(around + f"loop l 0..{written}\nend\nend\nend\nend").records[3]
        assert isinstance(innermost, Loop)
        return innermost.upper

    def test_bounds(self) -> None:
        texts = {
            "2i - 3j + p1 - 7": Form(-7, (2, -3, 0), (1, 0, 0, 0)),
            "2*i+3 * k": Form(0, (2, 0, 3)),
            "i + i - 2 i + 4": Form(4),
            "-4 + 10 - p4": Form(6, (0, 0, 0), (0, 0, 0, -1)),
            "+127p1 - 128 p2": Form(0, (0, 0, 0), (127, -128, 0, 0)),
            "200i - 100i - 40000 + 40000": Form(0, (100, 0, 0)),
        }
        for written, form in texts.items():
            with self.subTest(written):
                self.assertEqual(self.bound(written), form)

    def test_bytes(self) -> None:
        """The bytes of a loop with every field, as the documents give them."""
        made = read_listing("loop i 0..1\nloop j i-1..2p1-3p4+300 by 5 start 258 step 7").sheet()[25:]
        self.assertEqual(made.hex(" "), "02 02 01 07 00 05 00 ff ff 01 00 00 00 00 00 00 2c 01 00 00 00 02 00 00 fd")

    def test_defaults(self) -> None:
        listing = read_listing("loop i 0..9 # comment\nwork 4\nend\n\n  # another\n")
        self.assertEqual(listing.records, [Loop(0, 0, 1, Form(0), Form(9)), Work(4, 4), End()])
        self.assertEqual(listing.given(), ((), 1_000_000))
        self.assertEqual([entry.line for entry in listing.entries], [1, 2, 3])

    def test_numbers_of_a_loop_in_any_order(self) -> None:
        for written in ("by 2 start 3 step 4", "step 4 by 2 start 3"):
            self.assertEqual(read_listing(f"loop i 0..9 {written}\nend").records[0], Loop(3, 4, 2, Form(0), Form(9)))

    def test_choice(self) -> None:
        expected = [Choice(), Work(1, 1), NextArm(), NextArm(), Choice(), End(), End()]
        self.assertEqual(read_listing("choice\nwork 1\nor\nor\nchoice\nend\nend").records, expected)

    def test_values_hold_for_later_lines(self) -> None:
        listing = read_listing("parameters 5 -6\nexpect 1 2 visits 3\nbudget 0\n"
                               "expect refused 7 at 0\nparameters 1 2 3 4\n")
        self.assertEqual(listing.expectations, [Expectation(2, (5, -6), 1_000_000, Figures(1, 2, 3)),
                                                Expectation(4, (5, -6), 0, Refusal(7, 0))])
        self.assertEqual(listing.given(), ((5, -6), 1_000_000))
        self.assertEqual(read_listing("budget 7\nparameters -1").given(), ((-1,), 7))

    def test_made_of_what_was_printed(self) -> None:
        listing = read_listing(TRIANGLE_LISTING)
        self.assertEqual((listing.sheet(), listing.given()), (encode_all(TRIANGLE), ((3,), 100)))

    def test_used_parameters(self) -> None:
        listing = read_listing("loop i p2..9\nloop j i..p4-p2+p1-p1\nend\nend")
        self.assertEqual(used_parameters(listing.records), [1, 3])
        self.assertEqual([listing.first_use(number) for number in range(4)], [None, 1, None, 2])


class LeftToTheReaderOfSheets(unittest.TestCase):
    """Whether the records make a well-formed sheet is for the proved reader to say: they are made all the same."""

    def test_made(self) -> None:
        for written, records in {
            "work 5..3": [Work(5, 3)],
            "work 65535": [Work(65535, 65535)],
            "loop i 0..1 by 0": [Loop(0, 0, 0, Form(0), Form(1))],
            "end": [End()],
            "or": [NextArm()],
            "choice": [Choice()],
        }.items():
            with self.subTest(written):
                self.assertEqual(read_listing(written).records, records)
        self.assertEqual(len(read_listing("work 1\n" * 129).records), 129)
        self.assertEqual(len(read_listing("".join(f"loop {name} 0..1\n" for name in "ijklmm")).records), 6)

    def hint(self, written: str, number: int, place: int) -> str:
        return str(listing_hint(read_listing(written), Refusal(number, place)))

    def test_hints(self) -> None:
        self.assertEqual(self.hint("work 1\nwork 5..3", 3, 5), "column 9: the most is 3, and is to be from 5 to 4095")
        self.assertIn("column 6: the least is 4096", self.hint("work 4096", 3, 0))
        self.assertIn("column 16: the stride is 0, and is to be from -1000 to 1000 without 0",
                      self.hint("loop i 0..9 by 0", 3, 0))
        self.assertIn("nothing is open", self.hint("work 1\nend", 5, 5))
        self.assertIn("none is open", self.hint("or", 5, 0))
        self.assertIn("the loop of line 2 is still open", self.hint("choice\nloop i 0..1\nor", 5, 26))
        self.assertIn("line 4 is at depth 4", self.hint("".join(f"loop {name} 0..1\n" for name in "ijklm"), 5, 100))
        self.assertIn("8 loops and choices are open", self.hint("choice\n" * 9, 5, 8))
        self.assertEqual(self.hint("choice\nloop i 0..1\n", 5, 26), "nothing ends what line 2 opens")


class MistakesTest(unittest.TestCase):
    def check_mistake(self, read: Callable[[], object], line: int, column: int, words: str) -> None:
        with self.assertRaises(ListingError) as caught:
            read()
        self.assertEqual((caught.exception.line, caught.exception.column), (line, column))
        self.assertIn(words, str(caught.exception))


class Mistakes(MistakesTest):
    def check(self, written: str, line: int, column: int, words: str) -> None:
        with self.subTest(written):
            self.check_mistake(lambda: read_listing(written), line, column, words)

    def test_words(self) -> None:
        self.check("lop i 0..9", 1, 1, "write one of the words work, loop")
        self.check("  loop j 0..9", 1, 8, "write i, the index of a loop at depth 1")
        self.check("loop i 0 to 9", 1, 10, "write '..' and the upper bound here; this is 'to'")
        self.check("loop i 0..", 1, 11, "this is the end of the line")
        self.check("loop i 0..9 bye 2", 1, 13, "write + or - or by or start or skip or step")
        self.check("loop i 0..9 by 2 by 3", 1, 18, "write start or skip or step")
        self.check("work 3 4", 1, 8, "write nothing more")
        self.check("work", 1, 5, "write the work, a number from 0 to 4095")
        self.check("parameters 1 2 3 4 5", 1, 20, "write nothing more")
        self.check("expect 3 4", 1, 11, "write visits and their number")
        self.check("expect refused 3 in 4", 1, 18, "write at and the place")
        self.check("work \N{ARABIC-INDIC DIGIT THREE}", 1, 6, "write the work")

    def test_numbers(self) -> None:
        self.check("\nwork 65536", 2, 6, "write a number from 0 to 4095")
        self.check("loop i 0..9 step -1", 1, 18, "the step is -1")
        self.check("loop i 32768..9", 1, 8, "from -32768 to 32767")
        self.check("loop i 0..100p1 + 28p1", 1, 11, "the factor of p1 in this bound is 128")
        self.check("parameters 32768", 1, 12, "p1 is 32768")
        self.check("parameters 1 -32769", 1, 14, "p2 is -32769")
        self.check("parameters 20-4", 1, 14, "write a space before this")
        self.check("budget 4294967296", 1, 8, "the budget is 4294967296")
        self.check("work " + "9" * 5000, 1, 6, "more than 40 digits")
        self.check("loop i 0.." + "9" * 5000, 1, 11, "more than 40 digits")

    def test_names(self) -> None:
        self.check("loop i 0..2i", 1, 12, "write a bound with p1, p2, p3, p4 alone")
        self.check("loop i 0..1\nloop j i..j", 2, 11, "with i, p1, p2, p3, p4 alone")
        self.check("loop i 0..2n", 1, 12, "write one of p1, p2, p3, p4 here; this is 'n'")
        self.check("loop i 0..2*3", 1, 13, "write one of p1")
        self.check("loop i n..2", 1, 8, "write a number or one of p1")

    def test_parameters_without_values(self) -> None:
        loop = "loop i p1..p3\nend\n"
        self.check(loop + "expect 0 0 visits 0", 3, 1, "p1, which line 1 uses, has no value here")
        self.check("parameters 1 2\n" + loop + "expect 0 0 visits 0", 4, 1, "p3, which line 2 uses")
        self.check("parameters 1 2\nexpect 0 0 visits 0\nparameters 1 2 3\n" + loop, 2, 1, "p3, which line 4 uses")
        self.assertEqual(len(read_listing("parameters 1 0 2\n" + loop + "expect 0 0 visits 0").expectations), 1)


class Characters(MistakesTest):
    def check(self, data: bytes, line: int, column: int, words: str) -> None:
        with self.subTest(data):
            self.check_mistake(lambda: decoded(data), line, column, words)

    def test_other_encodings(self) -> None:
        self.check("work 1\n".encode("utf-8-sig"), 1, 1, "UTF-8 with a byte order mark")
        self.check("work 1\n".encode("utf-16"), 1, 1, "UTF-16")
        self.check(b"\xfe\xff\x00w", 1, 1, "UTF-16")
        self.check("work 1\n# für i\n".encode("latin-1"), 2, 4, "the byte 0xfc is not UTF-8")
        self.check("# für\nwork é".encode("utf-8")[:-1], 2, 6, "not UTF-8")

    def test_unsure_line_ends(self) -> None:
        """Each would let a comment swallow the record after it."""
        for end in ("\r", "\v", "\f", "\x85", "\x90", "\u2028", "\u2029", "\x1e"):
            self.check(f"# two\n# words{end}work 5\n".encode(), 2, 8, f"{ord(end):#04x} stands here")
        self.check(b"work 1\x00", 1, 7, "--bytes")

    def test_taken(self) -> None:
        for data in (b"", b"work 1\r\nwork 2\r\n", "# für\tdich \N{MATHEMATICAL BOLD CAPITAL A}".encode()):
            self.assertEqual(decoded(data), data.decode())
        self.assertEqual(read_listing(decoded(b"work 1 # one\r\nwork 2\r\n")).records, [Work(1, 1), Work(2, 2)])


class Decoding(unittest.TestCase):
    def test_before_a_place(self) -> None:
        self.assertEqual(decode_before(encode_all(TRIANGLE), 50), TRIANGLE[:2])
        self.assertEqual(decode_before(encode_all(TRIANGLE), 57), TRIANGLE)
        self.assertEqual(Listing().records, [])


if __name__ == "__main__":
    unittest.main()
