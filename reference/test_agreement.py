"""Tests of the comparison itself: it passes what is right and finds out what is wrong."""

import unittest
from functools import cache
from itertools import islice
from pathlib import Path
from typing import Callable
from unittest import mock

from agreement import listings_in
from agreement_calls import FiguresCall, RangeCall, TextCall, WithoutSkipsCall, WithSkipsCall
from agreement_cases import Expected, Trial, kept_trials, listing_cases, random_trials
from agreement_checks import Difference, Tool, Unusable, check_listing, check_trials
from asking import Ask, Outcome, program_at
from calls import program_text
from parameter_ranges import Extremes
from pumdalin.answers import Figures, Refusal
from questions import GUARD
from reasons import LINES, read_reason
from sheet import read_as_far
from stand_in import FolderCase, Made, flipped, replies_to, shell_program

EXAMPLES = Path(__file__).parent.parent / "examples" / "listings"
CASES = 60
SEED = 7
# of a random case
CALLS = 5


@cache
def many_trials() -> list[Trial]:
    return list(islice(random_trials(SEED), 10 * CASES))


def trials() -> list[Trial]:
    return many_trials()[:CASES]


@cache
def kept() -> list[Trial]:
    return kept_trials()


def answering(program: Callable[[bytes], bytes]) -> Ask:
    """A program that writes this, and ends as it should."""
    return lambda data, reply_lengths: Outcome(program(data))


def library(spoil: Callable[[Made], None]) -> Ask:
    return answering(lambda data: replies_to(data, spoil))


RIGHT = Tool(answering(replies_to), answering(program_text))


def shown_by(check: Callable[..., object], *given: object) -> str:
    """What the comparison shows, or nothing where all agrees."""
    try:
        check(*given)
    except Difference as found:
        return str(found)
    return ""


def without_reasons(text: bytes) -> bytes:
    return b"".join(line for line in text.splitlines(keepends=True) if read_reason(line) is None)


def reasons_last(text: bytes) -> bytes:
    lines = text.splitlines(keepends=True)
    return without_reasons(text) + b"".join(line for line in lines if read_reason(line) is not None)


def other_refusal(made: Made) -> None:
    made.number = 5 if made.number == 3 else made.number


def buffer_before_area(made: Made) -> None:
    """12 where it has to be 9."""
    made.number = 12 if made.call == TextCall.number and made.number == 9 else made.number


def back_without_skips(made: Made) -> None:
    """A sheet for which it has to be 10."""
    made.number = 0 if made.number == 10 else made.number


def area_first(made: Made) -> None:
    """9 for a short area where another refusal comes before it."""
    is_converter = made.call in (WithSkipsCall.number, WithoutSkipsCall.number)
    if is_converter and made.number and len(made.blocks[2]) < 2 * len(GUARD) + 8:
        made.number = 9


def budget_before_range(made: Made) -> None:
    """7 where it has to be 11."""
    made.number = 7 if made.number == 11 else made.number


class RandomCases(unittest.TestCase):
    def compare(self, tried: Ask) -> str:
        return shown_by(check_trials, Tool(tried, None), trials())

    def test_right(self) -> None:
        self.assertEqual(self.compare(RIGHT.library), "")

    def check_found(self, spoil: Callable[[Made], None], words: str) -> None:
        shown = self.compare(library(spoil))
        with self.subTest(words):
            self.assertRegex(shown, words)
            self.assertTrue(shown.startswith(f"differs: seed {SEED}, case "))
            # an input that is shorter than its header has no listing
            self.assertRegex(shown, "\n(budget |# shorter than its header)")

    def test_wrong_figures(self) -> None:
        for block, position, words in [
            (1, 0, "\nlibrary:  best "), (1, 8, "\nlibrary:  best "), (1, 16, "\nlibrary:  best "),
            (1, 24, "the area from byte 24 on changed|bytes after the area changed"),
            (1, -1, "bytes before the area changed"),
            (0, 0, "the sheet from byte 0 on changed"),
        ]:
            self.check_found(flipped(FiguresCall, block, position), words)
        self.check_found(flipped(FiguresCall, 1, 0, when_refused=True),
                         "returned [1-9], the area from byte 0 on changed")
        self.check_found(other_refusal, "reckoned: returned 3\nlibrary:  returned 5")

    def test_wrong_extremes(self) -> None:
        for block, position, words in [
            (1, 0, "\nlibrary:  best "), (1, 8, "\nlibrary:  best "), (1, 15, "\nlibrary:  best [0-9]+ at -?[0-9]{17}"),
            (1, 16, "\nlibrary:  best "), (1, 24, "\nlibrary:  best "), (1, 32, "\nlibrary:  best "),
            (1, 40, "the area from byte 40 on changed|bytes after the area changed"),
            (1, -1, "bytes before the area changed"),
            (0, 0, "the sheet from byte 0 on changed"),
        ]:
            self.check_found(flipped(RangeCall, block, position), words)
        self.check_found(flipped(RangeCall, 1, 0, when_refused=True),
                         "returned [0-9]+, (the area from byte 0 on|bytes after the area) changed")
        self.check_found(budget_before_range, "\n# parameter [0-9]+ from -?[0-9]+ to -?[0-9]+\n"
                                              "reckoned: returned 11\nlibrary:  returned 7")

    def test_wrong_text(self) -> None:
        for block, position, words in [
            (1, 0, "\nlibrary:  [0-9]+ bytes, b['\"]"),
            (2, 0, "\nlibrary:  [0-9]+ bytes, b['\"]"),
            (2, 7, "\nlibrary:  [0-9]{17} bytes, b['\"]"),
            (2, 8, "the area from byte 8 on changed|bytes after the area changed"),
            (1, -1, "bytes before the text changed"),
            (0, 0, "the input from byte 0 on changed"),
        ]:
            self.check_found(flipped(TextCall, block, position), words)
        self.check_found(flipped(TextCall, 1, 0, when_refused=True),
                         "returned (9|12), (the text from byte 0 on|bytes after the text) changed")
        self.check_found(buffer_before_area, "reckoned: returned 9\nlibrary:  returned 12")

    def test_wrong_conversion(self) -> None:
        for call in (WithSkipsCall, WithoutSkipsCall):
            for block, position, words in [
                (1, 0, "\nlibrary:  [0-9]+ bytes, 0"), (2, 0, "\nlibrary:  [0-9]+ bytes, "),
                (2, 7, "\nlibrary:  [0-9]{17} bytes, "),
                (2, 8, "the area from byte 8 on changed|bytes after the area changed"),
                (1, -1, "bytes before the new sheet changed"),
                (0, 0, "the sheet from byte 0 on changed"),
            ]:
                self.check_found(flipped(call, block, position), words)
            self.check_found(flipped(call, 1, 0, when_refused=True),
                             "returned [0-9]+, (the new sheet from byte 0 on|bytes after the new sheet) changed")
        self.check_found(back_without_skips, "reckoned: returned 10\nlibrary:  [0-9]+ bytes, ")
        self.check_found(area_first, "reckoned: returned (1|2|3|4|5|10)\nlibrary:  returned 9")

    def test_too_little_and_too_much(self) -> None:
        shorter = answering(lambda data: replies_to(data)[:-1])
        self.assertIn("\nlibrary:  no whole answer", self.compare(shorter))
        longer = answering(lambda data: replies_to(data) + b"\0")
        self.assertIn("when all is answered, writes more", self.compare(longer))


class RandomReasons(unittest.TestCase):
    def test_all_sorts(self) -> None:
        """Random texts have many reasons of each sort."""
        counts = dict.fromkeys(LINES, 0)
        for trial in many_trials():
            for reason in map(read_reason, trial.text.text.splitlines(keepends=True)):
                if reason is not None:
                    counts[type(reason)] += 1
        self.assertGreater(min(counts.values()), CASES // 2)


class RandomLengths(unittest.TestCase):
    def test_long_sheets(self) -> None:
        """Many random sheets have more than 64 records and are answered; some have more than 128, and are refused 4."""
        answered = refused = 0
        for trial in many_trials():
            figures = trial.calls[0]
            records, refusal = read_as_far(figures.case.sheet)
            answered += len(records) > 64 and isinstance(figures.answer, Figures)
            refused += refusal is not None and refusal.number == 4
        self.assertGreater(answered, CASES)
        self.assertGreater(refused, CASES // 12)


class RandomRanges(unittest.TestCase):
    def test_all_sorts(self) -> None:
        """Many random ranges are answered at more than one value; some are refused 11, some have very many values."""
        answered = refused = many = 0
        for trial in many_trials():
            asked = trial.calls[-1]
            values = len(asked.over.values())
            answered += isinstance(asked.answer, Extremes) and values > 1
            refused += asked.answer == Refusal(11, 0)
            many += asked.over.is_allowed() and values > 250
        self.assertGreater(answered, CASES)
        self.assertGreater(refused, CASES // 6)
        self.assertGreater(many, 1)


class ShownReplies(unittest.TestCase):
    def test_every_byte_shows(self) -> None:
        """A reply that is wrong in one byte, wherever it is, is shown in other words."""
        calls = [call for trial in kept() for call in trial.calls]
        shown_calls = [call for call in calls if "call '" in call.tells and len(call.reply()) < 300]
        self.assertGreater(len(shown_calls), 50)
        for call in shown_calls:
            right = call.reply()
            for at in range(len(right)):
                wrong = right[:at] + bytes([right[at] ^ 1]) + right[at + 1:]
                self.assertNotEqual(call.show(wrong), call.show(right), (call.tells, at))


class BoundText(unittest.TestCase):
    def compare(self, program: Callable[[bytes], bytes]) -> str:
        tool = Tool(RIGHT.library, answering(program))
        return shown_by(check_trials, tool, kept() + trials())

    def test_right(self) -> None:
        self.assertEqual(self.compare(program_text), "")

    def test_wrong(self) -> None:
        for program in [
            lambda data: program_text(data).rstrip(),
            lambda data: program_text(data).replace(b"walked", b"closed"),
            lambda data: program_text(data).replace(b"at 25\n", b"at 0\n"),
            lambda data: program_text(data or bytes(12)),
            lambda data: program_text(data).splitlines(keepends=True)[0],
            lambda data: without_reasons(program_text(data)),
            lambda data: reasons_last(program_text(data)),
            lambda data: program_text(data).replace(b"uneven in loop 25\n", b"uneven in loop 0\n"),
        ]:
            self.assertIn("\nbound:    b'", self.compare(program))


class Failing(FolderCase):
    """Programs that do not return, or end on the way: the call that does it is shown."""

    # Long enough for a shell to start on a busy machine.
    LIMIT = 0.5

    def script(self, replies: bytes, then: str) -> Ask:
        """A program that writes these replies and then does something else."""
        path = self.folder / "replies"
        path.write_bytes(replies)
        return program_at(shell_program(self.folder, f"cat {path}\n{then}"), self.LIMIT)

    def shown_after(self, answered: int, then: str) -> str:
        """What is shown where so many of the calls are answered."""
        calls = [call for trial in trials() for call in trial.calls]
        replies = b"".join(call.reply() for call in calls[:answered])
        return shown_by(check_trials, Tool(self.script(replies, then), None), trials())

    def test_library(self) -> None:
        for then, words in [
            ("exec sleep 60", "did not return within 0.5 seconds"),
            ("kill -SEGV $$", "was ended by signal 11, Segmentation fault"),
            ("exit 2", "ended with exit status 2"),
        ]:
            for number, call in enumerate(trials()[2].calls):
                shown = self.shown_after(2 * CALLS + number, then)
                self.assertTrue(shown.startswith(f"differs: {call.heading()}\n"), shown)
                self.assertIn(call.sheet_text(), shown)
                self.assertTrue(shown.endswith(f"\nlibrary:  {words}"), shown)

    def test_library_at_the_end(self) -> None:
        shown = self.shown_after(CALLS * CASES, "kill -SEGV $$")
        self.assertEqual(shown, "differs: the library's program, when all is answered, "
                                "was ended by signal 11, Segmentation fault")

    def test_bound(self) -> None:
        asked = trials()[0]
        program = self.script(asked.text.text, "exec sleep 60")
        shown = shown_by(check_trials, Tool(RIGHT.library, program), [asked])
        self.assertIn(asked.text.sheet_text(), shown)
        self.assertTrue(shown.endswith("\nbound:    did not return within 0.5 seconds, "
                                       f"after printing {asked.text.text!r}"), shown)


class Listings(FolderCase):
    def test_examples(self) -> None:
        """Every example says what it expects, and the reckoning gives it trip by trip."""
        for listing in listings_in(str(EXAMPLES)):
            self.assertGreater(len(listing), 0)
            with self.subTest(listing[0].tells):
                self.assertEqual(shown_by(check_listing, RIGHT, listing), "")

    def listing(self, text: str) -> list[Expected]:
        path = self.folder / "one.listing"
        path.write_text(text, encoding="utf-8")
        return listing_cases(path)

    def test_wrong_expectation(self) -> None:
        listing = self.listing("loop i 0..9\nwork 1\nend\nexpect 10 11 visits 1\n")
        shown = shown_by(check_listing, RIGHT, listing)
        self.assertIn(":4\nparameters 0 0 0 0\n", shown)
        self.assertIn("expected: best 10 worst 11 visits 1\n"
                      "reckoned: best 10 worst 10 visits 1", shown)

    def test_too_many_trips(self) -> None:
        listing = self.listing("loop i 0..9\nwork 1\nend\nexpect 10 10 visits 1\n")
        with mock.patch("agreement_checks.MOST_TRIPS", 10):
            check_listing(RIGHT, listing)
        with mock.patch("agreement_checks.MOST_TRIPS", 9):
            with self.assertRaisesRegex(Unusable, "one.listing:4: this makes more than 9 trips"):
                check_listing(RIGHT, listing)


if __name__ == "__main__":
    unittest.main()
