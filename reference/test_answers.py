"""Tests of answers.c, linked with a library that only tells what it was given."""

import shutil
import subprocess
import tempfile
import unittest
from pathlib import Path

from asking import Outcome, program_at
from questions import GUARD, Guarded, numbers, question, read_reply, reply

HERE = Path(__file__).resolve().parent
TOLD = 0xA1B2C3D4
TOUCHED = b"\xee"
END = 6

# Each call returns a number of its own plus a bit for each null pointer. Without one it stores its
# numbers, 4 bytes each, in the area and touches the bytes around it. The budget END ends the program
# on the spot.
FIGURES_CALL = """
#include <stdlib.h>
#include "pumdalin.h"

static void tell(uint8_t *area, size_t length, const uint32_t *told, size_t count)
{
    for (size_t i = 0; i < 4 * count; i++)
        area[i] = (uint8_t)(told[i / 4] >> i % 4 * 8);
    area[-1] = area[length] = 0xEE;
}

uint32_t pumdalin_figures(const uint8_t *sheet, size_t sheet_length,
                          int16_t p1, int16_t p2, int16_t p3, int16_t p4,
                          uint32_t budget, uint8_t *answer, size_t answer_length)
{
    const uint32_t told[] = {(uint32_t)p1, (uint32_t)p2, (uint32_t)p3, (uint32_t)p4, budget,
                             (uint32_t)sheet_length, (uint32_t)answer_length};
    if (budget == 6)
        _Exit(3);
    if (sheet != NULL && answer != NULL)
        tell(answer, answer_length, told, 7);
    return 0xA1B2C3D4 + (sheet == NULL) + 2 * (answer == NULL);
}

"""

RANGE_CALL = """
uint32_t pumdalin_range(const uint8_t *sheet, size_t sheet_length,
                        int16_t p1, int16_t p2, int16_t p3, int16_t p4,
                        uint32_t budget, uint32_t number, int16_t first, int16_t last,
                        uint8_t *answer, size_t answer_length)
{
    const uint32_t told[] = {(uint32_t)p1, (uint32_t)p2, (uint32_t)p3, (uint32_t)p4, budget,
                             number, (uint32_t)first, (uint32_t)last,
                             (uint32_t)sheet_length, (uint32_t)answer_length};
    if (sheet != NULL && answer != NULL)
        tell(answer, answer_length, told, 10);
    return RETURNED + (sheet == NULL) + 2 * (answer == NULL);
}

"""

# All that store a text or a sheet; each puts what it reads first at the start of the buffer.
LENT_CALL = """
uint32_t pumdalin_NAME(const uint8_t *data, size_t data_length,
                       uint8_t *buffer, size_t buffer_length, uint8_t *answer, size_t answer_length)
{
    const uint32_t told[] = {(uint32_t)data_length, (uint32_t)buffer_length,
                             (uint32_t)answer_length};
    if (data != NULL && buffer != NULL && answer != NULL) {
        buffer[0] = data[0];
        tell(answer, answer_length, told, 3);
    }
    return RETURNED + (data == NULL) + 2 * (buffer == NULL) + 4 * (answer == NULL);
}
"""
LENT_CALLS = {1: "text", 2: "with_skips", 3: "without_skips"}


def told_by(call: int) -> int:
    """What the call with this number returns, without a null pointer."""
    return TOLD + 256 * call


RANGE = 5

LIBRARY = FIGURES_CALL + RANGE_CALL.replace("RETURNED", str(told_by(RANGE))) + "".join(
    LENT_CALL.replace("NAME", name).replace("RETURNED", str(told_by(call))) for call, name in LENT_CALLS.items())

FIGURES = question(0, [-1, 2, -32768, 32767, 2 ** 32 - 1], [b"abc", bytes(30)])
TEXT = question(1, [], [b"xyz", b"abcde", bytes(12)])


@unittest.skipUnless(shutil.which("cc"), "there is no C compiler")
class Answers(unittest.TestCase):
    @classmethod
    def setUpClass(cls) -> None:
        folder = tempfile.TemporaryDirectory()
        cls.addClassCleanup(folder.cleanup)
        library = Path(folder.name, "library.c")
        library.write_text(LIBRARY, encoding="utf-8")
        cls.path = str(Path(folder.name, "answers"))
        subprocess.run(["cc", "-std=c99", "-Wall", "-Wextra", "-Werror", "-I", HERE.parent / "include",
                        HERE / "answers.c", library, "-o", cls.path], check=True)

    def ask(self, questions: bytes, *reply_lengths: int) -> Outcome:
        return program_at(self.path)(questions, reply_lengths)

    def test_figures(self) -> None:
        """Numbers and blocks come in order, and the bytes around each block come back."""
        told = numbers(2 ** 32 - 1, 2, 2 ** 32 - 32768, 32767, 2 ** 32 - 1, 3, 30) + bytes(2)
        area = Guarded(GUARD[:-1] + TOUCHED, told, TOUCHED + GUARD[1:])
        written, failure = self.ask(FIGURES, 4 + 3 + 30 + 4 * len(GUARD))
        self.assertEqual(read_reply(written, [3, 30]), (TOLD, [Guarded(GUARD, b"abc", GUARD), area]))
        self.assertEqual(failure, "")

    def test_range(self) -> None:
        """The same of the call over a range, which has three numbers more."""
        asked = question(RANGE, [-1, 2, -32768, 32767, 2 ** 32 - 1, 2 ** 32 - 2, -3, -32768], [b"abc", bytes(42)])
        told = numbers(2 ** 32 - 1, 2, 2 ** 32 - 32768, 32767, 2 ** 32 - 1, 2 ** 32 - 2, 2 ** 32 - 3, 2 ** 32 - 32768, 3, 42)
        area = Guarded(GUARD[:-1] + TOUCHED, told + bytes(2), TOUCHED + GUARD[1:])
        written, failure = self.ask(asked, 4 + 3 + 42 + 4 * len(GUARD))
        self.assertEqual(read_reply(written, [3, 42]), (told_by(RANGE), [Guarded(GUARD, b"abc", GUARD), area]))
        self.assertEqual(failure, "")

    def test_lent(self) -> None:
        """Each call that stores a text or a sheet is the one with its number."""
        area = Guarded(GUARD[:-1] + TOUCHED, numbers(3, 5, 12), TOUCHED + GUARD[1:])
        for call in LENT_CALLS:
            asked = question(call, [], [b"xyz", b"abcde", bytes(12)])
            written, failure = self.ask(asked, 4 + 3 + 5 + 12 + 6 * len(GUARD))
            self.assertEqual(read_reply(written, [3, 5, 12]), (told_by(call), [
                Guarded(GUARD, b"xyz", GUARD), Guarded(GUARD, b"xbcde", GUARD), area]))
            self.assertEqual(failure, "")

    def test_empty_blocks(self) -> None:
        """Each empty block, and no other, is a null pointer."""
        for call, scalars, count in [(0, [0] * 5, 2), (RANGE, [0] * 8, 2)] + [(call, [], 3) for call in LENT_CALLS]:
            for nulls in range(1, 2 ** count):
                blocks = [b"" if nulls >> i & 1 else b"block" for i in range(count)]
                expected = reply(told_by(call) + nulls, blocks)
                found = self.ask(question(call, scalars, blocks), len(expected))
                self.assertEqual(found, Outcome(expected))

    def test_replies_are_not_lost(self) -> None:
        """Those before a call that ends the program are all there."""
        first = self.ask(FIGURES + TEXT, 10_000).written
        self.assertEqual(len(first), 4 + 3 + 30 + 4 * len(GUARD) + 4 + 3 + 5 + 12 + 6 * len(GUARD))
        ending = question(0, [0, 0, 0, 0, END], [b"abc", bytes(30)])
        found = self.ask(FIGURES + TEXT + ending + TEXT, 10_000)
        self.assertEqual(found, Outcome(first, "ended with exit status 3"))

    def test_wrong_questions(self) -> None:
        for wrong, message in [
            (FIGURES[:-1], "a question is cut off"),
            (FIGURES[:3], "a question is cut off"),
            (question(4, [], []), "there is no call with this number"),
            (question(0, [0] * 4, [b"", b""]), "another number of scalars or blocks"),
            (question(1, [], [b"", b""]), "another number of scalars or blocks"),
            (question(3, [0], [b"", b"", b""]), "another number of scalars or blocks"),
            (question(RANGE, [0] * 5, [b"", b""]), "another number of scalars or blocks"),
        ]:
            run = subprocess.run([self.path], input=wrong, capture_output=True)
            self.assertEqual((run.returncode, run.stdout), (2, b""))
            self.assertIn(message, run.stderr.decode())


if __name__ == "__main__":
    unittest.main()
