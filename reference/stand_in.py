"""What tests put in the place of the programs that are asked.

For answers.c it is the reckoning, made wrong on purpose where it has to be; for
programs that fail, shell scripts.
"""

import io
import tempfile
import unittest
from dataclasses import dataclass
from functools import cache
from pathlib import Path
from typing import BinaryIO, Callable, Union

from agreement_calls import Call, FiguresCall, RangeCall, TextCall, WithoutSkipsCall, WithSkipsCall
from calls import Called, Lent, c_call, text_call
from converters import with_skips_call, without_skips_call
from parameter_ranges import ParameterRange, range_call
from pumdalin.records import PARAMETERS, signed, unsigned
from questions import GUARD, NUMBER_LENGTH, SCALAR_LENGTH, numbers


@dataclass
class Made:
    """A call that was made: its number in answers.c, what it returned, the blocks with guards."""

    call: int
    number: int
    blocks: list[bytearray]

    def reply(self) -> bytes:
        return numbers(self.number) + b"".join(self.blocks)


def read_number(questions: BinaryIO) -> int:
    return unsigned(questions.read(NUMBER_LENGTH))


def make_call(questions: BinaryIO) -> Made:
    """Reads a question and makes its call; the guards stay as they came."""
    call, scalar_count, block_count = (read_number(questions) for _ in range(3))
    scalars = [signed(questions.read(SCALAR_LENGTH)) for _ in range(scalar_count)]
    lengths = [read_number(questions) for _ in range(block_count)]
    blocks = [bytearray(questions.read(len(GUARD) + length + len(GUARD))) for length in lengths]
    given = [bytes(block[len(GUARD):-len(GUARD)]) for block in blocks]
    number, *after = reckoned(call, tuple(scalars), tuple(given))
    for block, left in zip(blocks[-len(after):], after):
        block[len(GUARD):-len(GUARD)] = left
    return Made(call, number, blocks)


# The calls that take a block and store into two.
LENT_CALLS = {
    TextCall.number: text_call,
    WithSkipsCall.number: with_skips_call,
    WithoutSkipsCall.number: without_skips_call,
}


# Tests ask the same again and again.
@cache
def reckoned(
    call: int, scalars: tuple[int, ...], blocks: tuple[bytes, ...]
) -> Union[Called, Lent]:
    """The number, and after it the blocks that are lent to be written, which are the last."""
    if call in LENT_CALLS:
        assert not scalars
        return LENT_CALLS[call](*blocks)
    sheet, area = blocks
    parameters, (budget, *others) = scalars[:PARAMETERS], scalars[PARAMETERS:]
    if call == RangeCall.number:
        return range_call(sheet, parameters, budget, ParameterRange(*others), area)
    assert call == FiguresCall.number and not others
    return c_call(sheet, parameters, budget, area)


def replies_to(questions: bytes, spoil: Callable[[Made], None] = lambda made: None) -> bytes:
    """What answers.c writes, or would if each call did also what spoils it."""
    stream = io.BytesIO(questions)
    replies = b""
    while stream.tell() < len(questions):
        made = make_call(stream)
        spoil(made)
        replies += made.reply()
    return replies


def flipped(
    call: type[Call], block: int, position: int, when_refused: bool = False
) -> Callable[[Made], None]:
    """Another bit at a position of a block, if there is one; -1 is the guard before the block."""
    def spoil(made: Made) -> None:
        at = len(GUARD) + position
        is_such = made.call == call.number and (made.number != 0) == when_refused
        if is_such and at < len(made.blocks[block]):
            made.blocks[block][at] ^= 1
    return spoil


class FolderCase(unittest.TestCase):
    """Tests with a folder of their own."""

    def setUp(self) -> None:
        folder = tempfile.TemporaryDirectory()
        self.addCleanup(folder.cleanup)
        self.folder = Path(folder.name)


def shell_program(folder: Path, script: str) -> str:
    """The path of a program that runs a script."""
    path = folder / "program"
    path.write_text(f"#!/bin/sh\n{script}\n", encoding="utf-8")
    path.chmod(0o755)
    return str(path)
