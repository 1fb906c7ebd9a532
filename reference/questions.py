"""The questions that answers.c reads and the replies that it writes, as bytes.

answers.c describes both. They are the same for every call: a number of it,
scalars, and blocks of bytes, each with guards around it.
"""

from typing import NamedTuple, Sequence

from pumdalin.records import unsigned


# What stands before and after every block; answers.c has the same length.
GUARD = bytes(range(0x51, 0x61))
NUMBER_LENGTH = 4
SCALAR_LENGTH = 8


class Guarded(NamedTuple):
    """A block as it is after a call, and what stands around it."""

    before: bytes
    block: bytes
    after: bytes


class Reply(NamedTuple):
    """What is there after a call: the number that it returned, and the blocks."""

    number: int
    blocks: list[Guarded]


def numbers(*values: int) -> bytes:
    return b"".join(value.to_bytes(NUMBER_LENGTH, "little") for value in values)


def scalar(value: int) -> bytes:
    """Negative ones in two's complement."""
    return (value % 2 ** (8 * SCALAR_LENGTH)).to_bytes(SCALAR_LENGTH, "little")


def guarded(blocks: Sequence[bytes]) -> bytes:
    return b"".join(GUARD + block + GUARD for block in blocks)


def question(call: int, scalars: Sequence[int], blocks: Sequence[bytes]) -> bytes:
    """A call as answers.c reads it."""
    head = numbers(call, len(scalars), len(blocks)) + b"".join(scalar(value) for value in scalars)
    return head + numbers(*(len(block) for block in blocks)) + guarded(blocks)


def reply(number: int, blocks: Sequence[bytes]) -> bytes:
    """What answers.c writes after a call that touched nothing around the blocks."""
    return numbers(number) + guarded(blocks)


def read_reply(data: bytes, lengths: Sequence[int]) -> Reply:
    """A whole reply, taken apart by the lengths of its blocks."""
    blocks: list[Guarded] = []
    at = NUMBER_LENGTH
    for length in lengths:
        start, end = at + len(GUARD), at + len(GUARD) + length
        at = end + len(GUARD)
        blocks.append(Guarded(data[start - len(GUARD):start], data[start:end], data[end:at]))
    return Reply(unsigned(data[:NUMBER_LENGTH]), blocks)
