"""Why a loop is walked: the reason, its line, and the reason read back from a line (document 02, C-11)."""

import re
from dataclasses import dataclass
from typing import Optional, Union

# Offsets of a sheet have two bytes.
OFFSET_LIMIT = 2 ** 16


@dataclass(frozen=True)
class HoldsLoop:
    """A choice inside has a loop in an arm."""

    choice: int

    def line(self) -> str:
        return f"choice {self.choice} holds a loop\n"


@dataclass(frozen=True)
class TooFewTrips:
    """The smallest D of a loop inside is below what closing asks."""

    loop: int

    def line(self) -> str:
        return f"loop {self.loop} may fall below no trips\n"


@dataclass(frozen=True)
class UnevenIn:
    """The stride of a loop inside does not divide what a loop around it adds to its D."""

    loop: int
    around: int

    def line(self) -> str:
        return f"loop {self.loop} is uneven in loop {self.around}\n"


Reason = Union[HoldsLoop, TooFewTrips, UnevenIn]


def stored_numbers(reason: Optional[Reason]) -> tuple[int, int, int]:
    """Its number in stored cases, 0 if there is none, and two offsets, 0 for what it has not."""
    if reason is None:
        return 0, 0, 0
    if isinstance(reason, HoldsLoop):
        return 1, reason.choice, 0
    if isinstance(reason, TooFewTrips):
        return 2, reason.loop, 0
    return 3, reason.loop, reason.around


# Five digits are enough for every offset below the limit.
OFFSET = b"(0|[1-9][0-9]{0,4})"
LINES = {
    HoldsLoop: re.compile(b"choice " + OFFSET + b" holds a loop\n"),
    TooFewTrips: re.compile(b"loop " + OFFSET + b" may fall below no trips\n"),
    UnevenIn: re.compile(b"loop " + OFFSET + b" is uneven in loop " + OFFSET + b"\n"),
}


def read_reason(line: bytes) -> Optional[Reason]:
    """The reason whose line this is, or None."""
    for kind, pattern in LINES.items():
        if found := pattern.fullmatch(line):
            offsets = [int(digits) for digits in found.groups()]
            return kind(*offsets) if max(offsets) < OFFSET_LIMIT else None
    return None
