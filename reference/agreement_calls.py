"""The C calls on which agreement.py compares: what each is asked, has to reply, and is shown as."""

from abc import ABC, abstractmethod
from dataclasses import dataclass
from typing import ClassVar, Iterator

import questions
from calls import ANSWER_LENGTH, INPUT_LIMIT, LENGTH_AREA, Lent, answer_text, called, text_called
from converters import Converted, convert_called
from generate import Case
from known import ZERO
from listings import reckoned_listing
from parameter_ranges import RANGE_AREA, Extremes, ParameterRange, RangeAnswer, range_called
from pumdalin.answers import Answer, Figures
from pumdalin.inputs import HEADER_LENGTH, LARGEST_BUDGET, Parameters, from_input
from pumdalin.records import signed, unsigned
from questions import GUARD, Guarded, read_reply


def shown(sheet: bytes, parameters: Parameters, budget: int) -> str:
    """The listing of a sheet, and its bytes."""
    return reckoned_listing(sheet, parameters, budget) + f"# {sheet.hex(' ') or 'no bytes'}"


def shown_input(data: bytes) -> str:
    """What `bound` sees of its input."""
    if len(data) < HEADER_LENGTH:
        return f"# shorter than its header: {data.hex(' ') or 'no bytes'}"
    return shown(*from_input(data[:INPUT_LIMIT]))


def first_line(result: Answer) -> str:
    """The first line of an answer's text."""
    return answer_text(result, []).decode().rstrip()


@dataclass(frozen=True)
class Call(ABC):
    """A call of the library: what it is given, and what has to be there after it."""

    tells: str

    # Its number in answers.c, its name, and what its blocks are called, in order.
    number: ClassVar[int]
    name: ClassVar[str]
    block_names: ClassVar[tuple[str, ...]]

    def scalars(self) -> list[int]:
        """The numbers that it is given; most calls have none."""
        return []

    @abstractmethod
    def blocks(self) -> list[bytes]:
        """What its pointers point to, before the call."""

    @abstractmethod
    def expected(self) -> tuple[int, list[bytes]]:
        """The number that it has to return, and its blocks as they have to be after it."""

    @abstractmethod
    def written(self, blocks: list[bytes]) -> list[int]:
        """How many bytes an answered call writes at the start of each block."""

    @abstractmethod
    def answered(self, blocks: list[bytes]) -> str:
        """What the blocks say after a call that returned 0: all that it writes."""

    @abstractmethod
    def sheet_text(self) -> str:
        """The sheet as it is shown."""

    def question(self) -> bytes:
        return questions.question(self.number, self.scalars(), self.blocks())

    def reply(self) -> bytes:
        """What answers.c writes if the call does as it should."""
        return questions.reply(*self.expected())

    def heading(self) -> str:
        """What is called, and with how much."""
        lengths = [f"{len(block)} bytes of {name}"
                   for name, block in zip(self.block_names, self.blocks())]
        return f"{self.tells}, {self.name} with {', '.join(lengths)}"

    def show(self, reply: bytes) -> str:
        """What a whole reply says, and which bytes have changed though they must not.

        A reply other than the expected one is shown in other words: a byte that the call may
        write is part of what is said, and any other one has changed.
        """
        number, found = read_reply(reply, [len(block) for block in self.blocks()])
        blocks = [guarded.block for guarded in found]
        said = f"returned {number}" if number else self.answered(blocks)
        own = [0] * len(blocks) if number else self.written(blocks)
        return said + "".join(f", {what} changed" for what in self.changed(found, own))

    def changed(self, found: list[Guarded], own: list[int]) -> Iterator[str]:
        """Where there are other bytes than before, past those that the call may write."""
        for name, given, after, start in zip(self.block_names, self.blocks(), found, own):
            if after.before != GUARD:
                yield f"bytes before the {name}"
            if after.block[start:] != given[start:]:
                yield f"the {name} from byte {start} on"
            if after.after != GUARD:
                yield f"bytes after the {name}"


@dataclass(frozen=True)
class FiguresCall(Call):
    """The figures of a case: the area that is lent, and the answer of the library call."""

    case: Case
    area: bytes
    answer: Answer

    number = 0
    name = "pumdalin_figures"
    block_names = ("sheet", "area")

    def scalars(self) -> list[int]:
        return [*self.case.parameters, self.case.budget]

    def blocks(self) -> list[bytes]:
        return [self.case.sheet, self.area]

    def expected(self) -> tuple[int, list[bytes]]:
        number, area = called(self.answer, self.area)
        return number, [self.case.sheet, area]

    def written(self, blocks: list[bytes]) -> list[int]:
        return [0, ANSWER_LENGTH]

    def answered(self, blocks: list[bytes]) -> str:
        _, area = blocks
        return first_line(Figures(*(unsigned(area[at:at + 8]) for at in (0, 8, 16))))

    def sheet_text(self) -> str:
        return shown(self.case.sheet, self.case.parameters, self.case.budget)


@dataclass(frozen=True)
class RangeCall(Call):
    """The extremes of a case over a range of a parameter: the area that is lent, and the answer of the library call."""

    case: Case
    over: ParameterRange
    area: bytes
    answer: RangeAnswer

    number = 5
    name = "pumdalin_range"
    block_names = ("sheet", "area")

    def scalars(self) -> list[int]:
        return [*self.case.parameters, self.case.budget, *self.over]

    def blocks(self) -> list[bytes]:
        return [self.case.sheet, self.area]

    def expected(self) -> tuple[int, list[bytes]]:
        number, area = range_called(self.answer, self.area)
        return number, [self.case.sheet, area]

    def written(self, blocks: list[bytes]) -> list[int]:
        return [0, RANGE_AREA]

    def answered(self, blocks: list[bytes]) -> str:
        _, area = blocks
        found = Extremes(*(signed(area[at:at + 8]) for at in range(0, RANGE_AREA, 8)))
        return (f"best {found.least} at {found.least_at} worst {found.most} at {found.most_at} "
                f"visits {found.visits}")

    def sheet_text(self) -> str:
        """The listing has the parameters that are given; the line after it says which of them is not looked at."""
        number, first, last = self.over
        return f"{shown(*self.case[1:])}\n# parameter {number} from {first} to {last}"


@dataclass(frozen=True)
class LentCall(Call):
    """A call that stores a text or a sheet in a buffer that is lent, and its length in an area."""

    data: bytes
    buffer: bytes
    area: bytes

    @abstractmethod
    def lent(self) -> Lent:
        """What has to be there after it."""

    def blocks(self) -> list[bytes]:
        return [self.data, self.buffer, self.area]

    def expected(self) -> tuple[int, list[bytes]]:
        number, buffer, area = self.lent()
        return number, [self.data, buffer, area]

    def written(self, blocks: list[bytes]) -> list[int]:
        return [0, self.stored_length(blocks), LENGTH_AREA]

    def stored_length(self, blocks: list[bytes]) -> int:
        """The length that the area says."""
        return unsigned(blocks[2][:LENGTH_AREA])


@dataclass(frozen=True)
class TextCall(LentCall):
    """The text of an input: what `bound` prints."""

    text: bytes

    number = 1
    name = "pumdalin_text"
    block_names = ("input", "text", "area")

    def lent(self) -> Lent:
        return text_called(self.text, self.buffer, self.area)

    def answered(self, blocks: list[bytes]) -> str:
        length = self.stored_length(blocks)
        return f"{length} bytes, {blocks[1][:length]!r}"

    def sheet_text(self) -> str:
        return shown_input(self.data)


@dataclass(frozen=True)
class ConverterCall(LentCall):
    """A sheet converted: the new sheet, or refusal 1 to 5 or 10."""

    converted: Converted

    block_names = ("sheet", "new sheet", "area")

    def lent(self) -> Lent:
        return convert_called(self.converted, self.buffer, self.area)

    def answered(self, blocks: list[bytes]) -> str:
        length = self.stored_length(blocks)
        return f"{length} bytes, {blocks[1][:length].hex(' ')}"

    def sheet_text(self) -> str:
        """Converters take no parameters; the listing has to have some."""
        return shown(self.data, ZERO, LARGEST_BUDGET)


@dataclass(frozen=True)
class WithSkipsCall(ConverterCall):
    """Every kind 2 into kind 6."""

    number = 2
    name = "pumdalin_with_skips"


@dataclass(frozen=True)
class WithoutSkipsCall(ConverterCall):
    """Every kind 6 into kind 2."""

    number = 3
    name = "pumdalin_without_skips"
