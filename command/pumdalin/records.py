"""The records of a sheet: constants of the format, fields, bytes.

Numbers of two bytes or more have the low byte first; signed ones are in two's
complement.
"""

from dataclasses import dataclass
from typing import NamedTuple, Optional, Sequence, Union

WORK = 1
LOOP = 2
END = 3
CHOICE = 4
NEXT_ARM = 5
SKIP_LOOP = 6

LOOPS = (LOOP, SKIP_LOOP)
OPENS = LOOPS + (CHOICE,)

BODY_LENGTH = {WORK: 4, LOOP: 24, END: 0, CHOICE: 0, NEXT_ARM: 0, SKIP_LOOP: 26}

MOST_RECORDS = 128
MOST_LOOPS_DEEP = 4
MOST_OPEN = 8

INDEX_FACTORS = 3
PARAMETERS = 4
FORM_LENGTH = 2 + INDEX_FACTORS + PARAMETERS

COST_LIMIT = 4095
STRIDE_LIMIT = 1000
CEILING_LIMIT = 2048


class Form(NamedTuple):
    """A bound: constant + factors times indexes + factors times parameters."""

    constant: int = 0
    indexes: tuple[int, ...] = (0,) * INDEX_FACTORS
    parameters: tuple[int, ...] = (0,) * PARAMETERS


@dataclass(frozen=True)
class Work:
    least: int
    most: int


@dataclass(frozen=True)
class Loop:
    """A loop of kind 6, or of kind 2, which has no skip of its own; one with a negative stride counts down."""

    start: int
    step: int
    stride: int
    lower: Form
    upper: Form
    skip: Optional[int] = None

    def counts_down(self) -> bool:
        return self.stride < 0

    def skip_differs(self) -> bool:
        """Whether it costs something else than its start where it makes no trip."""
        return self.skip is not None and self.skip != self.start


@dataclass(frozen=True)
class End:
    pass


@dataclass(frozen=True)
class Choice:
    pass


@dataclass(frozen=True)
class NextArm:
    pass


Record = Union[Work, Loop, End, Choice, NextArm]

KIND_WITHOUT_SKIP = {Work: WORK, Loop: LOOP, End: END, Choice: CHOICE, NextArm: NEXT_ARM}
PLAIN: dict[int, Record] = {END: End(), CHOICE: Choice(), NEXT_ARM: NextArm()}


def kind_of(record: Record) -> int:
    if isinstance(record, Loop) and record.skip is not None:
        return SKIP_LOOP
    return KIND_WITHOUT_SKIP[type(record)]


def stride_in_range(stride: int) -> bool:
    """A stride is from -1,000 to 1,000, and not 0."""
    return 1 <= abs(stride) <= STRIDE_LIMIT


def unsigned(data: bytes) -> int:
    return int.from_bytes(data, "little", signed=False)


def signed(data: bytes) -> int:
    return int.from_bytes(data, "little", signed=True)


def decode_form(data: bytes) -> Form:
    """The form in 9 bytes."""
    factors = [signed(data[i:i + 1]) for i in range(2, FORM_LENGTH)]
    return Form(
        signed(data[0:2]),
        tuple(factors[:INDEX_FACTORS]),
        tuple(factors[INDEX_FACTORS:]),
    )


def encode_form(form: Form) -> bytes:
    factors = form.indexes + form.parameters
    return form.constant.to_bytes(2, "little", signed=True) + b"".join(
        factor.to_bytes(1, "little", signed=True) for factor in factors
    )


def decode(kind: int, body: bytes) -> Record:
    """The record of a known kind, its body whole; ranges are not checked here."""
    if kind == WORK:
        return Work(unsigned(body[0:2]), unsigned(body[2:4]))
    if kind in LOOPS:
        return Loop(
            unsigned(body[0:2]),
            unsigned(body[2:4]),
            signed(body[4:6]),
            decode_form(body[6:15]),
            decode_form(body[15:24]),
            unsigned(body[24:26]) if kind == SKIP_LOOP else None,
        )
    return PLAIN[kind]


def encode(record: Record) -> bytes:
    """The bytes of a record: one byte of kind, then the body."""
    kind = bytes([kind_of(record)])
    if isinstance(record, Work):
        return kind + two_bytes_each(record.least, record.most)
    if isinstance(record, Loop):
        costs = two_bytes_each(record.start, record.step)
        stride = record.stride.to_bytes(2, "little", signed=True)
        skip = b"" if record.skip is None else two_bytes_each(record.skip)
        return kind + costs + stride + encode_form(record.lower) + encode_form(record.upper) + skip
    return kind


def two_bytes_each(*numbers: int) -> bytes:
    """Unsigned numbers, low byte first."""
    return b"".join(number.to_bytes(2, "little") for number in numbers)


def record_length(record: Record) -> int:
    return 1 + BODY_LENGTH[kind_of(record)]


def encode_all(records: Sequence[Record]) -> bytes:
    return b"".join(encode(record) for record in records)


def offsets(records: list[Record]) -> list[int]:
    """The offset of each record in the sheet, and last the sheet's length."""
    places = [0]
    for record in records:
        places.append(places[-1] + record_length(record))
    return places


def open_after(kind: int, open_kinds: list[int]) -> list[int]:
    """The kinds of what is open after a record, outermost first."""
    if kind in OPENS:
        return open_kinds + [kind]
    if kind == END:
        return open_kinds[:-1]
    return open_kinds


def loops_among(kinds: list[int]) -> int:
    """How many of these kinds are loops."""
    return sum(kind in LOOPS for kind in kinds)


def decode_at(sheet: bytes, offset: int) -> Record:
    """The record of a known kind at an offset, its body whole."""
    body = offset + 1
    return decode(sheet[offset], sheet[body:body + BODY_LENGTH[sheet[offset]]])


def decode_before(sheet: bytes, end: int) -> list[Record]:
    """The records before an offset at which a record ends, each of a known kind."""
    records: list[Record] = []
    offset = 0
    while offset < end:
        records.append(decode_at(sheet, offset))
        offset += record_length(records[-1])
    return records


def used_parameters(records: list[Record]) -> list[int]:
    """The parameters that the bounds of loops use, numbered from 0."""
    forms = [form for record in records if isinstance(record, Loop) for form in (record.lower, record.upper)]
    return [number for number in range(PARAMETERS) if any(form.parameters[number] for form in forms)]
