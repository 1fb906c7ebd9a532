"""Reading and writing sheets: refusals 1 to 5, and 9 of the writer."""

from typing import NamedTuple, Optional, Union

from pumdalin.answers import Refusal
from pumdalin.records import (
    BODY_LENGTH, CHOICE, COST_LIMIT, END, LOOPS, MOST_LOOPS_DEEP, MOST_OPEN, MOST_RECORDS,
    NEXT_ARM, OPENS, SKIP_LOOP, STRIDE_LIMIT, WORK, Form, Loop, Record, Work, decode, encode_all,
    kind_of, open_after, record_length,
)


class Part(NamedTuple):
    """A record found at an offset: its kind, and where its body lies."""

    kind: int
    body_offset: int
    body_length: int


class SheetEnd(NamedTuple):
    """There is no record at the offset: the sheet ends before it."""


def record_at(sheet: bytes, offset: int) -> Union[Part, Refusal, SheetEnd]:
    """The record at an offset: 2 for its kind, then 1 for its body."""
    if offset >= len(sheet):
        return SheetEnd()
    kind = sheet[offset]
    if kind not in BODY_LENGTH:
        return Refusal(2, offset)
    if offset + 1 + BODY_LENGTH[kind] > len(sheet):
        return Refusal(1, offset)
    return Part(kind, offset + 1, BODY_LENGTH[kind])


def in_range(record: Record, open_kinds: list[int]) -> bool:
    """Refusal 3 asks whether this is false."""
    if isinstance(record, Work):
        return record.least <= record.most <= COST_LIMIT
    if isinstance(record, Loop):
        enclosing = loops_open(open_kinds)
        return (
            record.start <= COST_LIMIT
            and record.step <= COST_LIMIT
            and skip_of(record) <= COST_LIMIT
            and stride_in_range(record.stride)
            and only_enclosing(record.lower, enclosing)
            and only_enclosing(record.upper, enclosing)
        )
    return True


def stride_in_range(stride: int) -> bool:
    """-1,000 to 1,000 without 0 (document 02, C-17)."""
    return stride != 0 and -STRIDE_LIMIT <= stride <= STRIDE_LIMIT


def skip_of(loop: Loop) -> int:
    """The cycles paid in place of start when there is no trip; kind 2 means skip equal to start."""
    return loop.start if loop.skip is None else loop.skip


def loops_open(open_kinds: list[int]) -> int:
    return sum(kind in LOOPS for kind in open_kinds)


def only_enclosing(form: Form, enclosing: int) -> bool:
    """Whether the factors of depths that do not enclose the loop are 0."""
    return all(factor == 0 for factor in form.indexes[enclosing:])


def in_place(kind: int, open_kinds: list[int]) -> bool:
    """Refusal 5 asks whether this is false."""
    if kind == END:
        return len(open_kinds) > 0
    if kind == NEXT_ARM:
        return len(open_kinds) > 0 and open_kinds[-1] == CHOICE
    if kind in LOOPS and loops_open(open_kinds) == MOST_LOOPS_DEEP:
        return False
    if kind in OPENS:
        return len(open_kinds) < MOST_OPEN
    return True


def read(sheet: bytes) -> Union[list[Record], Refusal]:
    """The records, or a refusal."""
    records, refusal = read_as_far(sheet)
    return refusal or records


def read_as_far(sheet: bytes) -> tuple[list[Record], Optional[Refusal]]:
    """The records up to a refusal: 4, 2, 1, 3, 5 record by record, then open at the end."""
    records: list[Record] = []
    open_kinds: list[int] = []
    offset = 0
    while offset < len(sheet):
        if len(records) == MOST_RECORDS:
            return records, Refusal(4, offset)
        found = record_at(sheet, offset)
        if isinstance(found, Refusal):
            return records, found
        body_end = found.body_offset + found.body_length
        record = decode(found.kind, sheet[found.body_offset:body_end])
        if not in_range(record, open_kinds):
            return records, Refusal(3, offset)
        if not in_place(found.kind, open_kinds):
            return records, Refusal(5, offset)
        open_kinds = open_after(found.kind, open_kinds)
        records.append(record)
        offset = body_end
    return records, Refusal(5, len(sheet)) if open_kinds else None


class RawRecord(NamedTuple):
    """What the writer takes: a kind and every field of every kind."""

    kind: int = 0
    least: int = 0
    most: int = 0
    start: int = 0
    step: int = 0
    stride: int = 0
    lower: Form = Form()
    upper: Form = Form()
    skip: int = 0


BLANK = RawRecord()


def raw(record: Record) -> RawRecord:
    """A record as the writer takes it, the fields of other kinds 0."""
    if isinstance(record, Work):
        return RawRecord(kind=WORK, least=record.least, most=record.most)
    if isinstance(record, Loop):
        return RawRecord(kind_of(record), 0, 0, record.start, record.step, record.stride,
                         record.lower, record.upper, record.skip or 0)
    return RawRecord(kind=kind_of(record))


def own_fields(entry: RawRecord) -> Record:
    """The record of the entry's kind, with the fields that this kind has."""
    if entry.kind == WORK:
        return Work(entry.least, entry.most)
    if entry.kind in LOOPS:
        skip = entry.skip if entry.kind == SKIP_LOOP else None
        return Loop(entry.start, entry.step, entry.stride, entry.lower, entry.upper, skip)
    return decode(entry.kind, b"")


class Written(NamedTuple):
    """The answer of the writer or a converter, and the whole buffer after it."""

    answer: Union[int, Refusal]
    buffer: bytes


def checked(entries: list[RawRecord], count: int) -> Union[list[Record], Refusal]:
    """The records to write, or a refusal: 4, then 2, 3, 5 record by record."""
    if count > MOST_RECORDS:
        return Refusal(4, 0)
    records: list[Record] = []
    open_kinds: list[int] = []
    offset = 0
    for entry in padded(entries)[:count]:
        if entry.kind not in BODY_LENGTH:
            return Refusal(2, offset)
        record = own_fields(entry)
        if raw(record) != entry or not in_range(record, open_kinds):
            return Refusal(3, offset)
        if not in_place(entry.kind, open_kinds):
            return Refusal(5, offset)
        open_kinds = open_after(entry.kind, open_kinds)
        records.append(record)
        offset += record_length(record)
    if open_kinds:
        return Refusal(5, offset)
    return records


def padded(entries: list[RawRecord]) -> list[RawRecord]:
    """The caller lends 128 entries; those not given here are blank."""
    return entries + [BLANK] * (MOST_RECORDS - len(entries))


def write(entries: list[RawRecord], count: int, buffer: bytes) -> Written:
    """The sheet of the first `count` entries, laid at the buffer's start."""
    records = checked(entries, count)
    if isinstance(records, Refusal):
        return Written(records, buffer)
    return laid(encode_all(records), buffer)


def laid(sheet: bytes, buffer: bytes) -> Written:
    """A sheet at the buffer's start, or 9; bytes past it stay."""
    if len(buffer) < len(sheet):
        return Written(Refusal(9, 0), buffer)
    return Written(len(sheet), sheet + buffer[len(sheet):])
