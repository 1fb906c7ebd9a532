"""The converters of document 02, C-12, and their C calls: every kind 2 into kind 6, and back."""

from dataclasses import replace
from typing import Callable, Union

from calls import LENGTH_AREA, Lent, lent
from pumdalin.answers import Refusal
from pumdalin.records import Loop, Record, encode_all, offsets
from sheet import Written, laid, read, skip_of

# The new sheet, or refusal 1 to 5 or 10.
Converted = Union[bytes, Refusal]


def to_skips(sheet: bytes) -> Converted:
    """Every loop of kind 2 becomes one of kind 6; those of kind 6 stay."""
    records = read(sheet)
    if isinstance(records, Refusal):
        return records
    return with_loops(records, lambda loop: replace(loop, skip=skip_of(loop)))


def from_skips(sheet: bytes) -> Converted:
    """Every loop of kind 6 becomes one of kind 2, or 10 at the first that has a skip of its own."""
    records = read(sheet)
    if isinstance(records, Refusal):
        return records
    for place, record in zip(offsets(records), records):
        if isinstance(record, Loop) and skip_of(record) != record.start:
            return Refusal(10, place)
    return with_loops(records, lambda loop: replace(loop, skip=None))


def with_loops(records: list[Record], change: Callable[[Loop], Loop]) -> bytes:
    """The sheet with every loop changed."""
    return encode_all([change(record) if isinstance(record, Loop) else record for record in records])


def with_skips(sheet: bytes, buffer: bytes) -> Written:
    """The library call to kind 6."""
    return stored(to_skips(sheet), buffer)


def without_skips(sheet: bytes, buffer: bytes) -> Written:
    """The library call to kind 2."""
    return stored(from_skips(sheet), buffer)


def stored(converted: Converted, buffer: bytes) -> Written:
    """9 comes last; a refusal leaves the buffer."""
    if isinstance(converted, Refusal):
        return Written(converted, buffer)
    return laid(converted, buffer)


def with_skips_call(sheet: bytes, buffer: bytes, area: bytes) -> Lent:
    """The C call to kind 6."""
    return convert_called(to_skips(sheet), buffer, area)


def without_skips_call(sheet: bytes, buffer: bytes, area: bytes) -> Lent:
    """The C call to kind 2."""
    return convert_called(from_skips(sheet), buffer, area)


def convert_called(converted: Converted, buffer: bytes, area: bytes) -> Lent:
    """9, for the area or the buffer, comes after every other refusal; a refusal writes nothing."""
    if isinstance(converted, Refusal):
        return Lent(converted.number, buffer, area)
    if len(area) < LENGTH_AREA or len(buffer) < len(converted):
        return Lent(9, buffer, area)
    return lent(converted, buffer, area)
