"""Tests that the long sheets tell other readings of document 02, C-19 apart: other limits, and 4 in another order."""

import unittest
from typing import Callable, Optional, Union
from unittest import mock

import calls
import sheet
from calls import answer, program_text
from converters import with_skips, without_skips
from long_calls import LONG_CONVERSIONS, LONG_TEXTS, LONG_WRITES
from long_sheets import LONG_SHEETS
from pumdalin.answers import Refusal
from pumdalin.records import LOOP, SKIP_LOOP, End, Record, encode_all
from sheet import RawRecord, checked, read_as_far, write

ReadAsFar = Callable[[bytes], tuple[list[Record], Optional[Refusal]]]


def limit(records: int) -> ReadAsFar:
    """As if a sheet had at most so many records."""
    def found(given: bytes) -> tuple[list[Record], Optional[Refusal]]:
        with mock.patch.object(sheet, "MOST_RECORDS", records):
            return read_as_far(given)
    return found


def asked_after(*numbers: int) -> ReadAsFar:
    """As if 4 were asked only of a record that is not refused with one of these."""
    def found(given: bytes) -> tuple[list[Record], Optional[Refusal]]:
        records, refusal = read_as_far(given)
        _, own = limit(129)(given)
        is_such = refusal and own and refusal.number == 4 and own.number in numbers and own.place == refusal.place
        return records, own if is_such else refusal
    return found


def placed(place_of: Callable[[bytes, int], int]) -> ReadAsFar:
    """As if the place of 4 were another."""
    def found(given: bytes) -> tuple[list[Record], Optional[Refusal]]:
        records, refusal = read_as_far(given)
        if refusal and refusal.number == 4:
            return records, Refusal(4, place_of(given, refusal.place))
        return records, refusal
    return found


def without_ends(given: bytes) -> tuple[list[Record], Optional[Refusal]]:
    """As if an end counted as no record."""
    records, refusal = limit(1000)(given)
    for position in range(len(records)):
        if sum(not isinstance(record, End) for record in records[:position + 1]) > 128:
            return records[:position], Refusal(4, len(encode_all(records[:position])))
    return records, refusal


def by_bytes_alone(given: bytes) -> tuple[list[Record], Optional[Refusal]]:
    """As if 3,456 bytes were the limit, whatever the records."""
    return (read_as_far(given)[0], Refusal(4, 3456)) if len(given) > 3456 else limit(10_000)(given)


def at_the_last(given: bytes) -> tuple[list[Record], Optional[Refusal]]:
    """As if a 128th record were 4, though nothing follows it."""
    records, refusal = read_as_far(given)
    if len(records) == 128 and refusal is None:
        return records, Refusal(4, len(given))
    return records, refusal


def open_first(given: bytes) -> tuple[list[Record], Optional[Refusal]]:
    """As if open at the end came before 4."""
    records, refusal = read_as_far(given)
    _, own = limit(1000)(given)
    is_open = refusal and own and refusal.number == 4 and own == Refusal(5, len(given))
    return records, own if is_open else refusal


def checked_late(entries: list[RawRecord], count: int) -> Union[list[Record], Refusal]:
    """As if the writer asked for 4 after what is wrong with the entries."""
    found = checked(entries, min(count, 128))
    return Refusal(4, 0) if count > 128 and not isinstance(found, Refusal) else found


OTHER_LIMITS = (64, 65, 127, 129)

WRONG_READERS: dict[str, ReadAsFar] = {
    "64 records": limit(64),
    "65 records": limit(65),
    "127 records": limit(127),
    "129 records": limit(129),
    "4 after 2": asked_after(2),
    "4 after 1": asked_after(1),
    "4 after 2 and 1": asked_after(2, 1),
    "4 after 3": asked_after(3),
    "4 after 5": asked_after(5),
    "4 after all of the record": asked_after(2, 1, 3, 5),
    "4 after open at the end": open_first,
    "4 for a 128th record": at_the_last,
    "4 at 0": placed(lambda given, place: 0),
    "4 at the sheet's length": placed(lambda given, place: len(given)),
    "4 a byte too early": placed(lambda given, place: place - 1),
    "an end is no record": without_ends,
    "3,456 bytes": by_bytes_alone,
}


class WrongLimits(unittest.TestCase):
    """Each other reading of the limit answers a kept sheet otherwise, and each call tells other limits apart."""

    def differing(self, wrong: ReadAsFar) -> list[str]:
        with mock.patch.object(sheet, "read_as_far", wrong):
            return [line.tells for line in LONG_SHEETS
                    if answer(line.sheet, line.parameters, line.budget) != line.answer]

    def test_right(self) -> None:
        self.assertEqual(self.differing(read_as_far), [])

    def test_readers(self) -> None:
        for tells, wrong in WRONG_READERS.items():
            self.assertTrue(self.differing(wrong), tells)

    def differing_writes(self) -> list[str]:
        return [case.tells for case, expected in LONG_WRITES
                if write(case.entries, case.count, case.buffer).answer != expected]

    def test_writers(self) -> None:
        self.assertEqual(self.differing_writes(), [])
        for records in OTHER_LIMITS:
            with mock.patch.object(sheet, "MOST_RECORDS", records):
                self.assertTrue(self.differing_writes(), records)
        with mock.patch.object(sheet, "checked", checked_late):
            self.assertTrue(self.differing_writes())

    def test_converters(self) -> None:
        """Both of them tell."""
        for records in OTHER_LIMITS:
            with mock.patch.object(sheet, "MOST_RECORDS", records):
                kinds = {case.kind for case, expected, _ in LONG_CONVERSIONS
                         if self.converted(case.kind, case.sheet, case.buffer) != expected}
            self.assertEqual(kinds, {LOOP, SKIP_LOOP}, records)

    def converted(self, kind: int, old: bytes, buffer: bytes) -> object:
        """The new sheet, or the refusal."""
        result = (with_skips if kind == SKIP_LOOP else without_skips)(old, buffer)
        return result.answer if isinstance(result.answer, Refusal) else result.buffer[:result.answer]

    def test_inputs(self) -> None:
        """The bytes that `bound` looked at before."""
        with mock.patch.object(calls, "INPUT_LIMIT", 1741):
            self.assertTrue([case.tells for case in LONG_TEXTS if program_text(case.data) != case.text.encode()])


if __name__ == "__main__":
    unittest.main()
