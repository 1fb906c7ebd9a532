"""Checks of the converters: against bytes changed in place, and that a converted sheet is answered as the old one."""

from dataclasses import replace
from functools import lru_cache
from typing import Callable, NamedTuple, Optional

from calls import Lent, answer, reports
from converters import from_skips, to_skips, with_skips, with_skips_call, without_skips, without_skips_call
from nest import ReckonedLoop
from pumdalin.answers import Answer, Refusal
from pumdalin.inputs import Parameters
from pumdalin.records import BODY_LENGTH, LOOP, SKIP_LOOP, Loop, Record, encode_all, offsets
from reasons import HoldsLoop, Reason, TooFewTrips, UnevenIn
from sheet import Written, read

# Refused 7; less than most sheets take; more than most take.
BUDGETS = (0, 1, 500)

# From an offset of the old sheet to that of the same record in the new one.
Moves = dict[int, int]


def by_bytes(sheet: bytes, kind: int) -> bytes:
    """The sheet with its loops of this kind, by going over the bytes: skip is the bytes of start, or left out."""
    new = b""
    at = 0
    while at < len(sheet):
        body = sheet[at + 1:at + 1 + BODY_LENGTH[sheet[at]]]
        if sheet[at] == LOOP and kind == SKIP_LOOP:
            new += bytes([kind]) + body + body[:2]
        elif sheet[at] == SKIP_LOOP and kind == LOOP:
            new += bytes([kind]) + body[:-2]
        else:
            new += sheet[at:at + 1] + body
        at += 1 + len(body)
    return new


def check_conversions(records: list[Record], parameters: Parameters) -> None:
    """The converters on the records as they are, with every skip its start, and without a kind 6."""
    check_to_skips(records, parameters)
    equal = with_each_loop(records, lambda loop: loop.start if loop.skip is not None else None)
    plain = with_each_loop(records, lambda loop: None)
    check_to_skips(plain, parameters)
    check_back(encode_all(records), records)
    for same in (equal, plain):
        old, new = encode_all(same), encode_all(plain)
        assert from_skips(old) == from_skips(to_skips(old)) == by_bytes(old, LOOP) == new
        check_same_answers(old, new, parameters)


def with_each_loop(records: list[Record], new_skip: Callable[[Loop], Optional[int]]) -> list[Record]:
    """The records with another skip for each loop."""
    return [replace(record, skip=new_skip(record)) if isinstance(record, Loop) else record for record in records]


def check_to_skips(records: list[Record], parameters: Parameters) -> None:
    old = encode_all(records)
    new = to_skips(old)
    assert new == by_bytes(old, SKIP_LOOP) == to_skips(new)
    check_same_answers(old, new, parameters)
    check_stored(with_skips, with_skips_call, old, new)


def check_back(old: bytes, records: list[Record]) -> None:
    """10 at the first loop with a skip of its own, wherever the sheet comes from; otherwise the new sheet."""
    own = [place for place, record in zip(offsets(records), records)
           if isinstance(record, Loop) and record.skip not in (None, record.start)]
    if not own:
        check_stored(without_skips, without_skips_call, old, by_bytes(old, LOOP))
        return
    there = to_skips(old)
    assert from_skips(old) == Refusal(10, own[0])
    assert from_skips(there) == Refusal(10, moves(old, there)[own[0]])
    assert without_skips(old, b"") == Written(Refusal(10, own[0]), b"")
    assert without_skips_call(old, b"", b"") == (10, b"", b"")


def check_stored(
    convert: Callable[[bytes, bytes], Written], call: Callable[[bytes, bytes, bytes], Lent], old: bytes, new: bytes
) -> None:
    """What is lent just suffices, is longer, or is one byte short."""
    length = len(new).to_bytes(8, "little")
    for spare in (0, 3):
        buffer, area = b"\xaa" * (len(new) + spare), b"\xbb" * (8 + spare)
        assert convert(old, buffer) == (len(new), new + buffer[len(new):])
        assert call(old, buffer, area) == (0, new + buffer[len(new):], length + area[8:])
        assert call(old, buffer, area[:7]) == (9, buffer, area[:7])
    if new:
        short, area = b"\xaa" * (len(new) - 1), b"\xbb" * 8
        assert convert(old, short) == (Refusal(9, 0), short)
        assert call(old, short, area) == (9, short, area)


def moves(old: bytes, new: bytes) -> Moves:
    return dict(zip(offsets(read(old)), offsets(read(new))))


class Told(NamedTuple):
    """All that is answered about a sheet at parameters."""

    answers: list[Answer]
    loops: list[ReckonedLoop]


# A sheet is compared with several others.
@lru_cache(maxsize=16)
def told(sheet: bytes, parameters: Parameters) -> Told:
    return Told([answer(sheet, parameters, budget) for budget in BUDGETS], reports(sheet, parameters))


def check_same_answers(old: bytes, new: bytes, parameters: Parameters) -> None:
    """Figures, visits and refusals 7 and 8 stay; 6, the loops' lines and the reasons are at the moved offsets."""
    moved = moves(old, new)
    before = told(old, parameters)
    answers = [moved_answer(found, moved) for found in before.answers]
    assert Told(answers, [moved_report(loop, moved) for loop in before.loops]) == told(new, parameters)


def moved_answer(found: Answer, moved: Moves) -> Answer:
    """The places of 7 and 8 are 0, as is the first record's offset."""
    return Refusal(found.number, moved[found.place]) if isinstance(found, Refusal) else found


def moved_report(report: ReckonedLoop, moved: Moves) -> ReckonedLoop:
    reason = report.reason and moved_reason(report.reason, moved)
    return report._replace(offset=moved[report.offset], reason=reason)


def moved_reason(reason: Reason, moved: Moves) -> Reason:
    if isinstance(reason, HoldsLoop):
        return HoldsLoop(moved[reason.choice])
    if isinstance(reason, TooFewTrips):
        return TooFewTrips(moved[reason.loop])
    return UnevenIn(moved[reason.loop], moved[reason.around])
