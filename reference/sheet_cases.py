"""Stored cases of the reader and the writer, for the program that runs them.

    python3 sheet_cases.py FILE [--check]

writes FILE, or with --check compares it with what stands there. The file is
one case after the other, numbers low byte first:

    1  which: 1 the reader, 2 the writer
    1  the refusal's number, 0 if there is none
    2  length of the sheet
    2  number of records that follow
    2  place of the refusal, or the count (reader), or the length (writer)
    2  the count that the writer is given
    2  length of the writer's buffer
    then the sheet, then the records, 31 bytes each: kind, least, most, start,
    step, stride (signed), lower form, upper form, skip.
"""

from random import Random

import known
from conversions import ALL_KINDS, LONGEST, NESTED_DOWN
from generate import SIZES, STRIDE_EDGES, damaged_sheet, long_case, long_records, valid_records
from hostile import hostile_sheet
from kept import kept_cases
from known import END, span
from long_calls import LONG_WRITES
from pumdalin.answers import Refusal
from pumdalin.records import MOST_RECORDS, Choice, encode_all, encode_form, two_bytes_each
from sheet import RawRecord, raw, read, write
from stored import answered, main
from writer_cases import WRITER_CASES, WriterCase

SEED = 2049
# of each size
VALID_SHEETS = {"small": 45, "middle": 45, "large": 15}
DAMAGED_SHEETS = {"small": 150, "middle": 150, "large": 80}
# of all lengths; of 60 to 132 records
HOSTILE_SHEETS = 90
RANDOM_LONG_SHEETS = 25
# of up to 24 records; of 60 to 132
RANDOM_WRITES = 180
RANDOM_LONG_WRITES = 12
# What a field is changed into, where it is not a cost.
OTHER_VALUES = {"kind": [0, 1, 2, 6, 7, 255], "stride": STRIDE_EDGES}
READER = 1
WRITER = 2
# The program has so much room for a buffer.
MOST_BUFFER = 2048


def entry_bytes(entry: RawRecord) -> bytes:
    costs = two_bytes_each(entry.least, entry.most, entry.start, entry.step)
    stride = entry.stride.to_bytes(2, "little", signed=True)
    forms = encode_form(entry.lower) + encode_form(entry.upper)
    return bytes([entry.kind]) + costs + stride + forms + two_bytes_each(entry.skip)


def reader_case(sheet: bytes) -> bytes:
    """A sheet, and its records or its refusal."""
    result = read(sheet)
    if isinstance(result, Refusal):
        entries: list[RawRecord] = []
        number, value = result
    else:
        entries = [raw(record) for record in result]
        number, value = 0, len(entries)
    head = bytes([READER, number]) + two_bytes_each(len(sheet), len(entries), value, 0, 0)
    return head + sheet + b"".join(map(entry_bytes, entries))


def writer_case(case: WriterCase) -> bytes:
    """What the writer is given, and the sheet that it writes or its refusal."""
    assert len(case.entries) <= MOST_RECORDS and len(case.buffer) <= MOST_BUFFER, case.tells
    number, value, sheet = answered(write(case.entries, case.count, case.buffer))
    head = bytes([WRITER, number])
    head += two_bytes_each(len(sheet), len(case.entries), value, case.count, len(case.buffer))
    return head + sheet + b"".join(map(entry_bytes, case.entries))


def truncations() -> list[bytes]:
    """Every beginning of each sheet with known figures, and of some with loops of both kinds and directions."""
    sheets = [case.sheet() for case in known.MARKED] + [encode_all(ALL_KINDS), encode_all(NESTED_DOWN)]
    return [sheet[:length] for sheet in sheets for length in range(len(sheet) + 1)]


def kinds() -> list[bytes]:
    """Every byte as a kind, alone and with a long body."""
    return [bytes([kind]) + bytes(length) for kind in range(256) for length in (0, 26)]


def strides() -> list[bytes]:
    """Strides at the edges of their range and of one byte, in loops of both kinds."""
    found: list[bytes] = []
    for stride in [*STRIDE_EDGES, 2, -2, 999, -999, 255, 256, -255, -256, -257, 1002, -1002]:
        found += [encode_all([span(9, 0, stride), END]), encode_all([Choice(), span(9, 0, stride, skip=1), END, END])]
    return found


def random_sheets(random: Random) -> list[bytes]:
    made: list[bytes] = []
    for name, size in SIZES.items():
        made += [encode_all(valid_records(random, size)) for _ in range(VALID_SHEETS[name])]
        made += [damaged_sheet(random, size) for _ in range(DAMAGED_SHEETS[name])]
    made += [hostile_sheet(random) for _ in range(HOSTILE_SHEETS)]
    return made + [long_case(random).sheet for _ in range(RANDOM_LONG_SHEETS)]


def random_writes(random: Random) -> list[WriterCase]:
    """Records of valid sheets, some with one field changed, into buffers around their length."""
    made: list[WriterCase] = []
    given = [valid_records(random, SIZES["middle"]) for _ in range(RANDOM_WRITES)]
    given += [long_records(random) for _ in range(RANDOM_LONG_WRITES)]
    for records in given:
        entries = [raw(record) for record in records[:MOST_RECORDS]]
        length = max(0, len(encode_all(records)) + random.randint(-2, 3))
        if entries and random.random() < 0.4:
            at = random.randrange(len(entries))
            field = random.choice(["kind", "least", "most", "start", "step", "stride", "skip"])
            value = random.choice(OTHER_VALUES.get(field, [0, 1, 1001, 4095, 4096]))
            entries[at] = entries[at]._replace(**{field: value})
        made.append(WriterCase("random", entries, len(records), bytes(length)))
    return made


def all_cases() -> bytes:
    random = Random(SEED)
    sheets = [case.sheet for case in kept_cases()] + [encode_all(records) for records in LONGEST]
    sheets += truncations() + kinds() + strides() + random_sheets(random)
    writes = WRITER_CASES + [long.case for long in LONG_WRITES] + random_writes(random)
    return b"".join(map(reader_case, sheets)) + b"".join(map(writer_case, writes))


if __name__ == "__main__":
    main(all_cases)
