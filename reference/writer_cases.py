"""Cases of the writer: every refusal and place, edges of fields, counts and buffers."""

from typing import NamedTuple

from known import form, loop, span
from pumdalin.records import LOOPS, SKIP_LOOP, Choice, End, Form, NextArm, Work
from sheet import RawRecord, raw

WORK_ENTRY = raw(Work(1, 2))
LOOP_ENTRY = raw(span(0, 3))
SKIP_ENTRY = raw(span(0, 3, start=3, skip=1))
END_ENTRY = raw(End())
CHOICE_ENTRY = raw(Choice())
NEXT_ENTRY = raw(NextArm())
FULL_FORMS = form(-2, p=(1, -1, 127, -128)), form(300, p=(-3, 4, 0, 5))
FULL_LOOP = raw(loop(*FULL_FORMS, 1000, 4095, 258))
FULL_SKIP_LOOP = raw(loop(*FULL_FORMS, 1000, 4095, 258, 769))
# The bytes of -769 differ.
FULL_LOOP_DOWN = raw(loop(*FULL_FORMS, -769, 4095, 258))
FULL_SKIP_LOOP_DOWN = raw(loop(*FULL_FORMS, -769, 4095, 258, 513))


class WriterCase(NamedTuple):
    tells: str
    entries: list[RawRecord]
    count: int
    buffer: bytes


def case(tells: str, entries: list[RawRecord], length: int = 4) -> WriterCase:
    """A case that writes all its entries into a buffer of a length."""
    return WriterCase(tells, entries, len(entries), bytes(201 + i % 50 for i in range(length)))


def loop_case(tells: str, entry: RawRecord) -> WriterCase:
    """A loop of one record, closed, in a buffer that is just long enough."""
    return case(tells, [entry, END_ENTRY], 28 if entry.kind == SKIP_LOOP else 26)


COUNTS = [
    case("count 0, no buffer", [], 0),
    case("count 0, the buffer stays", [], 2),
    WriterCase("count 0, an entry of no kind past it", [RawRecord(kind=9)], 0, b"\x07"),
    WriterCase("count 1, entries past it are not looked at",
               [WORK_ENTRY, RawRecord(kind=9, least=3), CHOICE_ENTRY], 1, bytes(range(5, 11))),
    case("127 records", [CHOICE_ENTRY, NEXT_ENTRY, END_ENTRY] + [CHOICE_ENTRY, END_ENTRY] * 62, 128),
    case("128 records", [CHOICE_ENTRY, END_ENTRY] * 64, 128),
    case("128 records, a byte short", [CHOICE_ENTRY, END_ENTRY] * 64, 127),
    WriterCase("count 129", [CHOICE_ENTRY, END_ENTRY] * 64, 129, b"\x01\x02"),
    WriterCase("4 before 2", [RawRecord(kind=9)], 129, b""),
]

BUFFERS = [
    case("buffer just as long", [WORK_ENTRY], 5),
    case("buffer one shorter", [WORK_ENTRY], 4),
    case("buffer longer", [WORK_ENTRY], 8),
    case("no buffer", [WORK_ENTRY], 0),
    case("all kinds", [CHOICE_ENTRY, LOOP_ENTRY, WORK_ENTRY, END_ENTRY, NEXT_ENTRY, SKIP_ENTRY, END_ENTRY, END_ENTRY],
         65),
    loop_case("a loop's fields in order, signed ones", FULL_LOOP),
    loop_case("a loop's fields in order, skip last", FULL_SKIP_LOOP),
    loop_case("a loop's fields in order, a negative stride", FULL_LOOP_DOWN),
    loop_case("a loop's fields in order, a negative stride and skip last", FULL_SKIP_LOOP_DOWN),
    case("a loop with a skip, buffer one shorter", [SKIP_ENTRY, END_ENTRY], 27),
]

KINDS = [
    case("kind 0", [RawRecord(kind=0)]),
    case("kind 7", [RawRecord(kind=7)]),
    case("kind 255 after a work", [WORK_ENTRY, RawRecord(kind=255)]),
    case("2 before 3", [RawRecord(kind=7, least=1, stride=2000)]),
]

FIELDS = [
    case("most 4,095", [raw(Work(0, 4095))], 5),
    case("least 4,095", [raw(Work(4095, 4095))], 5),
    case("most 4,096", [raw(Work(0, 4096))], 5),
    case("most 65,535", [raw(Work(0, 65535))], 5),
    case("least above most", [raw(Work(3, 2))], 5),
    case("3 at the second record", [WORK_ENTRY, raw(Work(1, 0))], 10),
    loop_case("start 4,095", LOOP_ENTRY._replace(start=4095)),
    loop_case("start 4,096", LOOP_ENTRY._replace(start=4096)),
    loop_case("step 4,095", LOOP_ENTRY._replace(step=4095)),
    loop_case("step 4,096", LOOP_ENTRY._replace(step=4096)),
    loop_case("stride 0", LOOP_ENTRY._replace(stride=0)),
    loop_case("stride 1,000", LOOP_ENTRY._replace(stride=1000)),
    loop_case("stride 1,001", LOOP_ENTRY._replace(stride=1001)),
    loop_case("stride 32,767", LOOP_ENTRY._replace(stride=32767)),
    loop_case("stride -1", LOOP_ENTRY._replace(stride=-1)),
    loop_case("stride -1,000", LOOP_ENTRY._replace(stride=-1000)),
    loop_case("stride -1,001", LOOP_ENTRY._replace(stride=-1001)),
    loop_case("stride -32,768", LOOP_ENTRY._replace(stride=-32768)),
    loop_case("skip 4,095", SKIP_ENTRY._replace(skip=4095)),
    loop_case("skip 4,096", SKIP_ENTRY._replace(skip=4096)),
    loop_case("skip 65,535", SKIP_ENTRY._replace(skip=65535)),
    loop_case("skip 0", SKIP_ENTRY._replace(skip=0)),
    loop_case("skip equal to start", SKIP_ENTRY._replace(skip=3)),
    loop_case("kind 2 with a skip equal to start", LOOP_ENTRY._replace(start=3, skip=3)),
    loop_case("start 4,096 of kind 6", SKIP_ENTRY._replace(start=4096)),
    loop_case("stride 0 of kind 6", SKIP_ENTRY._replace(stride=0)),
    loop_case("stride -1,000 of kind 6", SKIP_ENTRY._replace(stride=-1000)),
    loop_case("stride -1,001 of kind 6", SKIP_ENTRY._replace(stride=-1001)),
    loop_case("lower form's own depth of kind 6", SKIP_ENTRY._replace(lower=form(i=1))),
    loop_case("lower form's own depth", LOOP_ENTRY._replace(lower=form(i=1))),
    loop_case("upper form's depth 3", LOOP_ENTRY._replace(upper=form(k=-1))),
    case("enclosing depth",
         [LOOP_ENTRY, raw(loop(form(i=-1), form(i=1))), END_ENTRY, END_ENTRY], 52),
    case("enclosing depth of kind 6, a record's offset after it",
         [SKIP_ENTRY, raw(loop(form(i=-1), form(i=1))), raw(Work(2, 1))], 60),
    case("own depth 2", [LOOP_ENTRY, raw(loop(form(), form(j=1)))], 30),
    case("a choice is no depth", [CHOICE_ENTRY, raw(loop(form(), form(i=1)))], 30),
]

LOOP_FIELDS = {"start", "step", "stride", "lower", "upper"}
OWN = {1: {"least", "most"}, 2: LOOP_FIELDS, 6: LOOP_FIELDS | {"skip"}}
VALUES = {"least": 1, "most": 1, "start": 1, "step": 1, "stride": 1,
          "lower": Form(1), "upper": form(p=(0, 0, 0, -1)), "skip": 1}
PLAIN_ENTRIES = {"work": WORK_ENTRY, "loop": LOOP_ENTRY, "end": END_ENTRY,
                 "choice": CHOICE_ENTRY, "next arm": NEXT_ENTRY, "loop of kind 6": SKIP_ENTRY}


def foreign_cases() -> list[WriterCase]:
    """For each kind each field that it does not have."""
    found: list[WriterCase] = []
    for name, entry in PLAIN_ENTRIES.items():
        for field, value in VALUES.items():
            if field not in OWN.get(entry.kind, set()):
                changed = entry._replace(**{field: value})
                found.append(case(f"{name} with a {field}", [CHOICE_ENTRY, changed]))
        if entry.kind not in LOOPS:
            found.append(case(f"{name} with a stride of -1", [CHOICE_ENTRY, entry._replace(stride=-1)]))
    corners = [form(i=1), form(j=1), form(k=-1), form(p=(1,)), form(p=(0, 1)), form(p=(0, 0, 1))]
    for corner in corners:
        changed = END_ENTRY._replace(lower=corner)
        found.append(case("end with a factor", [CHOICE_ENTRY, changed]))
    return found


PLACES = [
    case("end with nothing open", [END_ENTRY]),
    case("end with nothing open, later", [WORK_ENTRY, CHOICE_ENTRY, END_ENTRY, END_ENTRY]),
    case("next arm with nothing open", [NEXT_ENTRY]),
    case("next arm in a loop in a choice", [CHOICE_ENTRY, LOOP_ENTRY, NEXT_ENTRY]),
    case("fifth loop depth", [LOOP_ENTRY] * 5),
    case("fifth loop depth, kinds 2 and 6 in turn", [LOOP_ENTRY, SKIP_ENTRY] * 2 + [SKIP_ENTRY]),
    case("next arm in a loop of kind 6", [CHOICE_ENTRY, SKIP_ENTRY, NEXT_ENTRY]),
    case("3 before 5 at the fifth depth", [LOOP_ENTRY] * 4 + [LOOP_ENTRY._replace(stride=0)]),
    case("fifth depth, factors of all three depths",
         [LOOP_ENTRY] * 4 + [raw(loop(form(i=1, j=1, k=1), form()))]),
    case("ninth open record, a choice", [CHOICE_ENTRY] * 9),
    case("ninth open record, a loop", [CHOICE_ENTRY] * 8 + [LOOP_ENTRY]),
    case("ninth open record, a loop of kind 6", [CHOICE_ENTRY] * 8 + [SKIP_ENTRY]),
    case("eight open", [CHOICE_ENTRY] * 8 + [END_ENTRY] * 8, 16),
    case("open at the end", [WORK_ENTRY, CHOICE_ENTRY]),
    case("a loop open at the end", [LOOP_ENTRY, WORK_ENTRY], 40),
    case("3 before 5", [END_ENTRY._replace(most=1)]),
    case("5 of the first before 2 of the second", [END_ENTRY, RawRecord(kind=9)]),
    case("open at the end before 9", [CHOICE_ENTRY], 0),
]

WRITER_CASES = COUNTS + BUFFERS + KINDS + FIELDS + foreign_cases() + PLACES
