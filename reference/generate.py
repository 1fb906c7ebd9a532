"""Random sheets from a fixed seed: valid, damaged and hostile; and long ones, aimed at the limit of records.

    python3 generate.py SEED COUNT [SIZE]

prints COUNT cases of each of the first three, one a line, in the form of the readings file.
SIZE is small, middle or large.
"""

import sys
from random import Random
from typing import NamedTuple, Optional

from calls import answer, reports
from directions import turned_at_times
from hostile import hostile_sheet
from nest import ways_of
from pumdalin.answers import Figures
from pumdalin.inputs import Parameters
from pumdalin.records import (
    COST_LIMIT, MOST_OPEN, MOST_RECORDS, STRIDE_LIMIT, Choice, End, Form, Loop, NextArm, Record, Work, encode_all,
    offsets,
)


class Size(NamedTuple):
    """How large the valid sheets are: records, loops deep, and width of bounds."""

    records: int
    loops_deep: int
    width: int


SIZES = {
    "small": Size(12, 3, 5),
    "middle": Size(24, 4, 8),
    "large": Size(MOST_RECORDS, 4, 40),
}

# Long sheets are aimed at the limit of records before document 02, C-19 and at that since; some have too many.
LONG = Size(132, 4, 5)
FEWEST_LONG = 60
AT_LIMITS = [63, 64, 65, 127, 128, 129]

# Numbers that a damage puts anywhere, and those that it puts into a stride.
EDGES = [0, 1, 1000, 1001, 4095, 4096, 32767, -32768, -1]
STRIDE_EDGES = [0, 1, -1, STRIDE_LIMIT, STRIDE_LIMIT + 1, -STRIDE_LIMIT, -STRIDE_LIMIT - 1, 32767, -32768]
# Where the stride stands in a loop's record.
STRIDE_AT = 5


class Case(NamedTuple):
    kind: str
    sheet: bytes
    parameters: Parameters
    budget: int


def cost(random: Random) -> int:
    return random.choice([0, 0, 1, 2, random.randint(0, 30), random.randint(0, COST_LIMIT)])


def work(random: Random) -> Work:
    least, most = sorted((cost(random), cost(random)))
    return Work(least, most)


def factors(random: Random, enclosing: int, largest: int, multiple: int = 1) -> tuple[int, ...]:
    """Factors of the enclosing indexes, each a multiple of a number; the others 0."""
    own = [random.choice([0, random.randint(-largest, largest)]) * multiple
           for _ in range(min(enclosing, 3))]
    return tuple(own) + (0,) * (3 - len(own))


def parameter_factors(random: Random) -> tuple[int, ...]:
    if random.random() < 0.8:
        return (0, 0, 0, 0)
    return tuple(random.choice([0, 0, 1, -1, 2]) for _ in range(4))


def bounds(random: Random, size: Size, enclosing: int, stride: int) -> tuple[Form, Form]:
    """Lower and upper form; half of them are made so that the stride divides D's factors."""
    lower = Form(random.randint(-5, 5), factors(random, enclosing, 2), parameter_factors(random))
    if random.random() < 0.5:
        slant = factors(random, enclosing, 2, stride)
        upper = tuple(l + s for l, s in zip(lower.indexes, slant))
    else:
        upper = factors(random, enclosing, 2)
    width = random.choice([-stride, -1, 0, random.randint(0, size.width * stride)])
    parameters = lower.parameters if random.random() < 0.7 else parameter_factors(random)
    return lower, Form(lower.constant + width, upper, parameters)


def skip(random: Random, start: int) -> Optional[int]:
    """None for every other loop, which is then of kind 2; else equal to start, or any other."""
    return random.choice([None, None, start, cost(random)])


def loop(random: Random, size: Size, enclosing: int) -> Loop:
    stride = random.choice([1, 1, 1, 2, 2, 3, 4])
    lower, upper = bounds(random, size, enclosing, stride)
    start = cost(random)
    return turned_at_times(random, Loop(start, cost(random), stride, lower, upper, skip(random, start)))


def body(random: Random, size: Size, loops: int, opened: int, room: int) -> list[Record]:
    """Records of a body that take at most `room`."""
    records: list[Record] = []
    while len(records) < room and random.random() < 0.8:
        left = room - len(records)
        kind = random.choice(["work", "loop", "loop", "loop", "choice"])
        if kind == "loop" and loops < size.loops_deep and opened < MOST_OPEN and left >= 2:
            inner = body(random, size, loops + 1, opened + 1, left - 2)
            records += [loop(random, size, loops), *inner, End()]
        elif kind == "choice" and opened < MOST_OPEN and left >= 2:
            records += choice(random, size, loops, opened + 1, left)
        else:
            records.append(work(random))
    return records


def choice(random: Random, size: Size, loops: int, opened: int, room: int) -> list[Record]:
    """A choice of one to three arms; half of the choices hold no loop."""
    if random.random() < 0.5:
        size = size._replace(loops_deep=0)
    records: list[Record] = [Choice()]
    records += body(random, size, loops, opened, (room - 2) // 2)
    while len(records) + 2 <= room and random.random() < 0.6:
        left = room - len(records) - 2
        records += [NextArm(), *body(random, size, loops, opened, left // 2)]
    return records + [End()]


def valid_records(random: Random, size: Size) -> list[Record]:
    """Records that the reader takes; the sheet is empty now and then."""
    records = body(random, size, 0, 0, random.randint(0, size.records))
    if random.random() < 0.9 and len(records) < size.records - 1:
        room = size.records - len(records) - 2
        inner = body(random, size, 1, 1, room)
        records = [loop(random, size, 0), *inner, End(), *records]
    return records


def parameters(random: Random) -> Parameters:
    largest = random.choice([0, 3, 10, 10, 32767])
    return tuple(random.randint(-largest, largest) for _ in range(4))


def budget(random: Random) -> int:
    """Mostly small, so that some sheets take more visits; now and then refused."""
    if random.random() < 0.03:
        return random.choice([0, 1_000_001, 2 ** 32 - 1])
    return random.choice([1, 20, 500, 500, 2000, 2000])


def long_records(random: Random) -> list[Record]:
    """60 to 132 records, every other time just as many as at a limit; nothing is open after them."""
    count = random.choice([random.randint(FEWEST_LONG, LONG.records), random.choice(AT_LIMITS)])
    records: list[Record] = []
    while len(records) < count:
        records += body(random, LONG, 0, 0, count - len(records))
    return records


def long_case(random: Random) -> Case:
    """Every fourth one is damaged."""
    records = long_records(random)
    sheet = damaged(random, records) if random.random() < 0.25 else encode_all(records)
    return Case("long", sheet, parameters(random), budget(random))


def damaged_sheet(random: Random, size: Size) -> bytes:
    """A valid sheet with one to three damages."""
    return damaged(random, valid_records(random, size))


def damaged(random: Random, records: list[Record]) -> bytes:
    """The sheet of these records with one to three damages."""
    strides = [place + STRIDE_AT for place, record in zip(offsets(records), records) if isinstance(record, Loop)]
    sheet = bytearray(encode_all(records) or b"\x03")
    for _ in range(random.randint(1, 3)):
        at = random.randrange(len(sheet)) if sheet else 0
        damage = random.choice(["cut", "flip", "byte", "edge", "stride", "drop", "insert", "tail"])
        if damage == "cut":
            del sheet[at:]
        elif damage == "flip" and sheet:
            sheet[at] ^= 1 << random.randrange(8)
        elif damage == "byte" and sheet:
            sheet[at] = random.choice([0, 1, 2, 3, 4, 5, 6, 7, 127, 128, 255])
        elif damage == "edge":
            sheet[at:at + 2] = random.choice(EDGES).to_bytes(2, "little", signed=True)
        elif damage == "stride" and strides:
            at = random.choice(strides)
            sheet[at:at + 2] = random.choice(STRIDE_EDGES).to_bytes(2, "little", signed=True)
        elif damage == "drop":
            del sheet[at:at + 1]
        elif damage == "insert":
            sheet.insert(at, random.randrange(7))
        else:
            sheet += bytes(random.choices(range(8), k=random.randint(1, 4)))
    return bytes(sheet)


def cases(random: Random, count: int, size: Size) -> list[Case]:
    """So many cases of each kind."""
    made: list[Case] = []
    for _ in range(count):
        sheets = {
            "valid": encode_all(valid_records(random, size)),
            "damaged": damaged_sheet(random, size),
            "hostile": hostile_sheet(random),
        }
        for kind, sheet in sheets.items():
            made.append(Case(kind, sheet, parameters(random), budget(random)))
    return made


def line(case: Case) -> str:
    """A case with its answer, in the form of the readings file."""
    result = answer(case.sheet, case.parameters, case.budget)
    given = " ".join(str(n) for n in (*case.parameters, case.budget))
    given += " " + (case.sheet.hex() or "-")
    numbers = " ".join(str(n) for n in result)
    if not isinstance(result, Figures):
        return f"{given} => refused {numbers}   # {case.kind}"
    found = reports(case.sheet, case.parameters)
    ways = ways_of(found) or "-"
    ceilings = ",".join(str(report.ceiling) for report in found) or "-"
    return f"{given} => ok {numbers} {ways} {ceilings}   # {case.kind}"


if __name__ == "__main__":
    seed, wanted = int(sys.argv[1]), int(sys.argv[2])
    chosen = SIZES[sys.argv[3] if len(sys.argv) > 3 else "middle"]
    for made_case in cases(Random(seed), wanted, chosen):
        print(line(made_case))
