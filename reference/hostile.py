"""Sheets that are made to hurt: extreme fields, many records, deep nesting."""

from random import Random

from directions import turned_at_times
from pumdalin.records import (
    COST_LIMIT, MOST_LOOPS_DEEP, MOST_OPEN, STRIDE_LIMIT, Choice, End, Form, Loop, NextArm, Record,
    Work, encode,
)


def extreme_form(random: Random, enclosing: int) -> Form:
    """Constants and factors at their edges, with small ones among them."""
    edges = random.choice([[0], [0, 1, -1], [0, 127, -128]])
    constant = random.choice([0, 2047, -2048, 32767, -32768, random.randint(-9, 9)])
    indexes = [random.choice(edges) if d < enclosing else 0 for d in range(3)]
    return Form(constant, tuple(indexes), tuple(random.choice([0, *edges]) for _ in range(4)))


def extreme_loop(random: Random, enclosing: int) -> Loop:
    """Mostly loops of up to 2,048 trips; some have bounds far beyond."""
    stride = random.choice([1, 2, 7, STRIDE_LIMIT])
    start, step = [random.choice([0, COST_LIMIT]) for _ in range(2)]
    skip = random.choice([None, None, 0, COST_LIMIT])
    lower = extreme_form(random, enclosing)
    if random.random() < 0.1:
        return Loop(start, step, stride, lower, extreme_form(random, enclosing), skip)
    trips = random.choice([0, 1, 2, 3, 5, 2047, 2048, random.randint(0, 2048)])
    if random.random() < 0.02:
        trips = 2049
    constant = max(-32768, min(32767, lower.constant + (trips - 1) * stride))
    upper = lower._replace(constant=constant)
    if enclosing and random.random() < 0.3:
        slant = lower.indexes[0] - random.choice([1, stride])
        upper = upper._replace(indexes=(max(-128, slant),) + lower.indexes[1:])
    return Loop(start, step, stride, lower, upper, skip)


def menu(opened: list[str], room: int) -> list[str]:
    """What may follow and still leave room for the ends."""
    kinds = ["work", "work"]
    if opened:
        kinds += ["end", "end"]
    if opened and opened[-1] == "choice":
        kinds += ["next"]
    if len(opened) < min(MOST_OPEN, room - 1):
        kinds += ["choice"]
        if opened.count("loop") < MOST_LOOPS_DEEP:
            kinds += ["loop"] * 3
    return kinds


def hostile_arm(random: Random) -> list[Record]:
    """Up to three loops inside one another of up to 2,048 trips, all costs at their edges."""
    depth = random.randint(0, MOST_LOOPS_DEEP - 1)
    loops: list[Record] = []
    for _ in range(depth):
        upper = random.choice([Form(2047), Form(0, (1, 0, 0)), Form(2047, (-1, 0, 0)), Form(-1, (1, 0, 0))])
        start, step = [random.choice([0, COST_LIMIT]) for _ in range(2)]
        loops.append(Loop(start, step, 1, Form(0), upper, random.choice([None, start])))
    works = [Work(random.choice([0, COST_LIMIT]), COST_LIMIT)] * random.choice([0, 1, 20])
    return [*loops, *works, *[End()] * depth]


def hostile_choice(random: Random) -> bytes:
    """A loop of 2,048 trips or fewer over a choice of such arms."""
    last = random.choice([0, 3, 7, 2047, 2047])
    records: list[Record] = [Loop(COST_LIMIT, COST_LIMIT, 1, Form(0), Form(last)), Choice(), *hostile_arm(random)]
    for _ in range(random.choice([0, 1, 1, 2, 3])):
        records += [NextArm(), *hostile_arm(random)]
    return b"".join(encode(record) for record in [*records, End(), End()])


def hostile_sheet(random: Random) -> bytes:
    """Every tenth a choice of large arms; of the others two of three are well-formed, the rest take any record anywhere."""
    if random.random() < 0.1:
        return hostile_choice(random)
    careful = random.random() < 0.67
    sheet = b""
    opened: list[str] = []
    for room in range(random.choice([6, 8, 16, 40, 63, 64, 65, 100, 127, 128, 129]), 0, -1):
        kinds = menu(opened, room) if careful else ["work", "loop", "choice", "end", "next"]
        kind = "end" if careful and len(opened) >= room else random.choice(kinds)
        sheet += encode(hostile_record(random, kind, opened.count("loop")))
        if kind in ("loop", "choice"):
            opened.append(kind)
        elif kind == "end" and opened:
            opened.pop()
    return sheet


def hostile_record(random: Random, kind: str, loops: int) -> Record:
    if kind == "work":
        return Work(random.choice([0, COST_LIMIT]), COST_LIMIT)
    if kind == "loop":
        return turned_at_times(random, extreme_loop(random, loops))
    return {"end": End(), "choice": Choice(), "next": NextArm()}[kind]
