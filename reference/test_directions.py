"""Tests of what document 02, C-17 brings: loops that count down."""

import os
import unittest
from itertools import islice
from random import Random
from typing import Callable, Iterator, NamedTuple, Optional

import stages
import trips
import visiting
from consistency import check_facts, check_stages, trip_indexes
from converters import from_skips, to_skips
from counting_down import COUNTING_DOWN
from directions import mirrored, turned
from generate import SIZES, STRIDE_AT, cases, parameters, valid_records
from known import END, MARKED, UNIT, ZERO, form, loop, span
from known_reasons import KNOWN_REASONS
from nest import Range, ReckonedLoop, ceiling_refusal, counts_down, index_range, loop_reports
from pumdalin.answers import Figures, Refusal
from pumdalin.inputs import Parameters
from pumdalin.records import (
    LOOP, LOOPS, SKIP_LOOP, Choice, Loop, NextArm, Record, Work, encode, encode_all, signed,
)
from sheet import RawRecord, raw, read, write
from trips import Bounds, TooMany, index_of, trips_of
from walked import walked_case

SHEETS = int(os.environ.get("SHEETS", "600")) // 6
MOST_TRIPS = 2000
MOST_STAGES = 60

STRIDES = [-1000, -999, -257, -256, -255, -2, -1, 1, 2, 255, 256, 999, 1000]
NO_STRIDES = [-32768, -1002, -1001, 0, 1001, 1002, 32767]


class Trips(unittest.TestCase):
    """Trips and indexes of single loops, by hand."""

    def test_trips(self) -> None:
        for first, last, stride, expected in [
            (9, 0, -1, [9, 8, 7, 6, 5, 4, 3, 2, 1, 0]), (9, 0, -4, [9, 5, 1]), (8, 0, -4, [8, 4, 0]),
            (7, 0, -4, [7, 3]), (0, 0, -1, [0]), (0, 0, -1000, [0]), (0, 1, -1, []), (0, 1, -3, []),
            (-3, -5, -2, [-3, -5]), (0, 9, -1, []), (0, -1, -1000, [0]), (0, 1000, -1000, []),
        ]:
            one = span(first, last, stride)
            count = trips_of(one, [], ZERO)
            self.assertEqual([index_of(one, counter, [], ZERO) for counter in range(count)], expected)
            self.assertEqual(list(trip_indexes(one, [], ZERO)), expected)

    def test_index_ranges(self) -> None:
        """In a loop whose index lies from -2 to 5, at parameter 1 of 3."""
        for lower, upper, stride, expected in [
            (form(9), form(0), -1, (0, 9)), (form(9), form(0), -4, (0, 9)), (form(0), form(9), -1, (0, 0)),
            (form(i=1), form(0), -1, (0, 5)), (form(i=-1), form(0), -1, (0, 2)), (form(9), form(i=1), -1, (-2, 9)),
            (form(9), form(i=-1), -1, (-5, 9)), (form(i=1), form(3), -1, (3, 5)), (form(i=1), form(7), -1, (5, 5)),
            (form(1, i=2), form(i=3), -7, (-6, 11)), (form(p=(2,)), form(i=1, p=(-1,)), -1, (-5, 6)),
            (form(i=1), form(0), 1, (-2, 0)), (form(0), form(i=1), 1, (0, 5)), (form(7), form(i=1), 1, (7, 7)),
        ]:
            found = index_range(loop(lower, upper, stride), [Range(-2, 5)], (3, 0, 0, 0))
            self.assertEqual(found, expected, (lower, upper, stride))

    def test_states(self) -> None:
        """i 2 down to 1, j i down to 0: j starts over at the falling index."""
        records = [span(2, 1, -1), Choice(), loop(form(i=1), form(), -1), Work(1, 3), END, NextArm(), END, END]
        state = stages.first_state()
        found = []
        for _ in range(9):
            state = stages.next_state(stages.nest_from(records, ZERO), state)
            found.append((state.visits, state.position, state.current))
        entered = [(1, 1), (2, 3), (3, 1), (4, 3)]
        self.assertEqual([(visits, position) for visits, position, _ in found[:4]], entered)
        # 3 trips, then 2, of least 0, since the other arm is empty
        self.assertEqual(found[4:], [(4, 8, Bounds(0, 3 * 5))] * 5)


class Fields(unittest.TestCase):
    """The stride field of the reader, of the writer and of the converters."""

    def test_bytes(self) -> None:
        """Two bytes, low byte first, in two's complement."""
        for stride, data in [(-1, "ffff"), (-2, "feff"), (-257, "fffe"), (-1000, "18fc"), (1000, "e803")]:
            self.assertEqual(encode(span(9, 0, stride))[5:7].hex(), data)
            self.assertEqual(read(encode_all([span(9, 0, stride), END]))[0].stride, stride)

    def test_reader(self) -> None:
        for skip in (None, 7):
            for stride in STRIDES:
                records = [UNIT, span(9, 0, stride, skip=skip), END]
                self.assertEqual(read(encode_all(records)), records)
            for stride in NO_STRIDES:
                self.assertEqual(read(encode_all([UNIT, span(9, 0, stride, skip=skip), END])), Refusal(3, 5))

    def test_every_field(self) -> None:
        """Of all 65,536 fields, 64,536 to 65,535 are read since C-17, beside 1 to 1,000."""
        plain = encode(span(9, 0))
        taken = [field for field in range(2 ** 16)
                 if not isinstance(read(plain[:5] + field.to_bytes(2, "little") + plain[7:] + b"\x03"), Refusal)]
        self.assertEqual(taken, [*range(1, 1001), *range(64536, 65536)])

    def test_writer(self) -> None:
        lengths = {LOOP: 26, SKIP_LOOP: 28}
        for kind, length in lengths.items():
            entry = RawRecord(kind)
            for stride in STRIDES:
                written = write([entry._replace(stride=stride), raw(END)], 2, bytes(length))
                self.assertEqual(written.answer, length)
                self.assertEqual(read(written.buffer)[0].stride, stride)
            for stride in NO_STRIDES:
                written = write([entry._replace(stride=stride), raw(END)], 2, bytes(length))
                self.assertEqual(written, (Refusal(3, 0), bytes(length)))

    def test_foreign_stride(self) -> None:
        for record in (UNIT, END, Choice(), NextArm()):
            entries = [raw(Choice()), raw(record)._replace(stride=-1)]
            self.assertEqual(write(entries, 2, bytes(40)).answer, Refusal(3, 1), record)

    def test_converters(self) -> None:
        for stride in STRIDES:
            plain, own = [span(9, 0, stride, start=3), END], [span(9, 0, stride, start=3, skip=3), END]
            self.assertEqual(to_skips(encode_all(plain)), encode_all(own))
            self.assertEqual(from_skips(encode_all(own)), encode_all(plain))
        for stride in NO_STRIDES:
            for convert in (to_skips, from_skips):
                self.assertEqual(convert(encode_all([span(9, 0, stride), END])), Refusal(3, 0))


class Told(NamedTuple):
    """All that is said of records at parameters; nothing of what takes too many trips or is refused 6."""

    loops: list[ReckonedLoop]
    visits: Optional[int]
    bounds: Optional[Bounds]
    states: list[stages.State]


def told(records: list[Record], values: Parameters) -> Told:
    loops = loop_reports(records, values)
    if ceiling_refusal(records, values):
        return Told(loops, None, None, [])
    return Told(loops, within(visiting.visits, records, values), within(trips.time, records, values),
                list(islice(states(records, values), MOST_STAGES)))


def within(reckon: Callable[[list[Record], Parameters, int], object], records: list[Record], values: Parameters):
    try:
        return reckon(records, values, MOST_TRIPS)
    except TooMany:
        return None


def states(records: list[Record], values: Parameters) -> Iterator[stages.State]:
    """The states after every stage; they hold counters, and no index."""
    made = stages.nest_from(records, values)
    state = stages.first_state()
    while not stages.at_end(made, state):
        state = stages.next_state(made, state)
        yield state


def loop_positions(records: list[Record]) -> list[int]:
    return [position for position, record in enumerate(records) if isinstance(record, Loop)]


class Mirrored(unittest.TestCase):
    """A loop whose forms and stride are negated, and its index's factor in the loops inside, makes the same trips."""

    def check(self, records: list[Record], values: Parameters, random: Random) -> None:
        places = loop_positions(records)
        expected = told(records, values)
        down = {at for at in places if records[at].stride < 0}
        some = {at for at in places if random.random() < 0.5}
        for chosen in (down, some, set(places)):
            other = mirrored(records, chosen)
            self.assertEqual(mirrored(other, chosen), records)
            self.assertEqual(told(other, values), expected)
        # without a negative stride it is document 01's nest
        self.assertTrue(all(mirrored(records, down)[at].stride > 0 for at in places))

    def test_by_hand(self) -> None:
        records = [span(1, 7, 2, start=3), Choice(), loop(form(2, i=1), form(i=-3, p=(4,)), -1), END, END, END]
        self.assertEqual(mirrored(records, {0}), [
            span(-1, -7, -2, start=3), Choice(), loop(form(2, i=-1), form(i=3, p=(4,)), -1), END, END, END])
        self.assertEqual(mirrored(records, {2})[2], loop(form(-2, i=-1), form(i=3, p=(-4,)), 1))
        self.assertEqual(mirrored(records, {0, 2})[2], loop(form(-2, i=1), form(i=-3, p=(-4,)), 1))

    def test_known_sheets(self) -> None:
        random = Random("mirrored known")
        for known in [*MARKED, *KNOWN_REASONS]:
            self.check(known.records, known.parameters, random)
        for line in COUNTING_DOWN:
            records = read(line.sheet)
            if not isinstance(records, Refusal):
                self.check(records, line.parameters, random)

    def test_random_sheets(self) -> None:
        for name, size in SIZES.items():
            random = Random(f"mirrored {name}")
            for _ in range(SHEETS):
                self.check(valid_records(random, size), parameters(random), random)

    def test_walked_sheets(self) -> None:
        random = Random("mirrored walked")
        for case in [walked_case(random) for _ in range(SHEETS)]:
            records = read(case.sheet)
            if not isinstance(records, Refusal):
                self.check(records, case.parameters, random)


class Turned(unittest.TestCase):
    """From the upper form back to the lower there are as many trips."""

    def test_single_loops(self) -> None:
        random = Random("turned")
        for _ in range(SHEETS):
            one = span(random.randint(-50, 50), random.randint(-50, 50), random.choice([-7, -2, -1, 1, 2, 7]))
            self.assertEqual(trips_of(turned(one), [], ZERO), trips_of(one, [], ZERO))
            self.assertEqual(turned(turned(one)), one)


class Kept(unittest.TestCase):
    def test_all_ways_agree(self) -> None:
        """The sheets by hand, against every trip and by the other ways to reckon."""
        for line in COUNTING_DOWN:
            records = read(line.sheet)
            if isinstance(line.answer, Figures):
                with self.subTest(line.tells):
                    self.assertEqual(check_stages(records, line.parameters, 6000), line.answer.most < 6000)
                    check_facts(records, line.parameters)


class RandomLoops(unittest.TestCase):
    """Of all sorts of random sheets about a third of the loops count down, and many of these make trips."""

    def check(self, found: list[list[Record]]) -> None:
        loops = [record for records in found for record in records if isinstance(record, Loop)]
        down = [one for one in loops if counts_down(one)]
        self.assertGreater(len(down), len(loops) // 4)
        self.assertLess(len(down), len(loops) // 2)
        outermost = [records[0] for records in found if records and isinstance(records[0], Loop)]
        falling = [one for one in outermost if counts_down(one)]
        self.assertGreater(sum(trips_of(one, [], ZERO) > 0 for one in falling), len(falling) // 3)

    def test_valid(self) -> None:
        random = Random("down")
        self.check([valid_records(random, size) for size in SIZES.values() for _ in range(100)])

    def test_walked(self) -> None:
        random = Random("down")
        self.check([read_records(walked_case(random).sheet) for _ in range(200)])

    def test_hostile(self) -> None:
        made = cases(Random("down"), 300, SIZES["small"])
        self.check([read_records(case.sheet) for case in made if case.kind == "hostile"])

    def test_damaged(self) -> None:
        """Some are refused 3 for a stride that is just too long, or 0."""
        made = [case.sheet for case in cases(Random("down"), 400, SIZES["small"]) if case.kind == "damaged"]
        refused = [found for found in map(refused_stride, made) if found is not None]
        for stride in (0, 1001, -1001, -32768):
            self.assertIn(stride, refused)


def read_records(given: bytes) -> list[Record]:
    records = read(given)
    return [] if isinstance(records, Refusal) else records


def refused_stride(given: bytes) -> Optional[int]:
    """The stride of the loop at which a sheet is refused 3."""
    refusal = read(given)
    if not isinstance(refusal, Refusal) or refusal.number != 3 or given[refusal.place] not in LOOPS:
        return None
    at = refusal.place + STRIDE_AT
    return signed(given[at:at + 2])


if __name__ == "__main__":
    unittest.main()
