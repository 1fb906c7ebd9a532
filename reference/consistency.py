"""Checks of one sheet against another way to reckon the same thing."""

from contextlib import suppress
from itertools import product
from random import Random

import stages
import trips
import visiting
from calls import answer
from nest import LoopFacts, Range, facts, index_range, loop_reports, value
from pumdalin.answers import RANKED, WALKED, Figures, Refusal
from pumdalin.inputs import Parameters
from pumdalin.records import MOST_RECORDS, Choice, End, Form, Loop, Record, Work, encode_all, offsets
from reasons import HoldsLoop, Reason, TooFewTrips, UnevenIn, read_reason
from sheet import BLANK, RawRecord, Written, raw, read, write
from tree import Body, ChoiceNode, loops_directly_in, tree
from trips import Bounds, TooMany

# Every figure is below this; where every loop is closed, there are so many visits a loop at most.
FIGURE_LIMIT = 2 ** 63
VISITS_PER_LOOP = 24
# Arms that take more trips are not gone over.
TRIPS_OF_ARMS = 3000


def check_round_trip(records: list[Record]) -> None:
    """The reader and the writer undo each other; bytes past the sheet stay."""
    sheet = encode_all(records)
    assert read(sheet) == records
    entries = [raw(record) for record in records]
    past = [RawRecord(kind=9)] if len(records) < MOST_RECORDS else []
    written = write(entries + past, len(records), b"\xaa" * (len(sheet) + 3))
    assert written == Written(len(sheet), sheet + b"\xaa" * 3)
    if sheet:
        short = b"\xaa" * (len(sheet) - 1)
        assert write(entries + [BLANK], len(records), short) == Written(Refusal(9, 0), short)


def check_stages(records: list[Record], parameters: Parameters, limit: int) -> bool:
    """Stages against visits by the definition and against every trip.

    Answers whether all trips could be gone over.
    """
    nest = stages.nest_of(encode_all(records), parameters)
    assert not isinstance(nest, Refusal)
    try:
        defined = visiting.visits(records, parameters, limit)
    except TooMany:
        assert stages.run_stages(nest, limit).visits == limit + 1
        return False
    state = stages.first_state()
    for begun in range(1, defined + 1):
        state = stages.next_state(nest, state)
        assert state.visits == begun and not stages.at_end(nest, state)
    state = stages.next_state(nest, state)
    assert stages.at_end(nest, state) and state.frames == () and state.visits == defined
    assert stages.next_state(nest, state) == state
    assert 0 <= state.current.least <= state.current.most < FIGURE_LIMIT
    check_visit_bound(records, parameters, defined)
    check_answer(records, parameters, Figures(*state.current, defined))
    try:
        assert trips.time(records, parameters, limit) == state.current
    except TooMany:
        return False
    return True


def check_arms(nest: stages.Nest) -> None:
    """The kept arms of each ranked loop at its first entry, by going over every trip."""
    def go_down(body: Body, indexes: list[int]) -> None:
        for node in loops_directly_in(body):
            count = trips.trips_of(node.loop, indexes, nest.parameters)
            for counter in range(visiting.first_trips(count, nest.known[node.position])):
                inside = indexes + [trips.index_of(node.loop, counter, indexes, nest.parameters)]
                if nest.known[node.position].ranked:
                    kept = visiting.choices_at(node, counter, indexes, nest.parameters, nest.known)
                    assert kept == arms_by_trips(node.body, inside, nest.parameters)
                go_down(node.body, inside)

    with suppress(TooMany):
        go_down(tree(nest.records), [])


def arms_by_trips(body: Body, indexes: list[int], parameters: Parameters) -> list[list[Bounds]]:
    """Least and most of each arm of the choices directly in a body."""
    choices = [node for node in body if isinstance(node, ChoiceNode)]
    meter = trips.Meter(TRIPS_OF_ARMS)
    return [[trips.every_trip(arm, indexes, parameters, meter) for arm in choice.arms] for choice in choices]


def check_visit_bound(records: list[Record], parameters: Parameters, visits: int) -> None:
    """The visits where every loop is closed."""
    reports = loop_reports(records, parameters)
    if all(report.closed for report in reports):
        assert visits <= VISITS_PER_LOOP * len(reports)


def check_answer(records: list[Record], parameters: Parameters, figures: Figures) -> None:
    """The library call at the visits' own budget, and at one less."""
    sheet = encode_all(records)
    assert answer(sheet, parameters, max(1, figures.visits)) == figures
    if figures.visits > 1:
        assert answer(sheet, parameters, figures.visits - 1) == Refusal(8, 0)


def trip_indexes(loop: Loop, indexes: list[int], parameters: Parameters) -> range:
    """The index of each trip, by counting: from the lower form by the stride, until the upper form is passed."""
    past = 1 if loop.stride > 0 else -1
    return range(value(loop.lower, indexes, parameters), value(loop.upper, indexes, parameters) + past, loop.stride)


def distance(loop: Loop, indexes: list[int], parameters: Parameters) -> int:
    """D from the values of both forms: how far it is from the lower to the upper, the way that the loop counts."""
    way = value(loop.upper, indexes, parameters) - value(loop.lower, indexes, parameters)
    return way if loop.stride > 0 else -way


def check_ceilings(records: list[Record], parameters: Parameters, random: Random) -> None:
    """On a random way down trips are as counted, none passes its ceiling, and D and indexes are in their ranges."""
    known = facts(records, parameters)

    def go_down(body: Body, indexes: list[int], ranges: list[Range]) -> None:
        for node in loops_directly_in(body):
            counted = trip_indexes(node.loop, indexes, parameters)
            fact = known[node.position]
            assert trips.trips_of(node.loop, indexes, parameters) == len(counted) <= fact.ceiling
            assert fact.difference.smallest <= distance(node.loop, indexes, parameters) <= fact.difference.largest
            if counted:
                counter = random.randrange(len(counted))
                index = trips.index_of(node.loop, counter, indexes, parameters)
                own = index_range(node.loop, ranges, parameters)
                assert index == counted[counter] and own.smallest <= index <= own.largest
                go_down(node.body, indexes + [index], ranges + [own])

    go_down(tree(records), [], [])


Box = tuple[int, int]


def corners(form: Form, boxes: list[Box], parameters: Parameters) -> list[int]:
    """The form at all corners of the boxes of the indexes."""
    return [value(form, list(corner), parameters) for corner in product(*boxes)]


def index_box(loop: Loop, boxes: list[Box], parameters: Parameters) -> Box:
    """The range of a loop's index, by corners."""
    lower, upper = corners(loop.lower, boxes, parameters), corners(loop.upper, boxes, parameters)
    if loop.stride > 0:
        return min(lower), max(min(lower), *upper)
    return min(max(lower), *upper), max(lower)


def push_by_definition(path: list[Loop], inner: Loop, mover: int, parameters: Parameters) -> int:
    """What one more trip of `path[mover]` adds to D of a loop inside, the other counters held."""
    def at(counters: list[int]) -> int:
        indexes: list[int] = []
        for loop, counter in zip(path, counters):
            indexes.append(trips.index_of(loop, counter, indexes, parameters))
        return distance(inner, indexes, parameters)

    counters = [3 + depth for depth in range(len(path))]
    moved = [c + (1 if depth == mover else 0) for depth, c in enumerate(counters)]
    return at(moved) - at(counters)


def check_facts(records: list[Record], parameters: Parameters) -> None:
    """Ranges by corners; then why loops are walked."""
    known = facts(records, parameters)

    def go_down(body: Body, boxes: list[Box]) -> None:
        for node in loops_directly_in(body):
            all_d = [distance(node.loop, list(corner), parameters) for corner in product(*boxes)]
            assert known[node.position].difference == (min(all_d), max(all_d))
            go_down(node.body, boxes + [index_box(node.loop, boxes, parameters)])

    go_down(tree(records), [])
    check_reasons(records, parameters, known)


def check_reasons(records: list[Record], parameters: Parameters, known: dict[int, LoopFacts]) -> None:
    """A loop's reason is the first test that fails, and its line reads back to it; its class by all that fail."""
    open_records = open_before_each(records)
    for position, fact in known.items():
        failing = failing_tests(records, parameters, known, open_records, position)
        assert fact.reason == (failing[0] if failing else None)
        around = dict(zip(offsets(records), open_records))
        is_ranked = all(isinstance(bar, HoldsLoop) and around[bar.choice][-1] == position for bar in failing)
        assert fact.loop_class == (RANKED if is_ranked else WALKED) if failing else fact.closed
        if fact.reason is not None:
            assert read_reason(fact.reason.line().encode()) == fact.reason


def open_before_each(records: list[Record]) -> list[list[int]]:
    """For each record the positions of the loops and choices around it, outermost first."""
    found: list[list[int]] = []
    around: list[int] = []
    for position, record in enumerate(records):
        found.append(around)
        if isinstance(record, (Loop, Choice)):
            around = around + [position]
        elif isinstance(record, End):
            around = around[:-1]
    return found


def failing_tests(
    records: list[Record], parameters: Parameters, known: dict[int, LoopFacts],
    open_records: list[list[int]], walked: int,
) -> list[Reason]:
    """All that keeps the loop at a position from being closed, by going over the records inside it."""
    places = offsets(records)
    inside = [at for at, around in enumerate(open_records) if walked in around]
    loops = [at for at in inside if isinstance(records[at], Loop)]
    found: list[Reason] = [
        HoldsLoop(places[at]) for at in inside
        if isinstance(records[at], Choice) and any(at in open_records[loop] for loop in loops)
    ]
    for at in loops:
        loop = records[at]
        size = max(loop.stride, -loop.stride)
        # document 02, C-12: 0 where no trip costs other than start
        asked = -size if loop.skip in (None, loop.start) else 0
        if known[at].difference.smallest < asked:
            found.append(TooFewTrips(places[at]))
        around = [outer for outer in open_records[at] if isinstance(records[outer], Loop)]
        path = [records[outer] for outer in around]
        for mover, outer in enumerate(around):
            push = push_by_definition(path, loop, mover, parameters)
            if outer >= walked and push % size != 0:
                found.append(UnevenIn(places[at], places[outer]))
    return found


def random_run(body: Body, indexes: list[int], parameters: Parameters, random: Random) -> int:
    """The cycles of one run that decides by chance at every work and choice."""
    total = 0
    for node in body:
        if isinstance(node, Work):
            total += random.choice([node.least, node.most, random.randint(node.least, node.most)])
        elif isinstance(node, ChoiceNode):
            total += random_run(random.choice(node.arms), indexes, parameters, random)
        else:
            count = trips.trips_of(node.loop, indexes, parameters)
            no_start = count == 0 and node.loop.skip is not None
            total += node.loop.skip if no_start else node.loop.start
            for counter in range(count):
                index = trips.index_of(node.loop, counter, indexes, parameters)
                total += random_run(node.body, indexes + [index], parameters, random)
                total += node.loop.step
    return total


def check_runs(
    records: list[Record], parameters: Parameters, bounds: Bounds, random: Random
) -> None:
    """Runs lie between least and most."""
    for _ in range(3):
        run = random_run(tree(records), [], parameters, random)
        assert bounds.least <= run <= bounds.most
