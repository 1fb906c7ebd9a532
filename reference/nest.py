"""The loops of a sheet at given parameter values: ranges, ceilings, closed, ranked or walked."""

from typing import NamedTuple, Optional, Union

from pumdalin.answers import CLOSED, RANKED, WALKED, LoopReport, Refusal
from pumdalin.inputs import Parameters
from pumdalin.records import CEILING_LIMIT, Form, Loop, Record, offsets
from reasons import HoldsLoop, Reason, TooFewTrips, UnevenIn
from sheet import read, skip_of
from tree import Body, LoopNode, choices_directly_in, choices_in, height, loops_directly_in, tree


class Range(NamedTuple):
    smallest: int
    largest: int


def counts_down(loop: Loop) -> bool:
    """A loop with a negative stride starts at its lower form all the same (document 02, C-17)."""
    return loop.stride < 0


def stride_size(loop: Loop) -> int:
    """The stride without its sign: what trips, ceilings and both tests for closing take."""
    return abs(loop.stride)


def difference_of(loop: Loop) -> Form:
    """D as one form: upper minus lower, of a loop that counts down lower minus upper."""
    if counts_down(loop):
        return subtract(loop.lower, loop.upper)
    return subtract(loop.upper, loop.lower)


def subtract(first: Form, second: Form) -> Form:
    """The first form minus the second, as one form."""
    return Form(
        first.constant - second.constant,
        tuple(a - b for a, b in zip(first.indexes, second.indexes)),
        tuple(a - b for a, b in zip(first.parameters, second.parameters)),
    )


def value(form: Form, indexes: list[int], parameters: Parameters) -> int:
    """The form at the enclosing loops' indexes, outermost first."""
    total = form.constant
    for factor, parameter in zip(form.parameters, parameters):
        total += factor * parameter
    for factor, index in zip(form.indexes, indexes):
        total += factor * index
    return total


def form_range(form: Form, index_ranges: list[Range], parameters: Parameters) -> Range:
    """The form's range, from the signs of its factors."""
    smallest = largest = value(form, [], parameters)
    for factor, index in zip(form.indexes, index_ranges):
        smallest += factor * (index.smallest if factor >= 0 else index.largest)
        largest += factor * (index.largest if factor >= 0 else index.smallest)
    return Range(smallest, largest)


def index_range(loop: Loop, index_ranges: list[Range], parameters: Parameters) -> Range:
    """From the lower form's smallest value to the larger of it and the upper's largest.

    Of a loop that counts down, from the smaller of the upper form's smallest value and the
    lower's largest, to the latter.
    """
    lower = form_range(loop.lower, index_ranges, parameters)
    upper = form_range(loop.upper, index_ranges, parameters)
    if counts_down(loop):
        return Range(min(upper.smallest, lower.largest), lower.largest)
    return Range(lower.smallest, max(lower.smallest, upper.largest))


def trips_for(difference: int, loop: Loop) -> int:
    """max(0, floor(D / stride) + 1), by the stride's size; Python's // rounds down."""
    return max(0, difference // stride_size(loop) + 1)


def pushed(form: Form, pushes: list[int]) -> int:
    """What pushes on the indexes, outermost first, add to a form."""
    return sum(factor * push for factor, push in zip(form.indexes, pushes))


class ReckonedLoop(NamedTuple):
    """What is printed of a loop: its own line, and where it is not closed the reason's."""

    offset: int
    loop_class: str
    ceiling: int
    reason: Optional[Reason]

    @property
    def closed(self) -> bool:
        return self.loop_class == CLOSED

    def report(self) -> LoopReport:
        """What its own line says."""
        return LoopReport(self.offset, self.loop_class, self.ceiling)

    def text(self) -> str:
        return f"loop {self.report().text()}\n" + (self.reason.line() if self.reason else "")


class LoopFacts(NamedTuple):
    """What is known of a loop at given parameter values."""

    difference: Range
    ceiling: int
    loop_class: str
    # why it is not closed
    reason: Optional[Reason]
    height: int
    # how many arms each choice has that stands directly in the body
    arms: tuple[int, ...]

    @property
    def closed(self) -> bool:
        return self.loop_class == CLOSED

    @property
    def ranked(self) -> bool:
        return self.loop_class == RANKED


def facts(records: list[Record], parameters: Parameters) -> dict[int, LoopFacts]:
    """The facts of every loop, by the position of its record, in sheet order."""
    body = tree(records)
    differences = difference_ranges(body, [], parameters)
    places = offsets(records)
    found: dict[int, LoopFacts] = {}
    for path in paths_in(body, []):
        node = path[-1]
        difference = differences[node.position]
        found[node.position] = LoopFacts(
            difference,
            trips_for(difference.largest, node.loop),
            class_of(path, differences, places),
            reason_of(path, differences, places),
            height(node),
            tuple(len(choice.arms) for choice in choices_directly_in(node.body)),
        )
    return found


def paths_in(body: Body, around: list[LoopNode]) -> list[list[LoopNode]]:
    """All loops of a body in sheet order, each after the loops around it, outermost first."""
    found: list[list[LoopNode]] = []
    for node in loops_directly_in(body):
        path = around + [node]
        found.append(path)
        found += paths_in(node.body, path)
    return found


def difference_ranges(
    body: Body, index_ranges: list[Range], parameters: Parameters
) -> dict[int, Range]:
    """The range of D of every loop of a body, by position."""
    found: dict[int, Range] = {}
    for node in loops_directly_in(body):
        found[node.position] = form_range(difference_of(node.loop), index_ranges, parameters)
        own = index_range(node.loop, index_ranges, parameters)
        found.update(difference_ranges(node.body, index_ranges + [own], parameters))
    return found


def reason_of(
    path: list[LoopNode], differences: dict[int, Range], places: list[int]
) -> Optional[Reason]:
    """Why the last loop of a path is not closed; None if it is. Choices come first, by offset."""
    for choice in choices_in(path[-1].body):
        if choice.holds_loop():
            return HoldsLoop(places[choice.position])
    return failing_loop(path, differences, places)


def class_of(path: list[LoopNode], differences: dict[int, Range], places: list[int]) -> str:
    """Ranked where the only bar to closing is choices that stand directly in its body (document 02, C-18).

    Each arm passes the tests itself where no choice inside it holds a loop and all its loops pass theirs.
    """
    node = path[-1]
    if reason_of(path, differences, places) is None:
        return CLOSED
    direct = [choice.position for choice in choices_directly_in(node.body)]
    deeper = [choice for choice in choices_in(node.body) if choice.position not in direct]
    if any(choice.holds_loop() for choice in deeper) or failing_loop(path, differences, places):
        return WALKED
    return RANKED


def failing_loop(
    path: list[LoopNode], differences: dict[int, Range], places: list[int]
) -> Optional[Reason]:
    """Which loop inside the last one of a path fails a test for closing it, in arms or not.

    The loops K inside in sheet order, for each K too few trips before uneven, and M from the
    loop itself inward to the one directly around K.
    """
    for *around, inner in paths_in(path[-1].body, path):
        if differences[inner.position].smallest < asked_difference(inner.loop):
            return TooFewTrips(places[inner.position])
        for mover in range(len(path) - 1, len(around)):
            if push(around, mover, inner.loop) % stride_size(inner.loop) != 0:
                return UnevenIn(places[inner.position], places[around[mover].position])
    return None


def asked_difference(inner: Loop) -> int:
    """The smallest D that closing asks of a loop inside (document 02, C-12).

    Where skip and start differ, the loop has to make a trip, and so pay start, each time it is met.
    """
    return -stride_size(inner) if skip_of(inner) == inner.start else 0


def push(around: list[LoopNode], mover: int, inner: Loop) -> int:
    """What the next trip of around[mover] adds to D of a loop inside, counters of all other loops held.

    The trip moves its own index by its stride, sign kept.
    """
    pushes: list[int] = []
    for depth, node in enumerate(around):
        own = node.loop.stride if depth == mover else 0
        pushes.append(own + pushed(node.loop.lower, pushes))
    return pushed(difference_of(inner), pushes)


def ceiling_refusal(records: list[Record], parameters: Parameters) -> Optional[Refusal]:
    """Refusal 6: the first loop with a ceiling above 2,048."""
    for report in loop_reports(records, parameters):
        if report.ceiling > CEILING_LIMIT:
            return Refusal(6, report.offset)
    return None


def accepted(sheet: bytes, parameters: Parameters) -> Union[list[Record], Refusal]:
    """The records of a sheet, or refusal 1 to 6."""
    records = read(sheet)
    if isinstance(records, Refusal):
        return records
    return ceiling_refusal(records, parameters) or records


def ways_of(loops: list[ReckonedLoop]) -> str:
    """c, r or w for each loop: closed, ranked, walked."""
    return "".join(loop.loop_class[0] for loop in loops)


def loop_reports(records: list[Record], parameters: Parameters) -> list[ReckonedLoop]:
    """What is printed of every loop, in sheet order."""
    places = offsets(records)
    return [
        ReckonedLoop(places[position], fact.loop_class, fact.ceiling, fact.reason)
        for position, fact in facts(records, parameters).items()
    ]
