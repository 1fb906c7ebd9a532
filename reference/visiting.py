"""The visits of a sheet, by their definition."""

from nest import LoopFacts, facts
from newton import newton_sum
from pumdalin.inputs import Parameters
from pumdalin.records import Record
from ranking import Choices, settled
from tree import Body, ChoiceNode, LoopNode, choices_directly_in, tree
from trips import Bounds, Meter, body_time, both, entry_cost, index_of, trips_of


def first_trips(trip_count: int, fact: LoopFacts) -> int:
    """How many trips of an entry a closed loop visits, and a ranked one before it decides."""
    return min(trip_count, fact.height + 1)


def summed(node: LoopNode, indexes: list[int], parameters: Parameters, known: dict[int, LoopFacts]) -> bool:
    """Whether all but the first trips of an entry are summed: of a ranked loop where these settle each choice."""
    fact = known[node.position]
    if not fact.ranked:
        return fact.closed
    count = first_trips(trips_of(node.loop, indexes, parameters), fact)
    return settled([choices_at(node, counter, indexes, parameters, known) for counter in range(count)])


def choices_at(
    node: LoopNode, counter: int, indexes: list[int], parameters: Parameters, known: dict[int, LoopFacts]
) -> Choices:
    """The least and most of each arm of the choices directly in a loop's body, in the trip with this counter."""
    inside = indexes + [index_of(node.loop, counter, indexes, parameters)]
    return [
        [arm_time(arm, inside, parameters, known) for arm in choice.arms]
        for choice in choices_directly_in(node.body)
    ]


def arm_time(body: Body, indexes: list[int], parameters: Parameters, known: dict[int, LoopFacts]) -> Bounds:
    """What a body takes in which all loops are closed. Their first trips stand for all, since these can be too many."""
    return body_time(body, lambda node: closed_loop_time(node, indexes, parameters, known))


def closed_loop_time(
    node: LoopNode, indexes: list[int], parameters: Parameters, known: dict[int, LoopFacts]
) -> Bounds:
    assert known[node.position].closed
    count = trips_of(node.loop, indexes, parameters)
    visited: list[Bounds] = []
    for counter in range(first_trips(count, known[node.position])):
        index = index_of(node.loop, counter, indexes, parameters)
        body = arm_time(node.body, indexes + [index], parameters, known)
        visited.append(body.plus(both(node.loop.step)))
    return both(entry_cost(node.loop, count)).plus(newton_sum(tuple(visited), count))


def to_visit(node: LoopNode, indexes: list[int], parameters: Parameters, known: dict[int, LoopFacts]) -> int:
    """How many trips of an entry are visited."""
    trip_count = trips_of(node.loop, indexes, parameters)
    if summed(node, indexes, parameters, known):
        return first_trips(trip_count, known[node.position])
    return trip_count


def visit_body(
    body: Body,
    indexes: list[int],
    parameters: Parameters,
    known: dict[int, LoopFacts],
    meter: Meter,
) -> None:
    """Counts the visits of a body: those of its loops, each entered once; all arms count."""
    for node in body:
        if isinstance(node, ChoiceNode):
            for arm in node.arms:
                visit_body(arm, indexes, parameters, known, meter)
        elif isinstance(node, LoopNode):
            for counter in range(to_visit(node, indexes, parameters, known)):
                meter.add_one()
                index = index_of(node.loop, counter, indexes, parameters)
                visit_body(node.body, indexes + [index], parameters, known, meter)


def visits(records: list[Record], parameters: Parameters, limit: int) -> int:
    """The sheet's visits by their definition; TooMany if there are more than `limit`."""
    meter = Meter(limit)
    visit_body(tree(records), [], parameters, facts(records, parameters), meter)
    return meter.count
