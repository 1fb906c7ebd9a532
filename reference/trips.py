"""The trip by trip reckoning: times by going over every trip."""

from typing import Callable, NamedTuple

from nest import difference_of, trips_for, value
from pumdalin.inputs import Parameters
from pumdalin.records import Loop, Record, Work
from sheet import skip_of
from tree import Body, ChoiceNode, LoopNode, tree


class Bounds(NamedTuple):
    """Least and most cycles."""

    least: int
    most: int

    def plus(self, other: "Bounds") -> "Bounds":
        return Bounds(self.least + other.least, self.most + other.most)

    def or_arm(self, other: "Bounds") -> "Bounds":
        """The smallest least and the largest most."""
        return Bounds(min(self.least, other.least), max(self.most, other.most))


NOTHING = Bounds(0, 0)


def both(cycles: int) -> Bounds:
    return Bounds(cycles, cycles)


class TooMany(Exception):
    """More trips, or more visits, than the reckoning was allowed."""


class Meter:
    """Counts up to a limit."""

    def __init__(self, limit: int) -> None:
        self.count = 0
        self.limit = limit

    def add_one(self) -> None:
        self.count += 1
        if self.count > self.limit:
            raise TooMany


def trips_of(loop: Loop, indexes: list[int], parameters: Parameters) -> int:
    """The number of trips of a loop at the indexes around it."""
    return trips_for(value(difference_of(loop), indexes, parameters), loop)


def entry_cost(loop: Loop, trip_count: int) -> int:
    """Start, or skip in its place when there is no trip (document 02, C-12)."""
    return loop.start if trip_count > 0 else skip_of(loop)


def index_of(loop: Loop, counter: int, indexes: list[int], parameters: Parameters) -> int:
    """The loop's index in the trip with the given counter, the first 0: each trip moves it by the stride, sign kept."""
    return value(loop.lower, indexes, parameters) + counter * loop.stride


def body_time(body: Body, time_of: Callable[[LoopNode], Bounds]) -> Bounds:
    """What follows one another adds up, where `time_of` has what a loop takes."""
    total = NOTHING
    for node in body:
        if isinstance(node, Work):
            total = total.plus(Bounds(node.least, node.most))
        elif isinstance(node, LoopNode):
            total = total.plus(time_of(node))
        else:
            total = total.plus(choice_time(node, time_of))
    return total


def choice_time(choice: ChoiceNode, time_of: Callable[[LoopNode], Bounds]) -> Bounds:
    """The smallest least and the largest most of the arms."""
    arms = [body_time(arm, time_of) for arm in choice.arms]
    total = arms[0]
    for arm in arms[1:]:
        total = total.or_arm(arm)
    return total


def every_trip(body: Body, indexes: list[int], parameters: Parameters, meter: Meter) -> Bounds:
    """What a body takes, by every trip of its loops."""
    return body_time(body, lambda node: loop_time(node, indexes, parameters, meter))


def loop_time(node: LoopNode, indexes: list[int], parameters: Parameters, meter: Meter) -> Bounds:
    """Start, plus for each trip the body and one step; with no trip skip."""
    trip_count = trips_of(node.loop, indexes, parameters)
    total = both(entry_cost(node.loop, trip_count))
    for counter in range(trip_count):
        meter.add_one()
        index = index_of(node.loop, counter, indexes, parameters)
        total = total.plus(every_trip(node.body, indexes + [index], parameters, meter))
        total = total.plus(both(node.loop.step))
    return total


def time(records: list[Record], parameters: Parameters, limit: int) -> Bounds:
    """Least and most of a sheet, trip by trip; TooMany if it takes more trips than `limit`."""
    return every_trip(tree(records), [], parameters, Meter(limit))


def trips(records: list[Record], parameters: Parameters, limit: int) -> int:
    """The trips that the reckoning above goes over, those of inner loops included."""
    meter = Meter(limit)
    every_trip(tree(records), [], parameters, meter)
    return meter.count
