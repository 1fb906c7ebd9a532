"""The stage machine, state by state.

A stage passes records, each at most once, from where the state stands to the
start of the next visit, or to the sheet's end. Only states that stages from
the first state reach are taken.
"""

from dataclasses import dataclass, replace
from typing import Optional, Union

from nest import LoopFacts, accepted, facts
from newton import newton_sum
from pumdalin.answers import Refusal
from pumdalin.inputs import Parameters
from pumdalin.records import Choice, End, Loop, NextArm, Record, Work
from ranking import Choices, settled
from trips import NOTHING, Bounds, both, entry_cost, index_of, trips_of
from visiting import first_trips


@dataclass(frozen=True)
class LoopFrame:
    """An open loop.

    `visited` holds the sums of the visited trips before the open one: of a
    closed loop one each, oldest first; of a walked loop a single sum of them,
    and nothing before the second trip; of a ranked loop as of a closed one in
    the first trips, and as of a walked one after them. `enclosing` is the sum
    of what was passed just around the loop, the loop's start included.
    """

    position: int
    counter: int
    visited: tuple[Bounds, ...]
    enclosing: Bounds


@dataclass(frozen=True)
class ChoiceFrame:
    """An open choice: the arms already passed, and the sum just around it."""

    passed: Optional[Bounds]
    enclosing: Bounds


Frame = Union[LoopFrame, ChoiceFrame]


@dataclass(frozen=True)
class KeptArms:
    """Of the open ranked loop, in its first trips, the arms of the choices directly in its body.

    One tuple for each visited trip, and those of the open trip that are passed;
    in each the arms in the order in which they are passed. All loops around a
    ranked loop are walked and all in it closed, so no two are open together.
    """

    visited: tuple[tuple[Bounds, ...], ...] = ()
    opened: tuple[Bounds, ...] = ()

    def with_arm(self, arm: Bounds) -> "KeptArms":
        return replace(self, opened=self.opened + (arm,))

    def trips(self) -> tuple[tuple[Bounds, ...], ...]:
        """Those of every trip, where the open one is at its end."""
        return self.visited + (self.opened,)


NO_ARMS = KeptArms()


@dataclass(frozen=True)
class State:
    """`current` is the sum of the innermost open trip or arm, or else of the sheet.

    `position` counts the records passed from the sheet's start; `frames` is
    what is open, innermost first.
    """

    position: int
    current: Bounds
    frames: tuple[Frame, ...]
    visits: int
    arms: KeptArms = NO_ARMS


@dataclass(frozen=True)
class Nest:
    """What the stages of a sheet need of it, worked out once."""

    records: list[Record]
    parameters: Parameters
    known: dict[int, LoopFacts]
    ends: dict[int, int]


def first_state() -> State:
    return State(0, NOTHING, (), 0)


def end_positions(records: list[Record]) -> dict[int, int]:
    """For each loop and choice, by position, the position of its end."""
    ends: dict[int, int] = {}
    opened: list[int] = []
    for position, record in enumerate(records):
        if isinstance(record, (Loop, Choice)):
            opened.append(position)
        elif isinstance(record, End):
            ends[opened.pop()] = position
    return ends


def nest_of(sheet: bytes, parameters: Parameters) -> Union[Nest, Refusal]:
    """The nest of a sheet that is not refused 1 to 6."""
    records = accepted(sheet, parameters)
    if isinstance(records, Refusal):
        return records
    return nest_from(records, parameters)


def nest_from(records: list[Record], parameters: Parameters) -> Nest:
    """The nest of records that are not refused."""
    return Nest(records, parameters, facts(records, parameters), end_positions(records))


def stage(sheet: bytes, parameters: Parameters, state: State) -> State:
    """The next state. A sheet that is refused 1 to 6 leaves the state as it is."""
    nest = nest_of(sheet, parameters)
    if isinstance(nest, Refusal):
        return state
    return next_state(nest, state)


def at_end(nest: Nest, state: State) -> bool:
    return state.position == len(nest.records)


def next_state(nest: Nest, state: State) -> State:
    """One stage: it ends where a visit begins, or at the sheet's end."""
    visits_before = state.visits
    while state.visits == visits_before and not at_end(nest, state):
        state = pass_record(nest, state)
    return state


def pass_record(nest: Nest, state: State) -> State:
    """Passes the record at which the state stands."""
    record = nest.records[state.position]
    if isinstance(record, Work):
        return onward(state, state.current.plus(Bounds(record.least, record.most)))
    if isinstance(record, Loop):
        return pass_loop(nest, record, state)
    if isinstance(record, Choice):
        opened = ChoiceFrame(None, state.current)
        return onward(replace(state, frames=(opened,) + state.frames), NOTHING)
    innermost, outer = state.frames[0], state.frames[1:]
    if isinstance(innermost, LoopFrame):
        return pass_loop_end(nest, innermost, state)
    passed = with_arm(innermost.passed, state.current)
    if keeps_arms(nest, outer):
        state = replace(state, arms=state.arms.with_arm(state.current))
    if isinstance(record, NextArm):
        left = ChoiceFrame(passed, innermost.enclosing)
        return onward(replace(state, frames=(left,) + outer), NOTHING)
    return onward(replace(state, frames=outer), innermost.enclosing.plus(passed))


def keeps_arms(nest: Nest, around: tuple[Frame, ...]) -> bool:
    """Whether a choice with this around it stands directly in one of a ranked loop's first trips."""
    if not around or isinstance(around[0], ChoiceFrame):
        return False
    fact = nest.known[around[0].position]
    return fact.ranked and around[0].counter <= fact.height


def onward(state: State, current: Bounds) -> State:
    """The state one record further, with another innermost sum."""
    return replace(state, position=state.position + 1, current=current)


def with_arm(passed: Optional[Bounds], arm: Bounds) -> Bounds:
    return arm if passed is None else passed.or_arm(arm)


def open_indexes(nest: Nest, frames: tuple[Frame, ...]) -> list[int]:
    """The indexes of the open loops, outermost first, from their counters."""
    indexes: list[int] = []
    for frame in reversed(frames):
        if isinstance(frame, LoopFrame):
            loop = nest.records[frame.position]
            indexes.append(index_of(loop, frame.counter, indexes, nest.parameters))
    return indexes


def pass_loop(nest: Nest, loop: Loop, state: State) -> State:
    """Adds start and opens the first trip; or adds skip and goes on after the loop's end."""
    trips = trips_of(loop, open_indexes(nest, state.frames), nest.parameters)
    around = state.current.plus(both(entry_cost(loop, trips)))
    if trips == 0:
        return replace(state, position=nest.ends[state.position] + 1, current=around)
    frame = LoopFrame(state.position, 0, (), around)
    return open_trip(frame, state.frames, state.visits, state.arms)


def open_trip(frame: LoopFrame, outer: tuple[Frame, ...], visits: int, arms: KeptArms) -> State:
    """A trip opens with sums 0: this begins a visit."""
    return State(frame.position + 1, NOTHING, (frame,) + outer, visits + 1, arms)


def pass_loop_end(nest: Nest, frame: LoopFrame, state: State) -> State:
    """Adds one step; then opens a further trip, or leaves the loop."""
    loop = nest.records[frame.position]
    fact = nest.known[frame.position]
    outer = state.frames[1:]
    trips = trips_of(loop, open_indexes(nest, outer), nest.parameters)
    ended = TripEnd(fact, frame, trips, frame.visited + (state.current.plus(both(loop.step)),), state.arms)
    if frame.counter + 1 < ended.to_visit():
        further = replace(frame, counter=frame.counter + 1, visited=ended.kept_sums())
        return open_trip(further, outer, state.visits, ended.arms_after())
    left = replace(state, frames=outer, arms=ended.arms_left())
    return onward(left, frame.enclosing.plus(ended.total()))


@dataclass(frozen=True)
class TripEnd:
    """The end of a visited trip of a loop that makes so many; `sums` has the trip's own as its last."""

    fact: LoopFacts
    frame: LoopFrame
    trips: int
    sums: tuple[Bounds, ...]
    arms: KeptArms

    def more_first_trips(self) -> bool:
        """Whether a ranked loop has not come to its decision yet."""
        return self.frame.counter + 1 < first_trips(self.trips, self.fact)

    def is_decision(self) -> bool:
        """Whether a ranked loop decides here, at the last of its first trips."""
        return self.fact.ranked and self.frame.counter + 1 == first_trips(self.trips, self.fact)

    def is_summed(self) -> bool:
        """Whether the trips that are not visited follow from the differences."""
        return self.fact.closed or self.is_decision() and settled(self.kept_choices())

    def kept_choices(self) -> list[Choices]:
        """The kept arms of each trip, choice by choice."""
        return [split(arms, self.fact.arms) for arms in self.arms.trips()]

    def to_visit(self) -> int:
        return first_trips(self.trips, self.fact) if self.is_summed() else self.trips

    def kept_sums(self) -> tuple[Bounds, ...]:
        """One for each trip, or where no differences will be taken a single one."""
        if self.fact.closed or self.fact.ranked and self.more_first_trips():
            return self.sums
        return (add_up(self.sums),)

    def arms_after(self) -> KeptArms:
        """What is kept for the next trip."""
        if not self.fact.ranked:
            return self.arms
        return KeptArms(self.arms.trips()) if self.more_first_trips() else NO_ARMS

    def arms_left(self) -> KeptArms:
        """What is kept where the loop is left."""
        return NO_ARMS if self.fact.ranked else self.arms

    def total(self) -> Bounds:
        return newton_sum(self.sums, self.trips) if self.is_summed() else add_up(self.sums)


def split(arms: tuple[Bounds, ...], counts: tuple[int, ...]) -> Choices:
    """The arms that follow one another, in parts of so many each."""
    starts = [sum(counts[:number]) for number in range(len(counts))]
    return [arms[start:start + count] for start, count in zip(starts, counts)]


def add_up(sums: tuple[Bounds, ...]) -> Bounds:
    return Bounds(sum(b.least for b in sums), sum(b.most for b in sums))


def run_stages(nest: Nest, budget: int) -> State:
    """Repeats the stage until the sheet's end, or until the visits pass the budget."""
    state = first_state()
    while not at_end(nest, state) and state.visits <= budget:
        state = next_state(nest, state)
    return state
