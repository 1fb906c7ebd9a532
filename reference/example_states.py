"""States.antt: the state after every stage, for small sheets."""

from typing import NamedTuple, Optional

import antt
import known
import stages
from antt import Equation, inner, listed, term
from known import END, UNIT, ZERO, form, loop, span
from pumdalin.inputs import Parameters
from pumdalin.records import Choice, Loop, NextArm, Record, Work, encode_all
from stages import NO_ARMS, ChoiceFrame, Frame, KeptArms, LoopFrame, Nest, State
from trips import Bounds

# Whether loops get names of their own, which keeps the text short.
NAME_LOOPS = True


class Example(NamedTuple):
    tells: str
    records: list[Record]
    parameters: Parameters = ZERO


EXAMPLES = [
    Example("costs: i 0 to 9", known.COSTS),
    Example("closed: i 0 to 9, j 0 to i - 1", known.TRIANGLE),
    Example("walked: i 0 to 9, j 0 to i by 2", known.UNEVEN),
    Example("closed, three deep", known.THREE_DEEP),
    Example("ranked, not settled: a loop in an arm", known.LOOP_IN_ARM),
    Example("no trip", known.NO_TRIP),
    Example("walked with start and step, the inner loop empty in later trips", [
        span(1, 3, start=7, step=2), Work(1, 3),
        loop(form(i=1), form(1), start=5, step=1), Work(2, 4), END, END,
    ]),
    Example("a choice of three arms in a closed nest, a work after it", [
        span(0, 4, start=1, step=2), Choice(), Work(3, 4), NextArm(), Work(1, 9), NextArm(),
        Work(2, 2), END, Work(3, 5), loop(form(0), form(i=1), start=4, step=6), Work(0, 1), END,
        END,
    ]),
    Example("loops in both arms of a sheet's choice, a work after it", [
        Work(1, 1), Choice(), span(0, 4, step=1), Work(2, 3), END, NextArm(),
        span(0, 2, start=9), Work(1, 7), END, Work(5, 5), END, Work(2, 8),
    ]),
    Example("a closed nest in a ranked loop", [
        span(0, 2, start=3, step=1), Choice(),
        loop(form(0), form(3, i=1), start=1, step=2), loop(form(0), form(j=1), step=1),
        Work(1, 2), END, END, NextArm(), Work(6, 60), END, END,
    ]),
    Example("a loop with no trip in the middle, choices in it", [
        Work(1, 2), span(5, 4, start=7, step=9), Choice(), Work(4, 4), NextArm(),
        span(0, 3), END, END, END, Work(10, 20),
    ]),
    Example("two loops after one another, twice", [
        span(0, 3, start=1), loop(form(0), form(i=1)), UNIT, END,
        loop(form(i=-1), form(3), step=2), Work(0, 2), END, END,
        span(0, 8, stride=4, step=1), Work(3, 3), END,
    ]),
    Example("choices in choices, empty arms, in a loop", [
        span(1, 2, step=1), Choice(), Choice(), Work(2, 3), NextArm(), END, Work(1, 1),
        NextArm(), Choice(), END, loop(form(3), form(3, i=1), stride=2), UNIT, END, END,
        Work(4, 4), END,
    ]),
    Example("three arms, the first with both extremes; a nest in the last, walked by the outer range", [
        span(0, 3, step=1), Choice(), Work(1, 90), NextArm(), Work(3, 4), NextArm(),
        span(0, 2), loop(form(i=1), form(1)), UNIT, END, END, END, END,
    ]),
    Example("skip in place of start, and start in place of skip", [
        Work(1, 2), span(5, 4, start=7, step=9, skip=3), UNIT, END,
        span(0, 1, start=7, step=1, skip=3), UNIT, END, Work(10, 20),
    ]),
    Example("walked: the inner loop pays skip in the first trip", [
        span(0, 2, start=1), loop(form(0), form(-1, i=1), start=5, step=1, skip=2), Work(1, 3), END, END,
    ]),
    Example("closed: the inner loop, of kind 6, has a trip at least", [
        span(0, 3, skip=4), loop(form(0), form(i=1), start=5, skip=2), UNIT, END, END,
    ]),
    Example("skip in an arm", [
        span(0, 1), Choice(), loop(form(0), form(-1, i=1), start=9, skip=2), UNIT, END, NextArm(), Work(4, 4), END, END,
    ]),
    Example("closed, both directions: i 2 down to 0, j i to 3", [
        span(2, 0, -1, start=1, step=1), loop(form(i=1), form(3), start=2), Work(1, 2), END, END,
    ]),
    Example("walked, both directions: i 0 to 2, j i down to 0 by 2", [
        span(0, 2), loop(form(i=1), form(), -2, start=1, step=3), Work(1, 2), END, END,
    ]),
    Example("ranked, settled: two choices, a work between them, a loop in each", [
        span(0, 4, start=3, step=1), Choice(), Work(1, 2), loop(form(0), form(i=1), start=1), Work(2, 3), END, NextArm(),
        Work(1, 1), END, Work(0, 4), Choice(), loop(form(0), form(-1, i=1), step=2), UNIT, END, NextArm(), END, END,
    ]),
    Example("ranked, settled, height 2: three arms, a choice without loops in one", [
        span(0, 5), Choice(), loop(form(0), form(i=1), step=1), loop(form(0), form(j=1)), Work(1, 2), END, END, NextArm(),
        Choice(), Work(1, 1), NextArm(), Work(0, 2), END, NextArm(), loop(form(0), form(i=1)), UNIT, END, END, END,
    ]),
    Example("ranked, entered anew in a walked loop: settled at i = 1, not settled at i = 2 and 3", [
        span(1, 3, step=1), span(0, 3, start=2), Choice(), loop(form(0), form(j=1)), UNIT, END, NextArm(),
        loop(form(1), form(i=1)), UNIT, END, END, END, END,
    ]),
    Example("ranked, fewer trips than height + 1, in an arm of the sheet", [
        Choice(), span(0, 1), Choice(), loop(form(0), form(i=1)), loop(form(0), form(j=1)), UNIT, END, END, NextArm(),
        Work(2, 2), END, END, NextArm(), Work(3, 3), END,
    ]),
    Example("parameters, a negative factor, strides", [
        loop(form(p=(1,)), form(p=(1, 0, 2)), stride=3), Work(1, 2),
        loop(form(1, i=-1), form(20, i=-1, p=(0, -1)), stride=2, start=2), Work(5, 6), END, END,
    ], (-4, 7, 3, 0)),
]


def bounds(value: Bounds) -> str:
    return term("bounds", str(value.least), str(value.most))


def optional_bounds(value: Optional[Bounds]) -> str:
    return term("none") if value is None else term("some", inner(bounds(value)))


def all_bounds(values: tuple[Bounds, ...]) -> str:
    return inner(listed([bounds(value) for value in values]))


def kept_arms(arms: KeptArms) -> str:
    visited = inner(listed([all_bounds(trip) for trip in arms.visited]))
    return term("kept arms", visited, all_bounds(arms.opened))


class Writer:
    """Writes the states of one example; `number` tells its definitions apart."""

    def __init__(self, number: int, nest: Nest) -> None:
        self.number = number
        self.nest = nest
        self.list_name = f"records{number}"

    def loop_name(self, position: int) -> str:
        value = self.nest.records[position]
        return f"loop{self.number}-{position}" if NAME_LOOPS else inner(antt.loop_of(value))

    def remaining(self, position: int) -> str:
        """The records from a position on."""
        return inner(term("drop", str(position), self.list_name))

    def definitions(self) -> list[str]:
        """The record list, and before it the loops that have names."""
        parts: list[str] = []
        texts: list[str] = []
        for position, value in enumerate(self.nest.records):
            is_loop = isinstance(value, Loop)
            if is_loop and NAME_LOOPS:
                name = self.loop_name(position)
                parts.append(antt.definition(name, antt.NAME["loop type"], antt.loop_of(value)))
            texts.append(antt.record(value, self.loop_name(position) if is_loop else None))
        parts.append(antt.definition(self.list_name, antt.NAME["record list"], listed(texts)))
        return parts

    def frame(self, frame: Frame) -> str:
        if isinstance(frame, ChoiceFrame):
            passed = inner(optional_bounds(frame.passed))
            return term("choice frame", passed, inner(bounds(frame.enclosing)))
        assert isinstance(frame, LoopFrame)
        return term(
            "loop frame",
            self.loop_name(frame.position),
            self.remaining(frame.position + 1),
            str(frame.counter),
            all_bounds(frame.visited),
            inner(bounds(frame.enclosing)),
        )

    def state(self, state: State) -> str:
        frames = inner(listed([self.frame(frame) for frame in state.frames]))
        parts = [self.remaining(state.position), inner(bounds(state.current)), frames, str(state.visits)]
        if state.arms == NO_ARMS:
            return term("state", *parts)
        return term("state keeping", inner(kept_arms(state.arms)), *parts)

    def equations(self) -> list[Equation]:
        """From 0 to visits + 2 stages: the last one finds the sheet's end again."""
        found: list[Equation] = []
        state = stages.first_state()
        count = 0
        beyond = 0
        while beyond < 2:
            beyond += stages.at_end(self.nest, state)
            left = term("state after", str(count), self.list_name,
                        antt.parameters(self.nest.parameters))
            found.append(Equation("", left, self.state(state)))
            state = stages.next_state(self.nest, state)
            count += 1
        return found


def states_file() -> str:
    parts: list[str] = []
    for number, example in enumerate(EXAMPLES, 1):
        nest = stages.nest_of(encode_all(example.records), example.parameters)
        assert isinstance(nest, Nest), (example.tells, nest)
        writer = Writer(number, nest)
        parts.append(f"-- {number}. {example.tells}")
        parts += writer.definitions()
        parts.append(antt.theorem(f"states-{number}", writer.equations()))
    comments = ["The state after every stage, from 0 to visits + 2 stages."]
    return antt.file_text("States.antt", comments, parts)
