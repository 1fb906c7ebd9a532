"""Stored cases of the stage: the states after every stage, for the program that runs them.

    python3 stage_cases.py FILE [--check]

writes FILE, or with --check compares it with what stands there. A case has the
header of sheet_cases.py with 5 as its first byte, the number of stages in place
of the number of records, the length of what follows the sheet in place of the
expected length, and 0 for what it has not. After the sheet follow the four
parameters, 2 bytes each, and for each stage the state that it returns: the
records passed, 2 bytes, the visits, 4 bytes, the least and the most of the
innermost open trip or arm, or else of the sheet, 8 bytes each, how many arms are
kept, 2 bytes, and the least and the most of each, 8 bytes each: those of the
visited trips in order, then those of the open trip, in each as they were passed.
The last stage but one reaches the sheet's end; the last one stays there. A
refused or empty sheet has one stage, which changes nothing.
"""

from random import Random
from typing import Callable, Iterator

from generate import SIZES, Case, parameters, valid_records
from kept import kept_cases
from nest import counts_down
from pumdalin.answers import Refusal
from pumdalin.inputs import encode_parameters
from pumdalin.records import encode_all, two_bytes_each
from ranked import ranked_case
from ranked_sorts import RANKED_SORTS, ranked_sorts
from sheet import skip_of
from stages import Nest, State, at_end, first_state, nest_of, next_state
from stored import main
from text_limits import TEXT_LENGTH
from tree import LoopNode, choices_in, height, loops_directly_in, loops_in, tree
from trips import Bounds, trips_of

SEED = 2052
STAGES = 5
# of a case that has one; a stage takes none
BUDGET = 1_000_000
# a case's states have to fit in the program's space, which is that of the longest text
MOST_STAGES = 150
MOST_BYTES = TEXT_LENGTH
# at least so many random sheets of each sort
EACH_SORT = 130
EACH_RANKED_SORT = 12
SORTS = (
    "walked", "closed", "choice with a loop", "four deep", "no trip", "skip inside",
    "walked, counts down", "closed, counts down", "both directions",
)


def states_of(nest: Nest) -> list[State]:
    """The states after every stage up to the sheet's end, and after one more; none where they are too many."""
    states: list[State] = []
    state = first_state()
    while len(states) < MOST_STAGES:
        ended = at_end(nest, state)
        state = next_state(nest, state)
        states.append(state)
        if ended:
            return states
    return []


def sums(bounds: Bounds) -> bytes:
    return bounds.least.to_bytes(8, "little") + bounds.most.to_bytes(8, "little")


def kept_arms(state: State) -> list[Bounds]:
    """Those of the visited trips in order, then those of the open one."""
    return [arm for trip in state.arms.trips() for arm in trip]


def line(state: State) -> bytes:
    arms = kept_arms(state)
    own = two_bytes_each(state.position) + state.visits.to_bytes(4, "little") + sums(state.current)
    return own + two_bytes_each(len(arms)) + b"".join(map(sums, arms))


def stored(case: Case) -> bytes:
    """The case with its states; nothing where these are too many. A refused sheet leaves the first state as it is."""
    nest = nest_of(case.sheet, case.parameters)
    states = [first_state()] if isinstance(nest, Refusal) else states_of(nest)
    given = encode_parameters(case.parameters) + b"".join(map(line, states))
    if not states or len(given) > MOST_BYTES:
        return b""
    head = bytes([STAGES, 0]) + two_bytes_each(len(case.sheet), len(states), len(given), 0, 0)
    return head + case.sheet + given


def sorts_of(nest: Nest) -> set[str]:
    """Which of the sorts it is of."""
    body = tree(nest.records)
    facts = nest.known.values()
    outermost = loops_directly_in(body)
    tests = (
        any(not fact.closed for fact in facts),
        any(fact.closed and fact.height > 0 for fact in facts),
        any(choice.holds_loop() for choice in choices_in(body)),
        any(height(loop) == 3 for loop in outermost),
        any(trips_of(node.loop, [], nest.parameters) == 0 for node in outermost),
        any(may_skip(node, nest) for outer in outermost for node in loops_in(outer.body)),
        any(not nest.known[node.position].closed for node in loops_in(body) if counts_down(node.loop)),
        any(nest.known[node.position].closed and height(node) > 0 for node in loops_in(body) if counts_down(node.loop)),
        any(both_directions(outer, nest) for outer in outermost),
    )
    return {sort for sort, holds in zip(SORTS, tests) if holds}


def both_directions(outer: LoopNode, nest: Nest) -> bool:
    """Whether it makes trips, and a loop inside that may make some counts the other way."""
    inside = [node for node in loops_in(outer.body) if counts_down(node.loop) != counts_down(outer.loop)]
    return nest.known[outer.position].ceiling > 1 and any(nest.known[node.position].ceiling > 1 for node in inside)


def may_skip(node: LoopNode, nest: Nest) -> bool:
    """Whether it may make no trip and then costs other than its start."""
    return skip_of(node.loop) != node.loop.start and nest.known[node.position].difference.smallest < 0


def random_cases(random: Random) -> Iterator[Case]:
    """Valid sheets of all sizes in turn, without end."""
    while True:
        for size in SIZES.values():
            yield Case("valid", encode_all(valid_records(random, size)), parameters(random), BUDGET)


def ranked_cases(random: Random) -> Iterator[Case]:
    while True:
        yield ranked_case(random)


def wanted_cases(cases: Iterator[Case], sorts: dict[str, int], found_sorts: Callable[[Nest], set[str]]) -> list[Case]:
    """Sheets of which each is of a sort that there are not yet enough of."""
    left = dict(sorts)
    chosen: list[Case] = []
    for case in cases:
        nest = nest_of(case.sheet, case.parameters)
        if isinstance(nest, Refusal) or not stored(case):
            continue
        wanted = {sort for sort in found_sorts(nest) if left[sort] > 0}
        if wanted:
            chosen.append(case)
            left.update({sort: left[sort] - 1 for sort in wanted})
        if not any(left.values()):
            break
    return chosen


def all_cases() -> bytes:
    random = Random(SEED)
    wanted = wanted_cases(random_cases(random), dict.fromkeys(SORTS, EACH_SORT), sorts_of)
    ranked = wanted_cases(ranked_cases(random), dict.fromkeys(RANKED_SORTS, EACH_RANKED_SORT), ranked_sorts)
    return b"".join(map(stored, kept_cases() + wanted + ranked))


if __name__ == "__main__":
    main(all_cases)
