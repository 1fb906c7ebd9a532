"""Which sorts of ranked loops a sheet has, by how its stages go through them."""

from typing import Callable, NamedTuple

from nest import LoopFacts
from ranking import Choices, at_least, has_fastest, has_slowest, newton_series, settled
from stages import LoopFrame, Nest, at_end, first_state, next_state, open_indexes
from tree import LoopNode, loops_in, tree
from trips import trips_of
from visiting import choices_at, first_trips

MOST_STAGES = 2000
MANY_ARMS = 6


class Entry(NamedTuple):
    """A ranked loop as it is entered once: its trips, and the arms of the first of them."""

    node: LoopNode
    fact: LoopFacts
    trips: int
    first: list[Choices]

    @property
    def settled(self) -> bool:
        """With trips that are not visited."""
        return self.has_more_trips() and settled(self.first)

    @property
    def crosses(self) -> bool:
        """Not settled, with trips beyond the first ones."""
        return self.has_more_trips() and not settled(self.first)

    def has_more_trips(self) -> bool:
        return self.trips > self.fact.height + 1

    def series(self, figure: str) -> list[list[list[int]]]:
        """Of each choice the series of each arm's least or most."""
        return [[newton_series([getattr(arm, figure) for arm in arm_trips]) for arm_trips in zip(*of_choice)]
                for of_choice in zip(*self.first)]


def entries_of(nest: Nest) -> list[Entry]:
    """The entries of ranked loops that make a trip."""
    nodes = {node.position: node for node in loops_in(tree(nest.records))}
    found: dict[tuple, Entry] = {}
    state = first_state()
    while not at_end(nest, state) and state.visits < MOST_STAGES:
        state = next_state(nest, state)
        for depth, frame in enumerate(state.frames):
            around = state.frames[depth + 1:]
            if isinstance(frame, LoopFrame) and nest.known[frame.position].ranked and (frame.position, around) not in found:
                found[frame.position, around] = entry_at(nest, nodes[frame.position], open_indexes(nest, around))
    return list(found.values())


def entry_at(nest: Nest, node: LoopNode, indexes: list[int]) -> Entry:
    fact = nest.known[node.position]
    trips = trips_of(node.loop, indexes, nest.parameters)
    first = [choices_at(node, counter, indexes, nest.parameters, nest.known) for counter in range(first_trips(trips, fact))]
    return Entry(node, fact, trips, first)


def falls(entry: Entry) -> bool:
    return any(min(series) < 0 for arms in entry.series("most") for series in arms)


def third_wins(entry: Entry) -> bool:
    """Two arms cross, and another is above both."""
    return any(has_slowest(arms) and any(not at_least(one, other) and not at_least(other, one) for one in arms for other in arms)
               for arms in entry.series("most"))


def one_arm_is_both(entry: Entry) -> bool:
    """In a choice of several arms the slowest is the fastest too, and others are between."""
    return any(len(leasts) > 1 and mosts[0] != mosts[-1] and any(
        all(at_least(most, other) for other in mosts) and all(at_least(other, least) for other in leasts)
        for least, most in zip(leasts, mosts)) for leasts, mosts in zip(entry.series("least"), entry.series("most")))


def only_one_figure(entry: Entry) -> bool:
    """A choice has a slowest arm and no fastest, or the other way round."""
    return any(has_fastest(leasts) != has_slowest(mosts) for leasts, mosts in zip(entry.series("least"), entry.series("most")))


def loop_beside(entry: Entry) -> bool:
    return any(isinstance(part, LoopNode) for part in entry.node.body)


TESTS: dict[str, Callable[[Entry], bool]] = {
    "fewer trips than height + 1": lambda entry: entry.trips <= entry.fact.height,
    "one arm": lambda entry: entry.settled and 1 in entry.fact.arms,
    "two choices": lambda entry: entry.settled and len(entry.fact.arms) > 1,
    "many arms, settled": lambda entry: entry.settled and max(entry.fact.arms) > MANY_ARMS,
    "many arms, crossing": lambda entry: entry.crosses and max(entry.fact.arms) > MANY_ARMS,
    "falling arm, settled": lambda entry: entry.settled and falls(entry),
    "falling arm, crossing": lambda entry: entry.crosses and falls(entry),
    "third arm above two that cross": lambda entry: entry.settled and third_wins(entry),
    "slowest arm the fastest too": lambda entry: entry.settled and one_arm_is_both(entry),
    "only one of the figures crosses": lambda entry: entry.crosses and only_one_figure(entry),
    "a loop beside the choices": lambda entry: entry.settled and loop_beside(entry),
    **{f"height {height}, settled": lambda entry, height=height: entry.settled and entry.fact.height == height
       for height in (1, 2, 3)},
    **{f"height {height}, crossing": lambda entry, height=height: entry.crosses and entry.fact.height == height
       for height in (1, 2, 3)},
}

BOTH_ENTRIES = "settled and crossing at different entries"
RANKED_SORTS = (*TESTS, BOTH_ENTRIES)


def ranked_sorts(nest: Nest) -> set[str]:
    """Which of the sorts it is of."""
    entries = entries_of(nest)
    found = {sort for sort, test in TESTS.items() if any(test(entry) for entry in entries)}
    settled_at, crossing_at = ({entry.node.position for entry in entries if getattr(entry, how)} for how in ("settled", "crosses"))
    return found | ({BOTH_ENTRIES} if settled_at & crossing_at else set())
