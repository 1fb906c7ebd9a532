"""Tests of ranked loops, and that the sheets kept of them tell other readings of document 02, C-18 apart."""

import contextlib
import os
import unittest
from random import Random
from typing import Callable, NamedTuple, Optional, Sequence
from unittest import mock

import consistency
import nest
import ranking
import stages
import trips
import visiting
from calls import answer, reports
from nest import LoopFacts, Range, class_of, failing_loop, ways_of
from pumdalin.answers import CLOSED, RANKED, WALKED, Answer, Refusal
from pumdalin.inputs import Parameters
from ranked import ranked_case
from ranked_sheets import LARGEST, RANKED_SHEETS
from ranked_sorts import RANKED_SORTS, ranked_sorts
from ranking import Choices, at_least, has_slowest, newton_series, settled
from readings import Reading
from sheet import read
from stages import ChoiceFrame, Frame, KeptArms, LoopFrame, Nest, State, TripEnd, keeps_arms
from tree import LoopNode, choices_directly_in, choices_in
from trips import Bounds, trips_of
from visiting import choices_at, first_trips, summed

SHEETS = int(os.environ.get("SHEETS", "600")) // 2
# Fewer sheets may have none of some sort.
ENOUGH_SHEETS = 300
TRIPS = 3000
WORDS = 2 ** 64
# Of the largest sheet every trip would have to be gone over.
KEPT = [line for line in RANKED_SHEETS if line not in LARGEST]

Series = Sequence[Sequence[int]]


def neighbours_alone(series: Series) -> bool:
    return all(at_least(a, b) or at_least(b, a) for a, b in zip(series, series[1:]))


def against_the_first(series: Series) -> bool:
    return all(at_least(series[0], other) or at_least(other, series[0]) for other in series)


def first_or_last(series: Series) -> bool:
    return any(all(at_least(one, other) for other in series) for one in (series[0], series[-1]))


def running_best(series: Series) -> bool:
    """The best so far is asked against the next arm alone, and has to be above it or below."""
    best = series[0]
    for other in series[1:]:
        if not at_least(best, other) and not at_least(other, best):
            return False
        best = other if at_least(other, best) else best
    return True


def one_arm_for_both(of_choice: Sequence[Sequence[Bounds]]) -> bool:
    mosts = [newton_series([arm.most for arm in arm_trips]) for arm_trips in zip(*of_choice)]
    leasts = [newton_series([arm.least for arm in arm_trips]) for arm_trips in zip(*of_choice)]
    return any(
        all(at_least(most, other) for other in mosts) and all(at_least(other, least) for other in leasts)
        for least, most in zip(leasts, mosts))


def most_alone(of_choice: Sequence[Sequence[Bounds]]) -> bool:
    """As if the arm that is the slowest were the fastest too, without asking."""
    return has_slowest([newton_series([arm.most for arm in arm_trips]) for arm_trips in zip(*of_choice)])


def first_choice_alone(trips_kept: Sequence[Choices]) -> bool:
    return settled([choices[:1] for choices in trips_kept])


def fewer_first_trips(fewer: int) -> Callable[[int, LoopFacts], int]:
    def found(count: int, fact: LoopFacts) -> int:
        return min(count, max(1, fact.height + 1 - fewer) if fact.ranked else fact.height + 1)
    return found


def every_choice_kept(made: Nest, around: tuple[Frame, ...]) -> bool:
    """As if the arms of a choice in an arm were kept too."""
    while around and isinstance(around[0], ChoiceFrame):
        around = around[1:]
    return keeps_arms(made, around)


def kept_in_later_trips(made: Nest, around: tuple[Frame, ...]) -> bool:
    return bool(around) and isinstance(around[0], LoopFrame) and made.known[around[0].position].ranked


def classes(ranks: Callable[[list[LoopNode], dict[int, Range], list[int]], bool]) -> Callable[..., str]:
    """Every loop that is not closed is ranked where this holds."""
    def found(path: list[LoopNode], differences: dict[int, Range], places: list[int]) -> str:
        right = class_of(path, differences, places)
        return right if right == CLOSED else RANKED if ranks(path, differences, places) else WALKED
    return found


def has_several_arms(path: list[LoopNode], differences: dict[int, Range], places: list[int]) -> bool:
    holding = [choice for choice in choices_directly_in(path[-1].body) if choice.holds_loop()]
    return class_of(path, differences, places) == RANKED and all(len(choice.arms) > 1 for choice in holding)


def has_no_loop_beside(path: list[LoopNode], differences: dict[int, Range], places: list[int]) -> bool:
    return class_of(path, differences, places) == RANKED and not any(isinstance(one, LoopNode) for one in path[-1].body)


def arms_untested(path: list[LoopNode], differences: dict[int, Range], places: list[int]) -> bool:
    direct = [choice.position for choice in choices_directly_in(path[-1].body)]
    return all(choice.position in direct or not choice.holds_loop() for choice in choices_in(path[-1].body))


def choices_anywhere(path: list[LoopNode], differences: dict[int, Range], places: list[int]) -> bool:
    return failing_loop(path, differences, places) is None


class DecidedOnce:
    """As if a loop kept its first decision."""

    def __init__(self) -> None:
        self.found: dict[tuple[int, Parameters], bool] = {}

    def __call__(self, node: LoopNode, indexes: list[int], values: Parameters, known: dict[int, LoopFacts]) -> bool:
        key = node.position, values, tuple(sorted(known.items()))
        return self.found.setdefault(key, summed(node, indexes, values, known))


def reversed_too(node: LoopNode, indexes: list[int], values: Parameters, known: dict[int, LoopFacts]) -> bool:
    """As document 003 has it in definition 4.3: a series that is above another one in reversed order will do."""
    fact = known[node.position]
    if not fact.ranked:
        return fact.closed
    count = trips_of(node.loop, indexes, values)
    every = [choices_at(node, counter, indexes, values, known) for counter in range(count)]
    first = first_trips(count, fact)
    return all(settled_with_reversed(of_choice, first) for of_choice in zip(*every))


def settled_with_reversed(of_choice: Sequence[Sequence[Bounds]], first: int) -> bool:
    def both_ways(figures: Sequence[int]) -> list[list[int]]:
        return [newton_series(figures[:first]), newton_series(figures[::-1][:first])]

    def above(one: list[list[int]], other: list[list[int]]) -> bool:
        return any(at_least(a, b) for a in one for b in other)

    mosts = [both_ways([arm.most for arm in arm_trips]) for arm_trips in zip(*of_choice)]
    leasts = [both_ways([arm.least for arm in arm_trips]) for arm_trips in zip(*of_choice)]
    return any(all(above(one, other) for other in mosts) for one in mosts) and any(
        all(above(other, one) for other in leasts) for one in leasts)


def twice_visited(node: LoopNode, indexes: list[int], values: Parameters, known: dict[int, LoopFacts]) -> int:
    fact, count = known[node.position], trips_of(node.loop, indexes, values)
    first = first_trips(count, fact)
    if summed(node, indexes, values, known):
        return first
    return count + first if fact.ranked and first < count else count


def twice_summed(ended: TripEnd) -> tuple[Bounds, ...]:
    """The first trips are in the sum of a loop that is not settled, and once more in that of all trips."""
    sums = (stages.add_up(ended.sums),)
    if ended.fact.closed or ended.fact.ranked and ended.more_first_trips():
        return ended.sums
    return (stages.add_up(sums * 2),) if ended.is_decision() else sums


# Other readings: a function of the reckoning, by its name in a module, and what it would be.
WRONG_FUNCTIONS: dict[str, tuple[str, Callable]] = {
    "coefficients without a sign": ("at_least", lambda a, b: all(x % WORDS >= y % WORDS for x, y in zip(a, b))),
    "the first coefficient alone": ("at_least", lambda a, b: a[0] >= b[0]),
    "the last coefficient alone": ("at_least", lambda a, b: a[-1] >= b[-1]),
    "no ties": ("at_least", lambda a, b: a is b or all(x > y for x, y in zip(a, b))),
    "values in place of coefficients": ("newton_series", list),
    "a second coefficient without its double": ("newton_series", lambda v: [
        *newton_series(v)[:2], *([v[2] - v[1] + v[0]] if len(v) > 2 else []), *newton_series(v)[3:]]),
    "neighbours alone, slowest": ("has_slowest", neighbours_alone),
    "neighbours alone, fastest": ("has_fastest", neighbours_alone),
    "against the first alone": ("has_slowest", against_the_first),
    "the first or the last": ("has_slowest", first_or_last),
    "the best so far against the next": ("has_slowest", running_best),
    "one arm for both figures": ("choice_settled", one_arm_for_both),
    "the slowest arm for the least": ("choice_settled", most_alone),
    "the first choice alone": ("settled", first_choice_alone),
    "always settled": ("settled", lambda trips_kept: True),
    "never settled": ("settled", lambda trips_kept: False),
    "decided by one trip less": ("first_trips", fewer_first_trips(1)),
    "decided by one trip more": ("first_trips", fewer_first_trips(-1)),
    "decided by the first trip": ("first_trips", fewer_first_trips(3)),
    "decided once for all entries": ("summed", DecidedOnce()),
    "reversed series too": ("summed", reversed_too),
    "first trips visited twice": ("to_visit", twice_visited),
    "a one-armed choice bars ranking": ("class_of", classes(has_several_arms)),
    "a loop beside the choices bars ranking": ("class_of", classes(has_no_loop_beside)),
    "loops in arms are not tested": ("class_of", classes(arms_untested)),
    "choices at any depth": ("class_of", classes(choices_anywhere)),
    "never ranked": ("class_of", classes(lambda path, differences, places: False)),
    "arms of a choice in an arm kept": ("keeps_arms", every_choice_kept),
    "arms kept in later trips": ("keeps_arms", kept_in_later_trips),
    "no arms kept": ("keeps_arms", lambda made, around: False),
}

# The same of what becomes of a trip's end.
WRONG_TRIP_ENDS: dict[str, tuple[str, Callable]] = {
    "first trips summed twice": ("kept_sums", twice_summed),
    "first trips not in the sum": ("kept_sums", lambda ended: (
        ended.sums if ended.fact.closed or ended.more_first_trips() else ended.sums[-1:] if ended.is_decision()
        else (stages.add_up(ended.sums),))),
    "arms stay after the loop": ("arms_left", lambda ended: ended.arms),
    "arms stay after the decision": ("arms_after", lambda ended: (
        KeptArms(ended.arms.trips()) if ended.fact.ranked else ended.arms)),
    "a closed loop drops the arms": ("arms_left", lambda ended: stages.NO_ARMS),
}


class Told(NamedTuple):
    """What is said of a sheet: by definition, and by the stages with what they keep."""

    answer: Answer
    ways: str
    states: list[State]


def told(line: Reading) -> Optional[Told]:
    """Nothing where a reading can not go on."""
    try:
        result = answer(line.sheet, line.parameters, line.budget)
        ways = ways_of(reports(line.sheet, line.parameters)) if not isinstance(result, Refusal) else ""
        return Told(result, ways, states_of(line))
    except (AssertionError, IndexError, ValueError, KeyError):
        return None


def states_of(line: Reading) -> list[State]:
    made = stages.nest_of(line.sheet, line.parameters)
    assert isinstance(made, Nest)
    found = [stages.first_state()]
    while not stages.at_end(made, found[-1]) and found[-1].visits <= line.budget:
        found.append(stages.next_state(made, found[-1]))
    return found


class WrongReadings(unittest.TestCase):
    """Each other reading answers a kept sheet otherwise, or keeps other arms on the way."""

    @classmethod
    def setUpClass(cls) -> None:
        cls.right = {line.tells: told(line) for line in KEPT}

    def differing(self, name: str, wrong: Callable) -> list[str]:
        with contextlib.ExitStack() as changed:
            for module in (nest, ranking, stages, trips, visiting):
                if hasattr(module, name):
                    changed.enter_context(mock.patch.object(module, name, wrong))
            return [line.tells for line in KEPT if told(line) != self.right[line.tells]]

    def test_right(self) -> None:
        for line in RANKED_SHEETS:
            found = told(line)
            with self.subTest(line.tells):
                self.assertEqual((found.answer, found.ways), (line.answer, line.ways))
                if not isinstance(line.answer, Refusal):
                    self.assertEqual((*found.states[-1].current, found.states[-1].visits), line.answer)

    def test_functions(self) -> None:
        for tells, (name, wrong) in WRONG_FUNCTIONS.items():
            with self.subTest(tells):
                self.assertTrue(self.differing(name, wrong))

    def test_trip_ends(self) -> None:
        for tells, (name, wrong) in WRONG_TRIP_ENDS.items():
            with self.subTest(tells), mock.patch.object(TripEnd, name, wrong):
                self.assertTrue(any(told(line) != self.right[line.tells] for line in KEPT))


class RandomSheets(unittest.TestCase):
    def test_ranked(self) -> None:
        """Stages against the definition and every trip; there are sheets of every sort."""
        random = Random("ranked")
        sorts = dict.fromkeys(RANKED_SORTS, 0)
        for _ in range(SHEETS):
            case = ranked_case(random)
            records = read(case.sheet)
            self.assertNotIsInstance(records, Refusal)
            consistency.check_round_trip(records)
            consistency.check_facts(records, case.parameters)
            made = stages.nest_of(case.sheet, case.parameters)
            if isinstance(made, Refusal):
                continue
            consistency.check_ceilings(records, case.parameters, random)
            consistency.check_stages(records, case.parameters, TRIPS)
            for sort in ranked_sorts(made):
                sorts[sort] += 1
        if SHEETS >= ENOUGH_SHEETS:
            self.assertGreater(min(sorts.values()), 0, sorts)

    def test_arms(self) -> None:
        """What an arm takes in a trip, by going over all its trips."""
        random = Random("arms")
        for _ in range(SHEETS // 3):
            case = ranked_case(random)
            made = stages.nest_of(case.sheet, case.parameters)
            if not isinstance(made, Refusal):
                consistency.check_arms(made)


if __name__ == "__main__":
    unittest.main()
