"""Random sheets of nests with ranked loops: settled and not, and at times barred from ranking."""

from dataclasses import replace
from random import Random
from typing import NamedTuple

from generate import Case, work
from nest import Range, difference_of, index_range
from pumdalin.inputs import Parameters
from pumdalin.records import INDEX_FACTORS, MOST_LOOPS_DEEP, Choice, End, Form, Loop, NextArm, Record, Work
from walked import Aim, fitting, nested_loop, nests_case

# Every loop inside passes the tests for closing.
PASSES = Aim(0, 0, 0)
# One in so many sheets has a loop that fails a test, or a choice in an arm that holds a loop.
BARRED_ONE_IN = 12
# Trips of a ranked loop beyond those of the nest that it is made as.
MOST_FURTHER_TRIPS = 6


class Place(NamedTuple):
    """Where records are made: the ranges of the indexes around, and how deep loops may nest there."""

    parameters: Parameters
    ranges: list[Range]
    height: int
    growing: bool

    def inside(self, loop: Loop) -> "Place":
        ranges = self.ranges + [index_range(loop, self.ranges, self.parameters)]
        return self._replace(ranges=ranges, height=self.height - 1)


class Costs(NamedTuple):
    """What an arm takes before its loops, and in the innermost of them."""

    before: Work
    inside: Work


def closed_loop(random: Random, place: Place) -> Loop:
    """A loop that passes the tests; where all is to grow, its D falls with no index."""
    while True:
        loop = nested_loop(random, PASSES, place.ranges, place.parameters)
        if not place.growing or min(difference_of(loop).indexes) >= 0:
            return loop


def nest_of_loops(random: Random, place: Place) -> list[Loop]:
    """Loops inside one another, as many as the place allows or fewer."""
    loops: list[Loop] = []
    for _ in range(random.choice([place.height, random.randint(1, place.height)])):
        loops.append(closed_loop(random, place))
        place = place.inside(loops[-1])
    return loops


def small_work(random: Random) -> Work:
    least = random.choice([0, 0, 1, 2, random.randint(0, 9)])
    return Work(least, least + random.choice([0, 0, 1, 3, random.randint(0, 9)]))


def arm(random: Random, loops: list[Loop], costs: Costs) -> list[Record]:
    """Work and the loops, with a choice of works among them at times; an arm without loops takes its costs alike."""
    inside: list[Record] = [costs.inside]
    if random.random() < 0.1:
        inside = [Choice(), costs.inside, NextArm(), costs.inside, End()]
    if not loops:
        return [costs.before, *inside]
    return [costs.before, *loops, *inside, *[End()] * len(loops)]


def costs(random: Random) -> Costs:
    return Costs(random.choice([Work(0, 0), small_work(random)]), small_work(random))


def hull(works: list[Work]) -> Work:
    """The smallest least and the largest most."""
    return Work(min(each.least for each in works), max(each.most for each in works))


def free(random: Random, count: int) -> list[Costs]:
    return [costs(random) for _ in range(count)]


def ordered(random: Random, count: int) -> list[Costs]:
    """Each arm's above the one's before; then in any order."""
    made = [costs(random)]
    # where the loops take the same in every arm, they may fall
    step = random.choice([0, 1])
    for _ in range(count - 1):
        before, inside = made[-1]
        more = random.choice([0, 1, 2])
        made.append(Costs(Work(before.least + more, before.most + more + random.choice([0, 1])),
                          Work(inside.least + random.choice([0, step]), inside.most + step)))
    random.shuffle(made)
    return made


def with_widest(random: Random, count: int) -> list[Costs]:
    """The last is the slowest and the fastest, or two that are one of both each; the others as they come."""
    made = free(random, max(2, count - 1))
    before, inside = hull([each.before for each in made]), hull([each.inside for each in made])
    if random.random() < 0.5:
        return [*made, Costs(before, inside)]
    fast = Costs(Work(before.least, before.least), Work(inside.least, inside.least))
    slow = Costs(Work(before.most, before.most), Work(inside.most, inside.most))
    return [*made, *random.sample([fast, slow], 2)]


def above_two(random: Random, count: int) -> list[Costs]:
    """Two arms that cross where the loops grow, and one that is above both."""
    early, late = random.randint(3, 30), random.randint(1, 3)
    nothing = Work(0, 0)
    made = [Costs(Work(0, early), nothing), Costs(nothing, Work(0, late)), Costs(Work(0, early), Work(0, late))]
    return random.sample(made, 3)


def choice(random: Random, place: Place, count: int) -> list[Record]:
    """A choice of so many arms or some more: of the same loops with other costs, or each of its own."""
    make_costs = random.choice([ordered, ordered, with_widest, free, above_two])
    loops, same_loops = nest_of_loops(random, place), random.random() < 0.5
    arms: list[list[Record]] = []
    for each in make_costs(random, count):
        own = loops if same_loops else random.choice([[], nest_of_loops(random, place), loops])
        arms.append(arm(random, own, each))
    if random.random() < 0.4:
        arms.insert(random.randrange(len(arms) + 1), steady_arm(random))
    return in_choice(arms)


def steady_arm(random: Random) -> list[Record]:
    """An arm that takes the same in every trip: mostly the others cross it, unless it takes nothing."""
    cycles = random.randint(1, 40)
    return random.choice([[], [small_work(random)], [Work(cycles, cycles)]])


def in_choice(arms: list[list[Record]]) -> list[Record]:
    records: list[Record] = [Choice(), *arms[0]]
    for each in arms[1:]:
        records += [NextArm(), *each]
    return records + [End()]


def by_indexes(random: Random, place: Place) -> list[Record]:
    """A choice of loops over two indexes around, so that it depends on the outer one whether they cross."""
    arms: list[list[Record]] = []
    for depth in random.sample(range(len(place.ranges)), min(2, len(place.ranges))):
        constant = random.randint(-1, 2) - place.ranges[depth].smallest
        factors = tuple(1 if at == depth else 0 for at in range(INDEX_FACTORS))
        loop = Loop(0, 0, 1, Form(0), Form(constant, factors))
        arms.append([loop, small_work(random), End()])
    return in_choice(arms)


def beside(random: Random, place: Place) -> list[Record]:
    """What stands beside the choices: a work, loops, or a choice without loops."""
    loops = nest_of_loops(random, place)
    return random.choice([
        [], [], [work(random)], [*loops, small_work(random), *[End()] * len(loops)],
        [Choice(), small_work(random), NextArm(), small_work(random), End()],
    ])


def barred(random: Random, place: Place) -> list[Record]:
    """What bars ranking: a choice in an arm that holds a loop, or an uneven loop or one of too few trips."""
    failing = nested_loop(random, random.choice([Aim(0, 1, 0), Aim(0, 0, 1)]), place.ranges, place.parameters)
    loops = nest_of_loops(random, place)
    nested = in_choice([[small_work(random)], [*loops, *[End()] * len(loops)]])
    return random.choice([[failing, small_work(random), End()], [Choice(), *nested, End()]])


def ranked_body(random: Random, place: Place) -> list[Record]:
    """One or two choices that hold loops, and other parts around them."""
    count = random.choice([1, 2, 2, 2, 3, 3, 4, 7, 12])
    main = by_indexes(random, place) if random.random() < 0.2 else choice(random, place, count)
    records = [*beside(random, place), *main, *beside(random, place)]
    if random.random() < 0.25:
        records += choice(random, place, random.choice([1, 2, 3]))
    if random.randrange(BARRED_ONE_IN) == 0:
        records += barred(random, place)
    return records


def longer(random: Random, loop: Loop) -> Loop:
    """The loop with some trips more, at its end."""
    more = loop.stride * random.randint(0, MOST_FURTHER_TRIPS)
    return replace(loop, upper=loop.upper._replace(constant=loop.upper.constant + more))


def ranked_nest(random: Random, place: Place, loops_around: int) -> list[Record]:
    """A ranked loop, inside so many that are walked, with a work at times."""
    if loops_around == 0:
        loop = longer(random, closed_loop(random, place))
        return [loop, *ranked_body(random, place.inside(loop)._replace(height=place.height)), End()]
    loop = nested_loop(random, PASSES, place.ranges, place.parameters)
    within = place._replace(ranges=place.inside(loop).ranges)
    inside = ranked_nest(random, within, loops_around - 1)
    if random.random() < 0.15:
        inside = in_choice([inside, [small_work(random)]])
    if random.random() < 0.2:
        inside += ranked_nest(random, within, loops_around - 1)
    return [loop, *inside, *random.choice([[], [work(random)]]), End()]


def ranked_nests(random: Random, parameters: Parameters) -> list[Record]:
    """A nest, or two."""
    records: list[Record] = []
    for _ in range(random.choice([1, 1, 1, 2])):
        height = random.choice([1, 1, 1, 2, 2, 3])
        around = random.choice([0, MOST_LOOPS_DEEP - 1 - height, random.randint(0, MOST_LOOPS_DEEP - 1 - height)])
        records += ranked_nest(random, Place(parameters, [], height, random.random() < 0.5), around)
    return records


def ranked_records(random: Random, parameters: Parameters) -> list[Record]:
    return fitting(lambda: ranked_nests(random, parameters))


def ranked_case(random: Random) -> Case:
    return nests_case("ranked", random, ranked_records)
