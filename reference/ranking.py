"""Which arm of a choice is the slowest and which the fastest, by Newton series (document 003, section 4)."""

from typing import Sequence

from trips import Bounds

# The arms of one choice in one trip, and the same for every choice that stands directly in a loop's body.
Arms = Sequence[Bounds]
Choices = Sequence[Arms]


def newton_series(values: Sequence[int]) -> list[int]:
    """The forward differences at the first of these values: the coefficients of the series through them."""
    coefficients: list[int] = []
    row = list(values)
    while row:
        coefficients.append(row[0])
        row = [later - earlier for earlier, later in zip(row, row[1:])]
    return coefficients


def at_least(first: Sequence[int], second: Sequence[int]) -> bool:
    """Whether the difference series of these series has no negative coefficient (definition 4.1)."""
    return all(a - b >= 0 for a, b in zip(first, second))


def has_slowest(series: Sequence[Sequence[int]]) -> bool:
    """Whether one arm's series is at least each other arm's."""
    return any(all(at_least(one, other) for other in series) for one in series)


def has_fastest(series: Sequence[Sequence[int]]) -> bool:
    """Whether one arm's series is at most each other arm's."""
    return any(all(at_least(other, one) for other in series) for one in series)


def choice_settled(trips: Sequence[Arms]) -> bool:
    """Of a choice, from its arms in each of the first trips. The slowest arm and the fastest may be any two."""
    mosts = [newton_series([arm.most for arm in arm_trips]) for arm_trips in zip(*trips)]
    leasts = [newton_series([arm.least for arm in arm_trips]) for arm_trips in zip(*trips)]
    return has_slowest(mosts) and has_fastest(leasts)


def settled(trips: Sequence[Choices]) -> bool:
    """Whether every choice is, from those of each of the first trips."""
    return all(choice_settled(of_choice) for of_choice in zip(*trips))
