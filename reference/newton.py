"""The sum of a closed loop's trips from its first ones, with exact integers."""

from math import comb

from trips import Bounds


def newton_sum(visited: tuple[Bounds, ...], trips: int) -> Bounds:
    """The sum over all trips from the first ones: equations 3 and 4 of source 003."""
    return Bounds(
        newton([b.least for b in visited], trips),
        newton([b.most for b in visited], trips),
    )


def newton(first: list[int], trips: int) -> int:
    """Forward differences at the first trip, each times a binomial of the trips."""
    total = 0
    for j in range(len(first)):
        total += first[0] * comb(trips, j + 1)
        first = [later - earlier for earlier, later in zip(first, first[1:])]
    return total
