"""Loops the other way round: turned, from the upper form back to the lower, and mirrored (document 02, C-17)."""

from dataclasses import replace
from random import Random
from typing import Optional

from pumdalin.records import INDEX_FACTORS, Choice, End, Form, Loop, Record


def turned(loop: Loop) -> Loop:
    """From the upper form to the lower, by the stride with the other sign; D stays."""
    return replace(loop, stride=-loop.stride, lower=loop.upper, upper=loop.lower)


def turned_at_times(random: Random, loop: Loop) -> Loop:
    """Every third loop is turned."""
    return random.choice([loop, loop, turned(loop)])


def mirrored(records: list[Record], chosen: set[int]) -> list[Record]:
    """The same trips with the indexes of some loops, chosen by position, negated.

    Such a loop has both its forms and its stride negated, and the loops inside its index's factor.
    """
    new: list[Record] = []
    # of each open record the sign that its index got; a choice has no index
    signs: list[Optional[int]] = []
    for position, record in enumerate(records):
        if isinstance(record, Loop):
            around = [sign for sign in signs if sign is not None]
            signs.append(-1 if position in chosen else 1)
            new.append(with_signs(record, around, signs[-1]))
            continue
        new.append(record)
        if isinstance(record, Choice):
            signs.append(None)
        elif isinstance(record, End):
            signs.pop()
    return new


def with_signs(loop: Loop, around: list[int], own: int) -> Loop:
    """The loop in loops whose indexes got these signs, with a sign for its own."""
    def signed_form(form: Form) -> Form:
        indexes = zip(form.indexes, around + [1] * INDEX_FACTORS)
        return Form(
            own * form.constant,
            tuple(own * sign * factor for factor, sign in indexes),
            tuple(own * factor for factor in form.parameters),
        )

    return replace(loop, stride=own * loop.stride, lower=signed_form(loop.lower), upper=signed_form(loop.upper))
