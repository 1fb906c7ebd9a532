"""What the commands share that ask for figures: what is asked with, in words too, and notes on it."""

from typing import Optional, Sequence

from pumdalin.errors import CommandError
from pumdalin.files import tell
from pumdalin.listing_text import PARAMETER_NAMES
from pumdalin.subjects import Subject

# Readers of JSON that keep numbers as doubles round those above.
LARGEST_EXACT_DOUBLE = 2 ** 53 - 1


def require_records(subject: Subject) -> None:
    """An error where there is no record and nobody expects that."""
    if not subject.sheet and not subject.expectations():
        raise CommandError("there is no record; an empty sheet takes no cycles, and is answered where the listing "
                           "expects that: expect 0 0 visits 0", subject.name)


def asked_with(subject: Subject, values: Optional[tuple[int, ...]], budget: Optional[int]) -> tuple[tuple[int, ...], int]:
    """Parameters and budget: those given, or else the subject's."""
    own_values, own_budget = subject.given()
    return own_values if values is None else values, own_budget if budget is None else budget


def asked_text(parameters: Sequence[object], budget: int) -> str:
    return f"parameters {' '.join(str(value) for value in parameters)} budget {budget}"


def tell_unused(subject: Subject, values: tuple[int, ...], used: list[int]) -> None:
    """A value that changes nothing is told: a mistake in the values often shows there."""
    for parameter in set(range(len(values))).difference(used):
        tell(f"{subject.name}: note: {PARAMETER_NAMES[parameter]} has a value, and no bound uses it")


def tell_rounded(subject: Subject, most: int) -> None:
    """Of figures that are written as JSON: a reader may not keep them."""
    if most > LARGEST_EXACT_DOUBLE:
        tell(f"{subject.name}: note: a figure is above {LARGEST_EXACT_DOUBLE}; a reader of JSON that keeps "
             "numbers as doubles rounds it")
