"""Notes: which loops seem to count the wrong way for their bounds, and what to write instead. They are the command's own."""

from typing import NamedTuple, Optional

from pumdalin.answers import TOO_FEW_TRIPS, LoopReport, Reason
from pumdalin.inputs import without_value
from pumdalin.listing_text import PARAMETER_NAMES, bounds_text, form_text
from pumdalin.records import Form, Loop


# A loop that goes back, like j from n - 1 down to i + 1, makes no trip at one end of i's range. The other way it makes two there,
# and none almost everywhere: so few trips are told.
FEW_TRIPS = ["no trip", "at most one trip", "at most two trips"]


class Asked(NamedTuple):
    """Values that a sheet is asked with, and what the proved call says of its loops then; nothing where it was not called."""

    values: tuple[int, ...]
    loops: list[LoopReport]


def direction_note(loop: Loop, offset: int, used: list[int], asked: Asked) -> Optional[str]:
    """What to write, where a loop seems to count the wrong way; `used` are the parameters that the sheet uses.

    Where the distance from start to end grows with a parameter, few trips may be meant at small values.
    """
    way = distance(loop)
    if max(way.parameters) > 0:
        return None
    return slanted_note(loop, offset, used, asked) if any(way.indexes) else fixed_note(loop, way, asked.values)


def distance(loop: Loop) -> Form:
    """From a loop's start to its end, in the direction in which it counts."""
    sign = -1 if loop.counts_down() else 1
    start, end = loop.lower, loop.upper
    return Form(sign * (end.constant - start.constant),
                tuple(sign * (last - first) for first, last in zip(start.indexes, end.indexes)),
                tuple(sign * (last - first) for first, last in zip(start.parameters, end.parameters)))


def fixed_note(loop: Loop, way: Form, values: tuple[int, ...]) -> Optional[str]:
    """Of a loop whose distance rests on no index: it starts past its end, by more than a loop over 0 to n - 1 with n = 0."""
    used = [number for number, factor in enumerate(way.parameters) if factor]
    if without_value(used, values):
        return None
    past_end = -(way.constant + sum(factor * value for factor, value in zip(way.parameters, values)))
    if past_end <= (1 if used else 0):
        return None
    return (f"this loop makes no trip{at_values(used, values)}: it counts {direction(loop)} from {form_text(loop.lower)}, "
            f"which is past {form_text(loop.upper)}; if trips are meant, {what_to_write(loop)}")


def slanted_note(loop: Loop, offset: int, used: list[int], asked: Asked) -> Optional[str]:
    """Of a loop whose distance rests on an index: by what is proved it may start far past its end, and never makes many trips.

    The loop around it makes more. One whose skip differs from its start is told to have too few trips sooner, and nothing is
    noted of it.
    """
    ceiling = next((report.ceiling for report in asked.loops if report.offset == offset), len(FEW_TRIPS))
    few = Reason(TOO_FEW_TRIPS, (offset,))
    around = [report.ceiling for report in asked.loops if report.reason == few]
    if ceiling >= len(FEW_TRIPS) or max(around, default=0) <= ceiling or loop.skip_differs():
        return None
    return (f"this loop makes {FEW_TRIPS[ceiling]}{at_values(used, asked.values)}, wherever it is met: it counts "
            f"{direction(loop)} from {form_text(loop.lower)} to {form_text(loop.upper)}; if more are meant, {what_to_write(loop)}")


def few_trips_meant(expected_ceilings: list[int]) -> bool:
    """Whether a listing expects of a loop itself that it makes few trips."""
    return any(ceiling < len(FEW_TRIPS) for ceiling in expected_ceilings)


def direction(loop: Loop) -> str:
    return "down" if loop.counts_down() else "up"


def what_to_write(loop: Loop) -> str:
    """The bounds for either direction. The loop starts past its end: its first bound is the low one if it counts down."""
    low, high = (loop.lower, loop.upper) if loop.counts_down() else (loop.upper, loop.lower)
    size = abs(loop.stride)
    return f"write {bounds_text(high, low, -size)} to count down, or {bounds_text(low, high, size)} to count up"


def at_values(used: list[int], values: tuple[int, ...]) -> str:
    """The values that decide."""
    return " at " + ", ".join(f"{PARAMETER_NAMES[number]} = {values[number]}" for number in used) if used else ""
