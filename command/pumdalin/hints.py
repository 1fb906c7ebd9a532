"""Hints: what in a refused record or range may be meant, and how a loop that is not closed may be summed.

They are the command's own.
"""

from typing import NamedTuple, Optional

from pumdalin.answers import (
    BUDGET_PASSED, CEILING_PASSED, HOLDS_LOOP, RANGE_REFUSED, READER_REFUSALS, SKIP_DIFFERS, TOO_FEW_TRIPS, UNEVEN,
    Reason, Refusal,
)
from pumdalin.inputs import MOST_VALUES, NUMBER_RANGE, ParameterRange
from pumdalin.listing_reader import COST, STRIDE_TEXT, Entry, Listing
from pumdalin.listing_text import bounds_text, form_text, record_text
from pumdalin.ranges import Range, range_text
from pumdalin.records import (
    BODY_LENGTH, COST_LIMIT, END, LOOPS, MOST_LOOPS_DEEP, NEXT_ARM, OPENS,
    Loop, Record, Work, decode_at, decode_before, kind_of, loops_among, open_after, stride_in_range,
)

# What to change in the code, and in the listing with it, so that the test which failed holds: choice {0}; loop {0}; loop {0} in
# loop {1}. What depends on the direction of loop {0} has a name.
REASON_HINTS = {
    HOLDS_LOOP: "in the listing alone, write a choice that stands in an arm, as that of an else if, as further arms of the "
                "choice around it: the loop is ranked where only choices directly in it hold loops; or, in code and listing "
                "alike, put {0} inside each innermost loop that it holds, where an arm without that loop is empty; what an arm "
                "has beside its loops gets a choice of its own, before or after them",
    TOO_FEW_TRIPS: "over the ranges of the indexes around it, {0}{direction} may start past its end by more than {stride}; in "
                   "code and listing alike, limit the loops around it, or change its bounds, so that {difference} >= {least}; "
                   "or, where the code counts {other} from {lower} to {upper}, write {turned} in the listing alone",
    UNEVEN: "each trip of {1} changes {difference} of {0}{direction} by an amount that the inner stride does not divide; in "
            "code and listing alike, choose the outer stride, or the factors in the inner bounds, so that it does",
}
# Too few trips of a loop whose skip differs from its start: one that may make none has too few.
NO_TRIP_HINT = ("over the ranges of the indexes around it, {0}{direction} may make no trip, and its skip differs from its "
                "start; in code and listing alike, limit the loops around it, or change its bounds, so that {difference} >= 0 "
                "and it always makes a trip; or let it cost its start without a trip too, and then {difference} >= {least} is "
                "enough")

# Of a ranked loop, what the visits show, and what to change where every trip is visited: choice {0}.
RANKED_HINT = ("the loop is summed where in {0}, and in every other choice directly in it, one arm is the slowest and one the "
               "fastest from the first trips on, with leads that never fall; otherwise every trip is visited, and the visits "
               "show it. Then, in the listing alone, let it count the other way over the same trips, or part it where the arms "
               "take as long; or, in code and listing alike, put {0} inside each innermost loop that it holds")


def ranked_hint(choice: str) -> str:
    """A hint for whoever writes the code: the choice that keeps the loop from being closed, by its name."""
    return RANKED_HINT.format(choice)


def reason_hint(reason: Reason, first: Record, names: list[str]) -> str:
    """A hint for whoever writes the code: of what stands at the reason's offsets, the first record and all names."""
    if not isinstance(first, Loop):
        return REASON_HINTS[reason.sort].format(*names)
    asks_a_trip = reason.sort == TOO_FEW_TRIPS and first.skip_differs()
    return (NO_TRIP_HINT if asks_a_trip else REASON_HINTS[reason.sort]).format(*names, **direction_words(first))


def direction_words(loop: Loop) -> dict[str, str]:
    """What is asked of a loop's bounds, in its direction; where it counts down, the size of the stride counts."""
    bounds = {"lower": form_text(loop.lower), "upper": form_text(loop.upper),
              "turned": bounds_text(loop.lower, loop.upper, -loop.stride)}
    if loop.counts_down():
        return {"direction": ", which counts down from its lower bound,", "stride": "the size of its stride",
                "difference": "lower - upper", "least": str(loop.stride), "other": "up", **bounds}
    return {"direction": "", "stride": "its stride", "difference": "upper - lower", "least": "-stride", "other": "down", **bounds}


def listing_hint(listing: Listing, refusal: Refusal) -> Optional[str]:
    """A hint for whoever wrote the listing."""
    if refusal.number == SKIP_DIFFERS:
        return listed_skip_hint(listing.entry_at(refusal.place))
    if refusal.number not in READER_REFUSALS:
        return None
    entry = listing.entry_at(refusal.place)
    if entry is None:
        return f"nothing ends what line {open_entries(listing.entries)[-1].line} opens"
    if refusal.number == 3:
        return field_hint(entry)
    before = listing.entries[:listing.entries.index(entry)]
    return place_hint(kind_of(entry.record), before) if refusal.number == 5 else None


class Checked(NamedTuple):
    """Whether a number is in its range, and the range in words."""

    fits: bool
    allowed: str


def field_hint(entry: Entry) -> Optional[str]:
    """The first number of the record that is out of its range, and its column."""
    for name, checked in checked_fields(entry.record).items():
        if not checked.fits:
            return f"column {entry.columns[name]}: the {name} is {getattr(entry.record, name)}, and is to be {checked.allowed}"
    return None


def checked_fields(record: Record) -> dict[str, Checked]:
    """Each number of a record."""
    if isinstance(record, Work):
        return {"least": in_range(record.least, COST), "most": in_range(record.most, (record.least, COST_LIMIT))}
    if isinstance(record, Loop):
        stride = Checked(stride_in_range(record.stride), STRIDE_TEXT)
        skip = {} if record.skip is None else {"skip": in_range(record.skip, COST)}
        return {"stride": stride, "start": in_range(record.start, COST), **skip, "step": in_range(record.step, COST)}
    return {}


def in_range(number: int, allowed: Range) -> Checked:
    return Checked(allowed[0] <= number <= allowed[1], range_text(allowed))


def listed_skip_hint(entry: Optional[Entry]) -> str:
    """The loop's start and skip, and the skip's column."""
    assert entry is not None
    return f"column {entry.columns['skip']}: {skip_hint(entry.record)}"


def skip_hint(loop: Record) -> str:
    assert isinstance(loop, Loop)
    return f"the loop's start is {loop.start}, and its skip is {loop.skip}"


def open_entries(entries: list[Entry]) -> list[Entry]:
    """The entries that are open after these, outermost first."""
    opened: list[Entry] = []
    for entry in entries:
        kind = kind_of(entry.record)
        opened = opened[:-1] if kind == END else opened + [entry] if kind in OPENS else opened
    return opened


def place_hint(kind: int, before: list[Entry]) -> str:
    """Why a record of this kind may not stand after these."""
    opened = open_entries(before)
    depth = loops_among([kind_of(entry.record) for entry in opened])
    if kind == END:
        return "nothing is open that this could end"
    if kind == NEXT_ARM and not opened:
        return "an or parts the arms of a choice, and none is open"
    if kind == NEXT_ARM:
        return f"an or stands directly in a choice; the loop of line {opened[-1].line} is still open"
    if kind in LOOPS and depth >= MOST_LOOPS_DEEP:
        return f"the loop of line {opened[-1].line} is at depth {depth} already"
    return f"{len(opened)} loops and choices are open already, the last of line {opened[-1].line}"


def bytes_hint(sheet: bytes, refusal: Refusal) -> Optional[str]:
    """A hint for whoever wrote a sheet in bytes: the record at the place."""
    if refusal.number == SKIP_DIFFERS:
        return skip_hint(decode_at(sheet, refusal.place))
    if refusal.number not in READER_REFUSALS or refusal.place >= len(sheet):
        return None
    kind = sheet[refusal.place]
    if kind not in BODY_LENGTH:
        return f"the byte there is {kind}"
    if refusal.place + 1 + BODY_LENGTH[kind] > len(sheet):
        return f"the bytes there are {sheet[refusal.place:].hex(' ')}"
    return f"the record there is '{record_text(decode_at(sheet, refusal.place), loops_open(sheet, refusal.place))}'"


def range_hint(number: int, over: ParameterRange, value: Optional[int]) -> Optional[str]:
    """A hint for whoever asks over a range; `value` is the first one with this refusal, where it depends on the value."""
    if number == RANGE_REFUSED:
        return refused_range_hint(over)
    if number == CEILING_PASSED:
        return f"{over.name} = {value} is the first value of the range that is refused"
    if number == BUDGET_PASSED and over.first < over.last:
        return f"the visits at all {len(over.values())} values add up, and one budget covers them; ask over fewer values at once"
    return None


def refused_range_hint(over: ParameterRange) -> str:
    """The first thing that is asked of a range and does not hold."""
    least, most = NUMBER_RANGE
    if not least <= over.number <= most:
        return f"there is no parameter {over.number}; write a number {range_text(NUMBER_RANGE)} after --parameter"
    if over.first > over.last:
        return f"--from {over.first} is above --to {over.last}; exchange them"
    return f"from {over.first} to {over.last} there are {len(over.values())} values; ask over at most {MOST_VALUES} at once"


def loops_open(sheet: bytes, end: int) -> int:
    """How many loops are open before an offset."""
    open_kinds: list[int] = []
    for record in decode_before(sheet, end):
        open_kinds = open_after(kind_of(record), open_kinds)
    return loops_among(open_kinds)
