"""Reads listings: the records of a sheet with their lines, and the answers that it is expected to get.

docs/LISTINGS.md describes the format. A mistake in the text is reported with its line and
column and with what to write instead. Whether the records make a sheet that is well-formed
is not asked here: that is for the proved reader of sheets to say.
"""

from dataclasses import dataclass, field
from typing import Callable, Generic, NamedTuple, NoReturn, Optional, TypeVar, Union

from pumdalin.answers import Answer, Figures, LoopReport, Refusal, read_loops
from pumdalin.errors import ListingError
from pumdalin.inputs import (
    BUDGET_RANGE, LARGEST_BUDGET, PARAMETER_RANGE, STORED_BUDGET_RANGE, Parameters, filled, without_value,
)
from pumdalin.listing_bound import read_form
from pumdalin.listing_line import Line
from pumdalin.listing_text import KIND_WORDS, PARAMETER_NAMES, index_name
from pumdalin.ranges import SIGNED_16, UNSIGNED_16, UNSIGNED_32, UNSIGNED_64, range_text
from pumdalin.records import (
    COST_LIMIT, END, LOOP, LOOPS, OPENS, PLAIN, SKIP_LOOP, STRIDE_LIMIT, WORK,
    Loop, Record, Work, encode_all, kind_of, offsets, used_parameters,
)

# What the reader of sheets allows, for the messages.
COST = (0, COST_LIMIT)
COST_TEXT = range_text(COST)
STEP_TEXT = f"{COST_TEXT}, since it is what a trip costs; the stride stands after by"
STRIDE_TEXT = f"{range_text((-STRIDE_LIMIT, STRIDE_LIMIT))} without 0"
REFUSAL_NUMBERS = (1, 8)

# What a line's first word opens; which of the two kinds a loop is of, its skip says.
KINDS = {word: kind for kind, word in KIND_WORDS.items() if kind != SKIP_LOOP}
# The words before a loop's numbers, and the fields of these.
LOOP_NUMBERS = {"by": "stride", "start": "start", "skip": "skip", "step": "step"}


Expected = TypeVar("Expected")


@dataclass(frozen=True)
class Expectation(Generic[Expected]):
    """The answer that a sheet is expected to get, or what of it is about one loop; and the line that says so."""

    line: int
    values: tuple[int, ...]
    budget: int
    answer: Expected

    @property
    def parameters(self) -> Parameters:
        return filled(self.values)


AnyExpectation = Union[Expectation[Answer], Expectation[LoopReport]]


class Entry(NamedTuple):
    """A record, its line, the columns of its numbers and of its bounds by their names, and how many loops are around it."""

    record: Record
    line: int
    columns: dict[str, int]
    loops_around: int


@dataclass
class Listing:
    """A listing as far as it is read.

    `values` of the parameters and `budget` are those in force: a line that gives them
    holds for the lines after it. `last_line` is the number of its last line.
    What is open is kept as it changes: a listing may be long.
    """

    entries: list[Entry] = field(default_factory=list)
    values: tuple[int, ...] = ()
    budget: int = LARGEST_BUDGET
    expectations: list[Expectation[Answer]] = field(default_factory=list)
    loop_expectations: list[Expectation[LoopReport]] = field(default_factory=list)
    open_kinds: list[int] = field(default_factory=list)
    loops_open: int = 0
    last_line: int = 0

    @property
    def records(self) -> list[Record]:
        return [entry.record for entry in self.entries]

    def sheet(self) -> bytes:
        return encode_all(self.records)

    def given(self) -> tuple[tuple[int, ...], int]:
        """Parameters and budget of the first expectation, or else those given last."""
        expectations = self.all_expectations()
        if expectations:
            return expectations[0].values, expectations[0].budget
        return self.values, self.budget

    def all_expectations(self) -> list[AnyExpectation]:
        """Those of answers and those of loops, in the order of their lines."""
        expectations: list[AnyExpectation] = [*self.expectations, *self.loop_expectations]
        return sorted(expectations, key=lambda expectation: expectation.line)

    def entry_at(self, offset: int) -> Optional[Entry]:
        """The entry of the record at an offset of the sheet."""
        return dict(zip(offsets(self.records), self.entries)).get(offset)

    def loop_offsets(self) -> list[int]:
        return [place for place, record in zip(offsets(self.records), self.records) if isinstance(record, Loop)]

    def expected_ceilings(self, offset: int, values: tuple[int, ...]) -> list[int]:
        """Of the loop at an offset, what is expected at these values."""
        return [expected.answer.ceiling for expected in self.loop_expectations
                if expected.answer.offset == offset and expected.parameters == filled(values)]

    def first_use(self, parameter: int) -> Optional[int]:
        """The first line that uses a parameter, numbered from 0."""
        return next((entry.line for entry in self.entries if parameter in used_parameters([entry.record])), None)

    def add(self, entry: Entry) -> None:
        kind = kind_of(entry.record)
        self.entries.append(entry)
        if kind in OPENS:
            self.open_kinds.append(kind)
            self.loops_open += kind in LOOPS
        elif kind == END and self.open_kinds:
            self.loops_open -= self.open_kinds.pop() in LOOPS


def read_listing(text: str) -> Listing:
    """The listing in a text; ListingError where it has a mistake."""
    listing = Listing()
    for number, line_text in enumerate(text.removesuffix("\n").split("\n"), start=1):
        read_line(Line(number, line_text), listing)
        listing.last_line = number
    for expectation in listing.all_expectations():
        check_values(listing, expectation)
    for of_loop in listing.loop_expectations:
        check_offset(listing, of_loop)
    return listing


def check_offset(listing: Listing, expectation: Expectation[LoopReport]) -> None:
    """Whether a loop stands where one is expected."""
    places = listing.loop_offsets()
    if expectation.answer.offset not in places:
        raise ListingError(expectation.line, 1, f"no loop stands at {expectation.answer.offset} of the sheet; write the offset "
                           f"of a loop: {', '.join(map(str, places)) or 'there is none'}")


def check_values(listing: Listing, expectation: AnyExpectation) -> None:
    """Whether an expectation has a value for each parameter that the sheet uses."""
    for parameter in without_value(used_parameters(listing.records), expectation.values):
        raise ListingError(expectation.line, 1, f"{PARAMETER_NAMES[parameter]}, which line {listing.first_use(parameter)} "
                           "uses, has no value here; write it in a line 'parameters' above")


def read_line(line: Line, listing: Listing) -> None:
    """A line, by its first word."""
    if line.at_end():
        return
    first = line.next().text
    if first in KINDS:
        line.take()
        record, columns = read_record(line, KINDS[first], listing.loops_open)
        listing.add(Entry(record, line.number, columns, listing.loops_open))
    elif first in OTHER_LINES:
        line.take()
        OTHER_LINES[first](line, listing)
    elif first == "refused":
        line.fail("this is the listing of a refused sheet; write here what the sheet lacks")
    else:
        line.fail_expecting("one of the words " + ", ".join([*KINDS, *OTHER_LINES]))
    if not line.at_end():
        line.fail_expecting("nothing more, or # and a comment,")


Read = tuple[Record, dict[str, int]]


def read_record(line: Line, kind: int, around: int) -> Read:
    """The record of a line inside so many loops, after the line's first word."""
    if kind == WORK:
        return read_work(line)
    if kind == LOOP:
        return read_loop(line, around)
    return PLAIN[kind], {}


def read_work(line: Line) -> Read:
    columns = {"least": line.next().column, "most": line.next().column}
    least = line.take_number("the work", UNSIGNED_16, COST_TEXT)
    if not line.take_if(".."):
        return Work(least, least), columns
    columns["most"] = line.next().column
    return Work(least, line.take_number("the most of the work", UNSIGNED_16, COST_TEXT)), columns


def read_loop(line: Line, around: int) -> Read:
    name = index_name(around)
    line.take_required(name, f"{name}, the index of a loop at depth {around + 1},")
    bounds = {"bounds": line.next().column}
    lower = read_form(line, around)
    line.take_required("..", "'..' and the upper bound")
    upper = read_form(line, around)
    numbers, columns = read_loop_numbers(line)
    loop = Loop(numbers["start"], numbers["step"], numbers["stride"], lower, upper, numbers.get("skip"))
    return loop, {**bounds, **columns}


def read_loop_numbers(line: Line) -> tuple[dict[str, int], dict[str, int]]:
    """Stride, start, skip and step of a loop, in any order, each but the skip with its default; and their columns."""
    unsaid = dict(LOOP_NUMBERS)
    numbers = {"stride": 1, "start": 0, "step": 0}
    columns: dict[str, int] = {}
    while not line.at_end():
        word = line.take_if(*unsaid)
        if word is None:
            fail_after_loop(line, list(unsaid), after_bound=not columns)
        name = unsaid.pop(word.text)
        columns[name] = line.next().column
        numbers[name] = read_loop_number(line, name)
    return numbers, columns


def fail_after_loop(line: Line, unsaid: list[str], after_bound: bool) -> NoReturn:
    """What may follow: a bound may go on with a sign, a number may not."""
    may_follow = (["+", "-"] if after_bound else []) + unsaid
    line.fail_expecting(f"{' or '.join(may_follow)}, or nothing more," if may_follow else "nothing more")


def read_loop_number(line: Line, name: str) -> int:
    """The stride, whose sign says whether the loop counts up or down, or a cost."""
    if name == "stride":
        return line.take_number("the stride", SIGNED_16, STRIDE_TEXT)
    meant_as_stride = name == "step" and line.next().text == "-"
    return line.take_number(f"the {name}", UNSIGNED_16, STEP_TEXT if meant_as_stride else COST_TEXT)


def read_parameters(line: Line, listing: Listing) -> None:
    """One to four values."""
    values = [line.take_number(PARAMETER_NAMES[0], PARAMETER_RANGE)]
    for name in PARAMETER_NAMES[1:]:
        if not line.at_end():
            line.require_space()
            values.append(line.take_number(name, PARAMETER_RANGE))
    listing.values = tuple(values)


def read_budget(line: Line, listing: Listing) -> None:
    listing.budget = line.take_number("the budget", STORED_BUDGET_RANGE, range_text(BUDGET_RANGE))


def read_expectation(line: Line, listing: Listing) -> None:
    if line.next().text == KIND_WORDS[LOOP]:
        loop = read_loop_report(line)
        listing.loop_expectations.append(Expectation(line.number, listing.values, listing.budget, loop))
    else:
        answer = read_answer(line)
        listing.expectations.append(Expectation(line.number, listing.values, listing.budget, answer))


def read_loop_report(line: Line) -> LoopReport:
    """A loop's line as `bound` prints it and, after a colon, that of the reason why it is not closed."""
    first = line.next()
    try:
        (loop,) = read_loops([part.strip() for part in line.take_rest().split(":")])
    except ValueError:
        line.fail("write a loop as bound prints it and, if it is not closed, a colon and the reason: "
                  "loop 25 closed ceiling 9, or loop 0 walked ceiling 10: loop 25 is uneven in loop 0", first)
    return loop


def read_answer(line: Line) -> Answer:
    """Least, most and visits, or a refusal and its place."""
    if line.take_if("refused"):
        number = line.take_number("the refusal", REFUSAL_NUMBERS)
        line.take_required("at", "at and the place")
        return Refusal(number, line.take_number("the place", UNSIGNED_32))
    least = line.take_number("the least", UNSIGNED_64)
    most = line.take_number("the most", UNSIGNED_64)
    line.take_required("visits", "visits and their number")
    return Figures(least, most, line.take_number("the visits", UNSIGNED_64))


OTHER_LINES: dict[str, Callable[[Line, Listing], None]] = {
    "parameters": read_parameters,
    "budget": read_budget,
    "expect": read_expectation,
}
