"""What a call answers: figures or a refusal, and what is said of each loop."""

import re
from typing import NamedTuple, Optional, Union


class Figures(NamedTuple):
    least: int
    most: int
    visits: int

    def text(self) -> str:
        return f"best {self.least} worst {self.most} visits {self.visits}"


class Refusal(NamedTuple):
    """Why a sheet or a call is turned down, and the place of it."""

    number: int
    place: int

    def text(self) -> str:
        return f"refused {self.number} at {self.place}"


Answer = Union[Figures, Refusal]


class Extreme(NamedTuple):
    """The smallest least or the largest most over a range of one parameter, and the smallest value that gives it."""

    cycles: int
    value: int


class Extremes(NamedTuple):
    """Over a range of one parameter: both extremes, and the visits of all values together."""

    least: Extreme
    most: Extreme
    visits: int

    def text(self, name: str) -> str:
        """With the name of the parameter."""
        return (f"best {self.least.cycles} at {name} = {self.least.value} "
                f"worst {self.most.cycles} at {name} = {self.most.value} visits {self.visits}")


# The refusals of the reader of sheets: what comes before the place is all that was read.
READER_REFUSALS = range(1, 6)
# Refused at the parameters: a loop's ceiling passes the limit; the visits pass the budget.
CEILING_PASSED = 6
BUDGET_PASSED = 8
# Refused where a sheet is to have loops of kind 2 alone: a loop's skip differs from its start.
SKIP_DIFFERS = 10
# Refused where a range is asked for: the parameter's number, the order of the values, or how many there are.
RANGE_REFUSED = 11
# The refusals of a sheet at its parameters, whose place is a record.
RECORD_REFUSALS = (*READER_REFUSALS, CEILING_PASSED)
# Refusals whose place is a record.
PLACED_REFUSALS = (*RECORD_REFUSALS, SKIP_DIFFERS)
# Refusals that do not depend on the parameters.
FIXED_REFUSALS = (RANGE_REFUSED, 7, *READER_REFUSALS)
# Those of a call over a range, in its order.
RANGE_REFUSALS = (RANGE_REFUSED, 7, *RECORD_REFUSALS, BUDGET_PASSED)


# A loop's class, in the word that its line has for it. A ranked loop is summed like a closed one where its first trips show
# which arm of each choice is the slowest and which the fastest, and is walked otherwise.
CLOSED = "closed"
RANKED = "ranked"
WALKED = "walked"
LOOP_CLASSES = (CLOSED, RANKED, WALKED)

# The sorts of reasons why a loop is not closed, and their lines: the offsets are those of a choice C, of a loop K inside the
# loop, of such a loop K and a loop M around it.
HOLDS_LOOP = "holds-loop"
TOO_FEW_TRIPS = "too-few-trips"
UNEVEN = "uneven"

REASON_PHRASES = {
    HOLDS_LOOP: "choice {} holds a loop",
    TOO_FEW_TRIPS: "loop {} may fall below no trips",
    UNEVEN: "loop {} is uneven in loop {}",
}


class Reason(NamedTuple):
    """Why a loop is not closed: the sort, and the offsets that stand in its line."""

    sort: str
    offsets: tuple[int, ...]

    def text(self) -> str:
        return REASON_PHRASES[self.sort].format(*self.offsets)


class LoopReport(NamedTuple):
    """What a loop's line says of it, and the line after it where the loop is not closed."""

    offset: int
    loop_class: str
    ceiling: int
    reason: Optional[Reason] = None

    @property
    def closed(self) -> bool:
        return self.loop_class == CLOSED

    def fields(self) -> dict[str, object]:
        """For JSON, without the reason."""
        return {"offset": self.offset, "class": self.loop_class, "closed": self.closed, "ceiling": self.ceiling}

    def verdict(self) -> str:
        return f"{self.loop_class} ceiling {self.ceiling}"

    def text(self) -> str:
        return f"{self.offset} {self.verdict()}"

    def whole_text(self) -> str:
        """The text with the reason after a colon."""
        return f"{self.text()}: {self.reason.text()}" if self.reason else self.text()


class Report(NamedTuple):
    """The text of a call, read: its answer, and its loops in sheet order."""

    answer: Answer
    loops: list[LoopReport]


# A decimal number of up to 64 bits, without leading zeros.
NUMBER = "(0|[1-9][0-9]{0,19})"

FIGURES_LINE = re.compile(f"best {NUMBER} worst {NUMBER} visits {NUMBER}")
REFUSAL_LINE = re.compile(f"refused {NUMBER} at {NUMBER}")
LOOP_LINE = re.compile(f"loop {NUMBER} ({'|'.join(LOOP_CLASSES)}) ceiling {NUMBER}")
REASON_LINES = {sort: re.compile(phrase.replace("{}", NUMBER)) for sort, phrase in REASON_PHRASES.items()}


def read_report(text: str) -> Report:
    """The report in a text of the text call; ValueError where it is none."""
    first, *others = text.splitlines() or [""]
    return Report(read_answer(first), read_loops(others))


def read_loops(lines: list[str]) -> list[LoopReport]:
    """The loops of these lines: each has its own, and one that is not closed its reason's after it."""
    loops: list[LoopReport] = []
    remaining = iter(lines)
    for line in remaining:
        loop = read_loop_line(line)
        loops.append(loop if loop.closed else loop._replace(reason=read_reason_line(next(remaining, ""))))
    return loops


def read_answer(line: str) -> Answer:
    if found := FIGURES_LINE.fullmatch(line):
        return Figures(*map(int, found.groups()))
    if found := REFUSAL_LINE.fullmatch(line):
        return Refusal(*map(int, found.groups()))
    raise ValueError(f"no answer's line: {line!r}")


def read_loop_line(line: str) -> LoopReport:
    found = LOOP_LINE.fullmatch(line)
    if found is None:
        raise ValueError(f"no loop's line: {line!r}")
    return LoopReport(int(found[1]), found[2], int(found[3]))


def read_reason_line(line: str) -> Reason:
    for sort, pattern in REASON_LINES.items():
        if found := pattern.fullmatch(line):
            return Reason(sort, tuple(map(int, found.groups())))
    raise ValueError(f"no reason's line: {line!r}")
