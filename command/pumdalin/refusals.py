"""Refusals in words: what is wrong, who has to change what, which limit."""

from typing import NamedTuple

from pumdalin.answers import RANGE_REFUSED, SKIP_DIFFERS, Refusal
from pumdalin.inputs import LARGEST_BUDGET, MOST_VALUES
from pumdalin.records import (
    CEILING_LIMIT, COST_LIMIT, MOST_LOOPS_DEEP, MOST_OPEN, MOST_RECORDS, PARAMETERS, STRIDE_LIMIT,
)

WRITER = "whoever wrote the sheet"
CHOOSER = "whoever chose the parameters"
CALLER = "whoever placed the call"

NESTING = (f"each loop and each choice has one end; a next arm stands directly in a choice; loops go at most "
           f"{MOST_LOOPS_DEEP} deep; at most {MOST_OPEN} loops and choices are open together")


class Words(NamedTuple):
    what: str
    who: str
    change: str
    limit: str


REFUSALS = {
    1: Words("the sheet ends inside this record", WRITER, "add the record's missing bytes",
             "a work has 5 bytes, a loop of kind 2 has 25, one of kind 6 has 27, any other record 1"),
    2: Words("no kind of record has this number", WRITER, "write a kind of record here",
             "kinds are 1 to 6"),
    3: Words("a field of this record is out of its range", WRITER, "change the field",
             f"least <= most <= {COST_LIMIT:,}; start, skip and step <= {COST_LIMIT:,}; stride -{STRIDE_LIMIT:,} to "
             f"{STRIDE_LIMIT:,} without 0; in a bound only the indexes of the loops around"),
    4: Words(f"the sheet has more than {MOST_RECORDS} records", WRITER, "split the sheet before this record",
             f"a sheet has at most {MOST_RECORDS} records"),
    5: Words("this record may not stand here", WRITER, "change the nesting", NESTING),
    6: Words(f"this loop may make more than {CEILING_LIMIT:,} trips at one entry", CHOOSER,
             "choose other values, or bounds for the loop that keep it within the limit at these values",
             f"a loop's ceiling is at most {CEILING_LIMIT:,}"),
    7: Words("the budget is out of its range", CALLER, "give another budget",
             f"a budget is 1 to {LARGEST_BUDGET:,} visits"),
    8: Words("the sheet takes more visits than the budget", CALLER,
             "give a larger budget, or a sheet with fewer walked or ranked loops (an answer with figures, such as one at "
             "smaller parameter values, says why each is not closed)",
             f"a budget is 1 to {LARGEST_BUDGET:,} visits"),
    SKIP_DIFFERS: Words("this loop's skip differs from its start, and a loop of kind 2 has no skip of its own", WRITER,
                        "give the loop a skip that equals its start, if that is what the code costs without a trip, or leave "
                        "the sheet as it is",
                        "a loop of kind 2 costs its start where it makes no trip"),
    RANGE_REFUSED: Words("no such range can be asked for", CALLER, "give another range",
                         f"a parameter's number is 1 to {PARAMETERS}, the first value is not above the last, and there are at "
                         f"most {MOST_VALUES} values"),
}

OPEN_AT_END = Words("a loop or a choice is still open at the sheet's end", WRITER, "add the missing end", NESTING)


def words_for(refusal: Refusal, sheet: bytes) -> Words:
    """The words for a refusal of a sheet; its place tells the two meanings of 5 apart."""
    return OPEN_AT_END if refusal == (5, len(sheet)) else REFUSALS[refusal.number]


def summary(refusal: Refusal, sheet: bytes) -> str:
    """The refusal, and what is wrong."""
    return f"{refusal.text()}: {words_for(refusal, sheet).what}"


def explanation(refusal: Refusal, sheet: bytes) -> list[str]:
    """Who has to change what, and the limit."""
    words = words_for(refusal, sheet)
    return [f"{words.who} has to {words.change}", f"limit: {words.limit}"]
