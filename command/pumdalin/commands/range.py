"""`pumdalin range LISTING --parameter N --from N --to N`: least and most of a sheet over a range of one parameter."""

import json
from typing import NamedTuple, Optional, Union

from pumdalin.answers import FIXED_REFUSALS, RECORD_REFUSALS, Extremes, Refusal
from pumdalin.arguments import (
    Once, add_budget, add_bytes, add_file, add_json, add_parameters, add_range, check_overwriting, parser_for,
)
from pumdalin.asking import asked_text, asked_with, require_records, tell_rounded, tell_unused
from pumdalin.errors import ANSWERED, REFUSED
from pumdalin.files import tell, write_file, write_text
from pumdalin.hints import range_hint
from pumdalin.inputs import ParameterRange, Parameters, filled, with_value
from pumdalin.library import RANGE_CALL, Library, unforeseen
from pumdalin.notes import Asked
from pumdalin.range_chart import range_svg
from pumdalin.subjects import Subject, read_subject, refusal_object, require_values, tell_notes, tell_refusal

SUMMARY = "least and most over a range of one parameter"
DESCRIPTION = """\
The smallest least and the largest most over all values of one parameter from the first
to the last, each with the smallest value that gives it, and the visits at all values
together, from the proved call. The other parameters stay as they are given; a value
that is given for the ranged one is not looked at. Every run at every value takes at
least the one and at most the other. One budget covers all visits. What the listing
expects is not checked."""


class Refused(NamedTuple):
    """A refusal and, where it depends on the value, the first value of the range that has it."""

    refusal: Refusal
    value: Optional[int]


class Outcome(NamedTuple):
    subject: Subject
    parameters: Parameters
    budget: int
    over: ParameterRange
    answer: Union[Extremes, Refused]

    def at(self, value: int) -> Parameters:
        return with_value(self.parameters, self.over.number, value)

    def shown_parameters(self, ranged: object) -> list[object]:
        """All four, with something in the place of the ranged one."""
        return [ranged if number == self.over.number else value for number, value in enumerate(self.parameters, start=1)]


def run(words: list[str], library: Library) -> int:
    parser = parser_for("pumdalin range", DESCRIPTION)
    add_file(parser, "LISTING", "the listing of a sheet")
    add_range(parser)
    add_parameters(parser)
    add_budget(parser)
    add_bytes(parser)
    parser.add_argument("--chart", action=Once, metavar="FILE",
                        help="a file to write: a chart of least and most at each value, as SVG")
    add_json(parser)
    given = parser.parse_args(words)
    check_overwriting(parser, given.file, given.chart, "--chart")
    subject = read_subject(given.file, given.bytes)
    require_records(subject)
    values, budget = asked_with(subject, given.parameters, given.budget)
    outcome = outcome_of(library, subject, values, budget, ParameterRange(given.number, given.first, given.last))
    if isinstance(outcome.answer, Extremes):
        if given.chart is not None:
            write_file(given.chart, chart_of(library, outcome, outcome.answer))
        tell_doubts(library, outcome, given.parameters or ())
    if given.json:
        write_json(outcome)
    else:
        write_words(outcome)
    return ANSWERED if isinstance(outcome.answer, Extremes) else REFUSED


def outcome_of(library: Library, subject: Subject, values: tuple[int, ...], budget: int, over: ParameterRange) -> Outcome:
    """The outcome; an error where a parameter that the sheet uses, save the ranged one, has no value."""
    answer = library.extremes(subject.sheet, filled(values), budget, over)
    if answer not in FIXED_REFUSALS:
        require_values(subject, values, ranged=over.number - 1)
    found = refused(library, subject.sheet, filled(values), over, answer) if isinstance(answer, int) else answer
    return Outcome(subject, filled(values), budget, over, found)


def refused(library: Library, sheet: bytes, parameters: Parameters, over: ParameterRange, number: int) -> Refused:
    """The refusal of a number with its place and value, which the call does not hand out.

    Single calls say them, with a budget of one visit: no refusal of a record asks for more.
    """
    if number not in RECORD_REFUSALS:
        return Refused(Refusal(number, 0), None)
    for value in over.values():
        answer = library.report(sheet, with_value(parameters, over.number, value), 1).answer
        if isinstance(answer, Refusal) and answer.number == number:
            return Refused(answer, None if number in FIXED_REFUSALS else value)
    raise unforeseen(RANGE_CALL, number)


def chart_of(library: Library, outcome: Outcome, extremes: Extremes) -> bytes:
    """The chart, over the figures of single calls."""
    figures = [library.figures(outcome.subject.sheet, outcome.at(value), outcome.budget) for value in outcome.over.values()]
    fixed = {number: outcome.parameters[number] for number in outcome.subject.used() if number != outcome.over.number - 1}
    return range_svg(outcome.subject.name, fixed, outcome.over, figures, extremes)


def tell_doubts(library: Library, outcome: Outcome, values: tuple[int, ...]) -> None:
    """What looks like a mistake: values that change nothing, and loops that seem to count the wrong way at the last value.

    The distance from start to end of a loop that is noted grows with no parameter, so the last value is the one that shows it.
    """
    subject, over = outcome.subject, outcome.over
    ranged, used = over.number - 1, subject.used()
    tell_unused(subject, values, [*used, ranged])
    if ranged not in used:
        tell(f"{subject.name}: note: no bound uses {over.name}, so the figures are the same at every value of the range")
    at_last = outcome.at(over.last)
    tell_notes(subject, [Asked(at_last, library.report(subject.sheet, at_last, outcome.budget).loops)])


def write_words(outcome: Outcome) -> None:
    """The answer on the standard output; a refusal on the standard error."""
    over, answer = outcome.over, outcome.answer
    if isinstance(answer, Extremes):
        asked = asked_text(outcome.shown_parameters(f"{over.first}..{over.last}"), outcome.budget)
        write_text([answer.text(over.name), asked])
    else:
        tell_refusal(outcome.subject, answer.refusal, hint_to(answer, over))


def write_json(outcome: Outcome) -> None:
    answer = outcome.answer
    write_text([json.dumps({
        "file": outcome.subject.name,
        "range": {"parameter": outcome.over.number, "from": outcome.over.first, "to": outcome.over.last},
        "parameters": outcome.shown_parameters(None),
        "budget": outcome.budget,
        "answer": extremes_object(answer) if isinstance(answer, Extremes) else None,
        "refusal": refused_object(outcome, answer) if isinstance(answer, Refused) else None,
    }, indent=2)])
    if isinstance(answer, Extremes):
        tell_rounded(outcome.subject, answer.most.cycles)


def extremes_object(extremes: Extremes) -> dict[str, object]:
    return {"least": extremes.least._asdict(), "most": extremes.most._asdict(), "visits": extremes.visits}


def refused_object(outcome: Outcome, refused_at: Refused) -> dict[str, object]:
    shown = refusal_object(outcome.subject, refused_at.refusal, hint_to(refused_at, outcome.over))
    return {**shown, "value": refused_at.value}


def hint_to(refused_at: Refused, over: ParameterRange) -> Optional[str]:
    return range_hint(refused_at.refusal.number, over, refused_at.value)
