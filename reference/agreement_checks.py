"""The comparison itself: the library's calls and the text of `bound` against the reckoning."""

from typing import NamedTuple, Optional, Sequence

import trips
from agreement_calls import Call, TextCall, first_line, shown
from agreement_cases import Expected, Trial, trial
from asking import Ask
from calls import answer
from generate import Case
from pumdalin.answers import Answer, Figures, Refusal
from sheet import read

# Listings with more trips are not meant to be among the examples.
MOST_TRIPS = 2_000_000


class Difference(Exception):
    """What does not agree, shown."""


class Unusable(Exception):
    """What can not be compared, and what to change."""


class Tool(NamedTuple):
    """What is compared: answers.c with the library, and `bound`, which may be left out."""

    library: Ask
    program: Optional[Ask]


def difference(tells: str, sheet: str, answers: dict[str, str]) -> Difference:
    """The sheet as it is shown, and who answers what."""
    width = max(len(who) for who in answers) + 1
    lines = [f"{who + ':':{width}} {what}" for who, what in answers.items()]
    return Difference("\n".join([f"differs: {tells}", sheet, *lines]))


def check_library(library: Ask, calls: Sequence[Call]) -> None:
    """All calls, in one run of answers.c."""
    expected = [call.reply() for call in calls]
    questions = b"".join(call.question() for call in calls)
    replies, failure = library(questions, [len(right) for right in expected])
    for call, right in zip(calls, expected):
        reply, replies = replies[:len(right)], replies[len(right):]
        if reply != right:
            is_whole = len(reply) == len(right)
            raise difference(call.heading(), call.sheet_text(), {
                "reckoned": call.show(right),
                "library": call.show(reply) if is_whole else failure or "no whole answer"})
    if replies or failure:
        what = failure or "writes more than its answers"
        raise Difference(f"differs: the library's program, when all is answered, {what}")


def check_program(program: Ask, call: TextCall) -> None:
    """`bound` on a text call's input."""
    printed, failure = program(call.data, [len(call.text)])
    if failure or printed != call.text:
        said = f"{failure}, after printing {printed!r}" if failure else repr(printed)
        raise difference(f"{call.tells}, {len(call.data)} bytes of input", call.sheet_text(), {
            "reckoned": repr(call.text), "bound": said})


def check_trials(tool: Tool, trials: Sequence[Trial], program_every: int = 1) -> None:
    """The library on each trial, and `bound` on every so many."""
    check_library(tool.library, [call for asked in trials for call in asked.calls])
    for asked in trials[::program_every] if tool.program else []:
        check_program(tool.program, asked.text)


def by_every_trip(case: Case) -> Answer:
    """The answer, with figures from going over every trip."""
    result = answer(case.sheet, case.parameters, case.budget)
    if isinstance(result, Refusal):
        return result
    return Figures(*trips.time(read(case.sheet), case.parameters, MOST_TRIPS), result.visits)


def check_expected(expected: Expected) -> None:
    """What a line of a listing expects, against the reckoning."""
    tells, case, said = expected
    try:
        reckoned = by_every_trip(case)
    except trips.TooMany as error:
        raise Unusable(f"{tells}: this makes more than {MOST_TRIPS:,} trips, too many to go over "
                       "every one; expect something of a smaller sheet") from error
    if reckoned != said:
        raise difference(tells, shown(case.sheet, case.parameters, case.budget), {
            "expected": first_line(said), "reckoned": first_line(reckoned)})


def check_listing(tool: Tool, listing: Sequence[Expected]) -> None:
    """What a listing expects, against the reckoning and the tool."""
    for expected in listing:
        check_expected(expected)
    check_trials(tool, [trial(expected) for expected in listing])
