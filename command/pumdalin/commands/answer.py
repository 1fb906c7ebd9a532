"""`pumdalin LISTING`: the figures of a sheet, what is said of its loops, and whether its expectations hold."""

import argparse
import json
from typing import NamedTuple, Optional, Union

from pumdalin import VERSION
from pumdalin.answers import Answer, Figures, LoopReport, Refusal, Report
from pumdalin.arguments import add_budget, add_bytes, add_file, add_json, add_parameters, parser_for
from pumdalin.asking import asked_text, asked_with, require_records, tell_rounded, tell_unused
from pumdalin.errors import ANSWERED, REFUSED
from pumdalin.files import tell, write_text
from pumdalin.inputs import Parameters, filled
from pumdalin.library import Library
from pumdalin.listing_reader import AnyExpectation
from pumdalin.notes import Asked
from pumdalin.subjects import Subject, ask, hint_to, loop_lines, read_subject, refusal_object, tell_notes, tell_refusal

DESCRIPTION = """\
Least and most cycles that the code of a sheet can take, the visits that the answer
took, and what is said of each loop, with the reason where it is not closed, all from the
proved calls. Every `expect` of the listing is checked."""

Said = Union[Answer, LoopReport]


class Check(NamedTuple):
    """What a listing expects, what is answered, and what the call says of the loops."""

    expected: AnyExpectation
    answered: Said
    loops: list[LoopReport]

    def holds(self) -> bool:
        return self.expected.answer == self.answered

    def asked(self) -> str:
        return asked_text(self.expected.parameters, self.expected.budget)


class Outcome(NamedTuple):
    subject: Subject
    parameters: Parameters
    budget: int
    answer: Answer
    loops: list[LoopReport]
    checks: list[Check]

    def asked(self) -> list[Asked]:
        """The values of this call, and those of each expectation."""
        return [Asked(self.parameters, self.loops), *(Asked(check.expected.parameters, check.loops) for check in self.checks)]

    def status(self) -> int:
        answered = isinstance(self.answer, Figures) and all(check.holds() for check in self.checks)
        return ANSWERED if answered else REFUSED


def add_arguments(parser: argparse.ArgumentParser) -> None:
    add_file(parser, "LISTING", "the listing of a sheet")
    add_parameters(parser)
    add_budget(parser)
    add_bytes(parser)
    add_json(parser)
    parser.add_argument("--version", action="version", version=f"pumdalin {VERSION}")


def run(words: list[str], library: Library, further: str = "") -> int:
    parser = parser_for("pumdalin", DESCRIPTION, further)
    add_arguments(parser)
    given = parser.parse_args(words)
    subject = read_subject(given.file, given.bytes)
    require_records(subject)
    outcome = outcome_of(given, subject, library)
    if isinstance(outcome.answer, Figures):
        tell_unused(subject, given.parameters or (), subject.used())
        tell_notes(subject, outcome.asked())
    if given.json:
        write_json(outcome)
    else:
        write_words(outcome)
    return outcome.status()


def outcome_of(given: argparse.Namespace, subject: Subject, library: Library) -> Outcome:
    values, budget = asked_with(subject, given.parameters, given.budget)
    report = ask(library, subject, values, budget)
    checks = [checked(expected, subject.sheet, library) for expected in subject.expectations()]
    return Outcome(subject, filled(values), budget, report.answer, report.loops, checks)


def checked(expected: AnyExpectation, sheet: bytes, library: Library) -> Check:
    report = library.report(sheet, expected.parameters, expected.budget)
    return Check(expected, said_of(expected.answer, report), report.loops)


def said_of(expected: Said, report: Report) -> Said:
    """What a report says of what is expected: the loop at the same offset, or the answer, which may be a refusal."""
    if isinstance(expected, LoopReport) and isinstance(report.answer, Figures):
        return next(loop for loop in report.loops if loop.offset == expected.offset)
    return report.answer


def said_text(said: Said) -> str:
    return f"loop {said.whole_text()}" if isinstance(said, LoopReport) else said.text()


def write_words(outcome: Outcome) -> None:
    """Answers on the standard output; what makes the status 1 on the standard error."""
    lines: list[str] = []
    if isinstance(outcome.answer, Figures):
        lines += [outcome.answer.text(), asked_text(outcome.parameters, outcome.budget)]
        lines += [line for loop in outcome.loops for line in loop_lines(outcome.subject, loop)]
    lines += [f"line {check.expected.line}: as expected at {check.asked()}: {said_text(check.answered)}"
              for check in outcome.checks if check.holds()]
    write_text(lines)
    if isinstance(outcome.answer, Refusal):
        tell_refusal(outcome.subject, outcome.answer)
    for check in outcome.checks:
        if not check.holds():
            tell(f"{outcome.subject.name}:{check.expected.line}: at {check.asked()} expected "
                 f"{said_text(check.expected.answer)}, answered {said_text(check.answered)}")


def write_json(outcome: Outcome) -> None:
    answer = outcome.answer
    write_text([json.dumps({
        "file": outcome.subject.name,
        "parameters": outcome.parameters,
        "budget": outcome.budget,
        "answer": answer._asdict() if isinstance(answer, Figures) else None,
        "refusal": refusal_object(outcome.subject, answer) if isinstance(answer, Refusal) else None,
        "loops": [loop_object(outcome.subject, loop) for loop in outcome.loops],
        "expectations": [check_object(check) for check in outcome.checks],
    }, indent=2)])
    if isinstance(answer, Figures):
        tell_rounded(outcome.subject, answer.most)


def loop_object(subject: Subject, loop: LoopReport) -> dict[str, object]:
    return {**subject.loop_at(loop.offset), **loop.fields(), "reason": reason_object(subject, loop)}


def reason_object(subject: Subject, loop: LoopReport) -> Optional[dict[str, object]]:
    """The reason; `printed` is its line as `bound` prints it."""
    reason = loop.reason
    if reason is None:
        return None
    return {**reason._asdict(), **subject.lines_of(reason), "printed": reason.text(), "hint": hint_to(subject, loop)}


def check_object(check: Check) -> dict[str, object]:
    return {"line": check.expected.line, "parameters": check.expected.parameters, "budget": check.expected.budget,
            "expected": said_object(check.expected.answer), "answered": said_object(check.answered), "holds": check.holds()}


def said_object(said: Said) -> dict[str, object]:
    """What is expected or answered; of a loop's reason, which may be expected wrongly, the line alone."""
    if isinstance(said, LoopReport):
        return {**said.fields(), "reason": said.reason and said.reason.text()}
    return said._asdict()
