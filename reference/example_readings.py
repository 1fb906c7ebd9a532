"""Readings.antt, Telling.antt and Known.antt: answers and loop reports from raw bytes.
KnownAnswers.antt: what the library call returns."""

import sys
from typing import Callable

import antt
import readings
import trips
from antt import Equation, octets, term
from calls import answer, reports
from counting_down import TELLING_DOWN
from known import MARKED
from nest import counts_down, facts
from pumdalin.answers import Answer, Figures, Refusal
from pumdalin.inputs import Parameters, from_input
from pumdalin.records import Loop, Record
from ranked_sheets import RANKED_SHEETS
from sheet import read

# Of document 02's calls on loops that count down and on ranked loops, those with more trips are stored cases only.
MOST_TRIPS_DOWN = 150
MOST_TRIPS_RANKED = 300


def answer_equations(
    tells: str, sheet: bytes, parameters: Parameters, budget: int, result: Answer
) -> list[Equation]:
    """The answer, and where there are figures the loop reports."""
    given = [octets(sheet), antt.parameters(parameters)]
    equations = [Equation(tells, term("answer", *given, str(budget)), antt.answer(result))]
    if isinstance(result, Figures):
        found = antt.loop_reports(reports(sheet, parameters))
        equations.append(Equation("", term("reports", *given), found))
    return equations


def feasible(reading: readings.Reading, trip_limit: int) -> bool:
    """Whether the answer can be computed trip by trip within the limit."""
    records = read(reading.sheet)
    if isinstance(records, Refusal) or not isinstance(reading.answer, Figures):
        return True
    try:
        trips.trips(records, reading.parameters, trip_limit)
    except trips.TooMany:
        return False
    return True


def equations_of(lines: list[readings.Reading]) -> list[Equation]:
    """One equation for each refused line, two for each answered one."""
    equations: list[Equation] = []
    for line in lines:
        equations += answer_equations(
            line.tells, line.sheet, line.parameters, line.budget, line.answer)
    return equations


def down_equations() -> list[Equation]:
    """The sheets of loops that count down: those worked out by hand, and those of document 02's calls."""
    requested = [line for line in requested_on("C-17", has_loop_down) if feasible(line, MOST_TRIPS_DOWN)]
    return equations_of(TELLING_DOWN + requested)


def ranked_equations() -> list[Equation]:
    """The same of ranked loops."""
    lines = RANKED_SHEETS + requested_on("C-18", has_ranked_loop)
    return equations_of([line for line in lines if feasible(line, MOST_TRIPS_RANKED)])


def has_loop_down(records: list[Record], values: Parameters) -> bool:
    return any(isinstance(record, Loop) and counts_down(record) for record in records)


def has_ranked_loop(records: list[Record], values: Parameters) -> bool:
    return any(fact.ranked for fact in facts(records, values).values())


def requested_on(request: str, has_such: Callable[[list[Record], Parameters], bool]) -> list[readings.Reading]:
    """The inputs of `bound` with such a loop, where a request asks for its text."""
    found: list[readings.Reading] = []
    for printed in readings.parse_requests():
        sheet, parameters, budget = from_input(printed.data)
        records = read(sheet)
        if printed.request != request or isinstance(records, Refusal) or not has_such(records, parameters):
            continue
        result = answer(sheet, parameters, budget)
        found.append(readings.Reading(parameters, budget, sheet, result, "", [], printed.tells))
    return found


def readings_file(path: str, trip_limit: int, group: int) -> str:
    """The sheets that tell readings apart, save those with too many trips to compute."""
    lines = readings.parse_file(path)
    kept = [line for line in lines if feasible(line, trip_limit)]
    skipped = [line.tells for line in lines if line not in kept]
    for tells in skipped:
        print(f"skipped: {tells}", file=sys.stderr)
    comments = ["Sheets that tell readings of the papers apart, from raw bytes."]
    comments += [f"Left out, over {trip_limit} trips: {tells}" for tells in skipped]
    theorems = antt.grouped("readings", equations_of(kept), group)
    theorems += antt.grouped("counting-down", down_equations(), group)
    theorems += antt.grouped("ranked", ranked_equations(), group)
    return antt.file_text("Readings.antt", comments, theorems)


def telling_file(group: int) -> str:
    """The same of the sheets that a definition of closed which is too strict answers otherwise."""
    comments = ["Sheets that definitions which are wrong in one place answer otherwise, from raw bytes."]
    theorems = antt.grouped("telling", equations_of(readings.parse_file(readings.TELLING)), group)
    return antt.file_text("Telling.antt", comments, theorems)


def known_file() -> str:
    """The ten marked sheets, one of them at two parameter values, as one theorem."""
    equations: list[Equation] = []
    for case in MARKED:
        equations += answer_equations(
            case.tells, case.sheet(), case.parameters, case.budget, case.answer)
    comments = ["The ten sheets with known figures that are to be proved, from raw bytes."]
    return antt.file_text("Known.antt", comments, [antt.theorem("known-sheets", equations)])


def known_answers_file() -> str:
    """That the library call returns the known figures, from the theorem about the ten sheets."""
    lines = ["pub known-answers :"]
    proofs: list[str] = []
    for number, case in enumerate(MARKED):
        assert isinstance(case.answer, Figures)
        given = [octets(case.sheet()), antt.parameters(case.parameters), str(case.budget)]
        given += [str(figure) for figure in case.answer]
        lines += [f"    -- {case.tells}", f"    {'× ' if number else ''}{term('returns', *given)}"]
        # each sheet has two equations in that theorem: its answer, and its loop reports
        proofs.append(f"returns _ _ _ _ _ _ known-sheets.{2 * number}")
    lines.append("known-answers = (" + ", ".join(proofs) + ")")
    comments = ["What the library call returns for the ten sheets with known figures."]
    return antt.file_text("KnownAnswers.antt", comments, ["\n".join(lines) + "\n"])
