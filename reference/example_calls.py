"""Calls.antt: writer, C calls, record reader, the program's text, reasons, converters, three numbers."""

import antt
from antt import Equation, inner, listed, octets, term
from call_cases import C_CALL_CASES, READER_CASES, REASON_CASES, TEXT_CALL_CASES, TEXT_CASES
from calls import INPUT_LIMIT, c_call, program_text, text_call
from consistency import FIGURE_LIMIT, VISITS_PER_LOOP
from conversions import CONVERSIONS, Conversion
from converters import convert_called, stored
from pumdalin.answers import Refusal
from pumdalin.records import SKIP_LOOP, Form
from reasons import read_reason
from sheet import Part, Written, record_at, write
from writer_cases import (
    CHOICE_ENTRY, END_ENTRY, LOOP_ENTRY, NEXT_ENTRY, SKIP_ENTRY, WORK_ENTRY, WRITER_CASES, RawRecord,
)

# Longer inputs are left to the stored cases: the checker has to compute the examples.
LONGEST_INPUT = 100

# Entries that come often get a name; so does the form with nothing in it.
NO_FORM = "no_form"
ENTRY_NAMES = {
    WORK_ENTRY: "a_work",
    LOOP_ENTRY: "a_loop",
    END_ENTRY: "an_end",
    CHOICE_ENTRY: "a_choice",
    NEXT_ENTRY: "a_next_arm",
    SKIP_ENTRY: "a_skip_loop",
}


def raw_record(entry: RawRecord) -> str:
    """An entry written out, with the name of the empty form."""
    return antt.raw_record(entry).replace(inner(antt.form(Form())), NO_FORM)


def definitions() -> list[str]:
    parts = [antt.definition(NO_FORM, antt.NAME["form type"], antt.form(Form()))]
    for entry, name in ENTRY_NAMES.items():
        parts.append(antt.definition(name, antt.NAME["raw type"], raw_record(entry)))
    return parts


def entries(given: list[RawRecord]) -> str:
    return inner(listed([ENTRY_NAMES.get(entry) or raw_record(entry) for entry in given]))


def writer_equations() -> list[Equation]:
    found: list[Equation] = []
    for case in WRITER_CASES:
        given = [entries(case.entries), str(case.count), octets(case.buffer)]
        result = write(case.entries, case.count, case.buffer)
        found.append(Equation(case.tells, term("write", *given), written(result)))
    return found


def written(result: Written) -> str:
    """The answer and the buffer of the writer or of a converter."""
    if isinstance(result.answer, Refusal):
        numbers = [str(number) for number in result.answer]
        return term("not written", *numbers, octets(result.buffer))
    return term("written", str(result.answer), octets(result.buffer))


def call_equations() -> list[Equation]:
    found: list[Equation] = []
    for case in C_CALL_CASES:
        given = [octets(case.sheet), antt.parameters(case.parameters),
                 str(case.budget), octets(case.area)]
        result = c_call(case.sheet, case.parameters, case.budget, case.area)
        right = term("called", str(result.number), octets(result.area))
        found.append(Equation(case.tells, term("c call", *given), right))
    return found


def reader_equations() -> list[Equation]:
    """What stands at the offset, and the body: empty where no record stands."""
    found: list[Equation] = []
    for case in READER_CASES:
        result = record_at(case.sheet, case.offset)
        body = b""
        if isinstance(result, Part):
            name = "found"
            body = case.sheet[result.body_offset:][:result.body_length]
        else:
            name = "not found" if isinstance(result, Refusal) else "sheet end"
        given = [octets(case.sheet), str(case.offset)]
        right = term(name, *[str(number) for number in result])
        found.append(Equation(case.tells, term("record at", *given), right))
        found.append(Equation("", term("body at", *given), octets(body)))
    return found


def text_equations() -> list[Equation]:
    found: list[Equation] = []
    for case in TEXT_CASES:
        printed = antt.text(program_text(case.data))
        found.append(Equation(case.tells, term("text", octets(case.data)), printed))
    return found


def text_call_equations() -> list[Equation]:
    found: list[Equation] = []
    for case in TEXT_CALL_CASES:
        if len(case.data) <= LONGEST_INPUT:
            given = [octets(case.data), octets(case.buffer), octets(case.area)]
            number, buffer, area = text_call(case.data, case.buffer, case.area)
            right = term("lent", str(number), octets(buffer), octets(area))
            found.append(Equation(case.tells, term("text call", *given), right))
    return found


def converter_name(case: Conversion) -> str:
    return "with skips" if case.kind == SKIP_LOOP else "without skips"


def converter_equations() -> list[Equation]:
    """The library calls, which take no area."""
    found: list[Equation] = []
    for case in CONVERSIONS:
        left = term(converter_name(case), octets(case.sheet), octets(case.buffer))
        if left not in [equation.left for equation in found]:
            found.append(Equation(case.tells, left, written(stored(case.converted(), case.buffer))))
    return found


def converter_call_equations() -> list[Equation]:
    found: list[Equation] = []
    for case in CONVERSIONS:
        number, buffer, area = convert_called(case.converted(), case.buffer, case.area)
        given = [octets(case.sheet), octets(case.buffer), octets(case.area)]
        right = term("lent", str(number), octets(buffer), octets(area))
        found.append(Equation(case.tells, term(converter_name(case) + " call", *given), right))
    return found


def reason_equations() -> list[Equation]:
    """What a line reads back to."""
    found: list[Equation] = []
    for case in REASON_CASES:
        result = read_reason(case.line)
        right = term("none") if result is None else term("some", inner(antt.reason(result)))
        found.append(Equation(case.tells, term("read reason", antt.text(case.line)), right))
    return found


def number_equations() -> list[Equation]:
    """Numbers of the requirement that stand in theorems and that no case meets."""
    return [
        Equation("every figure is below 2^63", term("figure limit"), str(FIGURE_LIMIT)),
        Equation("visits a loop, where every loop is closed",
                 term("visits per loop"), str(VISITS_PER_LOOP)),
        Equation("bytes of the program's input that matter", term("input limit"), str(INPUT_LIMIT)),
    ]


def calls_file(group: int) -> str:
    parts = definitions()
    parts += antt.grouped("writer", writer_equations(), group)
    parts += antt.grouped("c-call", call_equations(), group)
    parts += antt.grouped("record-reader", reader_equations(), group)
    parts += antt.grouped("program-text", text_equations(), group)
    parts += antt.grouped("text-call", text_call_equations(), group)
    parts += antt.grouped("reading-back", reason_equations(), group)
    parts += antt.grouped("converter", converter_equations(), group)
    parts += antt.grouped("converter-call", converter_call_equations(), group)
    parts += antt.grouped("numbers", number_equations(), group)
    comments = ["The writer, C calls, the record reader, the program's text, reasons read back, converters, by cases.",
                "Last three numbers that only theorems name."]
    return antt.file_text("Calls.antt", comments, parts)
