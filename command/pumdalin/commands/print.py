"""`pumdalin print SHEET`: a sheet in bytes as a listing, with what is said of its loops."""

from typing import Optional

from pumdalin.answers import Refusal, Report
from pumdalin.arguments import add_file, add_parameters, parser_for
from pumdalin.errors import ANSWERED, REFUSED, CommandError
from pumdalin.files import read_file, shown_name, write_text
from pumdalin.inputs import HEADER_LENGTH, LARGEST_BUDGET, filled, from_input, without_value
from pumdalin.library import Library
from pumdalin.listing_text import comment, listing_lines
from pumdalin.refusals import summary
from pumdalin.subjects import SheetSubject, tell_refusal

SUMMARY = "a sheet's bytes as a listing"
DESCRIPTION = """\
Prints a sheet as a listing: each record with its offset and, where every parameter
that the sheet uses has a value, each loop with what is said of it. `pumdalin make`
makes the same sheet of it. A refused sheet is printed up to the refusal."""


def run(words: list[str], library: Library) -> int:
    parser = parser_for("pumdalin print", DESCRIPTION)
    add_file(parser, "SHEET", "a sheet's bytes")
    add_parameters(parser)
    parser.add_argument("--input", action="store_true",
                        help="the bytes are what bound reads: parameters and budget before the sheet")
    given = parser.parse_args(words)
    if given.input and given.parameters:
        parser.error("with --input the parameters stand in the file; leave out --parameters")
    data = read_file(given.file, "a sheet")
    if not given.input:
        return print_sheet(SheetSubject(shown_name(given.file), data), given.parameters or (), None, library)
    if len(data) < HEADER_LENGTH:
        raise CommandError(f"parameters and budget take {HEADER_LENGTH} bytes, and there are {len(data)}",
                           shown_name(given.file))
    sheet, parameters, budget = from_input(data)
    return print_sheet(SheetSubject(shown_name(given.file), sheet), parameters, budget, library)


def print_sheet(subject: SheetSubject, values: tuple[int, ...], budget: Optional[int], library: Library) -> int:
    """The listing at these values; one of the reader's refusals ends it, and is told too."""
    refusal = library.reader_refusal(subject.sheet)
    report = None if refusal else report_at(subject, values, budget, library)
    head = [comment(summary(report.answer, subject.sheet))] if report and isinstance(report.answer, Refusal) else []
    loops = report.loops if report else []
    write_text(head + listing_lines(subject.sheet, refusal, loops, values, budget))
    if refusal is None:
        return ANSWERED
    tell_refusal(subject, refusal)
    return REFUSED


def report_at(subject: SheetSubject, values: tuple[int, ...], budget: Optional[int], library: Library) -> Optional[Report]:
    """What is said of the sheet; nothing where a parameter that it uses has no value."""
    if without_value(subject.used(), values):
        return None
    return library.report(subject.sheet, filled(values), LARGEST_BUDGET if budget is None else budget)
