"""What is asked about: a sheet, and where its records were written."""

from typing import Optional, Union

from pumdalin.answers import FIXED_REFUSALS, PLACED_REFUSALS, RANKED, LoopReport, Reason, Refusal, Report
from pumdalin.characters import decoded
from pumdalin.errors import CommandError, ListingError
from pumdalin.files import read_file, shown_name, tell
from pumdalin.hints import bytes_hint, listing_hint, ranked_hint, reason_hint
from pumdalin.inputs import LARGEST_BUDGET, filled, without_value
from pumdalin.library import Library
from pumdalin.listing_reader import AnyExpectation, Entry, Listing, read_listing
from pumdalin.listing_text import KIND_WORDS, PARAMETER_NAMES, index_name
from pumdalin.notes import Asked, direction_note, few_trips_meant
from pumdalin.records import Loop, Record, decode_at, decode_before, kind_of, offsets, used_parameters
from pumdalin.refusals import explanation, summary, words_for


class ListingSubject:
    """A sheet that was written as a listing: its records have lines."""

    def __init__(self, name: str, listing: Listing) -> None:
        self.name = name
        self.listing = listing
        self.sheet = listing.sheet()

    def given(self) -> tuple[tuple[int, ...], int]:
        return self.listing.given()

    def expectations(self) -> list[AnyExpectation]:
        return self.listing.all_expectations()

    def used(self) -> list[int]:
        return used_parameters(self.listing.records)

    def line_at(self, offset: int) -> int:
        """The line of the record at an offset; the sheet's end is after the last line."""
        entry = self.listing.entry_at(offset)
        return entry.line if entry else self.listing.last_line + 1

    def entry_at(self, offset: int) -> Entry:
        entry = self.listing.entry_at(offset)
        assert entry is not None
        return entry

    def record_at(self, offset: int) -> Record:
        return self.entry_at(offset).record

    def loop_at(self, offset: int) -> dict[str, object]:
        """The line and the index of the loop at an offset."""
        entry = self.entry_at(offset)
        return {"line": entry.line, "index": index_name(entry.loops_around)}

    def loop_line(self, loop: LoopReport) -> str:
        return "line {line}: loop {index} ".format(**self.loop_at(loop.offset)) + loop.verdict()

    def name_at(self, offset: int) -> str:
        """The loop or the choice at an offset, as the listing has it."""
        entry = self.entry_at(offset)
        index = f" {index_name(entry.loops_around)}" if isinstance(entry.record, Loop) else ""
        return f"the {KIND_WORDS[kind_of(entry.record)]}{index} of line {entry.line}"

    def reason_line(self, reason: Reason) -> str:
        return f"{reason.text()}: {', '.join(self.name_at(offset) for offset in reason.offsets)}"

    def lines_of(self, reason: Reason) -> dict[str, object]:
        return {"lines": [self.line_at(offset) for offset in reason.offsets]}

    def refusal_line(self, refusal: Refusal) -> Optional[int]:
        return self.line_at(refusal.place) if refusal.number in PLACED_REFUSALS else None

    def hint(self, refusal: Refusal) -> Optional[str]:
        return listing_hint(self.listing, refusal)

    def notes(self, asked: list[Asked]) -> list[str]:
        """A line for each loop that seems to count the wrong way at some of the values, with the place of its bounds."""
        lines: list[str] = []
        for offset, entry in zip(offsets(self.listing.records), self.listing.entries):
            if isinstance(entry.record, Loop):
                asking = [one for one in asked if not few_trips_meant(self.listing.expected_ceilings(offset, one.values))]
                found = [direction_note(entry.record, offset, self.used(), one) for one in asking]
                lines += [f"{self.name}:{entry.line}:{entry.columns['bounds']}: note: {note}" for note in found if note][:1]
        return lines

    def value_error(self, parameter: int) -> CommandError:
        return CommandError(f"{PARAMETER_NAMES[parameter]} has no value; give it with --parameters, or in a line "
                            "'parameters' of the listing", f"{self.name}:{self.listing.first_use(parameter)}")


class SheetSubject:
    """A sheet in bytes: its records have offsets."""

    def __init__(self, name: str, sheet: bytes) -> None:
        self.name = name
        self.sheet = sheet

    def given(self) -> tuple[tuple[int, ...], int]:
        return (), LARGEST_BUDGET

    def expectations(self) -> list[AnyExpectation]:
        return []

    def used(self) -> list[int]:
        return used_parameters(decode_before(self.sheet, len(self.sheet)))

    def record_at(self, offset: int) -> Record:
        return decode_at(self.sheet, offset)

    def loop_at(self, offset: int) -> dict[str, object]:
        return {}

    def loop_line(self, loop: LoopReport) -> str:
        return f"loop {loop.text()}"

    def name_at(self, offset: int) -> str:
        return f"{KIND_WORDS[self.sheet[offset]]} {offset}"

    def reason_line(self, reason: Reason) -> str:
        return reason.text()

    def lines_of(self, reason: Reason) -> dict[str, object]:
        return {}

    def refusal_line(self, refusal: Refusal) -> Optional[int]:
        return None

    def hint(self, refusal: Refusal) -> Optional[str]:
        return bytes_hint(self.sheet, refusal)

    def notes(self, asked: list[Asked]) -> list[str]:
        """None: whoever wrote the bytes decided the direction by a sign there."""
        return []

    def value_error(self, parameter: int) -> CommandError:
        return CommandError(f"the sheet uses {PARAMETER_NAMES[parameter]}, which has no value; give it with "
                            "--parameters", self.name)


Subject = Union[ListingSubject, SheetSubject]


def read_listing_file(path: str) -> ListingSubject:
    """The listing in a file, or a mistake with the file's name before its line."""
    name = shown_name(path)
    try:
        return ListingSubject(name, read_listing(decoded(read_file(path, "a listing"))))
    except ListingError as error:
        raise CommandError(error.message, f"{name}:{error.line}:{error.column}") from error


def read_subject(path: str, in_bytes: bool) -> Subject:
    if in_bytes:
        return SheetSubject(shown_name(path), read_file(path, "a sheet"))
    return read_listing_file(path)


def refusal_lines(subject: Subject, refusal: Refusal, hint: Optional[str] = None) -> list[str]:
    """A refusal in words, each line after the place where it was found; the hint, unless one is given, is on the record there."""
    line = subject.refusal_line(refusal)
    place = subject.name if line is None else f"{subject.name}:{line}"
    hint = hint or subject.hint(refusal)
    said = [summary(refusal, subject.sheet), *explanation(refusal, subject.sheet), *([f"hint: {hint}"] if hint else [])]
    return [f"{place}: {words}" for words in said]


def refusal_object(subject: Subject, refusal: Refusal, hint: Optional[str] = None) -> dict[str, object]:
    """The same for JSON."""
    return {**refusal._asdict(), "line": subject.refusal_line(refusal),
            **words_for(refusal, subject.sheet)._asdict(), "hint": hint or subject.hint(refusal)}


def loop_lines(subject: Subject, loop: LoopReport) -> list[str]:
    """What is said of a loop; after one that is not closed, why and what to change."""
    if loop.reason is None:
        return [subject.loop_line(loop)]
    hint = hint_to(subject, loop)
    return [subject.loop_line(loop), f"  {subject.reason_line(loop.reason)}", f"  hint: {hint}"]


def hint_to(subject: Subject, loop: LoopReport) -> str:
    """The hint to a loop that is not closed."""
    assert loop.reason is not None
    names = [subject.name_at(offset) for offset in loop.reason.offsets]
    if loop.loop_class == RANKED:
        return ranked_hint(names[0])
    return reason_hint(loop.reason, subject.record_at(loop.reason.offsets[0]), names)


def tell_refusal(subject: Subject, refusal: Refusal, hint: Optional[str] = None) -> None:
    for line in refusal_lines(subject, refusal, hint):
        tell(line)


def tell_notes(subject: Subject, asked: list[Asked]) -> None:
    for line in subject.notes(asked):
        tell(line)


def given_values(subject: Subject) -> list[Asked]:
    """The values that a listing gives; no call says anything of its loops."""
    return [Asked(subject.given()[0], [])]


def ask(library: Library, subject: Subject, values: tuple[int, ...], budget: int) -> Report:
    """The report of a subject; an error where a parameter that it uses has no value."""
    report = library.report(subject.sheet, filled(values), budget)
    if not isinstance(report.answer, Refusal) or report.answer.number not in FIXED_REFUSALS:
        require_values(subject, values)
    return report


def require_values(subject: Subject, values: tuple[int, ...], ranged: Optional[int] = None) -> None:
    """An error where a parameter that the sheet uses has no value: it would count as 0. One that is ranged over needs none."""
    for parameter in without_value(subject.used(), values):
        if parameter != ranged:
            raise subject.value_error(parameter)
