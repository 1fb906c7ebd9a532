"""Sheets as listings: a record a line, bounds as people write them.

docs/LISTINGS.md describes the format; listing_reader.py reads it back.
"""

from typing import Optional

from pumdalin.answers import LoopReport, Refusal
from pumdalin.records import (
    CHOICE, END, INDEX_FACTORS, LOOP, NEXT_ARM, SKIP_LOOP, WORK,
    Form, Loop, Record, Work, decode_before, kind_of, loops_among, offsets, open_after,
)
from pumdalin.refusals import summary

# The indexes by depth, outermost first. No loop stands inside one of depth 4, so no bound has an l.
INDEX_NAMES = ("i", "j", "k", "l")
# The index of a loop that is deeper than a sheet allows, which the reader of sheets refuses.
DEEPER_INDEX_NAME = "m"
PARAMETER_NAMES = ("p1", "p2", "p3", "p4")
FACTOR_NAMES = INDEX_NAMES[:INDEX_FACTORS] + PARAMETER_NAMES

# Both kinds of loops have one word; a loop with a skip is of the second.
KIND_WORDS = {WORK: "work", LOOP: "loop", CHOICE: "choice", NEXT_ARM: "or", END: "end", SKIP_LOOP: "loop"}
INDENT = "  "


def index_name(loops_around: int) -> str:
    return INDEX_NAMES[loops_around] if loops_around < len(INDEX_NAMES) else DEEPER_INDEX_NAME


def form_text(form: Form) -> str:
    """Indexes, parameters and last the constant, such as 2i-3j+p1-7."""
    factors = form.indexes + form.parameters
    terms = [term_text(factor, name) for factor, name in zip(factors, FACTOR_NAMES) if factor]
    if form.constant or not terms:
        terms.append(f"{form.constant:+d}")
    return "".join(terms).removeprefix("+")


def term_text(factor: int, name: str) -> str:
    """A term with its sign; a factor of 1 is not written."""
    sign = "-" if factor < 0 else "+"
    size = "" if abs(factor) == 1 else str(abs(factor))
    return sign + size + name


def record_text(record: Record, loops_around: int) -> str:
    """A record's line; what has its default is not written."""
    if isinstance(record, Work):
        most = f"..{record.most}" if record.most != record.least else ""
        return f"work {record.least}{most}"
    if isinstance(record, Loop):
        return loop_text(record, loops_around)
    return KIND_WORDS[kind_of(record)]


def loop_text(loop: Loop, loops_around: int) -> str:
    """A loop's line. A skip has no default: that it is written says which kind the loop is of."""
    text = f"loop {index_name(loops_around)} {bounds_text(loop.lower, loop.upper, loop.stride)}"
    text += f" start {loop.start}" if loop.start else ""
    text += f" skip {loop.skip}" if loop.skip is not None else ""
    text += f" step {loop.step}" if loop.step else ""
    return text


def bounds_text(lower: Form, upper: Form, stride: int) -> str:
    """Where a loop starts, where it ends, and the stride with its sign."""
    return f"{form_text(lower)}..{form_text(upper)}" + (f" by {stride}" if stride != 1 else "")


def record_lines(records: list[Record]) -> list[str]:
    """The lines of records, each indented by what is open around it."""
    lines: list[str] = []
    open_kinds: list[int] = []
    for record in records:
        kind = kind_of(record)
        around = len(open_kinds) - (1 if kind in (END, NEXT_ARM) else 0)
        lines.append(INDENT * around + record_text(record, loops_among(open_kinds)))
        open_kinds = open_after(kind, open_kinds)
    return lines


def values_lines(values: tuple[int, ...], budget: Optional[int]) -> list[str]:
    lines = ["parameters " + " ".join(str(value) for value in values)] if values else []
    return lines + ([f"budget {budget}"] if budget is not None else [])


def with_remarks(lines: list[str], remarks: list[str]) -> list[str]:
    """The lines with comments in one column."""
    width = max((len(line) for line in lines), default=0)
    return [f"{line:{width}}  {comment(remark)}" for line, remark in zip(lines, remarks)]


def comment(text: str) -> str:
    return f"# {text}"


def listing_lines(sheet: bytes, refusal: Optional[Refusal], loops: list[LoopReport],
                  values: tuple[int, ...], budget: Optional[int]) -> list[str]:
    """The listing of a sheet, with the reader's refusal or what is said of its loops.

    Of a refused sheet it is what comes before the refusal, and then a line that is no
    comment, so that such a listing is not taken for a whole sheet.
    """
    records = decode_before(sheet, refusal.place if refusal else len(sheet))
    remarks = {offset: str(offset) for offset in offsets(records)[:-1]}
    remarks.update((loop.offset, loop.whole_text()) for loop in loops)
    lines = values_lines(values, budget) + with_remarks(record_lines(records), list(remarks.values()))
    return lines + ([summary(refusal, sheet)] if refusal else [])
