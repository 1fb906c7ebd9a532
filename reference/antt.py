"""Text of antt terms and theorems. All names are in one table, so that they are easy to change."""

from typing import NamedTuple, Optional

from nest import ReckonedLoop
from pumdalin.answers import Answer, Figures
from pumdalin.inputs import Parameters
from pumdalin.records import Choice, End, Form, Loop, NextArm, Record, Work
from reasons import HoldsLoop, Reason, TooFewTrips
from sheet import RawRecord

# What is on the left is used in this folder, what is on the right is written.
NAME = {
    "answer": "answer",
    "figures": "figures",
    "answered": "ok",
    "refusal": "refused",
    "reports": "sheet_reports_of",
    "closed loop": "closed_loop",
    "ranked loop": "ranked_loop",
    "walked loop": "walked_loop",
    "holds loop": "holds_loop",
    "too few trips": "too_few_trips",
    "uneven in": "uneven_in",
    "read reason": "read_reason",
    "state after": "state_after",
    "state": "state",
    "state keeping": "state_keeping",
    "kept arms": "kept_arms",
    "bounds": "bounds",
    "loop frame": "loop_frame",
    "choice frame": "choice_frame",
    "none": "none",
    "some": "some",
    "drop": "drop",
    "record list": "List Record",
    "work": "work_record",
    "loop": "loop_record",
    "loop of": "loop_of",
    "skip loop of": "skip_loop_of",
    "loop type": "Loop",
    "end": "end_record",
    "choice": "choice_record",
    "next arm": "next_arm_record",
    "form": "form",
    "form type": "Form",
    "raw": "raw",
    "raw type": "RawRecord",
    "write": "write",
    "written": "written",
    "not written": "not_written",
    "c call": "c_call",
    "called": "called",
    "record at": "head_at",
    "body at": "body_at",
    "found": "found",
    "not found": "refused",
    "sheet end": "sheet_end",
    "text": "program_text",
    "characters": "text",
    "text call": "text_call",
    "lent": "lent",
    "with skips": "with_skips",
    "without skips": "without_skips",
    "with skips call": "with_skips_call",
    "without skips call": "without_skips_call",
    "extremes": "extremes",
    "extremes found": "extremes_found",
    "parameter range": "parameter_range",
    "range call": "range_call",
    "figure limit": "figure_limit",
    "visits per loop": "visits_per_loop",
    "input limit": "input_limit",
    "hex": "hex",
    "zero parameters": "zero_parameters",
    "define": "abbrev",
    "returns": "Returns",
}

# Lines at the top of each file, after its own comment.
LIST = "use mathlib.Core.List.{[], ◌∷◌}"
POSITIVE = "use lib.IntN.{pos}"
INTEGER = "use lib.IntN.{pos, negsuc}"
PATH = "use mathlib.Core.Path.{◌≡◌, refl}"
SPECS = "use Rattle.meaning.specs."
PROOFS = "use Rattle.meaning.proofs."
RANGES_SPECS = "use Rattle.ranges.specs."
RANGES_PROOFS = "use Rattle.ranges.proofs."
REASONS = "holds_loop, too_few_trips, uneven_in"


def answer_lines(results: str) -> list[str]:
    """What a file of answers and loop reports names of `meaning`."""
    return [
        SPECS + "Reader.{" + results + "}",
        SPECS + "Reason.{" + REASONS + "}",
        SPECS + "Answer.{figures, answer}",
        PROOFS + "Vocabulary.{hex, zero_parameters, closed_loop, ranked_loop, walked_loop, sheet_reports_of}",
        PROOFS + "Computes.{computes}",
    ]


IMPORTS = {
    "Readings.antt": [PATH, LIST, INTEGER, *answer_lines("ok, refused")],
    "Telling.antt": [PATH, LIST, *answer_lines("ok, refused")],
    "Known.antt": [PATH, LIST, POSITIVE, *answer_lines("ok")],
    "KnownAnswers.antt": [
        LIST, POSITIVE,
        PROOFS + "Vocabulary.{hex, zero_parameters}",
        PROOFS + "Known.{known-sheets}",
        "use Rattle.figures.proofs.Settled.{Returns, returns}",
    ],
    "Examples.antt": [
        PATH, LIST, INTEGER,
        SPECS + "Reader.{ok, refused}",
        RANGES_SPECS + "ParameterRange.{parameter_range}",
        RANGES_SPECS + "Extremes.{extremes, extremes_found}",
        RANGES_SPECS + "RangeCall.{range_call}",
        PROOFS + "Vocabulary.{hex, zero_parameters, called}",
        RANGES_PROOFS + "Computes.{computes}",
    ],
    "States.antt": [
        PATH, "use mathlib.Core.List.{List, [], ◌∷◌}", "use mathlib.Core.Option.{none, some}",
        INTEGER, "use lib.ListN.{drop}",
        SPECS + "Record.{Loop, Record, work_record, loop_record, end_record, choice_record, next_arm_record}",
        SPECS + "Time.{bounds}",
        SPECS + "Stage.{loop_frame, choice_frame, kept_arms, state, state_keeping}",
        PROOFS + "Vocabulary.{zero_parameters, form, loop_of, skip_loop_of, state_after}",
        PROOFS + "Computes.{computes}",
    ],
    "Calls.antt": [
        PATH, LIST, "use mathlib.Core.Option.{none, some}", INTEGER,
        SPECS + "Limits.{figure_limit, visits_per_loop, input_limit}",
        SPECS + "Form.{Form}",
        SPECS + "Reader.{refused, head_at, body_at}",
        SPECS + "Writer.{RawRecord, write}",
        SPECS + "CCall.{c_call}",
        SPECS + "Text.{text}",
        SPECS + "Reason.{" + REASONS + "}",
        SPECS + "ReasonLine.{read_reason}",
        SPECS + "Program.{program_text}",
        SPECS + "TextCall.{text_call}",
        SPECS + "Converter.{with_skips, without_skips}",
        SPECS + "ConverterCall.{with_skips_call, without_skips_call}",
        PROOFS + "Vocabulary.{hex, zero_parameters, form, raw, written, not_written, called, lent, found, sheet_end}",
        PROOFS + "Computes.{computes}",
    ],
}


class Equation(NamedTuple):
    """Left ≡ right, under a comment."""

    tells: str
    left: str
    right: str


def term(name: str, *arguments: str) -> str:
    """A named function or constructor with its arguments."""
    return " ".join([NAME[name], *arguments])


def inner(text: str) -> str:
    """A term as an argument: in parentheses if it has several parts."""
    return f"({text})" if " " in text else text


def listed(items: list[str]) -> str:
    return " ∷ ".join([*items, "[]"])


def octets(data: bytes) -> str:
    """Bytes in hexadecimal, as an argument."""
    return inner(term("hex", f'"{data.hex()}"')) if data else "[]"


def text(data: bytes) -> str:
    """Bytes that are text, as an argument."""
    return inner(term("characters", '"' + data.decode().replace("\n", "\\n") + '"'))


def integer(number: int) -> str:
    return f"pos {number}" if number >= 0 else f"negsuc {-number - 1}"


def integers(numbers: tuple[int, ...]) -> str:
    """A list of integers, as an argument."""
    return inner(listed([integer(number) for number in numbers]))


def parameters(values: Parameters) -> str:
    return integers(values) if any(values) else term("zero parameters")


def form(value: Form) -> str:
    constant = inner(integer(value.constant))
    return term("form", constant, integers(value.indexes), integers(value.parameters))


def loop_of(loop: Loop) -> str:
    numbers = [str(loop.start), str(loop.step), inner(integer(loop.stride))]
    fields = [*numbers, inner(form(loop.lower)), inner(form(loop.upper))]
    if loop.skip is None:
        return term("loop of", *fields)
    return term("skip loop of", *fields, str(loop.skip))


def record(value: Record, loop_name: Optional[str] = None) -> str:
    """A record; a loop by its name, where it has one."""
    if isinstance(value, Work):
        return term("work", str(value.least), str(value.most))
    if isinstance(value, Loop):
        return term("loop", loop_name or inner(loop_of(value)))
    return term({End: "end", Choice: "choice", NextArm: "next arm"}[type(value)])


def raw_record(entry: RawRecord) -> str:
    """An entry of the writer: kind, then every field of every kind."""
    numbers = [str(entry.kind), str(entry.least), str(entry.most), str(entry.start), str(entry.step)]
    stride = inner(integer(entry.stride))
    return term("raw", *numbers, stride, inner(form(entry.lower)), inner(form(entry.upper)), str(entry.skip))


def answer(value: Answer) -> str:
    numbers = [str(number) for number in value]
    if isinstance(value, Figures):
        return term("answered", inner(term("figures", *numbers)))
    return term("refusal", *numbers)


def reason(value: Reason) -> str:
    if isinstance(value, HoldsLoop):
        return term("holds loop", str(value.choice))
    if isinstance(value, TooFewTrips):
        return term("too few trips", str(value.loop))
    return term("uneven in", str(value.loop), str(value.around))


def loop_report(report: ReckonedLoop) -> str:
    numbers = [str(report.offset), str(report.ceiling)]
    if report.reason is None:
        return term("closed loop", *numbers)
    return term(f"{report.loop_class} loop", *numbers, inner(reason(report.reason)))


def loop_reports(reports: list[ReckonedLoop]) -> str:
    return inner(listed([loop_report(report) for report in reports]))


def theorem(name: str, equations: list[Equation]) -> str:
    """One theorem: the equations as a product, each proved by computing."""
    lines = [f"pub {name} :"]
    for number, equation in enumerate(equations):
        if equation.tells:
            lines.append(f"    -- {equation.tells}")
        joint = "    × " if number > 0 else "    "
        lines.append(f"{joint}({equation.left} ≡ {equation.right})")
    lines.append("unfolding computes")
    proofs = ", ".join(["refl"] * len(equations))
    lines.append(f"{name} = ({proofs})" if len(equations) > 1 else f"{name} = refl")
    return "\n".join(lines) + "\n"


def definition(name: str, kind: str, value: str) -> str:
    return f"{NAME['define']} {name} : {kind}\n{name} = {value}\n"


def grouped(name: str, equations: list[Equation], size: int) -> list[str]:
    """Theorems of at most `size` equations, named name-1, name-2, .."""
    groups = [equations[at:at + size] for at in range(0, len(equations), size)]
    return [theorem(f"{name}-{number}", group) for number, group in enumerate(groups, 1)]


def file_text(name: str, comments: list[str], parts: list[str]) -> str:
    head = [f"-- {comment}" for comment in comments] + IMPORTS[name]
    return "\n".join(["\n".join(head) + "\n", *parts])
