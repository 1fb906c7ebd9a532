"""The cases on which agreement.py compares: of listings, kept ones, and random ones."""

from dataclasses import replace
from itertools import cycle
from pathlib import Path
from random import Random
from typing import Iterator, NamedTuple

import readings
from agreement_calls import Call, ConverterCall, FiguresCall, RangeCall, TextCall, WithoutSkipsCall, WithSkipsCall
from call_cases import C_CALL_CASES, TEXT_CALL_CASES, TEXT_CASES
from calls import ANSWER_LENGTH, LENGTH_AREA, answer, answer_text, program_text, reports
from conversions import CONVERTERS, Conversion, with_equal_skips
from converter_cases import kept_conversions
from figure_cases import with_edges
from generate import SIZES, Case, cases, long_case
from kept import kept_readings
from known import TOO_MANY_TRIPS, ZERO
from known_reasons import KNOWN_REASONS
from long_calls import LONG_C_CALLS, LONG_TEXTS
from parameter_ranges import RANGE_AREA, Extremes, ParameterRange
from pumdalin.answers import Answer, Refusal
from pumdalin.characters import decoded
from pumdalin.errors import ListingError
from pumdalin.inputs import program_input
from pumdalin.listing_reader import read_listing
from pumdalin.records import LOOP, SKIP_LOOP
from range_calls import RangeCase
from range_cases import kept_ranges
from ranged import ranged
from ranked import ranked_case
from walked import BUDGET, walked_case

# The program that runs the stored cases has so much room for an input; `bound` looks at less.
MOST_INPUT = 4096


class Expected(NamedTuple):
    """A case and its answer."""

    tells: str
    case: Case
    answer: Answer

    def figures_call(self, area: bytes) -> FiguresCall:
        return FiguresCall(self.tells, self.case, area, self.answer)

    def text_call(self) -> TextCall:
        _, sheet, parameters, budget = self.case
        text = answer_text(self.answer, reports(sheet, parameters))
        return sufficient_text_call(self.tells, program_input(sheet, parameters, budget), text)

    def range_call(self) -> RangeCall:
        """Over the one value that parameter 1 has: the same answer, whatever value is given for it."""
        value = self.case.parameters[0]
        over = ParameterRange(1, value, value)
        result = self.answer
        if not isinstance(result, Refusal):
            result = Extremes(result.least, value, result.most, value, result.visits)
        given = self.case._replace(parameters=over.at(self.case.parameters, -1 - value))
        return RangeCall(self.tells, given, over, bytes(RANGE_AREA), result)


CONVERTER_CALLS = {SKIP_LOOP: WithSkipsCall, LOOP: WithoutSkipsCall}


class Trial(NamedTuple):
    """The library's calls on a case, and the one of them whose input `bound` reads too."""

    calls: list[Call]
    text: TextCall


def sufficient_text_call(tells: str, data: bytes, text: bytes) -> TextCall:
    """With just as much buffer and area as it takes."""
    return TextCall(tells, data, bytes(len(text)), bytes(LENGTH_AREA), text)


def trial(expected: Expected, area: bytes = bytes(ANSWER_LENGTH)) -> Trial:
    """Both calls on a case, and that over a range of one value."""
    text = expected.text_call()
    return Trial([expected.figures_call(area), text, expected.range_call()], text)


def listing_cases(path: Path) -> list[Expected]:
    """What a listing expects, line by line; a ValueError says where it has a mistake."""
    try:
        listing = read_listing(decoded(path.read_bytes()))
    except ListingError as error:
        raise ValueError(f"{path}:{error}") from error
    found: list[Expected] = []
    for said in listing.expectations:
        case = Case("listing", listing.sheet(), said.parameters, said.budget)
        found.append(Expected(f"{path}:{said.line}", case, said.answer))
    return found


def kept_trials() -> list[Trial]:
    """The readings of all files, and the cases of all C calls and of `bound`."""
    trials: list[Trial] = []
    for line in kept_readings():
        case = Case("reading", line.sheet, line.parameters, line.budget)
        trials.append(trial(Expected(f"reading '{line.tells}'", case, line.answer)))
    for known in TOO_MANY_TRIPS:
        case = Case("known", known.sheet(), known.parameters, known.budget)
        trials.append(trial(Expected(f"known sheet '{known.tells}'", case, known.answer)))
    for kept in C_CALL_CASES + [long.case for long in LONG_C_CALLS]:
        given = (kept.sheet, kept.parameters, kept.budget)
        expected = Expected(f"C call '{kept.tells}'", Case("call", *given), answer(*given))
        trials.append(trial(expected, kept.area))
    trials += [Trial([text], text) for text in kept_texts()]
    trials += [kept_conversion(conversion) for conversion in kept_conversions()]
    return trials + [kept_range(case) for case in kept_ranges()]


def kept_conversion(kept: Conversion) -> Trial:
    """A converter's call, and the text call on the old sheet."""
    tells = f"converter call '{kept.tells}'"
    return with_text(converter_call(tells, kept), kept.sheet)


def kept_range(kept: RangeCase) -> Trial:
    """The call over a range, and the text call on its sheet."""
    case = Case("range", kept.sheet, kept.parameters, kept.budget)
    return with_text(RangeCall(f"range call '{kept.tells}'", case, kept.over, kept.area, kept.answer), kept.sheet)


def with_text(call: Call, sheet: bytes) -> Trial:
    """A call, and the text call on a sheet with parameters 0."""
    data = program_input(sheet, ZERO, BUDGET)
    text = sufficient_text_call(call.tells, data, program_text(data))
    return Trial([call, text], text)


def converter_call(tells: str, given: Conversion) -> ConverterCall:
    call = CONVERTER_CALLS[given.kind]
    return call(tells, given.sheet, given.buffer, given.area, given.converted())


def kept_texts() -> list[TextCall]:
    """The cases of `bound`, those of the text call, those of document 02, long ones, and known reasons."""
    texts = requested_texts()
    for long in LONG_TEXTS:
        text = sufficient_text_call(f"long text '{long.tells}'", long.data, long.text.encode())
        texts += with_one_byte_short(text) + [replace(text, area=text.area[1:])]
    for reasons in KNOWN_REASONS:
        data = program_input(reasons.sheet(), reasons.parameters, BUDGET)
        texts.append(sufficient_text_call(f"reasons of '{reasons.tells}'", data, program_text(data)))
    for printed in TEXT_CASES:
        text = program_text(printed.data)
        texts.append(sufficient_text_call(f"text '{printed.tells}'", printed.data, text))
    for kept in TEXT_CALL_CASES:
        tells, data, buffer, area = kept
        texts.append(TextCall(f"text call '{tells}'", data, buffer, area, program_text(data)))
    return texts


def requested_texts() -> list[TextCall]:
    """What document 02 asks to be printed: with just as much buffer as it takes, and one byte short."""
    texts: list[TextCall] = []
    for printed in readings.parse_requests():
        text = sufficient_text_call(f"{printed.request} '{printed.tells}'", printed.data, printed.text)
        texts += with_one_byte_short(text)
    return texts


def with_one_byte_short(text: TextCall) -> list[TextCall]:
    """The call, and the same with a buffer that is one byte shorter."""
    return [text, replace(text, buffer=text.buffer[1:])]


def random_trials(seed: int) -> Iterator[Trial]:
    """Trials without end: valid, damaged and hostile sheets of all sizes, walked ones, long ones and ranked ones."""
    random = Random(seed)
    number = 0
    for size in cycle(SIZES.values()):
        for case in [*cases(random, 1, size), walked_case(random), long_case(random), ranked_case(random)]:
            for edge, result in with_edges(case):
                number += 1
                tells = f"seed {seed}, case {number}: a {case.kind} sheet"
                yield random_trial(random, Expected(tells, edge, result))


def random_trial(random: Random, expected: Expected) -> Trial:
    """All calls on a case; what is lent to them does not always suffice."""
    figures = expected.figures_call(random_area(random, ANSWER_LENGTH))
    text = random_text_call(random, expected.text_call())
    sheet = expected.case.sheet
    # Most skips differ from their start, and no sheet with one can be converted back.
    back = random.choice([sheet, with_equal_skips(sheet)])
    conversions = [random_converter_call(random, expected.tells, SKIP_LOOP, sheet),
                   random_converter_call(random, expected.tells, LOOP, back)]
    return Trial([figures, text, *conversions, random_range_call(expected)], text)


def random_range_call(expected: Expected) -> RangeCall:
    """Over a range of a parameter that is put into the sheet's loops; by chance of its own, so that the other calls stay."""
    random = Random(expected.tells)
    asked = ranged(random, expected.case)
    return RangeCall(expected.tells, asked.case, asked.over, random_area(random, RANGE_AREA), asked.answer())


def random_converter_call(random: Random, tells: str, kind: int, sheet: bytes) -> ConverterCall:
    converted = CONVERTERS[kind](sheet)
    needed = len(sheet) if isinstance(converted, Refusal) else len(converted)
    buffer, area = random_buffer(random, needed), random_area(random, LENGTH_AREA)
    return CONVERTER_CALLS[kind](tells, sheet, buffer, area, converted)


def random_text_call(random: Random, plain: TextCall) -> TextCall:
    data = random_input(random, plain.data)
    text = plain.text if data == plain.data else program_text(data)
    return replace(plain, data=data, text=text, buffer=random_buffer(random, len(text)),
                   area=random_area(random, LENGTH_AREA))


def random_input(random: Random, data: bytes) -> bytes:
    """Mostly as it is; now and then with bytes after the sheet, or cut off."""
    longer = data + random.randbytes(random.randrange(MOST_INPUT - len(data)))
    shorter = data[:random.randrange(len(data))]
    return random.choice([data] * 8 + [longer, shorter])


def random_area(random: Random, enough: int) -> bytes:
    """Mostly just long enough; now and then longer, or too short."""
    longer, shorter = enough + random.randrange(1, 20), random.randrange(enough)
    return random.randbytes(random.choice([enough] * 6 + [longer, shorter]))


def random_buffer(random: Random, needed: int) -> bytes:
    """Mostly longer than the text or the sheet; now and then just as long, one byte short, or empty."""
    longer = needed + random.randrange(1, 200)
    return random.randbytes(random.choice([longer] * 6 + [needed, max(0, needed - 1), 0]))
