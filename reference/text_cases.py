"""Stored cases of the text call, for the program that runs them.

    python3 text_cases.py FILE [--check]

writes FILE, or with --check compares it with what stands there. A case has the
header of sheet_cases.py with 6 as its first byte and the call's number as its
second; the input stands for the sheet. The other numbers are the length of what
follows the input, nothing, the lengths of the area and of the buffer that are
lent. The text follows, where the call stores it.
"""

from itertools import islice

from agreement_calls import TextCall
from agreement_cases import MOST_INPUT, Expected, kept_texts, random_trials
from calls import text_called
from generate import Case
from long_sheets import LONG_SHEETS
from pumdalin.records import two_bytes_each
from stored import main
from text_limits import TEXT_LENGTH

SEED = 2053
RANDOM_CASES = 450
TEXTS = 6
# The program has so much room for a buffer and for an area.
MOST_BUFFER = TEXT_LENGTH
MOST_AREA = 32


def text_case(call: TextCall) -> bytes:
    """A ValueError where the program has no room for the case."""
    if not has_room(call):
        raise ValueError(f"no room for the case '{call.tells}'")
    number = text_called(call.text, call.buffer, call.area).number
    text = b"" if number else call.text
    head = bytes([TEXTS, number]) + two_bytes_each(len(call.data), len(text), 0, len(call.area), len(call.buffer))
    return head + call.data + text


def has_room(call: TextCall) -> bool:
    return len(call.data) <= MOST_INPUT and len(call.buffer) <= MOST_BUFFER and len(call.area) <= MOST_AREA


def long_texts() -> list[TextCall]:
    """The texts of the long sheets."""
    found: list[TextCall] = []
    for line in LONG_SHEETS:
        case = Case("long", line.sheet, line.parameters, line.budget)
        found.append(Expected(line.tells, case, line.answer).text_call())
    return found


def all_cases() -> bytes:
    calls = kept_texts() + long_texts() + [trial.text for trial in islice(random_trials(SEED), RANDOM_CASES)]
    return b"".join(text_case(call) for call in calls)


if __name__ == "__main__":
    main(all_cases)
