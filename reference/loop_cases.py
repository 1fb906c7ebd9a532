"""Stored cases of the loops of a sheet at given parameters, for the program that runs them.

    python3 loop_cases.py FILE [--check]

writes FILE, or with --check compares it with what stands there. A case has the
header of sheet_cases.py with 3 as its first byte, the number of loops in place
of the number of records, and no count and no buffer. After the sheet follow
the four parameters, 2 bytes each, and for each loop 10 bytes: its offset, 0 for
walked, 1 for closed or 2 for ranked, its ceiling; then why it is not closed: 1
for a choice that holds a loop, 2 for too few trips, 3 for uneven, 0 for a closed
loop, and the two offsets of its line, 0 for what it has not.
"""

from random import Random

import generate
from generate import SIZES, cases, long_case
from kept import kept_cases
from known_reasons import KNOWN_REASONS
from nest import ReckonedLoop, accepted, loop_reports
from pumdalin.answers import CLOSED, RANKED, WALKED, Refusal
from pumdalin.inputs import Parameters, encode_parameters, from_input
from pumdalin.records import two_bytes_each
from ranked import ranked_case
from readings import parse_requests
from reasons import stored_numbers
from stored import main
from walked import walked_case

SEED = 2050
# of each size, three sheets each: valid, damaged, hostile
RANDOM_CASES = {"small": 185, "middle": 185, "large": 100}
# of each size, valid ones at several parameters
VALID_SHEETS = {"small": 95, "middle": 95, "large": 45}
WALKED_SHEETS = 480
RANDOM_LONG_SHEETS = 60
RANKED_SHEETS = 150
PLAN = 3
CLASS_NUMBERS = {WALKED: 0, CLOSED: 1, RANKED: 2}


def line(loop: ReckonedLoop) -> bytes:
    sort, first, second = stored_numbers(loop.reason)
    own = two_bytes_each(loop.offset) + bytes([CLASS_NUMBERS[loop.loop_class]]) + two_bytes_each(loop.ceiling)
    return own + bytes([sort]) + two_bytes_each(first, second)


def plan_case(sheet: bytes, parameters: Parameters) -> bytes:
    """A sheet at parameters, and its loops' lines or refusal 1 to 6."""
    records = accepted(sheet, parameters)
    if isinstance(records, Refusal):
        found: list[ReckonedLoop] = []
        number, value = records
    else:
        found = loop_reports(records, parameters)
        number, value = 0, len(records)
    head = bytes([PLAN, number]) + two_bytes_each(len(sheet), len(found), value, 0, 0)
    return head + sheet + encode_parameters(parameters) + b"".join(map(line, found))


def random_cases(random: Random) -> list[bytes]:
    made: list[bytes] = []
    for name, size in SIZES.items():
        made += [plan_case(case.sheet, case.parameters) for case in cases(random, RANDOM_CASES[name], size)]
        for _ in range(VALID_SHEETS[name]):
            sheet = generate.encode_all(generate.valid_records(random, size))
            made += [plan_case(sheet, generate.parameters(random)) for _ in range(3)]
    for case in (long_case(random) for _ in range(RANDOM_LONG_SHEETS)):
        made.append(plan_case(case.sheet, case.parameters))
    return made


def not_closed_cases() -> list[bytes]:
    """Loops that are not closed for reasons of all sorts: known ones, those of the requests, random ones."""
    made = [plan_case(case.sheet(), case.parameters) for case in KNOWN_REASONS]
    for printed in parse_requests():
        sheet, parameters, _ = from_input(printed.data)
        made.append(plan_case(sheet, parameters))
    random = Random(SEED)
    cases = [walked_case(random) for _ in range(WALKED_SHEETS)] + [ranked_case(random) for _ in range(RANKED_SHEETS)]
    made += [plan_case(case.sheet, case.parameters) for case in cases]
    return made


def all_cases() -> bytes:
    made = [plan_case(case.sheet, case.parameters) for case in kept_cases()]
    return b"".join(made + random_cases(Random(SEED)) + not_closed_cases())


if __name__ == "__main__":
    main(all_cases)
