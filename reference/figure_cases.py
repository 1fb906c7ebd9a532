"""Stored cases of the library call and the C call, for the program that runs them.

    python3 figure_cases.py FILE [--check]

writes FILE, or with --check compares it with what stands there. A case has the
header of sheet_cases.py with 4 as its first byte and 0 for what it has not.
After the sheet follow the four parameters, 2 bytes each, the budget, 4 bytes,
and the 24 bytes of the answer area: least, most and visits, or zeros.
"""

from random import Random

from calls import ANSWER_LENGTH, answer, eight_bytes_each
from generate import SIZES, Case, cases, long_case
from kept import kept_cases
from pumdalin.answers import Answer, Figures
from pumdalin.inputs import encode_parameters
from pumdalin.records import two_bytes_each
from ranked import ranked_case
from stored import main

SEED = 2051
# of each size, three sheets each: valid, damaged, hostile
RANDOM_CASES = {"small": 400, "middle": 210, "large": 40}
RANDOM_LONG_SHEETS = 50
RANDOM_RANKED_SHEETS = 150
FIGURES = 4


def reckoned(case: Case) -> Answer:
    return answer(case.sheet, case.parameters, case.budget)


def figure_case(case: Case, result: Answer) -> bytes:
    """A sheet with parameters and budget, and its figures or its refusal."""
    if isinstance(result, Figures):
        number, value = 0, 0
        area = eight_bytes_each(result)
    else:
        number, value = result
        area = bytes(ANSWER_LENGTH)
    head = bytes([FIGURES, number]) + two_bytes_each(len(case.sheet), 0, value, 0, 0)
    given = encode_parameters(case.parameters) + case.budget.to_bytes(4, "little")
    return head + case.sheet + given + area


def with_edges(case: Case) -> list[tuple[Case, Answer]]:
    """The case with its answer, and with figures also at the budgets around its visits."""
    result = reckoned(case)
    answered = [(case, result)]
    if isinstance(result, Figures) and result.visits > 1:
        for budget in (result.visits, result.visits - 1):
            edge = case._replace(budget=budget)
            answered.append((edge, reckoned(edge)))
    return answered


def all_cases() -> bytes:
    random = Random(SEED)
    given = kept_cases()
    for name, size in SIZES.items():
        given += cases(random, RANDOM_CASES[name], size)
    given += [long_case(random) for _ in range(RANDOM_LONG_SHEETS)]
    given += [ranked_case(random) for _ in range(RANDOM_RANKED_SHEETS)]
    return b"".join(figure_case(*answered) for case in given for answered in with_edges(case))


if __name__ == "__main__":
    main(all_cases)
