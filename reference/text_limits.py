"""How long a text of `bound` can be, with every number as long as 64 bits allow."""

from calls import answer_text
from pumdalin.answers import CLOSED, REASON_PHRASES, Figures, LoopReport
from pumdalin.records import MOST_RECORDS

DIGITS = len(str(2 ** 64 - 1))
# A loop takes two records: itself and its end.
MOST_LOOPS = MOST_RECORDS // 2

FIGURES_LINE_LENGTH = len(answer_text(Figures(0, 0, 0), [])) + 3 * (DIGITS - 1)
LOOP_LINE_LENGTH = len(f"loop {LoopReport(0, CLOSED, 0).text()}\n") + 2 * (DIGITS - 1)
REASON_LINE_LENGTH = max(len(phrase.replace("{}", "0" * DIGITS) + "\n") for phrase in REASON_PHRASES.values())
# The figures' line and, for each loop, its line and that of its reason.
TEXT_LENGTH = FIGURES_LINE_LENGTH + MOST_LOOPS * (LOOP_LINE_LENGTH + REASON_LINE_LENGTH)
