"""The sheets that are kept by hand, as cases: those that tell apart, long ones, and those with known figures."""

import known
import readings
from counting_down import COUNTING_DOWN
from generate import Case
from long_sheets import LONG_SHEETS
from ranked_sheets import RANKED_SHEETS


def kept_readings() -> list[readings.Reading]:
    """The readings file, the telling sheets, those of loops that count down, long ones, and those of ranked loops."""
    files = readings.parse_file(readings.READINGS) + readings.parse_file(readings.TELLING)
    return files + COUNTING_DOWN + LONG_SHEETS + RANKED_SHEETS


def kept_cases() -> list[Case]:
    """All these, then the ten marked sheets and the one with too many trips to go over."""
    kept = [Case("reading", line.sheet, line.parameters, line.budget) for line in kept_readings()]
    sheets = known.MARKED + known.TOO_MANY_TRIPS
    return kept + [Case("known", k.sheet(), k.parameters, k.budget) for k in sheets]
