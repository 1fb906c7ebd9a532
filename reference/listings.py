"""Sheets shown as listings, with what the reckoning says of them."""

from nest import loop_reports
from pumdalin.inputs import Parameters
from pumdalin.listing_text import listing_lines
from sheet import read_as_far


def reckoned_listing(sheet: bytes, parameters: Parameters, budget: int) -> str:
    """A sheet's listing. Nothing is said of a refused sheet's loops: that rests on records that were not read."""
    records, refusal = read_as_far(sheet)
    loops = [] if refusal else [loop.report() for loop in loop_reports(records, parameters)]
    return "".join(line + "\n" for line in listing_lines(sheet, refusal, loops, parameters, budget))
