"""Reads the bounds of a listing's loops: numbers, names and numbers times names."""

from typing import Optional

from pumdalin.listing_line import Line, Word
from pumdalin.listing_text import FACTOR_NAMES, INDEX_NAMES, PARAMETER_NAMES
from pumdalin.ranges import SIGNED_8, SIGNED_16
from pumdalin.records import INDEX_FACTORS, Form


def read_form(line: Line, around: int) -> Form:
    """A bound of a loop inside so many others: terms with + or - between them."""
    first = line.next()
    constant = 0
    factors = dict.fromkeys(FACTOR_NAMES, 0)
    sign = line.take_if("+", "-")
    while True:
        size, name = read_term(line, around)
        signed_size = -size if sign and sign.text == "-" else size
        if name is None:
            constant += signed_size
        else:
            factors[name] += signed_size
        sign = line.take_if("+", "-")
        if sign is None:
            break
    check_form(line, first, constant, factors)
    values = tuple(factors.values())
    return Form(constant, values[:INDEX_FACTORS], values[INDEX_FACTORS:])


def read_term(line: Line, around: int) -> tuple[int, Optional[str]]:
    """A number, a name, or a number times a name, such as 2i or 2*i; without a sign."""
    if not line.next().is_number():
        return 1, read_name(line, around, "a number or one of")
    number = line.next()
    size = line.take_digits()
    following = line.next()
    joined_name = following.text.isalnum() and number.joins(following)
    if line.take_if("*") or joined_name or following.text in INDEX_NAMES + PARAMETER_NAMES:
        return size, read_name(line, around, "one of")
    return size, None


def read_name(line: Line, around: int, expected: str) -> str:
    """The index of a loop around, or a parameter."""
    usable = INDEX_NAMES[:min(around, INDEX_FACTORS)] + PARAMETER_NAMES
    word = line.take_if(*usable)
    if word is not None:
        return word.text
    if line.next().text in INDEX_NAMES:
        line.fail(f"{line.next().text} is not the index of a loop around this one; "
                  f"write a bound with {', '.join(usable)} alone")
    line.fail_expecting(f"{expected} {', '.join(usable)}")


def check_form(line: Line, first: Word, constant: int, factors: dict[str, int]) -> None:
    """Whether what the terms of a bound add up to fits the form's fields."""
    sums = [("the constant", constant, SIGNED_16)]
    sums += [(f"the factor of {name}", factor, SIGNED_8) for name, factor in factors.items()]
    for what, value, (least, most) in sums:
        if not least <= value <= most:
            line.fail(f"{what} in this bound is {value}; "
                      f"write a bound in which it is from {least} to {most}", first)
