"""Arguments that several commands share."""

import argparse
import os
import re
from typing import IO, NoReturn, Optional

from pumdalin.errors import UNUSABLE
from pumdalin.files import STANDARD, STANDARD_OUTPUT, same_file, shown_name, tell, write_text
from pumdalin.inputs import (
    BUDGET_RANGE, LARGEST_BUDGET, MOST_VALUES, NUMBER_RANGE, PARAMETER_RANGE, STORED_BUDGET_RANGE, STORED_NUMBER_RANGE,
)
from pumdalin.listing_text import PARAMETER_NAMES
from pumdalin.ranges import MOST_DIGITS, Range
from pumdalin.records import PARAMETERS

PARAMETERS_OPTION = "--parameters"
NUMBER = re.compile(r"[-+]?[0-9]+")


class Parser(argparse.ArgumentParser):
    """A parser whose help is written like every other output: what can't be written is an error."""

    def _print_message(self, message: str, file: Optional[IO[str]] = None) -> None:
        write_text([message.rstrip("\n")])

    def error(self, message: str) -> NoReturn:
        tell(f"{self.format_usage()}{self.prog}: {message}")
        raise SystemExit(UNUSABLE)


class Once(argparse.Action):
    """An option with a value, which may be given once: of two values one would be lost."""

    def __call__(self, parser: argparse.ArgumentParser, namespace: argparse.Namespace, values: object,
                 option: Optional[str] = None) -> None:
        if getattr(namespace, self.dest) is not None:
            parser.error(f"{option} is given twice")
        setattr(namespace, self.dest, values)


def parser_for(name: str, description: str, epilog: str = "") -> Parser:
    """A parser that takes no shortened option: a later option could make it mean another."""
    return Parser(prog=name, description=description, epilog=epilog, allow_abbrev=False,
                  formatter_class=argparse.RawDescriptionHelpFormatter)


def whole_number(text: str, what: str, allowed: Range, stored: Optional[Range] = None) -> int:
    """A whole number in decimal that can be stored; the message names the range that is allowed."""
    least, most = stored or allowed
    if not NUMBER.fullmatch(text) or len(text) > MOST_DIGITS or not least <= int(text) <= most:
        raise argparse.ArgumentTypeError(f"{what} is '{text}'; write a whole number from {allowed[0]} to {allowed[1]}")
    return int(text)


def parameter_values(text: str) -> tuple[int, ...]:
    words = text.split()
    if not 1 <= len(words) <= PARAMETERS:
        raise argparse.ArgumentTypeError(f"write one to {PARAMETERS} whole numbers with spaces between them, p1 first")
    return tuple(whole_number(word, f"p{number}", PARAMETER_RANGE) for number, word in enumerate(words, start=1))


def parameter_number(text: str) -> int:
    """Of a parameter that is given by its number or by its name."""
    if text in PARAMETER_NAMES:
        return PARAMETER_NAMES.index(text) + 1
    return whole_number(text, "the parameter's number", NUMBER_RANGE, STORED_NUMBER_RANGE)


def first_value(text: str) -> int:
    return whole_number(text, "the first value", PARAMETER_RANGE)


def last_value(text: str) -> int:
    return whole_number(text, "the last value", PARAMETER_RANGE)


def budget_value(text: str) -> int:
    return whole_number(text, "the budget", BUDGET_RANGE, STORED_BUDGET_RANGE)


def add_file(parser: argparse.ArgumentParser, name: str, what: str) -> None:
    parser.add_argument("file", metavar=name, nargs="?", default=STANDARD,
                        help=f"{what}; - or nothing reads the standard input")


def add_bytes(parser: argparse.ArgumentParser) -> None:
    parser.add_argument("--bytes", action="store_true", help="the file holds a sheet's bytes and not a listing")


def add_output(parser: argparse.ArgumentParser) -> None:
    parser.add_argument("--output", "-o", action=Once, metavar="FILE", help="the file to write; without it the standard output")


def check_output(parser: argparse.ArgumentParser, given: argparse.Namespace, is_text: bool = False) -> None:
    """A sheet's bytes do not go to a terminal, and what is read is not overwritten."""
    if not given.output and not is_text and os.isatty(STANDARD_OUTPUT):
        parser.error("the sheet's bytes would go to the terminal; write --output FILE, or > FILE")
    check_overwriting(parser, given.file, given.output, "--output")


def check_overwriting(parser: argparse.ArgumentParser, read: str, written: Optional[str], option: str) -> None:
    if written and same_file(read, written):
        parser.error(f"{shown_name(read)} would be overwritten; name another file after {option}")


def add_parameters(parser: argparse.ArgumentParser) -> None:
    least, most = PARAMETER_RANGE
    parser.add_argument(PARAMETERS_OPTION, type=parameter_values, action=Once, metavar="N..",
                        help=f"values of p1 to p4, one to four whole numbers from {least} to {most}")


def add_budget(parser: argparse.ArgumentParser) -> None:
    parser.add_argument("--budget", type=budget_value, action=Once, metavar="N",
                        help=f"how many visits the answer may take, 1 to {LARGEST_BUDGET:,} (without it the listing's, "
                             f"or else {LARGEST_BUDGET:,})")


def add_json(parser: argparse.ArgumentParser) -> None:
    parser.add_argument("--json", action="store_true", help="the answer as JSON, for builds")


def add_range(parser: argparse.ArgumentParser) -> None:
    parser.add_argument("--parameter", type=parameter_number, action=Once, required=True, metavar="N", dest="number",
                        help="the parameter that takes each value of the range: 1 to 4, or p1 to p4")
    parser.add_argument("--from", type=first_value, action=Once, required=True, metavar="N", dest="first",
                        help="the first value of the range")
    parser.add_argument("--to", type=last_value, action=Once, required=True, metavar="N", dest="last",
                        help=f"the last value of the range, which has at most {MOST_VALUES} values")


def with_joined_parameters(words: list[str]) -> list[str]:
    """The words, in which `--parameters 16 -3` is one: a file's name may then follow."""
    joined: list[str] = []
    collects = False
    for word in words:
        if collects and NUMBER.match(word):
            joined[-1] += f" {word}"
            continue
        collects = word == PARAMETERS_OPTION
        joined.append(word + "=" if collects else word)
    return joined
