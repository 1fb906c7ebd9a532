"""What the generators of files share: a sheet that was written or its refusal, and writing or comparing a file."""

import argparse
import sys
from typing import Callable

from pumdalin.answers import Refusal
from sheet import Written


def answered(written: Written) -> tuple[int, int, bytes]:
    """A refusal's number and place and no sheet; or 0, the sheet's length and the sheet."""
    if isinstance(written.answer, Refusal):
        number, place = written.answer
        return number, place, b""
    return 0, written.answer, written.buffer[:written.answer]


def main(all_cases: Callable[[], bytes]) -> None:
    """Writes the file that is named, or with --check compares it."""
    parser = argparse.ArgumentParser()
    parser.add_argument("file")
    parser.add_argument("--check", action="store_true", help="compare, and write nothing")
    arguments = parser.parse_args()
    data = all_cases()
    if arguments.check:
        with open(arguments.file, "rb") as file:
            same = file.read() == data
        print(f"{arguments.file}: {'as reckoned' if same else 'differs'}")
        sys.exit(0 if same else 1)
    with open(arguments.file, "wb") as file:
        file.write(data)
