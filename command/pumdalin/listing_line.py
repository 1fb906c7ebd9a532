"""The words of a listing's line, and its mistakes by line and column."""

import re
from typing import NamedTuple, NoReturn, Optional

from pumdalin.errors import ListingError
from pumdalin.ranges import MOST_DIGITS, Range, range_text

COMMENT = "#"
# Numbers, names and keywords, the signs, and whatever else stands there.
WORDS = re.compile(r"[0-9]+|[A-Za-z]+[0-9]*|\.\.|\S")


class Word(NamedTuple):
    text: str
    column: int

    def is_number(self) -> bool:
        return self.text.isascii() and self.text.isdecimal()

    def joins(self, following: "Word") -> bool:
        """Whether no space is between the two."""
        return self.column + len(self.text) == following.column


class Line:
    """The words of a line, taken from the left; past the last one stands an empty word."""

    def __init__(self, number: int, text: str) -> None:
        text = text.partition(COMMENT)[0].rstrip()
        self.number = number
        self.words = [Word(match.group(), match.start() + 1) for match in WORDS.finditer(text)]
        self.words.append(Word("", len(text) + 1))
        self.taken = 0

    def next(self) -> Word:
        return self.words[self.taken]

    def at_end(self) -> bool:
        return not self.next().text

    def take(self) -> Word:
        word = self.next()
        self.taken += 0 if self.at_end() else 1
        return word

    def take_rest(self) -> str:
        """All further words, a space between them."""
        rest = self.words[self.taken:-1]
        self.taken = len(self.words) - 1
        return " ".join(word.text for word in rest)

    def take_if(self, *texts: str) -> Optional[Word]:
        """The next word, if it is one of these."""
        return self.take() if self.next().text in texts else None

    def take_required(self, text: str, expected: str) -> None:
        if not self.take_if(text):
            self.fail_expecting(expected)

    def require_space(self) -> None:
        """Whether a space is before the next word: 20-4 would be two values."""
        if self.words[self.taken - 1].joins(self.next()):
            self.fail("write a space before this")

    def take_digits(self) -> int:
        """The number that stands next."""
        if len(self.next().text) > MOST_DIGITS:
            self.fail(f"this number has more than {MOST_DIGITS} digits; no field holds it")
        return int(self.take().text)

    def take_number(self, what: str, stored: Range, allowed: Optional[str] = None) -> int:
        """A whole number, with or without a minus sign, in the range that can be stored.

        The message names what is allowed, which may be less: that a number is not allowed
        is for the reader of sheets to say.
        """
        start = self.next()
        minus = self.take_if("-")
        if not self.next().is_number():
            self.fail_expecting(f"{what}, a number {allowed or range_text(stored)},")
        value = self.take_digits() * (-1 if minus else 1)
        least, most = stored
        if not least <= value <= most:
            self.fail(f"{what} is {value}; write a number {allowed or range_text(stored)}", start)
        return value

    def fail(self, message: str, at: Optional[Word] = None) -> NoReturn:
        raise ListingError(self.number, (at or self.next()).column, message)

    def fail_expecting(self, expected: str) -> NoReturn:
        found = "the end of the line" if self.at_end() else f"'{self.next().text}'"
        self.fail(f"write {expected} here; this is {found}")
