"""How the command ends, and what stops it."""

ANSWERED = 0
REFUSED = 1
UNUSABLE = 2
INTERRUPTED = 130


class CommandError(Exception):
    """Wrong usage, or input or output that can't be used; the message says what to change."""

    def __init__(self, message: str, place: str = "pumdalin") -> None:
        super().__init__(f"{place}: {message}")


class ListingError(Exception):
    """A mistake in a listing, at a line and a column, both from 1."""

    def __init__(self, line: int, column: int, message: str) -> None:
        super().__init__(f"{line}:{column}: {message}")
        self.line = line
        self.column = column
        self.message = message
