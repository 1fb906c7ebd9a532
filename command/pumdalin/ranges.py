"""Ranges of numbers by the bytes that hold them."""

Range = tuple[int, int]

SIGNED_8 = (-2 ** 7, 2 ** 7 - 1)
SIGNED_16 = (-2 ** 15, 2 ** 15 - 1)
UNSIGNED_16 = (0, 2 ** 16 - 1)
UNSIGNED_32 = (0, 2 ** 32 - 1)
UNSIGNED_64 = (0, 2 ** 64 - 1)

# More digits than any number has that is stored, and few enough to convert at once.
MOST_DIGITS = 40


def range_text(allowed: Range) -> str:
    """A range in words."""
    return f"from {allowed[0]} to {allowed[1]}"
