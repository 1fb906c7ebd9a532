"""Stored cases of reasons read back from lines, for the program that runs them.

    python3 reason_cases.py FILE [--check]

writes FILE, or with --check compares it with what stands there. A case has the
header of sheet_cases.py with 7 as its first byte and as its second what the line
reads back to, in the numbers of loop_cases.py; the line stands for the sheet. The
third and the fourth of the other numbers are the two offsets.
"""

from call_cases import REASON_CASES
from pumdalin.records import two_bytes_each
from reasons import OFFSET_LIMIT, HoldsLoop, Reason, TooFewTrips, UnevenIn, read_reason, stored_numbers
from stored import main

LINES = 7
OFFSETS = [0, 1, 9, 10, 25, 99, 100, 805, 999, 1000, 1599, 1764, 3455, 9999, 10000, 59999, 65499, OFFSET_LIMIT - 1]
# No offsets: too large, by what 16, 32 or 64 bits would lose, or not written as offsets are.
NO_OFFSETS = [
    str(number) for number in (
        OFFSET_LIMIT, OFFSET_LIMIT + 7, 65540, 70000, 99999, 100000, 655350,
        2 ** 32, 2 ** 32 + 7, 2 ** 63, 2 ** 64, 2 ** 64 + 7, 10 ** 20, 10 ** 1000,
    )
] + ["00", "01", "007", "0000025", "065535", "", "-1", "+1", " 1", "1 ", "1,000", "1.", "0x19", "a", "2 5"]
DAMAGED = [HoldsLoop(25), TooFewTrips(50), UnevenIn(805, 780)]
OTHER_LINES = [
    b"", b"\n", b" ", b"\0", b"loop ", b"choice ",
    b"best 45 worst 45 visits 3\n", b"loop 0 closed ceiling 10\n", b"loop 25 walked ceiling 9\n",
    b"refused 6 at 25\n", b"refused 12 at 0\n",
    b"choice 25 holds a choice\n", b"loop 25 holds a loop\n", b"choice 25 may fall below no trips\n",
    b"choice 50 is uneven in loop 25\n", b"loop 50 is uneven in choice 25\n",
    b"loop 50 is uneven in loop 25 holds a loop\n", b"loop 50 is uneven in loop 25 is uneven in loop 0\n",
    b"loop 50 may fall below no trips in loop 25\n",
    b"Choice 25 holds a loop\n", b"LOOP 25 MAY FALL BELOW NO TRIPS\n", b"loop 25 is uneven\n",
]
# Around a line, or in the place of its line feed.
ENDS = [b"", b"\r", b"\r\n", b"\n\n", b" \n", b"\0", b"\n\0", b"\n ", b"\n" * 100]
STARTS = [b" ", b"\n", b"\0", b"loop ", b"choice "]


def text(reason: Reason) -> bytes:
    return reason.line().encode()


def with_offsets() -> list[bytes]:
    """Lines of all sorts, each offset at both places."""
    lines: list[bytes] = []
    for at, offset in enumerate(OFFSETS):
        lines += [text(HoldsLoop(offset)), text(TooFewTrips(offset))]
        lines += [text(UnevenIn(offset, other)) for other in (0, OFFSETS[-1 - at], offset)]
    return lines


def without_offset() -> list[bytes]:
    """Lines of all sorts with something else in the place of an offset."""
    lines: list[bytes] = []
    for digits in (other.encode() for other in NO_OFFSETS):
        lines += [
            b"choice " + digits + b" holds a loop\n",
            b"loop " + digits + b" may fall below no trips\n",
            b"loop " + digits + b" is uneven in loop 25\n",
            b"loop 25 is uneven in loop " + digits + b"\n",
        ]
    return lines


def damaged(line: bytes) -> list[bytes]:
    """A line with a byte changed, removed or doubled, at every place; some of these are a reason's still."""
    lines: list[bytes] = []
    for at, byte in enumerate(line):
        before, after = line[:at], line[at + 1:]
        lines += [before + bytes([byte ^ 1]) + after, before + bytes([byte ^ 128]) + after]
        lines += [before + after, before + bytes([byte, byte]) + after]
    return lines


def around(line: bytes) -> list[bytes]:
    """A line with another end or start, and cut off at every place."""
    lines = [line[:-1] + end for end in ENDS] + [start + line for start in STARTS]
    return lines + [line + line] + [line[:length] for length in range(len(line))]


def all_lines() -> list[bytes]:
    lines = [case.line for case in REASON_CASES] + OTHER_LINES + with_offsets() + without_offset()
    for line in map(text, DAMAGED):
        lines += damaged(line) + around(line)
    return list(dict.fromkeys(lines))


def line_case(line: bytes) -> bytes:
    sort, first, second = stored_numbers(read_reason(line))
    return bytes([LINES, sort]) + two_bytes_each(len(line), 0, first, second, 0) + line


def all_cases() -> bytes:
    return b"".join(map(line_case, all_lines()))


if __name__ == "__main__":
    main(all_cases)
