"""What the command reads and writes. Whatever can't be read or written is an error."""

import contextlib
import os
import sys
from typing import Optional

from pumdalin.errors import CommandError

STANDARD = "-"
# No listing and no sheet is longer; an endless input ends here.
MOST_BYTES = 2 ** 24

STANDARD_INPUT = 0
STANDARD_OUTPUT = 1


def shown_name(path: str) -> str:
    """The name of a file in messages; what in it is not UTF-8 is marked."""
    return "standard input" if path == STANDARD else os.fsencode(path).decode("utf-8", "replace")


def read_file(path: str, what: str) -> bytes:
    """The bytes of a file or of the standard input."""
    if path == STANDARD and os.isatty(STANDARD_INPUT):
        tell(f"reading {what} from the terminal; end it with Ctrl-D in a line of its own")
    try:
        with open(STANDARD_INPUT if path == STANDARD else path, "rb", closefd=path != STANDARD) as file:
            data = file.read(MOST_BYTES + 1)
    except OSError as error:
        raise CommandError(f"can't be read: {error.strerror}", shown_name(path)) from error
    if len(data) > MOST_BYTES:
        raise CommandError(f"has more than {MOST_BYTES:,} bytes; give {what}", shown_name(path))
    return data


def write_output(data: bytes) -> None:
    """All of it to the standard output, past Python's buffers, so that a failure is seen."""
    try:
        while data:
            data = data[os.write(STANDARD_OUTPUT, data):]
    except OSError as error:
        raise CommandError(f"the output can't be written: {error.strerror}") from error


def write_file(path: str, data: bytes) -> None:
    """All of it into a file; what stood there stays if that fails. A device or a pipe is not replaced."""
    target = os.path.realpath(path)
    replaced = os.path.isfile(target) or not os.path.exists(target)
    written = f"{target}.{os.getpid()}" if replaced else target
    try:
        with open(written, "wb") as file:
            file.write(data)
        os.replace(written, target)
    except OSError as error:
        if replaced:
            with contextlib.suppress(OSError):
                os.remove(written)
        raise CommandError(f"can't be written: {error.strerror}", shown_name(path)) from error


def write_bytes(path: Optional[str], data: bytes) -> None:
    """To a file, or to the standard output where none is named."""
    if path:
        write_file(path, data)
    else:
        write_output(data)


def same_file(one: str, other: str) -> bool:
    return os.path.exists(one) and os.path.exists(other) and os.path.samefile(one, other)


def write_text(lines: list[str]) -> None:
    write_output("".join(line + "\n" for line in lines).encode("utf-8", "replace"))


def tell(line: str) -> None:
    """A line on the standard error, if there is one."""
    if sys.stderr is not None:
        try:
            print(line, file=sys.stderr, flush=True)
        except OSError:
            pass
