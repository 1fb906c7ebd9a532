"""`pumdalin make LISTING`: a listing as the bytes of its sheet, or as a C array."""

import os
import re
from typing import Optional

from pumdalin.arguments import Once, add_file, add_output, check_output, parser_for
from pumdalin.errors import ANSWERED, REFUSED
from pumdalin.files import write_bytes
from pumdalin.inputs import filled, program_input
from pumdalin.library import Library
from pumdalin.subjects import ListingSubject, given_values, read_listing_file, require_values, tell_notes, tell_refusal

SUMMARY = "a listing as the bytes of its sheet"
DESCRIPTION = """\
Makes the bytes of a listing's sheet. Of a listing whose sheet is refused 1 to 5
nothing is made."""

# Names that begin with an underscore, or have two of them, belong to C and C++ themselves.
IDENTIFIER = re.compile(r"(?!.*__)[A-Za-z][A-Za-z0-9_]*")
# The words of C, and of C++, whose sources may include the array too.
KEYWORDS = frozenset("""
    alignas alignof and and_eq asm auto bitand bitor bool break case catch char char16_t char32_t char8_t class co_await
    co_return co_yield compl concept const const_cast consteval constexpr constinit continue decltype default delete do double
    dynamic_cast else enum explicit export extern false float for friend goto if inline int long mutable namespace new noexcept
    not not_eq nullptr operator or or_eq private protected public register reinterpret_cast requires restrict return short
    signed sizeof static static_assert static_cast struct switch template this thread_local throw true try typedef typeid
    typename typeof typeof_unqual union unsigned using virtual void volatile wchar_t while xor xor_eq""".split())
BYTES_A_LINE = 12


def run(words: list[str], library: Library) -> int:
    parser = parser_for("pumdalin make", DESCRIPTION)
    add_file(parser, "LISTING", "the listing of a sheet")
    form = parser.add_mutually_exclusive_group()
    form.add_argument("--c", action=Once, metavar="NAME", help="a C array of this name, and its length as NAME_length")
    form.add_argument("--input", action="store_true",
                      help="what bound reads: the listing's parameters and budget before the sheet")
    add_output(parser)
    given = parser.parse_args(words)
    if given.c is not None and (not IDENTIFIER.fullmatch(given.c) or given.c in KEYWORDS):
        parser.error(f"'{given.c}' is no name for a C array; write a C identifier after --c")
    check_output(parser, given, is_text=given.c is not None)
    subject = read_listing_file(given.file)
    refusal = library.reader_refusal(subject.sheet)
    if refusal:
        tell_refusal(subject, refusal)
        return REFUSED
    write_bytes(given.output, made(subject, given.c, given.input))
    tell_notes(subject, given_values(subject))
    return ANSWERED


def made(subject: ListingSubject, array: Optional[str], as_input: bool) -> bytes:
    if array:
        return c_array(array, subject).encode("utf-8", "replace")
    return bound_input(subject) if as_input else subject.sheet


def bound_input(subject: ListingSubject) -> bytes:
    values, budget = subject.given()
    require_values(subject, values)
    return program_input(subject.sheet, filled(values), budget)


def c_array(name: str, subject: ListingSubject) -> str:
    """The sheet as a C array. C has no array without elements, so that of an empty sheet has one."""
    numbers = [f"0x{byte:02x}" for byte in subject.sheet] or ["0"]
    rows = [", ".join(numbers[at:at + BYTES_A_LINE]) for at in range(0, len(numbers), BYTES_A_LINE)]
    body = ",\n".join(f"    {row}" for row in rows)
    return (f"/* The sheet of {os.path.basename(subject.name)}, for pumdalin.h. */\n"
            "#include <stdint.h>\n\n"
            f"enum {{ {name}_length = {len(subject.sheet)} }};\n\n"
            f"static const uint8_t {name}[{len(numbers)}] = {{\n{body}\n}};\n")
