"""`pumdalin convert LISTING --to KIND`: a sheet with all its loops of kind 6, or all of kind 2."""

import json
from typing import Union

from pumdalin.answers import SKIP_DIFFERS, Refusal
from pumdalin.arguments import Once, add_bytes, add_file, add_output, check_output, parser_for
from pumdalin.errors import ANSWERED, REFUSED
from pumdalin.files import write_bytes, write_text
from pumdalin.library import Library
from pumdalin.records import LOOP, SKIP_LOOP, Loop, decode_before, offsets
from pumdalin.subjects import Subject, given_values, read_subject, refusal_object, tell_notes, tell_refusal

SUMMARY = "a sheet with loops of kind 6 alone, or of kind 2"
DESCRIPTION = """\
Converts a sheet by the proved calls, and writes the new sheet's bytes. To kind 6,
each loop without a skip gets one that equals its start; to kind 2, each skip goes,
which is refused (10) where one differs from its loop's start. No figure changes.
`pumdalin print` shows the new sheet as a listing."""

KINDS = {str(kind): kind for kind in (SKIP_LOOP, LOOP)}

Converted = Union[bytes, Refusal]


def run(words: list[str], library: Library) -> int:
    parser = parser_for("pumdalin convert", DESCRIPTION)
    add_file(parser, "LISTING", "the listing of a sheet")
    parser.add_argument("--to", action=Once, required=True, choices=list(KINDS), metavar="KIND",
                        help="6: every loop has a skip; 2: none has")
    add_bytes(parser)
    add_output(parser)
    parser.add_argument("--json", action="store_true", help="the outcome as JSON, for builds; it needs --output")
    given = parser.parse_args(words)
    if given.json and not given.output:
        parser.error("with --json the sheet goes into a file; write --output FILE")
    check_output(parser, given)
    subject = read_subject(given.file, given.bytes)
    converted = converted_sheet(subject.sheet, KINDS[given.to], library)
    if isinstance(converted, bytes):
        write_bytes(given.output, converted)
        tell_notes(subject, given_values(subject))
    if given.json:
        write_json(subject, given.to, converted)
    elif isinstance(converted, Refusal):
        tell_refusal(subject, converted)
    return ANSWERED if isinstance(converted, bytes) else REFUSED


def converted_sheet(sheet: bytes, kind: int, library: Library) -> Converted:
    """The new sheet, or the refusal with its place, which the calls for C do not hand out."""
    refusal = library.reader_refusal(sheet)
    if refusal:
        return refusal
    converted = library.converted(sheet, kind)
    return Refusal(SKIP_DIFFERS, first_differing_skip(sheet)) if converted is None else converted


def first_differing_skip(sheet: bytes) -> int:
    """Where the first loop stands whose skip differs from its start."""
    records = decode_before(sheet, len(sheet))
    return next(place for place, record in zip(offsets(records), records)
                if isinstance(record, Loop) and record.skip_differs())


def write_json(subject: Subject, kind: str, converted: Converted) -> None:
    write_text([json.dumps({
        "file": subject.name,
        "to": int(kind),
        "length": len(converted) if isinstance(converted, bytes) else None,
        "refusal": refusal_object(subject, converted) if isinstance(converted, Refusal) else None,
    }, indent=2)])
