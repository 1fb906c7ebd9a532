"""The characters of a listing: UTF-8 without a byte order mark, a line feed after each line."""

import re

from pumdalin.errors import ListingError

# Other systems' marks, each with the encoding that it stands for.
BYTE_ORDER_MARKS = {
    b"\xef\xbb\xbf": "UTF-8 with a byte order mark",
    b"\xff\xfe": "UTF-16",
    b"\xfe\xff": "UTF-16",
}
# What some programs show as the end of a line and others do not: a comment would end in one
# program, and swallow a record in the other. A carriage return may stand before a line feed.
UNSURE = re.compile("[\x00-\x08\x0b\x0c\x0e-\x1f\x7f-\x9f\u2028\u2029]|\r(?!\n)")


def decoded(data: bytes) -> str:
    """The text of a listing; ListingError where it is in another encoding or has a control character."""
    for mark, encoding in BYTE_ORDER_MARKS.items():
        if data.startswith(mark):
            raise ListingError(1, 1, f"this is {encoding}; save the listing as UTF-8 without a byte order mark")
    try:
        text = data.decode("utf-8")
    except UnicodeDecodeError as error:
        before = data[:error.start].decode("utf-8")
        raise mistake_after(before, f"the byte {data[error.start]:#04x} is not UTF-8; save the listing as UTF-8, "
                                    "or write --bytes if this is a sheet") from error
    if found := UNSURE.search(text):
        raise mistake_after(text[:found.start()], f"the control character {ord(found[0]):#04x} stands here; "
                                                  "end lines with a line feed, or write --bytes if this is a sheet")
    return text


def mistake_after(text: str, message: str) -> ListingError:
    """A mistake at the character after a text."""
    line_start = text.rfind("\n") + 1
    return ListingError(text.count("\n") + 1, len(text) - line_start + 1, message)
