"""The command line: which command, and how it ends."""

import sys
import traceback
from pathlib import Path
from typing import Callable, NamedTuple

from pumdalin.arguments import with_joined_parameters
from pumdalin.commands import answer, convert, make, print as printing, range as ranging
from pumdalin.errors import INTERRUPTED, UNUSABLE, CommandError
from pumdalin.files import tell
from pumdalin.library import Library


class Command(NamedTuple):
    summary: str
    run: Callable[[list[str], Library], int]


COMMANDS = {
    "range": Command(ranging.SUMMARY, ranging.run),
    "print": Command(printing.SUMMARY, printing.run),
    "make": Command(make.SUMMARY, make.run),
    "convert": Command(convert.SUMMARY, convert.run),
}

FURTHER = "further commands, each with --help of its own:\n" + "".join(
    f"  pumdalin {name:9}{command.summary}\n" for name, command in COMMANDS.items()) + """\
a file that is called like one of them is written ./NAME

exit status:
  0  answered
  1  refused, or an expectation of the listing does not hold
  2  wrong usage, or something can't be read or written
"""


def run(words: list[str], library: Library) -> int:
    if words and words[0] in COMMANDS:
        return COMMANDS[words[0]].run(words[1:], library)
    return answer.run(words, library, FURTHER)


def main(library_path: Path) -> int:
    """Runs the command; its status."""
    try:
        return run(with_joined_parameters(sys.argv[1:]), Library(library_path))
    except CommandError as error:
        tell(str(error))
    except KeyboardInterrupt:
        return INTERRUPTED
    except Exception:
        tell("pumdalin: this is a mistake of the command itself, and no answer:\n" + traceback.format_exc())
    return UNUSABLE
