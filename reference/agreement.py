"""Holds the static library and the program `bound` against the reckoning.

    python3 agreement.py LIBRARY [--program PROGRAM] [--listings FOLDER] [--cases N] [--seed S]

LIBRARY is answers.c linked with the static library. It gets the listings of
FOLDER, whose expected answers the reckoning too has to give, by going over
every trip; then the kept cases, then N random ones, these with every C call.
`bound` gets the same, but only every tenth random case; without PROGRAM it is
left out.

The first line names the seed, which gives the same random cases again. The
first difference is shown as a listing with both answers. A call that does not
return within a minute, or that ends its program, differs too. How far it has
come goes to the standard error.

The exit status is
  0    where all agree;
  1    where something differs;
  2    where the arguments are wrong or something is missing;
  130  after an interrupt, 143 after a request to end: it says how far it came.
"""

import argparse
import os
import signal
import sys
from itertools import islice
from pathlib import Path
from random import SystemRandom
from typing import Iterator, NamedTuple, Optional, Sequence

from agreement_cases import Expected, Trial, kept_trials, listing_cases, random_trials
from agreement_checks import Difference, Tool, Unusable, check_listing, check_trials
from asking import program_at
from progress import Progress

BATCH = 100
PROGRAM_EVERY = 10

AGREES = 0
DIFFERS = 1
UNUSABLE = 2
# Shells add a signal's number to this one.
STOPPED = 128

STOPPING = (signal.SIGINT, signal.SIGTERM)


class Stopped(BaseException):
    """A signal that asks this program to end."""

    def __init__(self, number: int) -> None:
        super().__init__(number)
        self.number = number


def stop(number: int, frame: object) -> None:
    # A second signal must not break off the ending.
    for each in STOPPING:
        signal.signal(each, signal.SIG_IGN)
    raise Stopped(number)


class Comparison(NamedTuple):
    """The parts of a run."""

    tool: Tool
    progress: Progress

    def listings(self, listings: Sequence[Sequence[Expected]]) -> None:
        self.progress.begin("listings", len(listings))
        for listing in listings:
            check_listing(self.tool, listing)
            self.progress.add(1)
        self.progress.end()
        answers = sum(len(listing) for listing in listings)
        print(f"{len(listings)} listings with {answers} expected answers: all agree", flush=True)

    def kept(self) -> None:
        trials = kept_trials()
        self.batches("kept cases", iter(trials), len(trials), 1)
        print(f"{len(trials)} kept cases: all agree", flush=True)

    def random(self, seed: int, count: int) -> None:
        self.batches("random cases", random_trials(seed), count, PROGRAM_EVERY)
        print(f"{count} random cases of seed {seed}: all agree", flush=True)

    def batches(self, what: str, trials: Iterator[Trial], count: int, program_every: int) -> None:
        """So many trials, a batch in one run of answers.c, and `bound` on every so many."""
        self.progress.begin(what, count)
        for done in range(0, count, BATCH):
            batch = list(islice(trials, min(BATCH, count - done)))
            check_trials(self.tool, batch, program_every)
            self.progress.add(len(batch))
        self.progress.end()


def check_all(given: argparse.Namespace, progress: Progress) -> None:
    program = program_at(given.program) if given.program else None
    comparison = Comparison(Tool(program_at(given.library), program), progress)
    print("compared with the reckoning: the static library",
          f"and {given.program}" if program else "alone", flush=True)
    if given.listings is not None:
        comparison.listings(given.listings)
    comparison.kept()
    comparison.random(given.seed, given.cases)


def whole_number(text: str) -> int:
    if not (text.isascii() and text.isdecimal()):
        raise argparse.ArgumentTypeError(f"write a whole number, 0 or more; this is '{text}'")
    return int(text)


def runnable(path: str) -> str:
    if not os.path.isfile(path):
        raise argparse.ArgumentTypeError(f"there is no program '{path}'; build it, or name another")
    if not os.access(path, os.X_OK):
        raise argparse.ArgumentTypeError(
            f"'{path}' may not be run; make it executable, or name another")
    return path


def listings_in(folder: str) -> list[list[Expected]]:
    """What all listings of a folder and of the folders in it expect."""
    if not os.path.isdir(folder):
        raise argparse.ArgumentTypeError(f"there is no folder '{folder}'; name one with listings")
    paths = sorted(Path(folder).rglob("*.listing"))
    if not paths:
        raise argparse.ArgumentTypeError(
            f"'{folder}' has no file *.listing; name a folder with listings")
    try:
        return [listing_cases(path) for path in paths]
    except (OSError, ValueError) as error:
        raise argparse.ArgumentTypeError(str(error)) from error


def arguments(words: Optional[Sequence[str]] = None) -> argparse.Namespace:
    """What is given, all of it usable: otherwise this program ends before it asks anything."""
    parser = argparse.ArgumentParser(description="compares the tool with the reckoning")
    parser.add_argument("library", type=runnable, help="answers.c, linked with the static library")
    parser.add_argument("--program", type=runnable,
                        help="bound; without it the library alone is compared")
    parser.add_argument("--listings", type=listings_in, metavar="FOLDER",
                        help="a folder of listings with expected answers")
    parser.add_argument("--cases", type=whole_number, default=2000, metavar="N",
                        help="how many random cases; 2000 unless said")
    parser.add_argument("--seed", type=whole_number, default=SystemRandom().randrange(1_000_000),
                        help="where the random cases begin; another one each time unless said")
    return parser.parse_args(words)


def main() -> int:
    given = arguments()
    for each in STOPPING:
        signal.signal(each, stop)
    named = f"seed {given.seed}: repeat with SEED={given.seed}"
    # Python has no standard error where it is closed.
    progress = Progress(sys.stderr or open(os.devnull, "w", encoding="utf-8"))
    try:
        print(named, flush=True)
        check_all(given, progress)
        return AGREES
    except Difference as found:
        message, status = str(found), DIFFERS
    except (Unusable, OSError) as error:
        message, status = str(error), UNUSABLE
    except Stopped as stopped:
        message = f"interrupted after {progress.reached()}, which all agree; {named}"
        status = STOPPED + stopped.number
    progress.say(message)
    return status


if __name__ == "__main__":
    sys.exit(main())
