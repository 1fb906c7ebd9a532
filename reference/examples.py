"""Writes the computed examples as antt source.

    python3 examples.py FOLDER [--check] [--trips N] [--group N] [--readings FILE]

writes Known.antt and Telling.antt into the folder of proofs of the crate `meaning`
below FOLDER, Readings.antt, States.antt and Calls.antt into that of `examples`,
KnownAnswers.antt into that of `figures` and Examples.antt into that of `ranges`, or
with --check compares them with what stands there.
"""

import argparse
import os
import sys

from example_calls import calls_file
from example_ranges import ranges_file
from example_readings import known_answers_file, known_file, readings_file, telling_file
from example_states import states_file
from readings import READINGS


def main() -> None:
    parser = argparse.ArgumentParser()
    parser.add_argument("folder")
    parser.add_argument("--check", action="store_true", help="compare, and write nothing")
    parser.add_argument("--trips", type=int, default=30_000,
                        help="leave out readings with more trips than this")
    parser.add_argument("--group", type=int, default=20,
                        help="equations in a theorem of Readings, Telling, Calls and Examples")
    parser.add_argument("--readings", default=READINGS)
    arguments = parser.parse_args()
    texts = {
        "examples/proofs/Readings.antt": readings_file(arguments.readings, arguments.trips, arguments.group),
        "meaning/proofs/Telling.antt": telling_file(arguments.group),
        "examples/proofs/States.antt": states_file(),
        "examples/proofs/Calls.antt": calls_file(arguments.group),
        "meaning/proofs/Known.antt": known_file(),
        "figures/proofs/KnownAnswers.antt": known_answers_file(),
        "ranges/proofs/Examples.antt": ranges_file(arguments.group),
    }
    if arguments.check:
        sys.exit(compare(arguments.folder, texts))
    for name, text in texts.items():
        path = os.path.join(arguments.folder, name)
        os.makedirs(os.path.dirname(path), exist_ok=True)
        with open(path, "w", encoding="utf-8") as file:
            file.write(text)


def compare(folder: str, texts: dict[str, str]) -> int:
    """The exit status: 0 where every file holds its text."""
    status = 0
    for name, text in texts.items():
        with open(os.path.join(folder, name), encoding="utf-8") as file:
            same = file.read() == text
        print(f"{name}: {'as reckoned' if same else 'differs'}")
        status = status if same else 1
    return status


if __name__ == "__main__":
    main()
