"""Programs that are asked: what one writes for what it reads, or how it fails.

A run has one call or many, and the program writes a reply to each as soon as it
has it. The time limit is one for a call: the clock starts anew with each whole
reply. So a run of many slow calls is none that fails, and where a call does not
return, the whole replies tell which one it is.
"""

import os
import select
import signal
import subprocess
import tempfile
import time
from bisect import bisect
from itertools import accumulate
from typing import IO, Callable, NamedTuple, Sequence

# Seconds that a call may take.
LIMIT = 60.0
PART_LENGTH = 65_536


class Outcome(NamedTuple):
    """What a program wrote, and how it failed; nothing if it ended as it should."""

    written: bytes
    failure: str = ""


# Asks a program: what it reads, and how long each of its replies has to be.
Ask = Callable[[bytes, Sequence[int]], Outcome]


class Clock:
    """Runs down from a limit, and can be started anew."""

    def __init__(self, limit: float) -> None:
        self.limit = limit
        self.restart()

    def restart(self) -> None:
        self.end = time.monotonic() + self.limit

    def left(self) -> float:
        return max(0.0, self.end - time.monotonic())


def program_at(path: str, limit: float = LIMIT) -> Ask:
    # A name without a folder would be looked for among the installed programs.
    path = os.path.abspath(path)

    def ask(data: bytes, reply_lengths: Sequence[int]) -> Outcome:
        process = started(path, data)
        try:
            return outcome(process, reply_lengths, Clock(limit))
        finally:
            end(process)
    return ask


def started(path: str, data: bytes) -> "subprocess.Popen[bytes]":
    """The program, reading the data from a file: nothing has to be fed to it on the way.

    It is a session and a process group of its own. An interrupt from the terminal
    thus does not reach it, and can not be taken for a failure of the program.
    """
    with tempfile.TemporaryFile() as questions:
        questions.write(data)
        questions.seek(0)
        return subprocess.Popen([path], stdin=questions, stdout=subprocess.PIPE,
                                bufsize=0, start_new_session=True)


def outcome(
    process: "subprocess.Popen[bytes]", reply_lengths: Sequence[int], clock: Clock
) -> Outcome:
    assert process.stdout is not None
    written, is_all = read_replies(process.stdout, reply_lengths, clock)
    # What writes more than it is asked for may go on for ever, and enough is known of it.
    if len(written) > sum(reply_lengths):
        return Outcome(written)
    return Outcome(written, failure(process, clock) if is_all else overdue(clock))


def read_replies(
    output: IO[bytes], reply_lengths: Sequence[int], clock: Clock
) -> tuple[bytes, bool]:
    """What is written until it is all, too much, or too late; whether it is not too late."""
    ends = list(accumulate(reply_lengths))
    written = b""
    while select.select([output], [], [], clock.left())[0]:
        part = output.read(PART_LENGTH)
        whole_replies = bisect(ends, len(written))
        written += part
        if not part or len(written) > sum(reply_lengths):
            return written, True
        if bisect(ends, len(written)) > whole_replies:
            clock.restart()
    return written, False


def overdue(clock: Clock) -> str:
    return f"did not return within {clock.limit:g} seconds"


def failure(process: "subprocess.Popen[bytes]", clock: Clock) -> str:
    """How a program failed that writes no more, or nothing if it did not."""
    try:
        status = process.wait(clock.left())
    except subprocess.TimeoutExpired:
        return overdue(clock)
    if status < 0:
        return f"was ended by signal {-status}, {signal.strsignal(-status)}"
    return f"ended with exit status {status}" if status else ""


def end(process: "subprocess.Popen[bytes]") -> None:
    """Ends what still runs, with all that it started."""
    if process.poll() is None:
        os.killpg(process.pid, signal.SIGKILL)
    if process.stdout is not None:
        process.stdout.close()
    process.wait()
