"""How far a long run has come, with its rate.

On a terminal it is a line that is rewritten. Elsewhere, as in a file, these are
plain lines: one now and then, and one at the end of each part of the run.
"""

import contextlib
import time
from typing import Callable, TextIO

# Seconds from one showing to the next.
TERMINAL_INTERVAL = 0.2
PLAIN_INTERVAL = 10.0


def duration(seconds: float) -> str:
    whole = round(seconds)
    if whole < 60:
        return f"{whole} s"
    if whole < 3600:
        return f"{whole // 60} min {whole % 60} s"
    return f"{whole // 3600} h {whole % 3600 // 60} min"


class Progress:
    """A run in parts, each with so many of something to do."""

    def __init__(self, output: TextIO, clock: Callable[[], float] = time.monotonic) -> None:
        self.output = output
        self.clock = clock
        self.is_terminal = output.isatty()
        self.line_length = 0
        self.begin("cases", 0)

    def begin(self, what: str, total: int) -> None:
        """Begins a part of the run."""
        self.what = what
        self.total = total
        self.done = 0
        self.begun = self.shown = self.clock()

    def add(self, count: int) -> None:
        """So many more are done."""
        self.done += count
        interval = TERMINAL_INTERVAL if self.is_terminal else PLAIN_INTERVAL
        if self.done < self.total and self.clock() - self.shown >= interval:
            self.show()

    def end(self) -> None:
        """Shows how a part ended, however short it was."""
        self.show()
        self.leave_line()

    def reached(self) -> str:
        return f"{self.done} of {self.total} {self.what}"

    def text(self) -> str:
        """How far, how fast, and how much longer or how long in all."""
        seconds = self.clock() - self.begun
        if not self.done or not seconds:
            return self.reached()
        rate = self.done / seconds
        left = (self.total - self.done) / rate
        until = f"{duration(left)} left" if self.done < self.total else f"in {duration(seconds)}"
        return f"{self.reached()}, {rate:.{0 if rate >= 10 else 1}f} per second, {until}"

    def show(self) -> None:
        self.shown = self.clock()
        line = self.text()
        if self.is_terminal:
            # A shorter line has to cover the one before it.
            self.write(f"\r{line:{self.line_length}}")
            self.line_length = len(line)
        else:
            self.write(line + "\n")

    def leave_line(self) -> None:
        """What is written next begins a line of its own."""
        if self.line_length:
            self.write("\n")
        self.line_length = 0

    def say(self, message: str) -> None:
        """A message in lines of its own."""
        self.leave_line()
        self.write(message + "\n")

    def write(self, text: str) -> None:
        # The run goes on where nobody can see how far it is.
        with contextlib.suppress(OSError):
            self.output.write(text)
            self.output.flush()
