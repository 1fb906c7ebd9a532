"""Tests of showing progress, by a clock that stands still until it is set."""

import io
import unittest

from progress import Progress, duration


class Terminal(io.StringIO):
    def isatty(self) -> bool:
        return True


class Showing(unittest.TestCase):
    def setUp(self) -> None:
        self.now = 100.0

    def progress(self, output: io.StringIO) -> Progress:
        return Progress(output, lambda: self.now)

    def step(self, progress: Progress, seconds: float, count: int) -> None:
        self.now += seconds
        progress.add(count)

    def test_plain(self) -> None:
        """A line every ten seconds and the last one, whatever the steps are."""
        output = io.StringIO()
        progress = self.progress(output)
        progress.begin("cases", 1200)
        for _ in range(12):
            self.step(progress, 2.5, 100)
        progress.end()
        self.assertEqual(output.getvalue(), "400 of 1200 cases, 40 per second, 20 s left\n"
                                            "800 of 1200 cases, 40 per second, 10 s left\n"
                                            "1200 of 1200 cases, 40 per second, in 30 s\n")

    def test_plain_and_short(self) -> None:
        output = io.StringIO()
        progress = self.progress(output)
        progress.begin("cases", 200)
        for _ in range(2):
            self.step(progress, 0.5, 100)
        progress.end()
        self.assertEqual(output.getvalue(), "200 of 200 cases, 200 per second, in 1 s\n")

    def test_terminal(self) -> None:
        """One line, rewritten: what is longer is covered, and a new line begins only at the end."""
        output = Terminal()
        progress = self.progress(output)
        progress.begin("cases", 4000)
        self.step(progress, 0.1, 1)
        self.step(progress, 0.9, 1)
        self.step(progress, 3.0, 1998)
        progress.end()
        first = "2 of 4000 cases, 2.0 per second, 33 min 19 s left"
        second = "2000 of 4000 cases, 500 per second, 4 s left"
        self.assertEqual(output.getvalue(), f"\r{first}\r{second:{len(first)}}\r{second}\n")

    def test_broken_off(self) -> None:
        """Whatever comes next begins a line, and there is no empty one."""
        for output, shown in [(Terminal(), 1), (io.StringIO(), 0)]:
            progress = self.progress(output)
            progress.begin("cases", 10)
            self.step(progress, 1.0, 4)
            progress.leave_line()
            progress.leave_line()
            self.assertEqual(output.getvalue().count("\n"), shown)
            self.assertEqual(progress.reached(), "4 of 10 cases")

    def test_each_part_counts_anew(self) -> None:
        output = io.StringIO()
        progress = self.progress(output)
        progress.begin("listings", 5)
        self.step(progress, 9.0, 5)
        progress.begin("cases", 100)
        self.step(progress, 9.0, 45)
        self.assertEqual(output.getvalue(), "")
        self.step(progress, 1.0, 5)
        self.assertEqual(output.getvalue(), "50 of 100 cases, 5.0 per second, 10 s left\n")

    def test_nothing_to_do(self) -> None:
        output = io.StringIO()
        progress = self.progress(output)
        progress.begin("cases", 0)
        progress.end()
        self.assertEqual(output.getvalue(), "0 of 0 cases\n")

    def test_durations(self) -> None:
        texts = {0.4: "0 s", 59.4: "59 s", 59.5: "1 min 0 s", 3599.0: "59 min 59 s",
                 3600.0: "1 h 0 min", 9000.0: "2 h 30 min"}
        for seconds, text in texts.items():
            self.assertEqual(duration(seconds), text)


if __name__ == "__main__":
    unittest.main()
