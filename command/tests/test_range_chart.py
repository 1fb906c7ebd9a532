"""Tests of the chart over a range: that its points are the figures, that it can be read, and how its file is written.

The figures expected are added up here. What is drawn is read back off the SVG, by the numbers at its axes.
"""

import os
import unittest
from fractions import Fraction
from pathlib import Path
from typing import Iterable, NamedTuple, TypeVar
from xml.etree import ElementTree

from pumdalin.answers import Extreme, Extremes, Figures
from pumdalin.inputs import ParameterRange
from pumdalin.range_chart import CHARACTER, MOST_MARKERS, cycles_axis, range_svg, tick_step
from tests.running import CommandTest, run
from tests.test_range import DISPENSE, LARGEST, ONE_LOOP, TWO, dispense, over

SVG = "{http://www.w3.org/2000/svg}"
GRID = "#d9d9d9"
MARKER_SIZE = "4"
# What is drawn is rounded to a tenth.
ROUNDING = Fraction(1, 10)

Place = tuple[Fraction, Fraction]
Any = TypeVar("Any")


def neighbours(items: Iterable[Any]) -> list[tuple[Any, Any]]:
    """Each with the one after it."""
    listed = list(items)
    return list(zip(listed, listed[1:]))


class Drawn(NamedTuple):
    """A chart read back: where the numbers stand at its axes, the points of its two lines, its texts and markers."""

    across: dict[int, Fraction]
    up: dict[int, Fraction]
    most: list[Place]
    least: list[Place]
    texts: list[ElementTree.Element]
    markers: int
    width: float
    height: float

    def says(self) -> list[str]:
        return [text.text or "" for text in self.texts]


def places(line: ElementTree.Element) -> list[Place]:
    points = [pair.split(",") for pair in line.attrib["points"].split()]
    return [(Fraction(x), Fraction(y)) for x, y in points]


def read_back(svg: bytes) -> Drawn:
    root = ElementTree.fromstring(svg)
    ticks = [(line.attrib, text.text) for line, text in neighbours(root)
             if line.tag == f"{SVG}line" and line.attrib["stroke"] == GRID]
    numbers = [(line, int((text or "").replace(",", ""))) for line, text in ticks]
    most, least = root.findall(f"{SVG}polyline")[:2]
    return Drawn(
        {number: Fraction(line["x1"]) for line, number in numbers if line["x1"] == line["x2"]},
        {number: Fraction(line["y1"]) for line, number in numbers if line["y1"] == line["y2"]},
        places(most), places(least), root.findall(f"{SVG}text"),
        sum(circle.attrib["r"] == MARKER_SIZE for circle in root.findall(f"{SVG}circle")),
        float(root.attrib["width"]), float(root.attrib["height"]))


def place_of(number: int, ticks: dict[int, Fraction]) -> Fraction:
    """Where a number stands by two numbers at an axis; by one where there is no other."""
    first, *_, last = [*ticks, *ticks]
    if len(ticks) == 1:
        return ticks[first]
    return ticks[first] + (ticks[last] - ticks[first]) * (number - first) / (last - first)


def extremes_of(figures: list[Figures], first: int) -> Extremes:
    least, most = (min(figure.least for figure in figures), max(figure.most for figure in figures))
    return Extremes(Extreme(least, first + [figure.least for figure in figures].index(least)),
                    Extreme(most, first + [figure.most for figure in figures].index(most)), 0)


def drawn_of(figures: list[Figures], first: int = 1, name: str = "a.listing") -> Drawn:
    asked = ParameterRange(1, first, first + len(figures) - 1)
    return read_back(range_svg(name, {}, asked, figures, extremes_of(figures, first)))


# Figures that are hard to draw, by what they are.
HARD = {
    "one value": [Figures(34, 72, 2)],
    "one figure": [Figures(9, 9, 0)],
    "one zero": [Figures(0, 0, 0)],
    "zeros": [Figures(0, 0, 0)] * 256,
    "two values": [Figures(0, 1, 0), Figures(1, 1, 0)],
    "all alike": [Figures(1977, 1977, 0)] * 16,
    "least is most": [Figures(3 * value, 3 * value, 0) for value in range(100)],
    "the largest": [Figures(LARGEST - 1, LARGEST, 0), Figures(LARGEST, LARGEST, 0)],
    "large and alike": [Figures(LARGEST, LARGEST, 0)] * 3,
    "up to the largest": [Figures(0, LARGEST // 255 * value, 0) for value in range(256)],
    "close together": [Figures(1_000_000 + value, 1_000_016 + value, 0) for value in range(20)],
    "up and down": [Figures(value % 7, 100 + 50 * (value % 2), 0) for value in range(256)],
}


class Points(CommandTest):
    def check_points(self, drawn: Drawn, first: int, figures: list[tuple[int, int]]) -> None:
        """Each line has the figures of all values, by the numbers at the axes."""
        for line, cycles in ((drawn.least, [least for least, _ in figures]), (drawn.most, [most for _, most in figures])):
            self.assertEqual(len(line), len(figures))
            for value, ((x, y), expected) in enumerate(zip(line, cycles), start=first):
                self.assertLessEqual(abs(x - place_of(value, drawn.across)), ROUNDING)
                self.assertLessEqual(abs(y - place_of(expected, drawn.up)), ROUNDING)

    def test_listing(self) -> None:
        target = self.folder / "chart.svg"
        for first, last in [(1, 1), (1, 2), (1, 16), (5, 45), (1, 256)]:
            ended = run("range", DISPENSE, *over(1, first, last), "--budget", 10_000, "--chart", target)
            self.assertEqual((ended.returncode, ended.stderr), (0, b""))
            figures = [dispense(colorants) for colorants in range(first, last + 1)]
            drawn = read_back(target.read_bytes())
            self.check_points(drawn, first, figures)
            self.assertLessEqual({f"least {figures[0][0]:,}", f"at p1 = {first}", f"most {figures[-1][1]:,}", f"at p1 = {last}"},
                                 set(drawn.says()))

    def test_hard_figures(self) -> None:
        for what, figures in HARD.items():
            for first in (-32768, -3, 1):
                with self.subTest(what, first=first):
                    self.check_points(drawn_of(figures, first), first, [(least, most) for least, most, _ in figures])

    def test_markers(self) -> None:
        """Few values have a marker each, and then the legend has one more."""
        for count, markers in [(1, 2), (16, 17), (MOST_MARKERS, MOST_MARKERS + 1), (MOST_MARKERS + 1, 0), (256, 0)]:
            self.assertEqual(drawn_of([Figures(1, 2, 0)] * count).markers, markers)


class Legible(unittest.TestCase):
    def test_texts_stand_inside(self) -> None:
        for what, figures in HARD.items():
            drawn = drawn_of(figures, -32768)
            for text in drawn.texts:
                with self.subTest(what, text=text.text):
                    self.check_inside(text, drawn)

    def check_inside(self, text: ElementTree.Element, drawn: Drawn) -> None:
        """With the width of its characters; the name of the upward axis is turned."""
        x, width = float(text.attrib["x"]), CHARACTER * len(text.text or "")
        before = {"middle": width / 2, "end": width}.get(text.attrib.get("text-anchor", ""), 0.0)
        if "transform" not in text.attrib:
            self.assertGreaterEqual(x - before, 0)
            self.assertLessEqual(x - before + width, drawn.width + 1)
        self.assertTrue(0 < float(text.attrib["y"]) < drawn.height)

    def test_names_are_apart(self) -> None:
        """Both lines of one stand above both of the other, and below the titles."""
        for what, figures in HARD.items():
            with self.subTest(what):
                texts = drawn_of(figures).texts
                titles = [text for text in texts if (text.text or "").startswith("least and most cycles")]
                starts = [at for at, text in enumerate(texts) if (text.text or "").startswith(("most ", "least "))
                          and text not in titles]
                heights = sorted(float(texts[at + line].attrib["y"]) for at in starts for line in (0, 1))
                self.assertEqual(len(heights), 4)
                self.assertTrue(all(lower - upper >= 16 for upper, lower in neighbours(heights)), heights)
                self.assertGreater(heights[0], float(titles[0].attrib["y"]))

    def test_numbers_are_apart(self) -> None:
        for first in (-32768, -999, 1, 32512):
            for count in (1, 2, 3, 16, 17, 100, 256):
                across = drawn_of([Figures(1, 2, 0)] * count, first).across
                self.assertGreater(len(across), 0)
                self.assertTrue(all(first <= value < first + count for value in across))
                for (one, x), (other, further) in neighbours(across.items()):
                    self.assertGreater(further - x, CHARACTER * (len(f"{one:,}") + len(f"{other:,}")) / 2)
        self.assertEqual(list(drawn_of([Figures(1, 2, 0)] * 16).across), list(range(1, 17)))

    def test_cycles_axis(self) -> None:
        """It has both extremes, and round numbers from end to end."""
        for least, most in [(0, 0), (0, 1), (1, 1), (34, 1977), (1000, 1016), (0, LARGEST), (LARGEST, LARGEST),
                            (LARGEST - 1, LARGEST), (LARGEST // 2, LARGEST), (7, 8), (999_999, 1_000_001)]:
            axis = cycles_axis(least, most)
            self.assertTrue(axis.first <= least <= most <= axis.last and axis.first < axis.last)
            self.assertEqual((axis.ticks[0], axis.ticks[-1]), (axis.first, axis.last))
            self.assertTrue(2 <= len(axis.ticks) <= 8)
            steps = {str(upper - lower).rstrip("0") for lower, upper in neighbours(axis.ticks)}
            self.assertIn(steps, [{"1"}, {"2"}, {"5"}])
        self.assertEqual([cycles_axis(900, 1977).first, cycles_axis(1000, 1016).first], [0, 1000])

    def test_tick_step(self) -> None:
        for span, most_steps, step in [(0, 6, 1), (6, 6, 1), (7, 6, 2), (12, 6, 2), (13, 6, 5), (30, 6, 5), (31, 6, 10),
                                       (255, 16, 20), (15, 16, 1), (2 ** 63, 6, 2 * 10 ** 18)]:
            self.assertEqual(tick_step(span, most_steps), step)


class Titles(CommandTest):
    def chart(self, name: str, listing: str, *words: object) -> bytes:
        target = self.folder / "chart.svg"
        self.assertEqual(run("range", self.file(name, listing), *words, "--chart", target).returncode, 0)
        return target.read_bytes()

    def test_fixed_parameters(self) -> None:
        """Those that some bound uses."""
        for words, said in [
            ([*over(1, -3, 9), "--parameters", 0, 8, 5, 6], "least and most cycles for p1 from -3 to 9, with p2 = 8"),
            ([*over(2, 4, 4), "--parameters", 1], "least and most cycles for p2 = 4, with p1 = 1"),
            ([*over(4, 1, 2), "--parameters", -1, -2], "least and most cycles for p4 from 1 to 2, with p1 = -1, p2 = -2"),
        ]:
            self.assertIn(said, read_back(self.chart("two.listing", TWO, *words)).says())

    def test_names(self) -> None:
        """Whatever a file is called, the chart is well-formed and shows it; what XML can't hold is marked."""
        marked = "\N{REPLACEMENT CHARACTER}"
        for name, shown in [
            ("two.listing", "two.listing"), ("a <b> & \"c\" 'd'.listing", "a <b> & \"c\" 'd'.listing"),
            ("]]>&lt;.listing", "]]>&lt;.listing"), ("für\N{GRINNING FACE}.listing", "für\N{GRINNING FACE}.listing"),
            ("a\x01\x1b\x7fb.listing", f"a{marked}{marked}\x7fb.listing"), ("\uffff", marked),
            (os.fsdecode(b"\xff.listing"), f"{marked}.listing"),
        ]:
            svg = self.chart(name, ONE_LOOP, *over(1, 1, 3))
            self.assertIn(shown, read_back(svg).says())
            title = ElementTree.fromstring(svg).find(f"{SVG}title")
            assert title is not None
            self.assertEqual(title.text, f"{shown}: least and most cycles for p1 from 1 to 3")

    def test_long_name(self) -> None:
        name = "x" * 240 + ".listing"
        svg = self.chart(name, ONE_LOOP, *over(1, 1, 3))
        self.assertIn(name, svg.decode())
        (shown,) = [says for says in read_back(svg).says() if says.startswith("xxx")]
        self.assertRegex(shown, "^x{60,90}\N{HORIZONTAL ELLIPSIS}$")

    def test_standard_input(self) -> None:
        target = self.folder / "chart.svg"
        self.assertEqual(run("range", *over(1, 1, 3), "--chart", target, given=ONE_LOOP.encode()).returncode, 0)
        self.assertIn("standard input", read_back(target.read_bytes()).says())


class Files(CommandTest):
    def test_written_beside_the_answer(self) -> None:
        """The answer is the same with it; what stood in the file is replaced, and nothing is left beside it."""
        folder = self.folder / "charts"
        folder.mkdir()
        target = folder / "chart.svg"
        target.write_bytes(b"before" * 10_000)
        for words in ([], ["--json"]):
            plain, charted = (run("range", DISPENSE, *over(1, 1, 16), *words, *more) for more in ([], ["--chart", target]))
            self.assertEqual((charted.returncode, charted.stdout, charted.stderr), (0, plain.stdout, b""))
        read_back(target.read_bytes())
        self.assertEqual(list(folder.iterdir()), [target])

    def test_refused(self) -> None:
        """Nothing is drawn, and what stood there stays."""
        target = self.file("chart.svg", b"before")
        for words in (over(1, 2000, 2100), over(5, 1, 2), [*over(1, 1, 16), "--budget", 1]):
            self.assertEqual(run("range", DISPENSE, *words, "--chart", target).returncode, 1)
        self.assertEqual(run("range", self.file("two.listing", TWO), *over(1, 1, 2), "--chart", target).returncode, 2)
        self.assertEqual(target.read_bytes(), b"before")

    def test_that_can_not_be_written(self) -> None:
        for target, said in [
            (Path("/dev/full"), "/dev/full: can't be written: No space left on device"),
            (self.folder, "can't be written: Is a directory"),
            (self.folder / "none" / "chart.svg", "chart.svg: can't be written: No such file or directory"),
            ("", "can't be written: Is a directory"),
        ]:
            self.check(run("range", DISPENSE, *over(1, 1, 16), "--chart", target), 2, "", said)

    def test_own_file(self) -> None:
        listing = self.file("own.listing", ONE_LOOP)
        self.check(run("range", listing, *over(1, 1, 2), "--chart", listing), 2, "",
                   f"{listing} would be overwritten; name another file after --chart")
        self.assertEqual(listing.read_text(), ONE_LOOP)


if __name__ == "__main__":
    unittest.main()
