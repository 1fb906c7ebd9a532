"""Tests of answers over a range of one parameter, as a user asks for them, and over calls that stand in.

The figures expected are added up here, trip by trip, or stand in the readings of document 02.
"""

import ctypes
import json
import unittest
from pathlib import Path
from typing import Callable, Optional

from pumdalin.answers import Answer, Extreme, Extremes, Figures, Refusal, Report
from pumdalin.commands.range import Refused, refused
from pumdalin.errors import CommandError
from pumdalin.inputs import ParameterRange, Parameters
from pumdalin.library import Library
from tests.running import ROOT, CommandTest, Ended, run

DISPENSE = ROOT / "examples" / "listings" / "firmware" / "dispense.listing"
DOCUMENT = ROOT / "docs" / "LISTINGS.md"
MANUAL = ROOT / "command" / "pumdalin.1"

# p1 times 11 - p1 trips: the figures rise and then fall, and two values share each extreme.
HILL = "loop i 1..p1\n  loop j p1..10\n    work 1..2\n  end\nend\n"
TWO = "loop i 1..p1\n  work 3\nend\nloop i 1..p2\n  work 10\nend\n"
ONE_LOOP = "loop i 1..p1\n  work 1\nend\n"
LARGEST = 2 ** 63 - 1

# Calls of document 02's readings: parameters, budget, number, first, last, sheet; best, its value, worst, its value, visits.
ANSWERED_CALLS = [
    ((0, 0, 0, 0), 3000, 1, -3, 4,
     "0200000f0004000100000000000000000400000000000000020600000200040001000000000000000006000000000000000000"
     "00060f00000001000000000000000000000d00ff0100000000000c0002010002000100ffff00ffff01000000fdff0000000000"
     "00ff0404010000000004010500060004010200040001030008000303030303030303", (2457, 4, 8321, -3, 296)),
    ((-1, 10, 1, 1), 300, 1, 5, 12, "0101000600", (1, 5, 6, 5, 0)),
    ((0, 0, 0, 0), 3000, 1, 23, 38,
     "0201000200fffffeff00000000000000e0ff000000000000000402030002000100feff00000000000000130000000000000000"
     "01ff0fff0f0112004e0003050203000100ffffffff01000000000000feff010000000000000100000300030304060200010001"
     "0002000100000000000007000100000000000000000100000900030303", (466, 23, 2849428, 23, 128)),
]
# The same up to the sheet; the refusal.
REFUSED_CALLS = [
    ((0, 0, 0, 0), 1, 1, 2047, 2049, "0200000000010001000000000000000000000000000100000003", "refused 6 at 0"),
    ((0, 0, 0, 0), 1000, 3, 1, 16,
     "02000000000100000000000000000000000000000000000000040200000000010000000000000000000001000000000000000004"
     "02000000000100000000000000000000ffff0000000000000004040404030303030303030303", "refused 5 at 80"),
    ((5, -4, 6, 3), 300, 0, -3, 4, "04060f0000000600050000000000000000000000000000000000cf0d0303", "refused 11 at 0"),
    ((-5, 0, 2, 9), 300, 1, 2049, 2049, "0200000000010001000000000000000000000000000200000003", "refused 6 at 0"),
    ((0, 0, 0, 0), 1000, 1, 4, 7,
     "060000080003000300000000000000000d00000000010000000000020000000001000100000000000000000300000000010000"
     "000201000000fffffeff00000002000000f4ff0000000300000001010002000202000100010003000100000000000002000100"
     "ffff000000010100ff0f010100ff0f03030303",
     "refused 8 at 0"),
    ((5, 0, 5, -5), 4294967295, 1, 0, 0,
     "02010000000100000000000000000000030000000000000000040100000500040101000100030303", "refused 7 at 0"),
    ((0, 0, 0, 0), 3000, 2, -3, -1,
     "01fe0ffe0f0602000900ffffffff0000000000000000000000000000000002000306000403010400040200060501", "refused 1 at 33"),
    ((0, 1, 0, 1), 300, 1, 25, 25,
     "020000080001000000000000000000000000000000000000020000000100fdfffeff00000000000000ffff0000000000000001010002000304050303",
     "refused 2 at 25"),
    ((-5, -3, -2, 8), 300, 2, 1, 4, "0403" * 64 + "0101000100", "refused 4 at 128"),
]


def dispense(colorants: int) -> tuple[int, int]:
    """Least and most of the dispensing code, trip by trip."""
    least, most = 12 + 2, 15 + 2
    for colorant in range(1, colorants + 1):
        pulses = colorants - colorant + 1
        least += 3 + 6 + 2 + pulses * (2 + 4) + 3
        most += 3 + 6 + 2 + pulses * (2 + 7) + 35
    return least, most


def over(number: object, first: object, last: object) -> list[object]:
    return ["--parameter", number, "--from", first, "--to", last]


class StandIn(Library):
    """In place of the library: a call that stores these numbers, and returns one; and single answers by the value of p2."""

    def __init__(self, stored: tuple[int, ...] = (), returned: int = 0, single: Optional[dict[int, Answer]] = None) -> None:
        super().__init__(Path("none"))
        self.area = b"".join(number.to_bytes(8, "little", signed=True) for number in stored)
        self.returned = returned
        self.single = single or {}
        self.asked: list[tuple[object, ...]] = []

    def call(self, name: str, *taken: type) -> Callable[..., int]:
        def called(*given: object) -> int:
            *others, area, length = given
            self.asked.append((name, taken, tuple(others), length))
            assert isinstance(area, ctypes.Array)
            area[:len(self.area)] = self.area
            return self.returned
        return called

    def report(self, sheet: bytes, parameters: Parameters, budget: int) -> Report:
        self.asked.append((parameters, budget))
        return Report(self.single[parameters[1]], [])


class Calls(unittest.TestCase):
    def test_asked_and_stored(self) -> None:
        """The arguments in the order and of the types of the header; negative values in two's complement."""
        library = StandIn((5, -3, LARGEST, -32768, 1_000_000))
        answer = library.extremes(b"sheet", (1, -2, 3, -4), 77, ParameterRange(2, -32768, -3))
        self.assertEqual(answer, Extremes(Extreme(5, -3), Extreme(LARGEST, -32768), 1_000_000))
        lent = (ctypes.c_char_p, ctypes.c_size_t)
        taken = (*lent, *[ctypes.c_int16] * 4, *[ctypes.c_uint32] * 2, *[ctypes.c_int16] * 2, *lent)
        self.assertEqual(library.asked, [("pumdalin_range", taken, (b"sheet", 5, 1, -2, 3, -4, 77, 2, -32768, -3), 40)])

    def test_figures(self) -> None:
        library = StandIn((1, LARGEST, 3))
        self.assertEqual(library.figures(b"", (1, 2, 3, 4), 5), Figures(1, LARGEST, 3))
        taken = (ctypes.c_char_p, ctypes.c_size_t, *[ctypes.c_int16] * 4, ctypes.c_uint32, ctypes.c_char_p, ctypes.c_size_t)
        self.assertEqual(library.asked, [("pumdalin_figures", taken, (b"", 0, 1, 2, 3, 4, 5), 24)])

    def test_refusals(self) -> None:
        for number in (1, 2, 3, 4, 5, 6, 7, 8, 11):
            self.assertEqual(StandIn(returned=number).extremes(b"", (0, 0, 0, 0), 1, ParameterRange(1, 0, 0)), number)

    def test_numbers_that_no_call_returns_here(self) -> None:
        for number in (9, 10, 12, 77):
            with self.assertRaisesRegex(CommandError, f"pumdalin_range returned {number}, which it never does here"):
                StandIn(returned=number).extremes(b"", (0, 0, 0, 0), 1, ParameterRange(1, 0, 0))
        with self.assertRaisesRegex(CommandError, "pumdalin_figures returned 8, which it never does here"):
            StandIn(returned=8).figures(b"", (0, 0, 0, 0), 1)

    def test_library_without_the_call(self) -> None:
        """One of an older version, or none."""
        for path in ("libc.so.6", "/nowhere/libpumdalin.so"):
            with self.assertRaisesRegex(CommandError, "^pumdalin: the package's library can't be used: .*; install"):
                Library(Path(path)).extremes(b"", (0, 0, 0, 0), 1, ParameterRange(1, 0, 0))


class Placing(unittest.TestCase):
    """Place and value of a refusal, which the call over a range does not hand out."""

    FIGURES = Figures(1, 2, 3)

    def place(self, number: int, single: dict[int, Answer]) -> tuple[Refused, list[tuple[object, ...]]]:
        library = StandIn(single=single)
        return refused(library, b"sheet", (7, 99, 8, 9), ParameterRange(2, min(single), max(single)), number), library.asked

    def test_first_refused_value(self) -> None:
        single = {-2: self.FIGURES, -1: Refusal(8, 0), 0: Refusal(6, 25), 1: Refusal(6, 5)}
        self.assertEqual(self.place(6, single), (Refused(Refusal(6, 25), 0), [((7, value, 8, 9), 1) for value in (-2, -1, 0)]))

    def test_of_the_sheet(self) -> None:
        """1 to 5 are not a value's, so none is told."""
        for number in range(1, 6):
            answer = Refusal(number, 12)
            self.assertEqual(self.place(number, {3: answer, 4: answer}), (Refused(answer, None), [((7, 3, 8, 9), 1)]))

    def test_of_the_call(self) -> None:
        for number in (7, 8, 11):
            self.assertEqual(self.place(number, {3: self.FIGURES}), (Refused(Refusal(number, 0), None), []))

    def test_calls_that_disagree(self) -> None:
        with self.assertRaisesRegex(CommandError, "pumdalin_range returned 6, which it never does here"):
            self.place(6, {3: self.FIGURES, 4: Refusal(8, 0)})


class RangeTest(CommandTest):
    def ask(self, listing: str, *words: object) -> "Ended[bytes]":
        return run("range", *words, given=listing.encode())


class Answers(RangeTest):
    def test_listing(self) -> None:
        """Of the first two trips of i and the first of j in each; at one colorant there is one of each."""
        least, most = zip(*(dispense(colorants) for colorants in range(1, 17)))
        visits = 2 + 15 * 4
        said = f"best {min(least)} at p1 = 1 worst {max(most)} at p1 = 16 visits {visits}\nparameters 1..16 0 0 0 budget 100\n"
        for words in ([DISPENSE, *over(1, 1, 16)], [*over("p1", "+1", "16"), "--", DISPENSE],
                      ["--parameter=1", "--from=1", "--to=16", DISPENSE, "--parameters", "9", "--budget", "100"]):
            self.check(run("range", *words), 0, said)
        self.check(run("range", *over(1, 1, 16), given=DISPENSE.read_bytes()), 0, said)
        self.check(run("range", "-", *over(1, 1, 16), "--budget", visits, given=DISPENSE.read_bytes()), 0,
                   said.replace("budget 100", f"budget {visits}"))

    def test_bytes(self) -> None:
        sheet = self.sheet(ONE_LOOP)
        said = "best 3 at p1 = 3 worst 5 at p1 = 5 visits 3\nparameters 3..5 0 0 0 budget 1000000\n"
        self.check(run("range", "--bytes", sheet, *over(1, 3, 5)), 0, said)
        self.check(run("range", *over(1, 3, 5), "--bytes", given=sheet.read_bytes()), 0, said)

    def test_extremes_inside_the_range(self) -> None:
        """The smallest value that gives each, where several do."""
        trips = {value: value * (11 - value) for value in range(0, 12)}
        for first, last in [(1, 10), (0, 11), (2, 7), (6, 9), (4, 4), (5, 6)]:
            values = range(first, last + 1)
            least_at = min(values, key=lambda value: trips[value])
            most_at = max(values, key=lambda value: trips[value])
            said = self.ask(HILL, *over(1, first, last)).stdout.decode()
            self.assertTrue(said.startswith(f"best {trips[least_at]} at p1 = {least_at} worst {2 * trips[most_at]} at p1 = "
                                            f"{most_at} visits "), said)

    def test_every_parameter(self) -> None:
        """The others are fixed, and the given value of the ranged one is not looked at."""
        for number in range(1, 5):
            listing = "".join(f"loop i 1..p{parameter}\n  work {10 ** parameter // 10}\nend\n" for parameter in range(1, 5))
            given = [2, 3, 4, 5]
            cycles = [sum(10 ** at * (value if at == number - 1 else given[at]) for at in range(4)) for value in (0, 9)]
            for ignored in (given[number - 1], -32768, 32767, 3000):
                words = [ignored if at == number - 1 else given[at] for at in range(4)]
                shown = " ".join("0..9" if at == number - 1 else str(given[at]) for at in range(4))
                self.check(self.ask(listing, *over(number, 0, 9), "--parameters", *words), 0,
                           f"best {cycles[0]} at p{number} = 0 worst {cycles[1]} at p{number} = 9 visits {10 * 3 + 9}\n"
                           f"parameters {shown} budget 1000000\n")

    def test_values_of_the_listing(self) -> None:
        """Those of the first expectation, or those given last, as elsewhere; what is expected is not checked."""
        shown = "parameters 1 4..6 0 0 budget 7\n"
        for values in ("parameters 1\nbudget 7\n", "parameters 1 -9\nbudget 7\nexpect 0 0 visits 0\nparameters 2 2\nbudget 9\n"):
            self.check(self.ask(TWO + values, *over(2, 4, 6)), 0, f"best 43 at p2 = 4 worst 63 at p2 = 6 visits 6\n{shown}")

    def test_negative_values(self) -> None:
        self.check(self.ask("loop i p3..-1\n  work 2\nend\n", *over("p3", -5, -3)), 0,
                   "best 6 at p3 = -3 worst 10 at p3 = -5 visits 3\nparameters 0 0 -5..-3 0 budget 1000000\n")
        ends = "loop i 0..p1\nend\nwork 1\n"
        for first, last in [(-32768, -32513), (-32768, -32768)]:
            self.check(self.ask(ends, *over(1, first, last)), 0, f"best 1 at p1 = {first} worst 1 at p1 = {first} visits 0\n"
                       f"parameters {first}..{last} 0 0 0 budget 1000000\n")
        self.check(self.ask("loop i p1..0\nend\nwork 1\n", *over(1, 32512, 32767)), 0,
                   "best 1 at p1 = 32512 worst 1 at p1 = 32512 visits 0\nparameters 32512..32767 0 0 0 budget 1000000\n",
                   "note: this loop makes no trip at p1 = 32767")

    def test_most_values(self) -> None:
        self.check(self.ask(ONE_LOOP, *over(1, 1, 256)), 0,
                   "best 1 at p1 = 1 worst 256 at p1 = 256 visits 256\nparameters 1..256 0 0 0 budget 1000000\n")

    def test_walked(self) -> None:
        """Every trip of each value counts as a visit, and the sum may just equal the budget."""
        walked = "loop i 1..p1\n  loop j 1..i by 2\n    work 1\n  end\nend\n"
        trips = {value: [(i + 1) // 2 for i in range(1, value + 1)] for value in range(1, 21)}
        visits = sum(len(inner) + sum(1 for trip in inner if trip) for inner in trips.values())
        most = sum(trips[20])
        said = f"best 1 at p1 = 1 worst {most} at p1 = 20 visits {visits}\nparameters 1..20 0 0 0 budget {visits}\n"
        self.check(self.ask(walked, *over(1, 1, 20), "--budget", visits), 0, said)
        self.assertEqual(self.ask(walked, *over(1, 1, 20), "--budget", visits - 1).returncode, 1)

    def test_parts(self) -> None:
        """The smaller best and the larger worst of two parts are those of the whole, and the visits add up."""
        asked = [(0, 11), (0, 4), (5, 11)]
        whole, *parts = (json.loads(self.ask(HILL, *over(1, *ends), "--json").stdout)["answer"] for ends in asked)
        self.assertEqual(whole["least"]["cycles"], min(part["least"]["cycles"] for part in parts))
        self.assertEqual(whole["most"]["cycles"], max(part["most"]["cycles"] for part in parts))
        self.assertEqual(whole["visits"], sum(part["visits"] for part in parts))

    def test_empty_sheet(self) -> None:
        for words in ([], ["--bytes"], ["--json"]):
            self.check(run("range", *over(1, 1, 2), *words), 2, "", "standard input: there is no record")
        self.check(self.ask("expect 0 0 visits 0\n", *over(3, 1, 5)), 0,
                   "best 0 at p3 = 1 worst 0 at p3 = 1 visits 0\nparameters 0 0 1..5 0 budget 1000000\n",
                   "note: no bound uses p3")

    def test_readings(self) -> None:
        for parameters, budget, number, first, last, sheet, (least, least_at, most, most_at, visits) in ANSWERED_CALLS:
            ended = run("range", "--bytes", *over(number, first, last), "--budget", budget, "--parameters", *parameters,
                        given=bytes.fromhex(sheet))
            self.assertEqual((ended.returncode, ended.stdout.decode().splitlines()[0]), (
                0, f"best {least} at p{number} = {least_at} worst {most} at p{number} = {most_at} visits {visits}"))
        for parameters, budget, number, first, last, sheet, said in REFUSED_CALLS:
            ended = run("range", "--bytes", *over(number, first, last), "--budget", budget, "--parameters", *parameters,
                        given=bytes.fromhex(sheet))
            self.check(ended, 1, "", f"standard input: {said}: ", "limit: ")


class Notes(RangeTest):
    def test_unused(self) -> None:
        """Of the ranged parameter and of those that are given; the given value of the ranged one is not told apart."""
        said = self.ask(TWO, *over(3, 1, 2), "--parameters", 1, 2, 3, 4).stderr.decode().splitlines()
        self.assertEqual(said, [
            "standard input: note: p4 has a value, and no bound uses it",
            "standard input: note: no bound uses p3, so the figures are the same at every value of the range"])
        self.check(self.ask(TWO, *over(1, 1, 2), "--parameters", 1, 2), 0,
                   "best 23 at p1 = 1 worst 26 at p1 = 2 visits 4\nparameters 1..2 2 0 0 budget 1000000\n")

    def test_wrong_way(self) -> None:
        """At the last value, where the start is farthest past the end; also where an index decides."""
        ended = self.ask("loop i p1..1\n  work 1\nend\n", *over(1, 1, 16))
        self.assertEqual(ended.returncode, 0)
        self.assertTrue(ended.stderr.decode().startswith("standard input:1:8: note: this loop makes no trip at p1 = 16: "))
        ended = self.ask("loop i 1..p1\n  loop j i..1\n    work 1\n  end\nend\n", *over(1, 1, 16))
        self.assertIn("standard input:2:10: note: this loop makes at most one trip at p1 = 16, wherever it is met: ",
                      ended.stderr.decode())

    def test_figures_that_doubles_do_not_hold(self) -> None:
        loops = "loop i 1..p1\n" + "".join(f"loop {name} 0..2047\n" for name in "jkl")
        ended = self.ask(loops + "work 4095\n" * 119 + "end\n" * 4, *over(1, 2047, 2048), "--json")
        self.assertEqual(json.loads(ended.stdout)["answer"]["most"], {"cycles": 119 * 4095 * 2048 ** 4, "value": 2048})
        self.assertIn(b"keeps numbers as doubles", ended.stderr)


class AsJson(RangeTest):
    def test_answered(self) -> None:
        ended = run("range", DISPENSE, *over("p1", 3, 5), "--json", "--parameters", 8)
        self.assertEqual((ended.returncode, ended.stderr), (0, b""))
        self.assertEqual(json.loads(ended.stdout), {
            "file": str(DISPENSE), "range": {"parameter": 1, "from": 3, "to": 5}, "parameters": [None, 0, 0, 0], "budget": 100,
            "answer": {"least": {"cycles": dispense(3)[0], "value": 3}, "most": {"cycles": dispense(5)[1], "value": 5},
                       "visits": 12},
            "refusal": None})

    def test_refused(self) -> None:
        for listing, words, expected in [
            (TWO, [*over(2, 2000, 2100), "--parameters", 1], (6, 31, 4, 2049)),
            (TWO, [*over(2, 1, 9), "--parameters", 1, "--budget", 17], (8, 0, None, None)),
            (TWO, [*over(2, 1, 9), "--budget", 0], (7, 0, None, None)),
            (TWO, over(0, 1, 9), (11, 0, None, None)),
            ("work 1\n" + ONE_LOOP + "end\n", over(1, 1, 2), (5, 36, 5, None)),
        ]:
            ended = self.ask(listing, *words, "--json")
            said = json.loads(ended.stdout)
            self.assertEqual((ended.returncode, ended.stderr, said["answer"]), (1, b"", None))
            refusal = said["refusal"]
            self.assertEqual(tuple(refusal[name] for name in ("number", "place", "line", "value")), expected)
            self.assertEqual(list(refusal), ["number", "place", "line", "what", "who", "change", "limit", "hint", "value"])
            told = self.ask(listing, *words).stderr.decode()
            for name in ("what", "who", "change", "limit", "hint"):
                self.assertIn(refusal[name] or "", told)


class Refusals(RangeTest):
    def refusal(self, listing: str, *words: object) -> list[str]:
        ended = self.ask(listing, *words)
        self.assertEqual((ended.returncode, ended.stdout), (1, b""))
        return ended.stderr.decode().splitlines()

    def test_of_a_value(self) -> None:
        self.assertEqual(self.refusal(TWO, *over(2, 2040, 2060), "--parameters", 1), [
            "standard input:4: refused 6 at 31: this loop may make more than 2,048 trips at one entry",
            "standard input:4: whoever chose the parameters has to choose other values, or bounds for the loop that keep it "
            "within the limit at these values",
            "standard input:4: limit: a loop's ceiling is at most 2,048",
            "standard input:4: hint: p2 = 2049 is the first value of the range that is refused"])

    def test_first_value_decides(self) -> None:
        """Not the first loop: at p1 = 1025 the second one is refused, at 2049 the first."""
        both = "loop i 1..p1\nend\nloop i 1..2p1\nend\n"
        for first, last, line, value in [(1000, 1200, 3, 1025), (1900, 2100, 3, 1900), (2049, 2100, 1, 2049)]:
            told = self.refusal(both, *over(1, first, last))
            self.assertTrue(told[0].startswith(f"standard input:{line}: refused 6 at "), told)
            self.assertEqual(told[-1],
                             f"standard input:{line}: hint: p1 = {value} is the first value of the range that is refused")

    def test_of_a_value_before_the_budget(self) -> None:
        """Though the budget is spent at earlier values; and within the range up to there it is the budget."""
        self.assertIn("refused 6 at 0", self.refusal(ONE_LOOP, *over(1, 2047, 2049), "--budget", 1)[0])
        self.assertIn("refused 8 at 0", self.refusal(ONE_LOOP, *over(1, 2047, 2048), "--budget", 1)[0])

    def test_of_the_budget(self) -> None:
        """At each value alone the visits would suffice."""
        told = self.refusal(ONE_LOOP, *over(1, 1, 5), "--budget", 4)
        self.assertEqual(told[0], "standard input: refused 8 at 0: the sheet takes more visits than the budget")
        self.assertTrue(told[1].startswith("standard input: whoever placed the call has to give a larger budget, or "))
        self.assertEqual(told[2:], [
            "standard input: limit: a budget is 1 to 1,000,000 visits",
            "standard input: hint: the visits at all 5 values add up, and one budget covers them; ask over fewer values at once"])
        two_loops = self.refusal(TWO, *over(1, 1, 1), "--parameters", 1, 1, "--budget", 1)
        self.assertEqual((len(two_loops), "hint" in two_loops[-1]), (3, False))

    def test_of_the_range(self) -> None:
        limit = "a parameter's number is 1 to 4, the first value is not above the last, and there are at most 256 values"
        for words, hint in [
            (over(0, 1, 2), "there is no parameter 0; write a number from 1 to 4 after --parameter"),
            (over(5, 2, 1), "there is no parameter 5; write a number from 1 to 4 after --parameter"),
            (over(4294967295, 1, 2), "there is no parameter 4294967295; write a number from 1 to 4 after --parameter"),
            (over(1, 2, 1), "--from 2 is above --to 1; exchange them"),
            (over(1, 32767, -32768), "--from 32767 is above --to -32768; exchange them"),
            (over(1, 1, 257), "from 1 to 257 there are 257 values; ask over at most 256 at once"),
            (over(1, -32768, 32767), "from -32768 to 32767 there are 65536 values; ask over at most 256 at once"),
        ]:
            self.assertEqual(self.refusal(ONE_LOOP, *words), [
                "standard input: refused 11 at 0: no such range can be asked for",
                "standard input: whoever placed the call has to give another range", f"standard input: limit: {limit}",
                f"standard input: hint: {hint}"])

    def test_order(self) -> None:
        """11 before 7, that before 1 to 5, these before a parameter that has no value."""
        wrong = "work 5..3\n" + TWO
        for words, said in [
            ([*over(5, 1, 2), "--budget", 0], "refused 11 at 0"), ([*over(1, 1, 2), "--budget", 0], "refused 7 at 0"),
            ([*over(1, 1, 2), "--budget", 1_000_001], "refused 7 at 0"), ([*over(1, 3000, 3001)], "refused 3 at 0"),
        ]:
            self.assertIn(said, self.refusal(wrong, *words)[0])

    def test_of_the_sheet(self) -> None:
        """1 to 5, with their lines and hints as elsewhere."""
        self.assertEqual(self.refusal("work 1\nwork 5000\n", *over(1, 1, 9))[::3],
                         ["standard input:2: refused 3 at 5: a field of this record is out of its range",
                          "standard input:2: hint: column 6: the least is 5000, and is to be from 0 to 4095"])
        for data in (b"\x01\x03\x00", b"\x04\x03\x09", b"\x01\x05\x00\x03\x00", b"\x04\x03" * 64 + b"\x03", b"\x05", b"\x04"):
            ended = run("range", "--bytes", *over(1, 1, 9), given=data)
            self.assertEqual((ended.returncode, ended.stdout, ended.stderr), (1, b"", run("--bytes", given=data).stderr))


class WrongUses(RangeTest):
    def test_parameters_without_values(self) -> None:
        """They are not zeros; the ranged one needs no value."""
        listing = self.file("two.listing", TWO)
        self.check(run("range", listing, *over(1, 1, 2)), 2, "", f"{listing}:4: p2 has no value; give it with --parameters")
        self.check(run("range", listing, *over(1, 1, 2), "--parameters", 5, "--json"), 2, "", f"{listing}:4: p2 has no value")
        self.check(run("range", listing, *over(2, 1, 2)), 2, "", f"{listing}:1: p1 has no value")
        self.check(run("range", listing, *over(3, 1, 2), "--parameters", 5), 2, "", f"{listing}:4: p2 has no value")
        self.check(run("range", "--bytes", self.sheet(TWO), *over(2, 1, 2)), 2, "", "the sheet uses p1, which has no value")
        self.check(run("range", listing, *over(1, 2049, 2050)), 2, "", "p2 has no value")
        self.check(run("range", listing, *over(1, 1, 9), "--budget", 1), 2, "", "p2 has no value")
        self.assertEqual(run("range", listing, *over(2, 1, 2), "--parameters", 1).returncode, 0)
        self.assertEqual(run("range", self.file("one.listing", ONE_LOOP), *over(1, 1, 2)).returncode, 0)

    def test_arguments(self) -> None:
        fine = over(1, 1, 2)
        for words, said in [
            ([], "the following arguments are required: --parameter, --from, --to"),
            (["--parameter", 1, "--from", 1], "required: --to"), (["--parameter", 1, "--to", 1], "required: --from"),
            (["--from", 1, "--to", 2], "required: --parameter"), (["--parameter"], "expected one argument"),
            (over("x", 1, 2), "the parameter's number is 'x'; write a whole number from 1 to 4"),
            (over("p5", 1, 2), "the parameter's number is 'p5'"), (over("P1", 1, 2), "the parameter's number is 'P1'"),
            (over("", 1, 2), "the parameter's number is ''"), (over(-1, 1, 2), "the parameter's number is '-1'"),
            (over(4294967297, 1, 2), "the parameter's number is '4294967297'"), (over("1.0", 1, 2), "number is '1.0'"),
            (over(1, 32768, 2), "the first value is '32768'; write a whole number from -32768 to 32767"),
            (over(1, -32769, 2), "the first value is '-32769'"), (over(1, 65537, 2), "the first value is '65537'"),
            (over(1, 1, 32768), "the last value is '32768'; write a whole number from -32768 to 32767"),
            (over(1, 1, "9" * 50), "the last value is '999"), (over(1, "one", 2), "the first value is 'one'"),
            (over(1, 1, "1_0"), "the last value is '1_0'"), (over(1, "", 2), "the first value is ''"),
            ([*fine, "--parameter", 2], "--parameter is given twice"), ([*fine, "--from", 1], "--from is given twice"),
            ([*fine, "--to", 1], "--to is given twice"), ([*fine, "--chart", "a", "--chart", "b"], "--chart is given twice"),
            ([*fine, "--chart"], "expected one argument"), ([*fine, "--parameters", 70000], "p1 is '70000'"),
            ([*fine, "--budget", -1], "the budget is '-1'"), ([*fine, "a", "b"], "unrecognized arguments: b"),
            ([*fine, "--output", "a"], "unrecognized arguments"), (["--par", *fine], "unrecognized arguments"),
        ]:
            with self.subTest(words):
                self.check(self.ask(ONE_LOOP, *words), 2, "", said)

    def test_mistakes_in_a_listing(self) -> None:
        self.check(self.ask("work 1\nwrk 2\n", *over(1, 1, 2)), 2, "", "standard input:2:1: write one of the words work, loop")
        self.check(self.ask(TWO + "expect 0 0 visits 0\n", *over(1, 1, 2), "--parameters", 1, 2), 2, "", "standard input:7:1: p1")


class Documents(RangeTest):
    """What is shown of a range is what the command prints."""

    WORDS = "pumdalin range dispense.listing --parameter 1 --from 1 --to 16"

    def printed(self) -> str:
        return run("range", DISPENSE, *over(1, 1, 16)).stdout.decode()

    def test_document(self) -> None:
        self.assertIn(f"    $ {self.WORDS}\n\n```\n{self.printed()}```\n", DOCUMENT.read_text())

    def test_manual(self) -> None:
        self.assertIn(f".nf\n{self.WORDS}\n{self.printed()}.fi\n", MANUAL.read_text().replace("\\-", "-"))

    def test_refusal(self) -> None:
        told = run("range", DISPENSE, *over(1, 2000, 2100)).stderr.decode().replace(str(DISPENSE), "    dispense.listing")
        self.assertIn(told, DOCUMENT.read_text())


if __name__ == "__main__":
    unittest.main()
