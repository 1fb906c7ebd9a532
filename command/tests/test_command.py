"""Tests of the command as a user runs it: answers, refusals in words, wrong uses, statuses.

The figures expected are those of the documents and of the listings, which come from the independent reckoning.
"""

import json
import os
import pty
import re
import shlex
import signal
import subprocess
import time
import unittest
from pathlib import Path

from tests.running import COMMAND, ROOT, CommandTest, run, shell

LISTINGS = ROOT / "examples" / "listings"
DISPENSE = LISTINGS / "firmware" / "dispense.listing"
WALKED = LISTINGS / "walked"
MANUAL = ROOT / "command" / "pumdalin.1"
README = ROOT / "README.md"

ANSWER = "best 1054 worst 1977 visits 4\n"
AS_EXPECTED = "line 25: as expected at parameters 16 0 0 0 budget 100: " + ANSWER
FULL = Path("/dev/full")
TRIANGLE_OVER_P1 = "loop i 1..p1\n  loop j i..p1\n    work 1\n  end\nend\n"

# A choice that holds a nest, the same put inside the innermost loop, and inside the outer one alone.
CHOICE_OF_NEST = """\
loop i 0..9
  choice
    loop j 0..3
      loop k 0..2
        work 4
      end
    end
  or
    work 7
  end
end
"""
NEST_WITH_CHOICES = """\
loop i 0..9
  loop j 0..3
    loop k 0..2
      choice
        work 4
      or
      end
    end
  end
  choice
  or
    work 7
  end
end
"""
NEST_WITH_CHOICE_HALFWAY = """\
loop i 0..9
  loop j 0..3
    choice
      loop k 0..2
        work 4
      end
    or
    end
  end
  choice
  or
    work 7
  end
end
"""
# A choice of two loops with other bounds, and the same put inside each of them.
CHOICE_OF_TWO = """\
loop i 0..9
  choice
    loop j 0..i start 2 step 3
      work 9
    end
  or
    loop j i..15 start 2 step 3
      work 4
    end
  end
end
"""
TWO_WITH_CHOICES = """\
loop i 0..9
  loop j 0..i start 2 step 3
    choice
      work 9
    or
    end
  end
  loop j i..15 start 2 step 3
    choice
    or
      work 4
    end
  end
end
"""

class Answers(CommandTest):
    def test_listing(self) -> None:
        self.check(run(DISPENSE), 0, ANSWER + "parameters 16 0 0 0 budget 100\nline 14: loop i closed ceiling 16\n"
                   "line 16: loop j closed ceiling 16\n" + AS_EXPECTED)

    def test_standard_input(self) -> None:
        data = DISPENSE.read_bytes()
        for words in ([], ["-"], ["--budget", "100"], ["-", "--parameters", "16"]):
            self.check(run(*words, given=data), 0, run(DISPENSE).stdout.decode())

    def test_parameters_and_budget(self) -> None:
        """Those given replace the listing's, which its expectations keep."""
        listing = self.file("triangle.listing", TRIANGLE_OVER_P1 + "parameters 100\nexpect 5050 5050 visits 4\n")
        expected = "line 7: as expected at parameters 100 0 0 0 budget 1000000: best 5050 worst 5050 visits 4\n"
        for words in (["--parameters", "3", listing], [listing, "--parameters=3"], ["--parameters", "+3", "--", listing],
                      [listing, "--parameters", "3", "--budget", "1000000"]):
            self.check(run(*words), 0, "best 6 worst 6 visits 4\nparameters 3 0 0 0 budget 1000000\n"
                       "line 1: loop i closed ceiling 3\nline 2: loop j closed ceiling 3\n" + expected)
        self.check(run(listing, "--budget", "3"), 1, expected,
                   "triangle.listing: refused 8 at 0: the sheet takes more visits than the budget",
                   "whoever placed the call has to give a larger budget", "limit: a budget is 1 to 1,000,000 visits")

    def test_bytes(self) -> None:
        sheet = self.sheet(TRIANGLE_OVER_P1)
        said = "best 5050 worst 5050 visits 4\nparameters 100 0 0 0 budget 1000000\nloop 0 closed ceiling 100\n" \
               "loop 25 closed ceiling 100\n"
        self.check(run("--bytes", sheet, "--parameters", "100"), 0, said)
        self.check(run("--bytes", "--parameters", "100", given=sheet.read_bytes()), 0, said)

    def test_long_sheets(self) -> None:
        """Up to 128 records; before sheets could be so long, the 65th was refused."""
        for count in (64, 65, 127, 128):
            said = f"best {count} worst {2 * count} visits 0\nparameters 0 0 0 0 budget 1000000\n"
            self.check(run(given=b"work 1..2\n" * count), 0, said)
            self.check(run("--bytes", given=b"\x01\x01\x00\x02\x00" * count), 0, said)

    def test_most_loops(self) -> None:
        """64 in a sheet of 128 records, each with its lines: half of them are walked."""
        nest = "loop i 0..1\nloop j 0..i by 2\nend\nend\n"
        said = json.loads(run("--json", given=(nest * 32).encode()).stdout)
        self.assertEqual(said["answer"], {"least": 0, "most": 0, "visits": 32 * 4})
        outer, inner = said["loops"][::2], said["loops"][1::2]
        self.assertEqual([loop["offset"] for loop in outer], [52 * number for number in range(32)])
        self.assertEqual([loop["reason"]["printed"] for loop in outer],
                         [f"loop {52 * number + 25} is uneven in loop {52 * number}" for number in range(32)])
        self.assertEqual([(loop["offset"], loop["closed"]) for loop in inner],
                         [(52 * number + 25, True) for number in range(32)])

    def test_every_listing(self) -> None:
        """Every expectation of every listing of the repository holds."""
        listings = sorted(LISTINGS.rglob("*.listing"))
        self.assertGreater(len(listings), 20)
        for path in listings:
            with self.subTest(path.name):
                said = json.loads(run(path, "--json").stdout)
                self.assertGreater(len(said["expectations"]), 0)
                self.assertTrue(all(check["holds"] for check in said["expectations"]))

    def test_expectation_that_does_not_hold(self) -> None:
        text = DISPENSE.read_text().replace("expect 1054 1977", "expect 1054 1976")
        listing = self.file("wrong.listing", text + "expect 1054 1977 visits 4\nexpect refused 6 at 5\n")
        ended = run(listing)
        self.assertEqual((ended.returncode, ended.stdout.splitlines()[0].decode() + "\n"), (1, ANSWER))
        self.assertIn(b"line 26: as expected", ended.stdout)
        asked = "at parameters 16 0 0 0 budget 100 expected"
        self.assertEqual(ended.stderr.decode().splitlines(), [
            f"{listing}:25: {asked} best 1054 worst 1976 visits 4, answered best 1054 worst 1977 visits 4",
            f"{listing}:27: {asked} refused 6 at 5, answered best 1054 worst 1977 visits 4"])

    def test_empty_sheet(self) -> None:
        """It takes no cycles, where that is expected; mostly it is what a program left that failed."""
        asked = "parameters 0 0 0 0 budget 1000000"
        self.check(run(given=b"expect 0 0 visits 0\n"), 0, f"best 0 worst 0 visits 0\n{asked}\n"
                   f"line 1: as expected at {asked}: best 0 worst 0 visits 0\n")
        for words in ([], ["--bytes"], ["--json"], ["--bytes", "--json"]):
            self.check(run(*words), 2, "", "standard input: there is no record")
        self.check(run(given=b"parameters 3\n# nothing\n"), 2, "", "standard input: there is no record")

    def test_unused_values(self) -> None:
        """A value that no bound uses is told: 1 024 are two values."""
        ended = run(DISPENSE, "--parameters", "1", "024")
        self.assertEqual(ended.returncode, 0)
        self.assertEqual(ended.stderr.decode(), f"{DISPENSE}: note: p2 has a value, and no bound uses it\n")


class Reasons(CommandTest):
    """Why loops are walked, over the listings that have each sort."""

    def shown(self, *words: object) -> list[str]:
        """The lines of the loops, without hints."""
        ended = run(*words)
        self.assertEqual((ended.returncode, ended.stderr), (0, b""))
        lines = ended.stdout.decode().splitlines()[2:]
        return [line for line in lines if not re.match("  hint: |line .* as expected ", line)]

    def test_listings(self) -> None:
        for name, said in {
            "rinse": ["line 16: loop i walked ceiling 16", "  choice 30 holds a loop: the choice of line 18",
                      "line 19: loop j closed ceiling 8", "line 25: loop j closed ceiling 8"],
            "ramp": ["line 13: loop i walked ceiling 12", "  loop 30 may fall below no trips: the loop j of line 15",
                     "line 15: loop j closed ceiling 8"],
            "purge": ["line 15: loop i walked ceiling 12", "  loop 32 may fall below no trips: the loop j of line 17",
                      "line 17: loop j closed ceiling 11"],
            "meter": ["line 12: loop i walked ceiling 10",
                      "  loop 30 is uneven in loop 0: the loop j of line 14, the loop i of line 12",
                      "line 14: loop j closed ceiling 5"],
            "drain": ["line 14: loop i walked ceiling 10",
                      "  loop 30 is uneven in loop 0: the loop j of line 16, the loop i of line 14",
                      "line 16: loop j closed ceiling 5"],
        }.items():
            self.assertEqual(self.shown(WALKED / f"{name}.listing"), said)
            hints = [line for line in run(WALKED / f"{name}.listing").stdout.decode().splitlines() if "  hint: " in line]
            self.assertEqual(len(hints), 1)
            changed = self.shown(WALKED / f"{name}-closed.listing")
            self.assertTrue(all(re.fullmatch("line .* closed ceiling .*", line) for line in changed), changed)

    def test_choice_put_inside(self) -> None:
        """Only inside each innermost loop it lets the loops around be closed; halfway the visits rise. The first is settled."""
        for before, after, visits in [
            (CHOICE_OF_NEST, NEST_WITH_CHOICES, (15, 15)),
            (CHOICE_OF_TWO, TWO_WITH_CHOICES, (30, 6)),
        ]:
            ranked, closed = self.file("before.listing", before), self.file("after.listing", after)
            self.assertEqual(self.shown(ranked)[:2],
                             ["line 1: loop i ranked ceiling 10", "  choice 25 holds a loop: the choice of line 2"])
            self.assertTrue(all(" closed " in line for line in self.shown(closed)))
            answers = [json.loads(run(path, "--json").stdout)["answer"] for path in (ranked, closed)]
            self.assertEqual(tuple(said["visits"] for said in answers), visits)
        halfway = self.file("halfway.listing", NEST_WITH_CHOICE_HALFWAY)
        self.assertEqual(self.shown(halfway)[:4:2], ["line 1: loop i walked ceiling 10", "line 2: loop j ranked ceiling 4"])
        self.assertEqual(json.loads(run(halfway, "--json").stdout)["answer"]["visits"], 50)

    def test_uneven_mended(self) -> None:
        """By the outer stride, or by a factor of the inner bounds; the inner stride 1 may make the trips too few."""
        for outer, inner, reason in [
            ("i 0..9", "j 0..i-2 by 2", "loop 25 is uneven in loop 0"),
            ("i 0..9 by 2", "j 0..i-2 by 2", None),
            ("i 0..9", "j 0..2i-2 by 2", None),
            ("i 0..9", "j 0..i-2", "loop 25 may fall below no trips"),
        ]:
            listing = self.file("uneven.listing", f"loop {outer}\nloop {inner}\nend\nend\n")
            said = json.loads(run(listing, "--json").stdout)["loops"][0]["reason"]
            self.assertEqual(said and said["printed"], reason)

    def test_nested(self) -> None:
        """Each walked loop has its own reason, also where parameters make it walked."""
        nest = self.file("nest.listing", "loop i 0..p1\nloop j 0..p1\nloop k 0..i+j by 2\nend\nend\nend\n")
        self.assertEqual(self.shown(nest, "--parameters", "9"), [
            "line 1: loop i walked ceiling 10", "  loop 50 is uneven in loop 0: the loop k of line 3, the loop i of line 1",
            "line 2: loop j walked ceiling 10", "  loop 50 is uneven in loop 25: the loop k of line 3, the loop j of line 2",
            "line 3: loop k closed ceiling 10"])
        ramp = WALKED / "ramp.listing"
        self.assertEqual(self.shown(ramp, "--parameters", "9", "8"),
                         ["line 13: loop i closed ceiling 9", "line 15: loop j closed ceiling 8"])

    def test_skip_mended(self) -> None:
        """By one trip at least, or by a skip that equals the start, where the loop may then start a stride past its end."""
        for outer, skip, reason in [
            ("i 0..9", "start 4 skip 1", "loop 25 may fall below no trips"),
            ("i 1..9", "start 4 skip 1", None),
            ("i 0..9", "start 4 skip 4", None),
            ("i 0..9", "start 4", None),
            ("i -1..9", "start 4 skip 4", "loop 25 may fall below no trips"),
        ]:
            listing = self.file("skip.listing", f"loop {outer}\nloop j 0..i-1 {skip}\nend\nend\n")
            said = json.loads(run(listing, "--json").stdout)["loops"][0]["reason"]
            self.assertEqual(said and said["printed"], reason)

    def test_bytes(self) -> None:
        sheet = self.sheet((WALKED / "meter.listing").read_text())
        self.assertEqual(self.shown("--bytes", sheet, "--parameters", "10"),
                         ["loop 0 walked ceiling 10", "  loop 30 is uneven in loop 0", "loop 30 closed ceiling 5"])

    def test_printed(self) -> None:
        sheet = self.sheet((WALKED / "rinse.listing").read_text())
        first, *_ = run("print", sheet, "--parameters", "16", "8").stdout.decode().splitlines()[1:]
        self.assertEqual(first, "loop i 0..p1-1 start 2 step 3        # 0 walked ceiling 16: choice 30 holds a loop")

    def test_json(self) -> None:
        for name, said in {
            "rinse": ("holds-loop", [30], [18], "choice 30 holds a loop"),
            "ramp": ("too-few-trips", [30], [15], "loop 30 may fall below no trips"),
            "purge": ("too-few-trips", [32], [17], "loop 32 may fall below no trips"),
            "meter": ("uneven", [30, 0], [14, 12], "loop 30 is uneven in loop 0"),
            "drain": ("uneven", [30, 0], [16, 14], "loop 30 is uneven in loop 0"),
        }.items():
            path = WALKED / f"{name}.listing"
            outer, *inner = json.loads(run(path, "--json").stdout)["loops"]
            hint = outer["reason"].pop("hint")
            self.assertEqual(outer["reason"], dict(zip(("sort", "offsets", "lines", "printed"), said)))
            self.assertIn(f"  hint: {hint}\n", run(path).stdout.decode())
            self.assertTrue(all(loop["reason"] is None for loop in inner))

    def test_expectation_that_does_not_hold(self) -> None:
        text = "loop i 1..p1\n  loop j i..p1 by 2\n  end\nend\nparameters 4\n"
        listing = self.file("wrong.listing", text + "expect loop 0 closed ceiling 4\nexpect loop 25 closed ceiling 2\n"
                            "budget 1\nexpect loop 25 closed ceiling 2\n")
        ended = run(listing)
        self.assertEqual(ended.returncode, 1)
        asked = "at parameters 4 0 0 0 budget"
        self.assertIn(f"line 7: as expected {asked} 1000000: loop 25 closed ceiling 2\n", ended.stdout.decode())
        self.assertEqual(ended.stderr.decode().splitlines(), [
            f"{listing}:6: {asked} 1000000 expected loop 0 closed ceiling 4, answered loop 0 walked ceiling 4: "
            "loop 25 is uneven in loop 0",
            f"{listing}:9: {asked} 1 expected loop 25 closed ceiling 2, answered refused 8 at 0"])
        said = json.loads(run(listing, "--json").stdout)["expectations"]
        self.assertEqual([check["holds"] for check in said], [False, True, False])
        self.assertEqual(said[0]["answered"], {"offset": 0, "class": "walked", "closed": False, "ceiling": 4,
                                               "reason": "loop 25 is uneven in loop 0"})

    def test_readme(self) -> None:
        """What the README shows of each sort, and of a skip, is what the command prints, up to the expectations."""
        section = re.split("^## ", README.read_text().split("\n## Why is a loop walked?\n")[1], flags=re.MULTILINE)[0]
        shown = re.findall(r"^    \$ dist/bin/pumdalin (\S+)$.*?^```\n(.*?)^```$", section, re.MULTILINE | re.DOTALL)
        self.assertEqual(len(shown), 4)
        for path, output in shown:
            printed = run(ROOT / path).stdout.decode()
            self.assertTrue(printed.startswith(output), printed)
            self.assertTrue(printed.removeprefix(output).startswith("line "), printed)

    def test_manual(self) -> None:
        self.assertIn("\n".join([".nf", *self.shown(WALKED / "ramp.listing")[:2], ".fi"]), MANUAL.read_text())


class AsJson(CommandTest):
    def test_answered(self) -> None:
        ended = run(DISPENSE, "--json")
        self.assertEqual((ended.returncode, ended.stderr), (0, b""))
        figures = {"least": 1054, "most": 1977, "visits": 4}
        self.assertEqual(json.loads(ended.stdout), {
            "file": str(DISPENSE), "parameters": [16, 0, 0, 0], "budget": 100, "answer": figures, "refusal": None,
            "loops": [{"line": 14, "index": "i", "offset": 5, "class": "closed", "closed": True, "ceiling": 16, "reason": None},
                      {"line": 16, "index": "j", "offset": 35, "class": "closed", "closed": True, "ceiling": 16, "reason": None}],
            "expectations": [{"line": 25, "parameters": [16, 0, 0, 0], "budget": 100, "expected": figures,
                              "answered": figures, "holds": True}]})

    def test_refused(self) -> None:
        ended = run(DISPENSE, "--json", "--parameters", "2049")
        said = json.loads(ended.stdout)
        self.assertEqual((ended.returncode, said["answer"], said["loops"]), (1, None, []))
        refusal = said["refusal"]
        self.assertEqual((refusal["number"], refusal["place"], refusal["line"]), (6, 5, 14))
        self.assertIn("2,048", refusal["limit"])
        self.assertEqual(refusal["who"], "whoever chose the parameters")
        self.assertEqual([check["holds"] for check in said["expectations"]], [True])

    def test_bytes(self) -> None:
        said = json.loads(run("--bytes", "--json", self.sheet("loop i 0..9\nwork 1\nend")).stdout)
        self.assertEqual(said["loops"], [{"offset": 0, "class": "closed", "closed": True, "ceiling": 10, "reason": None}])

    def test_figures_that_doubles_do_not_hold(self) -> None:
        """Also those of the longest body of the deepest nest, which are above 2^62."""
        loops = "".join(f"loop {name} 0..2047\n" for name in "ijkl")
        for works in (3, 120):
            ended = run("--json", given=(loops + "work 4095\n" * works + "end\n" * 4).encode())
            self.assertEqual(json.loads(ended.stdout)["answer"]["most"], works * 4095 * 2048 ** 4)
            self.assertIn(b"keeps numbers as doubles", ended.stderr)


class Refusals(CommandTest):
    def check_listing(self, text: str, *errors: str) -> None:
        self.check(run("-", given=text.encode()), 1, "", *errors)

    def test_of_listings(self) -> None:
        self.check_listing("work 1\nwork 5000\n", "standard input:2: refused 3 at 5: a field of this record",
                           "whoever wrote the sheet has to change the field", "limit: least <= most <= 4,095",
                           "hint: column 6: the least is 5000")
        self.check_listing("work 1\n" * 129, ":129: refused 4 at 640: the sheet has more than 128 records", "split the sheet",
                           "limit: a sheet has at most 128 records")
        self.check_listing("\n\nend\n", ":3: refused 5 at 0: this record may not stand here", "change the nesting", "limit: ",
                           "hint: nothing is open that this could end")
        self.check_listing("choice\nloop i 0..9\nwork 1\nend\n", ":5: refused 5 at 32: a loop or a choice is still open",
                           "add the missing end", "hint: nothing ends what line 1 opens")
        self.check_listing("loop i 0..1\nloop j 0..2047+i\nend\nend\n", ":2: refused 6 at 25: this loop may make more than 2,048",
                           "whoever chose the parameters has to", "limit: a loop's ceiling is at most 2,048")
        self.check_listing("budget 0\nwork 1\n", "standard input: refused 7 at 0: the budget is out of its range",
                           "whoever placed the call has to")

    def test_of_bytes(self) -> None:
        for data, errors in {
            b"\x01\x03\x00": ("refused 1 at 0: the sheet ends inside", "missing bytes", "hint: the bytes there are 01 03 00"),
            b"\x04\x03\x09": ("refused 2 at 2: no kind", "limit: kinds are 1 to 6", "hint: the byte there is 9"),
            b"\x01\x05\x00\x03\x00": ("refused 3 at 0: a field", "hint: the record there is 'work 5..3'"),
            b"\x04\x03" * 64 + b"\x03": ("refused 4 at 128: the sheet has more than 128",),
            b"\x05": ("refused 5 at 0: this record", "hint: the record there is 'or'"),
            b"\x04": ("refused 5 at 1: a loop or a choice is still open",),
        }.items():
            self.check(run("--bytes", given=data), 1, "", *errors)

    def test_text_taken_for_bytes(self) -> None:
        self.check(run("--bytes", DISPENSE), 1, "", "refused 2 at 0", "hint: the byte there is 35")

    def test_expected_refusal(self) -> None:
        """A refusal that is expected holds as expected, and the answer is a refusal all the same."""
        self.check(run(LISTINGS / "known" / "11-ceiling-too-large.listing"), 1, "line 6: as expected at parameters 0 0 0 0 budget 100: refused 6 at 0\n",
                   "listing:3: refused 6 at 0")


class WrongUses(CommandTest):
    def test_parameters_without_values(self) -> None:
        """They are not zeros."""
        listing = self.file("triangle.listing", TRIANGLE_OVER_P1)
        self.check(run(listing), 2, "", f"{listing}:1: p1 has no value; give it with --parameters")
        self.check(run(listing, "--json"), 2, "", "p1 has no value")
        self.check(run("make", "--input", listing), 2, "", "p1 has no value")
        second = self.file("second.listing", "parameters 5\nloop i p1..9\nloop j 0..p2\nend\nend\n")
        self.check(run(second), 2, "", f"{second}:3: p2 has no value")
        self.check(run(second, "--parameters", "1"), 2, "", "p2 has no value")
        self.assertEqual(run(second, "--parameters", "1", "2").returncode, 0)
        expecting = self.file("expecting.listing", TRIANGLE_OVER_P1 + "expect 0 0 visits 0\n")
        self.check(run(expecting, "--parameters", "0"), 2, "", f"{expecting}:6:1: p1, which line 1 uses, has no value here")
        self.check(run("--bytes", self.sheet(TRIANGLE_OVER_P1)), 2, "", "the sheet uses p1, which has no value")
        for bounds in ("-p1..0", "0..-p1", "p4..2p4-3", "1..p1-p3"):
            self.check(run(given=f"loop i {bounds}\nwork 1\nend\n".encode()), 2, "", "has no value")

    def test_parameters_outside_16_bits(self) -> None:
        """They are not cut."""
        listing = self.file("triangle.listing", TRIANGLE_OVER_P1)
        for value in ("65536", "32768", "-32769", "4294967296", "99999999999999999999999999999999999999999999"):
            self.check(run(listing, "--parameters", value), 2, "", f"p1 is '{value}'; write a whole number from -32768 to 32767")
        self.check(run(listing, "--parameters", "1", "2", "70000"), 2, "", "p3 is '70000'")
        self.check(run(given=b"parameters 65536\n"), 2, "", "standard input:1:12: p1 is 65536")

    def test_arguments(self) -> None:
        for words, said in [
            (["--parameters"], "write one to 4 whole numbers"), (["--parameters", "x"], "write one to 4 whole numbers"),
            (["--parameters", "1", "2", "3", "4", "5"], "write one to 4 whole numbers"),
            (["--parameters", "1.5"], "p1 is '1.5'"), (["--parameters=1_0"], "p1 is '1_0'"),
            (["--parameters", "1,024"], "p1 is '1,024'"), (["--parameters=1,2"], "p1 is '1,2'"),
            (["--parameters", "16", "0x10"], "p2 is '0x10'"), (["--parameters", "1e3"], "p1 is '1e3'"),
            (["--parameters", "\N{ARABIC-INDIC DIGIT THREE}"], "write one to 4 whole"),
            (["--parameters", "64", "--parameters", "3"], "--parameters is given twice"),
            (["--budget", "3", "--budget=4"], "--budget is given twice"),
            (["--budget", "-1"], "the budget is '-1'"), (["--budget", "4294967296"], "the budget is '4294967296'"),
            (["--budget", "ten"], "the budget is 'ten'"), (["--budget"], "expected one argument"),
            (["a", "b"], "unrecognized arguments: b"), (["--param", "1"], "unrecognized arguments"),
            (["--jsn"], "unrecognized arguments"), (["print", "--json"], "unrecognized arguments"),
            (["make", "--c", "2x"], "'2x' is no name"), (["make", "--c", "while"], "'while' is no name"),
            (["make", "--c", ""], "'' is no name"), (["make", "--c", "x", "--input"], "not allowed with"),
            (["make", "--c", "_Bool"], "'_Bool' is no name"), (["make", "--c", "class"], "'class' is no name"),
            (["make", "--c", "a__b"], "'a__b' is no name"), (["make", "--c", "x", "--c", "y"], "--c is given twice"),
            (["print", "--input", "--parameters", "1"], "leave out --parameters"),
        ]:
            with self.subTest(words):
                self.check(run(*words, given=b"work 1\n"), 2, "", said)

    def test_files(self) -> None:
        for words in ([], ["--bytes"], ["print"], ["make"], ["convert", "--to", "6"], ["convert", "--to", "2", "--bytes"],
                      ["range", "--parameter", "1", "--from", "1", "--to", "2"]):
            self.check(run(*words, self.folder / "none"), 2, "", "none: can't be read: No such file or directory")
            self.check(run(*words, self.folder), 2, "", "can't be read: Is a directory")
        self.check(run("/dev/zero"), 2, "", "/dev/zero: has more than 16,777,216 bytes; give a listing")
        self.check(run("print", "--input", given=bytes(11)), 2, "", "take 12 bytes, and there are 11")
        ended = shell("<&-")
        self.assertEqual((ended.returncode, ended.stdout), (2, b""))
        self.assertIn(b"standard input: can't be read", ended.stderr)

    def test_other_encodings(self) -> None:
        for data, said in [
            ("work 1\n".encode("utf-8-sig"), "standard input:1:1: this is UTF-8 with a byte order mark"),
            ("work 1\n".encode("utf-16"), "standard input:1:1: this is UTF-16"),
            ("work 1\n# für\n".encode("latin-1"), "standard input:2:4: the byte 0xfc is not UTF-8"),
            (b"# all of it\rwork 5\r", "standard input:1:12: the control character 0x0d stands here"),
            (bytes(16), "standard input:1:1: the control character 0x00 stands here"),
        ]:
            self.check(run(given=data), 2, "", said)
            self.check(run("make", given=data), 2, "", said)

    def test_mistakes_in_a_listing(self) -> None:
        self.check(run(given=b"work 1\nwrk 2\n"), 2, "", "standard input:2:1: write one of the words work, loop")
        self.check(run("make", given=b"work 70000\n"), 2, "", "standard input:1:6: the work is 70000; write a number from 0 to")

    def test_output_that_can_not_be_written(self) -> None:
        for words in ([DISPENSE], [DISPENSE, "--json"], ["make", DISPENSE], ["make", DISPENSE, "--c", "x"], ["--help"],
                      ["--version"], ["make", "--help"], ["print", self.sheet("work 1")],
                      ["convert", DISPENSE, "--to", "6"], ["range", DISPENSE, "--parameter", "1", "--from", "1", "--to", "2"]):
            with self.subTest(words), open(FULL, "wb") as full:
                ended = subprocess.run([COMMAND, *map(str, words)], stdout=full, stderr=subprocess.PIPE)
                self.assertEqual(ended.returncode, 2)
                self.assertEqual(ended.stderr.decode(), "pumdalin: the output can't be written: No space left on device\n")
        self.check(run("make", DISPENSE, "--output", FULL), 2, "", "/dev/full: can't be written: No space left on device")
        self.check(run("make", DISPENSE, "--output", self.folder), 2, "", "can't be written: Is a directory")
        ended = shell(">&-", DISPENSE)
        self.assertEqual(ended.returncode, 2)
        self.assertIn(b"the output can't be written: Bad file descriptor", ended.stderr)

    def test_closed_standard_error(self) -> None:
        """The status tells all the same, and nothing goes to the standard output instead."""
        for words, status in [([DISPENSE, "--budget", "0"], 1), ([self.folder / "none"], 2), (["--parameters", "x"], 2)]:
            self.assertEqual(shell("2>&-", *words).returncode, status)
        self.assertEqual(shell("2>&-", self.folder / "none").stdout, b"")
        self.assertEqual(shell(">&- 2>&-", "--help").returncode, 2)

    def test_interrupt(self) -> None:
        """While it waits for its input."""
        waiting = subprocess.Popen([COMMAND], stdin=subprocess.PIPE, stdout=subprocess.PIPE, stderr=subprocess.PIPE)
        time.sleep(1)
        waiting.send_signal(signal.SIGINT)
        output, said = waiting.communicate(timeout=60)
        self.assertEqual((waiting.returncode, output, said), (130, b"", b""))

    def test_package_without_its_library(self) -> None:
        moved = self.folder / "moved"
        (moved / "bin").mkdir(parents=True)
        (moved / "bin" / "pumdalin").write_bytes(Path(COMMAND).read_bytes())
        (moved / "bin" / "pumdalin").chmod(0o755)
        (moved / "share").mkdir()
        (moved / "share" / "pumdalin").symlink_to(Path(COMMAND).resolve().parent.parent / "share" / "pumdalin")
        command = [str(moved / "bin" / "pumdalin")]
        ended = subprocess.run([*command, str(DISPENSE)], capture_output=True)
        self.check(ended, 2, "", "pumdalin: the package's library can't be used", "install the package anew")
        self.assertEqual(subprocess.run([*command, "--help"], capture_output=True).returncode, 0)


    def test_other_modules_on_the_path(self) -> None:
        """Neither the environment nor the working folder gives the command other modules than its own."""
        for name in ("json", "pumdalin", "argparse"):
            self.file(f"{name}.py", "raise SystemExit('another module')\n")
        ended = subprocess.run([COMMAND, str(DISPENSE)], capture_output=True, cwd=self.folder,
                               env={**os.environ, "PYTHONPATH": str(self.folder), "PYTHONHOME": "/nowhere"})
        self.assertEqual((ended.returncode, ended.stdout), (0, run(DISPENSE).stdout), ended.stderr)


class MakingAndPrinting(CommandTest):
    def test_undo_each_other(self) -> None:
        for path in sorted(LISTINGS.rglob("*.listing")):
            sheet = run("make", path).stdout
            printed = run("print", given=sheet)
            self.assertEqual((printed.returncode, printed.stderr), (0, b""))
            self.assertEqual(run("make", "-", given=printed.stdout).stdout, sheet)
            read = run("make", "--input", path)
            again = run("make", "--input", given=run("print", "--input", given=read.stdout).stdout)
            self.assertEqual(again.stdout, read.stdout)

    def test_printed(self) -> None:
        sheet = self.sheet(TRIANGLE_OVER_P1)
        plain = "loop i 1..p1    # 0\n  loop j i..p1  # 25\n    work 1      # 50\n  end           # 55\nend             # 56\n"
        self.check(run("print", sheet), 0, plain)
        self.check(run("print", sheet, "--parameters", "9"), 0, "parameters 9\n" + plain
                   .replace("# 0\n", "# 0 closed ceiling 9\n").replace("# 25\n", "# 25 closed ceiling 9\n"))
        self.check(run("print", sheet, "--parameters", "3000"), 0, "# refused 6 at 0: this loop may make more than 2,048 "
                   "trips at one entry\nparameters 3000\n" + plain)

    def test_printed_refused(self) -> None:
        self.check(run("print", given=b"\x04\x03\x09"), 1, "choice  # 0\nend     # 1\n"
                   "refused 2 at 2: no kind of record has this number\n", "refused 2 at 2", "hint: the byte there is 9")

    def test_made_refused(self) -> None:
        """Nothing is made of a sheet that the reader refuses."""
        target = self.folder / "made"
        self.check(run("make", "--output", target, given=b"loop i 0..9\n"), 1, "", "refused 5 at 25", "add the missing end")
        self.assertFalse(target.exists())
        self.check(run("make", given=b"work 5..3\n"), 1, "", "standard input:1: refused 3 at 0")
        self.assertEqual(run("make", given=b"loop i 0..2048\nend\n").returncode, 0)

    def test_output(self) -> None:
        target = self.folder / "made"
        self.check(run("make", DISPENSE, "--output", target), 0)
        self.assertEqual(target.read_bytes(), run("make", DISPENSE).stdout)

    def test_output_that_fails(self) -> None:
        """What stood in the file stays, and no part of the sheet is left beside it."""
        folder = self.folder / "closed"
        folder.mkdir()
        (folder / "made").write_bytes(b"before")
        limited = f"ulimit -f 0; {shlex.join([COMMAND, 'make', str(DISPENSE), '--output', str(folder / 'made')])}"
        ended = subprocess.run(["bash", "-c", limited], capture_output=True)
        self.assertNotEqual(ended.returncode, 0)
        self.assertEqual((folder / "made").read_bytes(), b"before")
        listing = self.file("own.listing", "work 1\n")
        self.check(run("make", listing, "--output", listing), 2, "", f"{listing} would be overwritten; name another file")
        self.assertEqual(listing.read_text(), "work 1\n")

    def test_no_bytes_to_a_terminal(self) -> None:
        main, terminal = pty.openpty()
        ended = subprocess.run([COMMAND, "make", str(DISPENSE)], stdout=terminal, stderr=subprocess.PIPE)
        os.close(terminal)
        os.close(main)
        self.assertEqual(ended.returncode, 2)
        self.assertIn(b"would go to the terminal", ended.stderr)

    def test_c_array(self) -> None:
        for listing in (DISPENSE.read_text(), "# no record\n"):
            source = self.file("sheet.listing", listing)
            made = run("make", source, "--c", "valve_sheet")
            self.assertEqual((made.returncode, made.stderr), (0, b""))
            self.file("valve.h", made.stdout)
            program = '#include <stdio.h>\n#include "valve.h"\n' \
                      "int main(void) { return fwrite(valve_sheet, 1, valve_sheet_length, stdout) != valve_sheet_length; }\n"
            self.file("write.c", program)
            built = self.folder / "write"
            subprocess.run(["cc", "-std=c99", "-Wall", "-Wextra", "-Wpedantic", "-Werror", str(self.folder / "write.c"),
                            "-o", str(built)], check=True)
            written = subprocess.run([str(built)], capture_output=True, check=True).stdout
            self.assertEqual(written, run("make", source).stdout)


class Help(CommandTest):
    def test_version(self) -> None:
        self.check(run("--version"), 0, f"pumdalin {(ROOT / 'VERSION').read_text().strip()}\n")

    def test_manual_has_every_option(self) -> None:
        manual = re.sub(r"\\f[BIR]", " ", MANUAL.read_text().replace("\\-", "-"))
        for words in ([], ["range"], ["print"], ["make"], ["convert"]):
            help_text = run(*words, "--help").stdout.decode()
            options = set(re.findall(r"(?<![-\w])--?[a-z]+", help_text))
            self.assertLessEqual({"--help", "-h"}, options)
            for option in options:
                self.assertRegex(manual, rf"(?<![-\w]){option}(?![-\w])")


if __name__ == "__main__":
    unittest.main()
