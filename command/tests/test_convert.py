"""Tests of converting a sheet to loops of kind 6 alone, or of kind 2, as a user does it, and over calls that stand in.

The new sheets expected are made of the records, apart from the library.
"""

import json
import os
import pty
import re
import subprocess
import unittest
from dataclasses import replace
from pathlib import Path
from typing import Union

from pumdalin.answers import Refusal
from pumdalin.commands.convert import converted_sheet
from pumdalin.errors import CommandError
from pumdalin.library import Library
from pumdalin.listing_reader import read_listing
from pumdalin.records import (
    BODY_LENGTH, LOOP, MOST_RECORDS, SKIP_LOOP, Loop, Record, decode_before, encode_all, offsets,
)
from tests.running import COMMAND, ROOT, CommandTest, run

FORMAT = ROOT / "docs" / "FORMAT.md"
HEADER = ROOT / "include" / "pumdalin.h"
WRAPPER = ROOT / "examples" / "pumdalin.rs"
MANUAL = ROOT / "command" / "pumdalin.1"
BOUND_MANUAL = ROOT / "command" / "bound.1"
README = ROOT / "README.md"
LISTINGS = ROOT / "examples" / "listings"
DISPENSE = LISTINGS / "firmware" / "dispense.listing"

# Both kinds of loops, skips that equal the start and one that does not, and records of every other kind.
PLAIN = "work 3..5\nloop i 0..9 start 4 step 1\n  choice\n    work 2\n  or\n    loop j 0..i start 7\n    end\n  end\nend\n"
MIXED = PLAIN.replace("start 7", "start 7 skip 7")
DIFFERENT = PLAIN.replace("start 7", "start 7 skip 2")
SKIP_10 = "this loop's skip differs from its start, and a loop of kind 2 has no skip of its own"


def sheet_of(listing: str) -> bytes:
    return read_listing(listing).sheet()


def changed(sheet: bytes, with_skips: bool) -> bytes:
    """The sheet with each loop's skip as it is, or equal to the start where it has none; or without skips."""
    def new(record: Record) -> Record:
        if not isinstance(record, Loop):
            return record
        kept = record.start if record.skip is None else record.skip
        return replace(record, skip=kept if with_skips else None)
    return encode_all([new(record) for record in decode_before(sheet, len(sheet))])


class StandIn(Library):
    """In place of the library: what the text call stores, and what a converter stores or returns."""

    def __init__(self, text: str, converted: Union[bytes, int] = 0) -> None:
        super().__init__(Path("none"))
        self.text_stored = text.encode()
        self.conversion = converted
        self.asked: list[tuple[str, bytes]] = []
        self.room = 0

    def stored(self, name: str, data: bytes, length: int) -> Union[bytes, int]:
        if name == "pumdalin_text":
            return self.text_stored
        self.asked.append((name, data))
        self.room = length
        return self.conversion


FIGURES = "best 1 worst 2 visits 0\n"


class Calls(unittest.TestCase):
    def test_asked(self) -> None:
        """The call of the kind that is asked for, with the sheet, and with room for every new sheet."""
        sheet = sheet_of(PLAIN)
        for kind, name in {SKIP_LOOP: "pumdalin_with_skips", LOOP: "pumdalin_without_skips"}.items():
            library = StandIn(FIGURES, b"new")
            self.assertEqual(converted_sheet(sheet, kind, library), b"new")
            self.assertEqual(library.asked, [(name, sheet)])
            self.assertGreaterEqual(library.room, len(changed(sheet, True)))
        self.assertEqual(converted_sheet(b"", LOOP, StandIn(FIGURES, b"")), b"")

    def test_accepted_at_other_parameters(self) -> None:
        """A sheet that is refused 6 or 8 at the values which the reader is asked with is converted."""
        for number in (6, 8):
            self.assertEqual(converted_sheet(b"sheet", LOOP, StandIn(f"refused {number} at 0\n", b"new")), b"new")

    def test_reader_refusals(self) -> None:
        """They have their places from the text call; the converter is not asked then."""
        for number in range(1, 6):
            library = StandIn(f"refused {number} at 25\n", b"new")
            self.assertEqual(converted_sheet(b"sheet", SKIP_LOOP, library), Refusal(number, 25))
            self.assertEqual(library.asked, [])

    def test_refused_10(self) -> None:
        """The place is that of the first loop whose skip differs, in the sheet as it was given."""
        for listing, place in {
            "loop i 0..9 skip 1\nend\n": 0,
            "work 1\nloop i 0..9 start 5 skip 1\nend\n": 5,
            "loop i 0..9 skip 0\nloop j 0..9 skip 1\nloop k 0..9 skip 2\nend\nend\nend\n": 27,
            "loop i 0..9\nend\nloop i 0..9 skip 1\nend\n": 26,
            DIFFERENT: 5 + 25 + 1 + 5 + 1,
        }.items():
            self.check_place(sheet_of(listing), place)
        # Two of the calls that tell the readings of document 02 apart.
        skipped = "06000000000100000000000000000000010000000000000000{}03"
        self.check_place(bytes.fromhex(skipped.format("0000") + skipped.format("0100")), 28)
        self.check_place(bytes.fromhex(
            "060000fe0f02000000000000000001000900000000000000020300020000030003000000660000000000000500660000000000000606000d00"
            "01000000ff0100000000000100ff0000010000000600030303"), 0)

    def check_place(self, sheet: bytes, place: int) -> None:
        self.assertEqual(converted_sheet(sheet, LOOP, StandIn(FIGURES, 10)), Refusal(10, place))

    def test_numbers_that_no_call_returns_here(self) -> None:
        for kind, number in [(SKIP_LOOP, 10), (SKIP_LOOP, 9), (LOOP, 9), (LOOP, 1), (LOOP, 12), (SKIP_LOOP, 77)]:
            with self.assertRaisesRegex(CommandError, f"_skips returned {number}, which it never does here"):
                converted_sheet(sheet_of(DIFFERENT), kind, StandIn(FIGURES, number))

    def test_library_without_the_call(self) -> None:
        """One of another version, or none."""
        for path in ("libc.so.6", "/nowhere/libpumdalin.so"):
            with self.assertRaisesRegex(CommandError, "^pumdalin: the package's library can't be used: .*; install"):
                Library(Path(path)).converted(b"", LOOP)


class Documents(unittest.TestCase):
    """What docs/FORMAT.md draws of a converted sheet; the most records and the longest sheet, wherever they are named."""

    ROW = re.compile(r"^│ +(\d+) │ ((?:[0-9A-F]{2} )+) *│ ([^:│]+): ([^│]*?) +│$", re.MULTILINE)

    def test_drawn(self) -> None:
        section = FORMAT.read_text().split("\n## The converters\n")[1]
        drawn, area = re.findall(r"^```\n(.*?)^```$", section, re.MULTILINE | re.DOTALL)
        sheet = changed(sheet_of("loop i 0..9 start 6 step 1\nend\n"), True)
        rows = self.ROW.findall(drawn)
        self.assertEqual(bytes.fromhex("".join(data for _, data, _, _ in rows)), sheet)
        at = 0
        for offset, data, name, says in rows:
            self.assertEqual(int(offset), at)
            at += len(bytes.fromhex(data))
            if name in ("start", "step", "stride", "skip"):
                self.assertEqual(int(says), int.from_bytes(bytes.fromhex(data), "little"))
        ((_, data, name, says),) = self.ROW.findall(area)
        self.assertEqual((bytes.fromhex(data), name, says), (len(sheet).to_bytes(8, "little"), "length", str(len(sheet))))

    def test_longest_sheet(self) -> None:
        longest = MOST_RECORDS * (1 + max(BODY_LENGTH.values()))
        self.assertIn(f"PUMDALIN_SHEET_LENGTH = {longest},", HEADER.read_text())
        self.assertIn(f"SHEET_LENGTH: usize = {longest};", WRAPPER.read_text())
        self.assertIn(f"{MOST_RECORDS} × {1 + max(BODY_LENGTH.values())} = {longest:,} bytes", FORMAT.read_text())
        self.assertIn(f"`PUMDALIN_SHEET_LENGTH`, {longest:,} bytes", README.read_text())
        matter = 12 + longest + 1
        self.assertIn(f"At most {matter:,} bytes matter", FORMAT.read_text())
        self.assertIn(f"at most {matter:,} bytes in all", BOUND_MANUAL.read_text())

    def test_most_records(self) -> None:
        self.assertIn(f'"the sheet has more than {MOST_RECORDS} records"', HEADER.read_text())
        self.assertIn(f"| records | {MOST_RECORDS} |", FORMAT.read_text())
        self.assertIn(f"\nmore than {MOST_RECORDS} records\n", MANUAL.read_text())
        self.assertIn(f"A sheet has at most {MOST_RECORDS} records", README.read_text())


class Converting(CommandTest):
    def test_there_and_back(self) -> None:
        """Every listing of the repository: the new sheet's bytes; and back again those of one without skips."""
        for path in [self.file("mixed.listing", MIXED), *sorted(LISTINGS.rglob("*.listing"))]:
            with self.subTest(path.name):
                sheet = run("make", path).stdout
                with_skips = run("convert", path, "--to", "6")
                self.check_bytes(with_skips.stdout, changed(sheet, True))
                self.assertEqual((with_skips.returncode, with_skips.stderr), (0, b""))
                self.assertEqual(run("convert", "--to=6", "--bytes", given=with_skips.stdout).stdout, with_skips.stdout)
                back = run("convert", "--bytes", "--to", "2", "-", given=with_skips.stdout)
                if not any(isinstance(record, Loop) and record.skip_differs() for record in decode_before(sheet, len(sheet))):
                    self.assertEqual((back.returncode, back.stderr), (0, b""))
                    self.check_bytes(back.stdout, changed(sheet, False))
                else:
                    self.assertEqual((back.returncode, back.stdout), (1, b""))

    def check_bytes(self, made: bytes, expected: bytes) -> None:
        self.assertEqual(made.hex(" "), expected.hex(" "))

    def test_same_figures(self) -> None:
        """Figures, visits, verdicts and ceilings stay, and each reason is of the same records at their new offsets."""
        listings = {path: read_listing(path.read_text()) for path in sorted(LISTINGS.rglob("*.listing"))}
        for path, listing in listings.items():
            if listing.records:
                with self.subTest(path.name):
                    self.check_same(path, *listing.given())

    def check_same(self, path: Path, values: "tuple[int, ...]", budget: int) -> None:
        asked = ["--json", "--budget", budget, *(["--parameters", *values] if values else [])]
        new = run("print", given=run("convert", path, "--to", "6").stdout).stdout
        before, after = (json.loads(ended.stdout) for ended in (run(path, *asked), run(*asked, given=new)))
        self.assertEqual((before["answer"], before["parameters"]), (after["answer"], after["parameters"]))
        moved = dict(zip(self.places(path.read_text()), self.places(new.decode())))
        for loop, other in zip(before["loops"], after["loops"]):
            self.assertEqual((moved[loop["offset"]], loop["closed"], loop["ceiling"]),
                             (other["offset"], other["closed"], other["ceiling"]))
            reasons = [said["reason"] or {"sort": None, "offsets": []} for said in (loop, other)]
            self.assertEqual((reasons[0]["sort"], [moved[offset] for offset in reasons[0]["offsets"]]),
                             (reasons[1]["sort"], reasons[1]["offsets"]))

    def places(self, listing: str) -> "list[int]":
        return offsets(read_listing(listing).records)

    def test_output(self) -> None:
        expected = changed(sheet_of(MIXED), True)
        listing = self.file("mixed.listing", MIXED)
        for number, option in enumerate((["--output"], ["-o"])):
            target = self.folder / f"new{number}"
            self.check(run("convert", listing, "--to", "6", *option, target), 0)
            self.assertEqual(target.read_bytes(), expected)

    def test_empty(self) -> None:
        for words in (["--bytes"], []):
            self.check(run("convert", "--to", "6", *words), 0)
            self.check(run("convert", "--to", "2", *words), 0)

    def test_most_loops(self) -> None:
        """All loops that a sheet can have."""
        sheet = sheet_of("loop i 0..1 start 4095\nend\n" * 64)
        made = run("convert", "--bytes", "--to", "6", given=sheet)
        self.assertEqual((made.returncode, len(made.stdout)), (0, 64 * 28))
        self.assertEqual(run("convert", "--bytes", "--to", "2", given=made.stdout).stdout, sheet)


class Refusals(CommandTest):
    def test_of_a_listing(self) -> None:
        listing, target = self.file("valve.listing", DIFFERENT), self.file("new", b"before")
        place = f"{listing}:6: "
        said = [
            f"{place}refused 10 at 37: {SKIP_10}",
            f"{place}whoever wrote the sheet has to give the loop a skip that equals its start, if that is what the code costs "
            "without a trip, or leave the sheet as it is",
            f"{place}limit: a loop of kind 2 costs its start where it makes no trip",
            f"{place}hint: column 30: the loop's start is 7, and its skip is 2"]
        ended = run("convert", listing, "--to", "2", "--output", target)
        self.check(ended, 1, "", *said)
        self.assertEqual(ended.stderr.decode().splitlines(), said)
        self.assertEqual(target.read_bytes(), b"before")
        self.check(run("convert", listing, "--to", "2"), 1, "", *said)

    def test_of_bytes(self) -> None:
        self.check(run("convert", "--bytes", "--to", "2", given=sheet_of(DIFFERENT)), 1, "",
                   f"standard input: refused 10 at 37: {SKIP_10}", "standard input: whoever wrote the sheet has to give",
                   "standard input: limit: a loop of kind 2", "standard input: hint: the loop's start is 7, and its skip is 2")
        self.check(run("convert", "--to", "2", given=b"loop i 0..9 skip 3\nend\n"), 1, "", "standard input:1: refused 10 at 0",
                   "hint: column 18: the loop's start is 0, and its skip is 3")

    def test_reader_first(self) -> None:
        """1 to 5 come before 10, wherever they stand."""
        for further, said in {
            "work 5..3\n": "refused 3 at 67", "end\n": "refused 5 at 67", "loop i 0..1\n": "refused 5 at 92",
            "work 1\n" * 120: "refused 4 at 662",
        }.items():
            self.check(run("convert", "--to", "2", given=(DIFFERENT + further).encode()), 1, "", said, "limit: ")

    def test_damaged(self) -> None:
        """Every beginning of a sheet is refused as it is elsewhere, and nothing is written."""
        sheet = sheet_of(DIFFERENT)
        target = self.folder / "new"
        for length in (1, 4, 6, 30, 37, 38, 61, 62, 63, 64, len(sheet) - 1):
            printed = run("print", given=sheet[:length])
            ended = run("convert", "--bytes", "--to", "6", "-o", target, given=sheet[:length])
            self.assertEqual((ended.returncode, ended.stdout, ended.stderr), (1, b"", printed.stderr))
            self.assertFalse(target.exists())
        for data, number in {b"\x07": 2, b"\x06" + bytes(25): 1, b"\x06" + bytes(26): 3}.items():
            self.check(run("convert", "--bytes", "--to", "2", given=data), 1, "", f"refused {number} at 0", "limit: ")

    def test_skip_out_of_range(self) -> None:
        for skip in (4096, 65535):
            self.check(run("convert", "--to", "6", given=f"loop i 0..9 start 4095 skip {skip}\nend\n".encode()), 1, "",
                       "standard input:1: refused 3 at 0", "limit: least <= most <= 4,095; start, skip and step <= 4,095",
                       f"hint: column 29: the skip is {skip}, and is to be from 0 to 4095")

    def test_hostile_listings(self) -> None:
        for data, said in [
            (b"loop i 0..9 skip 1\x00\nend\n", "standard input:1:19: the control character 0x00 stands here"),
            (b"# all of it\rloop i 0..9 skip 1\nend\n", "standard input:1:12: the control character 0x0d"),
            (b"\xef\xbb\xbfloop i 0..9 skip 1\nend\n", "standard input:1:1: this is UTF-8 with a byte order mark"),
            (b"loop i 0..9 skip \xff\n", "standard input:1:18: the byte 0xff is not UTF-8"),
            (b"loop i 0..9 skip 0x10\nend\n", "standard input:1:19: write by or start or step"),
            (b"loop i 0..9 skip 65536\nend\n", "standard input:1:18: the skip is 65536"),
            (b"loop i 0..9 skip 1 skip 1\nend\n", "standard input:1:20: write by or start or step"),
            (b"refused 10 at 0: no sheet\n", "standard input:1:1: this is the listing of a refused sheet"),
        ]:
            self.check(run("convert", "--to", "6", given=data), 2, "", said)


class AsJson(CommandTest):
    def outcome(self, listing: str, kind: str, status: int, *words: str) -> "dict[str, object]":
        target = self.folder / "new"
        ended = run("convert", "--json", "--to", kind, "--output", target, *words, given=listing.encode())
        self.assertEqual((ended.returncode, ended.stderr), (status, b""))
        self.assertEqual(target.exists(), status == 0)
        said = json.loads(ended.stdout)
        assert isinstance(said, dict)
        return said

    def test_converted(self) -> None:
        new = changed(sheet_of(MIXED), True)
        self.assertEqual(self.outcome(MIXED, "6", 0), {"file": "standard input", "to": 6, "length": len(new), "refusal": None})
        self.assertEqual((self.folder / "new").read_bytes(), new)

    def test_refused(self) -> None:
        said = self.outcome(DIFFERENT, "2", 1)
        refusal = said.pop("refusal")
        self.assertEqual(said, {"file": "standard input", "to": 2, "length": None})
        assert isinstance(refusal, dict)
        self.assertEqual([refusal[name] for name in ("number", "place", "line", "what", "who", "hint")],
                         [10, 37, 6, SKIP_10, "whoever wrote the sheet", "column 30: the loop's start is 7, and its skip is 2"])
        refusal = self.outcome("loop i 0..9\n", "2", 1)["refusal"]
        assert isinstance(refusal, dict)
        self.assertEqual((refusal["number"], refusal["place"], refusal["line"]), (5, 25, 2))


class WrongUses(CommandTest):
    def test_arguments(self) -> None:
        target = self.folder / "new"
        for words, said in [
            ([], "the following arguments are required: --to"), (["--to"], "expected one argument"),
            (["--to", "3"], "invalid choice: '3'"), (["--to", "06"], "invalid choice: '06'"),
            (["--to", ""], "invalid choice: ''"), (["--to", "6", "--to", "2"], "--to is given twice"),
            (["--t", "6"], "required: --to"),
            (["--to", "6", "--json"], "with --json the sheet goes into a file; write --output FILE"),
            (["--to", "6", "-o", target, "--output", target], "--output is given twice"),
            (["--to", "6", "a", "b"], "unrecognized arguments: b"), (["--to", "6", "--c", "x"], "unrecognized arguments"),
            (["--to", "6", "-", "--parameters", "3"], "unrecognized arguments"),
        ]:
            with self.subTest(words):
                self.check(run("convert", *words, given=b"work 1\n"), 2, "", said)
        self.assertFalse(target.exists())

    def test_own_file(self) -> None:
        """What is read stays as it was, a listing and a sheet alike."""
        listing, sheet = self.file("own.listing", MIXED), self.file("own.sheet", sheet_of(MIXED))
        self.check(run("convert", listing, "--to", "6", "-o", listing), 2, "", f"{listing} would be overwritten")
        self.check(run("convert", "--bytes", sheet, "--to", "6", "-o", sheet), 2, "", f"{sheet} would be overwritten")
        self.assertEqual((listing.read_text(), sheet.read_bytes()), (MIXED, sheet_of(MIXED)))

    def test_no_bytes_to_a_terminal(self) -> None:
        main, terminal = pty.openpty()
        ended = subprocess.run([COMMAND, "convert", str(DISPENSE), "--to", "6"], stdout=terminal, stderr=subprocess.PIPE)
        os.close(terminal)
        os.close(main)
        self.assertEqual(ended.returncode, 2)
        self.assertIn(b"would go to the terminal", ended.stderr)

    def test_file_that_can_not_be_written(self) -> None:
        self.check(run("convert", DISPENSE, "--to", "6", "-o", "/dev/full"), 2, "", "/dev/full: can't be written: No space left")
        self.check(run("convert", DISPENSE, "--to", "6", "--json", "-o", self.folder), 2, "", "can't be written: Is a directory")

    def test_listing_taken_for_bytes(self) -> None:
        self.check(run("convert", "--bytes", DISPENSE, "--to", "6"), 1, "", "refused 2 at 0", "hint: the byte there is 35")
        self.check(run("convert", "--to", "6", given=sheet_of(MIXED)), 2, "", "standard input:1:1: the control character 0x01")


if __name__ == "__main__":
    unittest.main()
