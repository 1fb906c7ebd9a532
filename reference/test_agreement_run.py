"""Tests of a whole run of the comparison: what it prints, its exit status, its interruption."""

import contextlib
import io
import os
import signal
import subprocess
import sys
import time
import unittest
from itertools import islice
from pathlib import Path

from agreement import BATCH, arguments
from agreement_cases import kept_trials, random_trials
from stand_in import FolderCase, shell_program

HERE = Path(__file__).resolve().parent
PROGRAM = [sys.executable, str(HERE / "agreement.py")]
SEED = 5


class Run(FolderCase):
    """The program as it is run."""

    def write(self, name: str, contents: bytes) -> str:
        path = self.folder / name
        path.parent.mkdir(exist_ok=True)
        path.write_bytes(contents)
        return str(path)

    def run_with(self, *words: str) -> "subprocess.CompletedProcess[str]":
        return subprocess.run([*PROGRAM, *words], capture_output=True, text=True)

    def reckoning_library(self) -> str:
        """A library's program that is right."""
        script = ("import sys; from stand_in import replies_to; "
                  "sys.stdout.buffer.write(replies_to(sys.stdin.buffer.read()))")
        return shell_program(self.folder, f"cd '{HERE}'; exec '{sys.executable}' -c '{script}'")

    def test_agrees(self) -> None:
        """Two batches of random cases; the seed comes first, and there is no line for a batch, save now and then."""
        run = self.run_with(self.reckoning_library(), "--cases", "150", "--seed", str(SEED))
        self.assertEqual(run.returncode, 0, run.stderr)
        kept = len(kept_trials())
        self.assertEqual(run.stdout.splitlines(), [
            f"seed {SEED}: repeat with SEED={SEED}",
            "compared with the reckoning: the static library alone",
            f"{kept} kept cases: all agree",
            f"150 random cases of seed {SEED}: all agree"])
        ended = "".join(line for line in run.stderr.splitlines(keepends=True) if not line.endswith(" left\n"))
        self.assertRegex(ended, rf"\A{kept} of {kept} kept cases, [0-9.]+ per second, in .*\n"
                                r"150 of 150 random cases, [0-9.]+ per second, in .*\n\Z")

    def test_differs(self) -> None:
        """A seed that is drawn is named before anything can go wrong."""
        run = subprocess.run([*PROGRAM, "/bin/false"], text=True,
                             stdout=subprocess.PIPE, stderr=subprocess.STDOUT)
        self.assertEqual(run.returncode, 1)
        self.assertRegex(run.stdout, r"\Aseed ([0-9]+): repeat with SEED=\1\n")
        self.assertTrue(run.stdout.endswith("\nlibrary:  ended with exit status 1\n"), run.stdout)

    def test_bound_differs(self) -> None:
        self.write("listings/one.listing", b"work 1\nexpect 1 1 visits 0\n")
        run = self.run_with(self.reckoning_library(), "--program", "/bin/false",
                            "--listings", str(self.folder / "listings"))
        self.assertEqual(run.returncode, 1)
        self.assertIn("one.listing:2, 17 bytes of input\nparameters 0 0 0 0\n", run.stderr)
        self.assertIn("\nbound:    ended with exit status 1, after printing b''\n", run.stderr)

    def test_no_program_after_all(self) -> None:
        """Executable, but nothing that the machine can run."""
        path = self.write("text", b"\x7fELF")
        os.chmod(path, 0o755)
        run = self.run_with(path)
        self.assertEqual(run.returncode, 2)
        self.assertIn("Exec format error", run.stderr)
        self.assertNotIn("Traceback", run.stderr)

    def refused(self, *words: str) -> str:
        """The message with which the arguments are refused; nothing is printed but that."""
        printed, message = io.StringIO(), io.StringIO()
        with contextlib.redirect_stdout(printed), contextlib.redirect_stderr(message):
            with self.assertRaises(SystemExit) as ended:
                arguments(words)
        self.assertEqual((ended.exception.code, printed.getvalue()), (2, ""))
        return message.getvalue()

    def test_refused_arguments(self) -> None:
        folder = str(self.folder)
        plain = self.write("plain", b"")
        self.write("wrong/one.listing", b"work 1\nwork x\n")
        self.write("binary/one.listing", b"\xff")
        for words, message in [
            ((), "required: library"),
            (("nowhere/answers",), "there is no program 'nowhere/answers'; build it"),
            ((folder,), f"there is no program '{folder}'; build it"),
            ((plain,), f"'{plain}' may not be run; make it executable"),
            (("/bin/true", "--program", plain), f"'{plain}' may not be run; make it executable"),
            (("/bin/true", "--listings", plain), f"there is no folder '{plain}'; name one"),
            (("/bin/true", "--listings", ""), "there is no folder ''; name one"),
            (("/bin/true", "--listings", f"{folder}/wrong"), "one.listing:2:6: write the work"),
            (("/bin/true", "--listings", f"{folder}/binary"), "one.listing:1:1: the byte 0xff is not UTF-8"),
            (("/bin/true", "--cases", "-1"), "write a whole number, 0 or more; this is '-1'"),
            (("/bin/true", "--cases", "many"), "write a whole number, 0 or more; this is 'many'"),
            (("/bin/true", "--seed", "-1"), "write a whole number, 0 or more; this is '-1'"),
        ]:
            self.assertIn(message, self.refused(*words))
        (self.folder / "empty").mkdir()
        self.assertIn("has no file *.listing", self.refused(
            "/bin/true", "--listings", f"{folder}/empty"))

    def test_refused_run(self) -> None:
        """Nothing is asked, and the exit status tells."""
        asked = self.folder / "asked"
        library = shell_program(self.folder, f"echo > {asked}")
        run = self.run_with(library, "--listings", str(self.folder / "missing"))
        self.assertEqual((run.returncode, run.stdout, asked.exists()), (2, "", False))


class Interrupt(FolderCase):
    """A library that hangs in the second batch of random cases, and a signal meanwhile."""

    def hanging_library(self) -> str:
        """It knows the replies up to there; then it notes its process and sleeps."""
        kept = kept_trials()
        batches = [kept[at:at + BATCH] for at in range(0, len(kept), BATCH)]
        batches.append(list(islice(random_trials(SEED), BATCH)))
        for number, batch in enumerate(batches):
            replies = b"".join(call.reply() for trial in batch for call in trial.calls)
            (self.folder / f"replies{number}").write_bytes(replies)
        return shell_program(self.folder, f"""cd {self.folder}
            for number in {' '.join(str(number) for number in range(len(batches)))}; do
                if [ -e replies$number ]; then cat replies$number; exec rm replies$number; fi
            done
            echo $$ > process
            exec sleep 60""")

    def sleeping_process(self) -> int:
        """The library's process, as soon as it has noted it."""
        path = self.folder / "process"
        end = time.monotonic() + 30
        while not (path.exists() and path.read_text()):
            self.assertLess(time.monotonic(), end, "the library never came to hang")
            time.sleep(0.01)
        return int(path.read_text())

    def check_ended_by(self, number: int, status: int) -> None:
        """The signal goes to the whole process group, as one from the terminal does."""
        words = [self.hanging_library(), "--cases", "150", "--seed", str(SEED)]
        run = subprocess.Popen([*PROGRAM, *words], text=True, start_new_session=True,
                               stdout=subprocess.PIPE, stderr=subprocess.PIPE)
        self.addCleanup(run.kill)
        process = self.sleeping_process()
        os.killpg(run.pid, number)
        printed, message = run.communicate(timeout=30)
        self.assertEqual(run.returncode, status, message)
        self.assertEqual(message.splitlines()[-1],
                         "interrupted after 100 of 150 random cases, which all agree; "
                         f"seed {SEED}: repeat with SEED={SEED}")
        self.assertNotIn("differs", printed + message)
        self.assertNotIn("Traceback", message)
        self.assertRaises(ProcessLookupError, os.kill, process, 0)

    def test_interrupt(self) -> None:
        self.check_ended_by(signal.SIGINT, 130)

    def test_request_to_end(self) -> None:
        self.check_ended_by(signal.SIGTERM, 143)


if __name__ == "__main__":
    unittest.main()
