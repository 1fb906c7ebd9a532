"""Running the command as a user does, for the tests that do.

The command is that of dist/, or the one that the environment variable PUMDALIN names.
"""

import os
import shlex
import subprocess
import tempfile
import unittest
from pathlib import Path

ROOT = Path(__file__).resolve().parent.parent.parent
COMMAND = os.environ.get("PUMDALIN", str(ROOT / "dist" / "bin" / "pumdalin"))

Ended = subprocess.CompletedProcess


def run(*words: object, given: bytes = b"") -> "Ended[bytes]":
    return subprocess.run([COMMAND, *map(str, words)], input=given, capture_output=True, timeout=60)


def shell(redirection: str, *words: object) -> "Ended[bytes]":
    """The command with one of its three files closed."""
    command = shlex.join([COMMAND, *map(str, words)])
    return subprocess.run(f"{command} {redirection}", shell=True, capture_output=True, timeout=60)


class CommandTest(unittest.TestCase):
    def setUp(self) -> None:
        self.assertTrue(os.access(COMMAND, os.X_OK), f"{COMMAND} is not there; run make dist first")
        folder = tempfile.TemporaryDirectory()
        self.addCleanup(folder.cleanup)
        self.folder = Path(folder.name)

    def file(self, name: str, data: "str | bytes") -> Path:
        path = self.folder / name
        path.write_bytes(data if isinstance(data, bytes) else data.encode())
        return path

    def sheet(self, listing: str) -> Path:
        return self.file("made.sheet", run("make", self.file("made.listing", listing)).stdout)

    def check(self, ended: "Ended[bytes]", status: int, output: str = "", *errors: str) -> None:
        """The status, the whole output, and lines of the standard error, in order."""
        said = ended.stderr.decode()
        self.assertEqual((ended.returncode, ended.stdout.decode()), (status, output), said)
        self.assertNotIn("Traceback", said)
        at = 0
        for words in errors:
            self.assertIn(words, said[at:])
            at = said.index(words, at) + len(words)
        self.assertEqual(bool(said), bool(errors), said)
