"""Tests of asking programs: what they write, and each way in which they fail."""

import os
import select
import time
import unittest

from asking import Outcome, program_at
from stand_in import FolderCase, shell_program

# Long enough for a shell to start on a busy machine.
LIMIT = 0.5
OVERDUE = "did not return within 0.5 seconds"
LENGTHS = [4, 6, 2]


class Asking(FolderCase):
    def ask(self, script: str, data: bytes = b"", limit: float = LIMIT) -> Outcome:
        """What a shell script comes to."""
        return program_at(shell_program(self.folder, script), limit)(data, LENGTHS)

    def test_all_is_read(self) -> None:
        self.assertEqual(self.ask("cat", b"abcdefghijkl"), Outcome(b"abcdefghijkl"))
        self.assertEqual(self.ask("cat", b""), Outcome(b""))

    def test_more_than_a_pipe_holds(self) -> None:
        """Neither side waits for the other."""
        data = os.urandom(1_000_000)
        self.assertEqual(program_at("/bin/cat", LIMIT)(data, [len(data)]), Outcome(data))

    def test_unread_input(self) -> None:
        self.assertEqual(self.ask("exec printf abcd", bytes(1_000_000)), Outcome(b"abcd"))

    def test_hanging(self) -> None:
        """What was written before is there, also where it is no whole reply."""
        for script, written in [
            ("exec sleep 60", b""),
            ("printf abcdefghij; exec sleep 60", b"abcdefghij"),
            ("printf abcdefg; exec sleep 60", b"abcdefg"),
            ("printf abcd; exec >&-; exec sleep 60", b"abcd"),
        ]:
            with self.subTest(script):
                self.assertEqual(self.ask(script), Outcome(written, OVERDUE))

    def test_parts_of_a_reply_are_no_reply(self) -> None:
        """The clock goes on where bytes come, but no whole reply."""
        found = self.ask("printf abcd; while sleep 0.15; do printf e; done")
        self.assertEqual(found.failure, OVERDUE)
        self.assertLess(len(found.written), 4 + 6)

    def test_slow(self) -> None:
        """Each reply is in time, all of them together are not."""
        begun = time.monotonic()
        slow = "sleep 0.4; printf abcd; sleep 0.4; printf efghij; sleep 0.4; printf kl"
        self.assertEqual(self.ask(slow, limit=1.0), Outcome(b"abcdefghijkl"))
        self.assertGreater(time.monotonic() - begun, 1.0)

    def test_ended(self) -> None:
        fault = "was ended by signal 11, Segmentation fault"
        self.assertEqual(self.ask("printf abcd; kill -SEGV $$"), Outcome(b"abcd", fault))
        self.assertEqual(self.ask("exit 3"), Outcome(b"", "ended with exit status 3"))

    def test_too_much(self) -> None:
        """It is not read to an end that may not come."""
        found = self.ask("exec yes")
        self.assertEqual(found.failure, "")
        self.assertGreater(len(found.written), sum(LENGTHS))

    def test_nothing_is_left_running(self) -> None:
        """What a hanging program has started ends with it, and lets go of what it has open."""
        path = self.folder / "open"
        os.mkfifo(path)
        reader = os.open(path, os.O_RDONLY | os.O_NONBLOCK)
        self.addCleanup(os.close, reader)
        found = self.ask(f"(printf x; exec sleep 60) > {path} & wait")
        self.assertEqual(found.failure, OVERDUE)
        self.assertEqual(os.read(reader, 1), b"x")
        is_closed, _, _ = select.select([reader], [], [], 10)
        self.assertTrue(is_closed)
        self.assertEqual(os.read(reader, 1), b"")

    def test_out_of_reach_of_the_terminal(self) -> None:
        """Its process group is another one, so that an interrupt there is none of its own."""
        found = self.ask("read process name state parent group rest < /proc/$$/stat; printf $group")
        self.assertNotEqual(int(found.written), os.getpgrp())
        self.assertEqual(found.failure, "")

    def test_beside_and_not_installed(self) -> None:
        """A name without a folder is the file here, not what is installed."""
        folder = os.getcwd()
        self.addCleanup(os.chdir, folder)
        os.chdir(self.folder)
        os.rename(shell_program(self.folder, "printf abcd"), "true")
        self.assertEqual(program_at("true", LIMIT)(b"", LENGTHS), Outcome(b"abcd"))


if __name__ == "__main__":
    unittest.main()
