"""Commands that have to succeed, and tests with a folder of their own."""
import subprocess, tempfile, unittest
from typing import Any


def ran(*command: str, **how: Any) -> str:
    """What a command prints that has to succeed; how it is run, as subprocess.run takes it."""
    done: subprocess.CompletedProcess[str] = subprocess.run(
        command, stdin=subprocess.DEVNULL, stdout=subprocess.PIPE, stderr=subprocess.STDOUT, text=True, **how)
    if done.returncode != 0:
        raise AssertionError("%s: status %d\n%s" % (" ".join(command), done.returncode, done.stdout))
    return done.stdout


class InAFolder(unittest.TestCase):
    """A test with a folder, which goes with it."""

    def setUp(self) -> None:
        room = tempfile.TemporaryDirectory()
        self.addCleanup(room.cleanup)
        self.folder = room.name
