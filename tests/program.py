"""The program that is tested: the one that KVBUCKET names, or else the one that the gate or a build left in its crate."""
import os, subprocess, unittest
from typing import IO, Any, Sequence, Union

from scripts import current

path = os.path.abspath(os.environ.get("KVBUCKET") or current.path_of("kvbucket"))



def begun(*arguments: str, standard_input: int = subprocess.PIPE) -> Any:
    """The program, which runs and writes to a pipe."""
    return subprocess.Popen([path, *arguments], stdin=standard_input, stdout=subprocess.PIPE)


class RunsTest(unittest.TestCase):
    def check(self, name: str, arguments: Sequence[Union[str, bytes]], status: int, text: str = "", faults: str = "", exact: bool = True, standard_input: int = subprocess.DEVNULL,
              standard_output: Union[int, IO[bytes]] = subprocess.PIPE, **given: Any) -> None:
        """Runs the program: its status, and each text, exactly or as a part of what is written."""
        with self.subTest(name):
            done = subprocess.run([path, *arguments], stderr=subprocess.PIPE, timeout=300, stdout=standard_output,
                                  **(given or {"stdin": standard_input}))
            written, told = (done.stdout or b"").decode(), done.stderr.decode()
            seen = "status %d, %r, %r" % (done.returncode, written[:200], told[:200])
            self.assertEqual(done.returncode, status, seen)
            for found, wanted in ((written, text), (told, faults)):
                self.assertTrue(found == wanted if exact or not wanted else wanted in found, seen)
