"""The worked scripts and the tests of vilgoued once more, where AddressSanitizer looks at all memory that the library and the module
have: what lies beside a buffer, or was freed, is neither read nor written."""
import os, subprocess, sys, unittest
from typing import Optional

from tests import top

C = os.environ.get("CC", "cc")


def sanitizer() -> Optional[str]:
    """The path of the C compiler's AddressSanitizer, or None where it has none."""
    try:
        path = subprocess.run([C, "-print-file-name=libasan.so"], stdin=subprocess.DEVNULL, capture_output=True, text=True).stdout.strip()
    except OSError:
        return None
    return path if os.path.isabs(path) and os.path.exists(path) else None


class Sanitizers(unittest.TestCase):
    def test_nothing_beside_a_buffer_is_touched(self) -> None:
        path = sanitizer()
        if path is None:
            self.skipTest("%s has no AddressSanitizer" % C)
        # What Python itself still has at its end is no leak of the library.
        environment = dict(os.environ, LD_PRELOAD=path, ASAN_OPTIONS="detect_leaks=0", PYTHONMALLOC="malloc")
        for name in "scripts", "vilgoued", "batches", "following", "mirrors", "lagging":
            with self.subTest(name):
                command = [sys.executable, "-B", "-m", "unittest", "tests.python.test_" + name]
                done = subprocess.run(command, cwd=top, env=environment, stdin=subprocess.DEVNULL, capture_output=True, text=True)
                self.assertEqual(done.returncode, 0, done.stderr[-3000:])


if __name__ == "__main__":
    unittest.main()
