"""The calls of the system that a file of kv_file makes, by a test of kv_durable_tests, which is run here with its calls listed. No
clause says which they are, as nothing is proved of a disk. It needs that crate's proved test program, as `rt ci` or `rt test` leaves it."""
import os, tempfile, unittest

from scripts import top
from tests.files import failing

TESTS = os.path.join(top, "crates", "kv_durable_tests", "out", "kv_durable_tests_tests")


class Replaced(unittest.TestCase):
    @unittest.skipUnless(os.path.exists(TESTS), "there is no program %s: run rt test in its crate" % os.path.relpath(TESTS, top))
    def test_a_new_file_is_on_the_disk_before_it_has_the_name(self) -> None:
        with tempfile.TemporaryDirectory() as room, tempfile.TemporaryDirectory() as folder:
            calls = failing.calls_of(failing.library(room), folder, [TESTS, "system::a_file_of_the_system_is_replaced"])
        # it is written and synced, renamed, and the folder that has the name is opened and synced
        self.assertIn("wsnos", calls)
        self.assertNotRegex(calls, "[^s]n|n[^o]|no[^s]")


if __name__ == "__main__":
    unittest.main()
