"""The example of the package: what it prints, and the pages that quote it."""
import os, subprocess, sys, unittest

from tests import top
from tests.pages.examples import first_block, lines_of


class Example(unittest.TestCase):
    def test_it_says_what_it_is_to_say(self) -> None:
        done = subprocess.run([sys.executable, "-B", os.path.join(top, "python", "example.py")], capture_output=True, text=True)
        self.assertEqual((done.returncode, done.stdout.splitlines(), done.stderr), (0, lines_of("python/example.stdout"), ""))

    def test_pages_quote_it(self) -> None:
        for page in "docs/python.md", "README.md":
            with self.subTest(page):
                self.assertEqual(first_block(page, "python"), lines_of("python/example.py"))


if __name__ == "__main__":
    unittest.main()
