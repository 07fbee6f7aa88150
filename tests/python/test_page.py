"""docs/python.md: each of its examples is run, and prints what stands in the block behind it. Those on a NATS server are run where
VILGOUED_SERVER is the URL of one, and the others where it is not."""
import os
import subprocess
import sys
import unittest

from tests import top
from tests.pages.examples import blocks

server = os.environ.get("VILGOUED_SERVER")
PAGE, URL = "docs/python.md", "nats://127.0.0.1:4222"
EXAMPLES = list(zip(blocks(PAGE, "python"), blocks(PAGE, "answers")))
# Stands before each: in the mode that looks for faults asyncio tells of each step that took a tenth of a second, as one may that waits
# for a processor.
QUIET = 'import logging; logging.getLogger("asyncio").addFilter(lambda told: not told.getMessage().startswith("Executing "))\n'


class Page(unittest.TestCase):
    def test_each_example_has_its_answers(self) -> None:
        self.assertEqual(len(blocks(PAGE, "python")), len(blocks(PAGE, "answers")))

    def test_each_example_prints_what_it_says(self) -> None:
        for lines, answers in EXAMPLES:
            if any(URL in line for line in lines) == bool(server):
                with self.subTest(lines[0] + ", " + lines[-1].strip()):
                    program = QUIET + "\n".join(lines).replace(URL, server or URL)
                    done = subprocess.run([sys.executable, "-B", "-X", "dev", "-c", program], cwd=os.path.join(top, "python"), timeout=300,
                                          stdin=subprocess.DEVNULL, capture_output=True, text=True)
                    self.assertEqual((done.stdout.splitlines(), done.stderr), (answers, ""))


if __name__ == "__main__":
    unittest.main()
