"""Where the reader fails: input that can't be read."""
import os, unittest

from tests.program import RunsTest


class UnreadableInput(RunsTest):
    def test_input_that_can_not_be_read_is_a_read_fault(self) -> None:
        folder = os.open(".", os.O_RDONLY)
        self.addCleanup(os.close, folder)
        self.check("input that can't be read", [], 1, faults="kvbucket: ReadFault\n", standard_input=folder)
        self.check("a race over input that can't be read", ["--race", "2"], 1, faults="kvbucket: ReadFault\n", standard_input=folder)


if __name__ == "__main__":
    unittest.main()
