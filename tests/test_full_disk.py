"""Where the writer fails: a full disk, and a closed pipe."""
import os, unittest

from tests.program import RunsTest


class FullDisk(RunsTest):
    def test_a_full_disk_is_a_write_fault(self) -> None:
        with open("/dev/full", "wb") as full:
            self.check("help to a full disk", ["--help"], 1, faults="kvbucket: WriteFault\n", standard_output=full)
            self.check("a full disk", [], 1, faults="kvbucket: WriteFault\n", standard_output=full, input=b"put a -\n")
            self.check("a race to a full disk", ["--race", "2"], 1, faults="kvbucket: WriteFault\n", standard_output=full, input=b"put a -\n")

    def test_a_closed_pipe_is_a_write_fault(self) -> None:
        reading, writing = os.pipe()
        os.close(reading)
        self.addCleanup(os.close, writing)
        self.check("a closed pipe", [], 1, faults="kvbucket: WriteFault\n", standard_output=writing, input=b"put a -\n")


if __name__ == "__main__":
    unittest.main()
