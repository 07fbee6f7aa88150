"""What the bench measures in which of its passes."""
import unittest

from scripts import bench


class Passes(unittest.TestCase):
    def test_the_first_measures_each_group_at_each_size(self) -> None:
        for by, runs in (bench.OF_BUCKET, bench.RUNS), (bench.OF_PEERS, bench.RUNS_OF_PEERS):
            self.assertEqual(sorted((it.group, it.keys) for it in bench.runs_of(0) if it.by == by),
                             sorted((group, keys) for group, sizes in runs for keys in sizes))

    def test_what_is_measured_once_is_not_measured_again(self) -> None:
        self.assertFalse(any(it.group == "delay" or it.keys > bench.MOST_KEYS for it in bench.runs_of(1)))

    def test_the_programs_take_turns(self) -> None:
        self.assertEqual({it.by for it in bench.runs_of(1)}, {bench.OF_BUCKET, bench.OF_PEERS})


if __name__ == "__main__":
    unittest.main()
