"""How the bench waits for calm moments."""
import unittest

from scripts import bench


class Waits(unittest.TestCase):
    def setUp(self) -> None:
        self.took = iter([50.0] * bench.PROBES + [90.0, 62.0, 40.0, 51.0, 50.0])
        self.machine = bench.Machine(lambda: next(self.took))

    def test_a_wait_ends_at_a_calm_moment(self) -> None:
        self.machine.wait()
        self.assertEqual((next(self.took), self.machine.begun, self.machine.disturbed), (40.0, 1, 0))

    def test_a_lower_least_is_a_stricter_one(self) -> None:
        self.machine.wait()
        self.machine.least = next(self.took)
        self.machine.wait()
        self.assertEqual((list(self.took), self.machine.disturbed), ([], 0))

    def test_a_wait_ends_when_the_time_for_all_is_over(self) -> None:
        self.machine.probe, self.machine.waited = lambda: 90.0, bench.WAITING
        self.machine.wait()
        self.assertEqual(self.machine.disturbed, 1)


if __name__ == "__main__":
    unittest.main()
