"""Each of the bench's groups is measured."""
import subprocess, unittest

from scripts import bench
from scripts.figures import Figure
from tests.bench import measured
from tests.bench.measured import BENCH, SMALLEST


class Figures(unittest.TestCase):
    def are_in_order(self, figures: list[Figure]) -> None:
        self.assertTrue(figures)
        self.assertTrue(all(it.least <= it.median <= it.most for it in figures))

    def are_of(self, figures: list[Figure], group: str) -> None:
        self.are_in_order(figures)
        self.assertEqual({(it.keys, it.group) for it in figures}, {(SMALLEST, group)})

    def test_lines_are_measured(self) -> None:
        self.assertEqual([it.what for it in measured.lines()], ["get", "put, key that is there", "put, new key"])
        self.are_in_order(measured.lines())

    def test_each_group_is_measured(self) -> None:
        for group, _ in bench.RUNS:
            with self.subTest(group):
                self.are_of(measured.of_group(group), group if group == "threads-all" else group.split("-")[0])

    def test_reads_in_pages_of_2_mib_are_measured(self) -> None:
        self.are_in_order(measured.in_large_pages())

    def test_each_group_of_rusts_own_crates_is_measured(self) -> None:
        if measured.peer() is None:
            self.skipTest("Rust's own crates can't be built")
        for group, _ in bench.RUNS_OF_PEERS:
            with self.subTest(group):
                self.are_of(measured.of_peer(group), "rust-" + group)

    def test_another_group_is_refused(self) -> None:
        done = subprocess.run([BENCH, "nothing", "1000", "1"], stdin=subprocess.DEVNULL, capture_output=True)
        self.assertEqual((done.returncode, done.stdout), (2, b""))
        self.assertTrue(done.stderr)


if __name__ == "__main__":
    unittest.main()
