"""How the bench puts figures into words."""
import unittest

from scripts import bench, layers
from scripts.figures import Figure, in_words, parsed

ONE = Figure("memory", "a key", "", 0, 10, 3.0, 3.0, 3.0, "bytes")


class Words(unittest.TestCase):
    def test_a_line_is_a_figure(self) -> None:
        self.assertEqual(parsed("feeds\titems\tone\t8\t10\t15\t10\t20\ta second", tenths=True), Figure("feeds", "items", "one", 8, 10, 1.5, 1.0, 2.0, "a second"))

    def test_a_value_has_three_figures_and_its_unit(self) -> None:
        for value, unit, wanted in ((0.5, "ns", "0.50 ns"), (15, "ns", "15.0 ns"), (1500, "ns", "1.50 µs"), (2.5e8, "ns", "250 ms"),
                                    (1.2e6, "a second", "1.20 M"), (7, "a second", "7.00"), (414.2, "bytes", "414 B")):
            with self.subTest(value=value, unit=unit):
                self.assertEqual(in_words(value, unit), wanted)

    def test_fewer_keys_are_told(self) -> None:
        self.assertTrue(bench.cell(ONE._replace(keys=950_000)).endswith(", of 950,000 keys"))
        self.assertTrue(bench.cell(ONE._replace(keys=1_000)).endswith(")"))

    def test_three_figures_are_one(self) -> None:
        one = bench.merged([ONE, ONE._replace(median=5.0, most=7.0), ONE._replace(median=4.0, least=2.0)])
        self.assertEqual((one.median, one.least, one.most), (4.0, 2.0, 7.0))

    def test_what_a_package_adds_above_its_bound_is_told(self) -> None:
        rows = [("Rust", "put", 500, 600, 100), ("Rust", "get of a reader", 90, 191, 101), ("Go", "put", 500, 700, 200), ("Go", "get of a bucket", 90, 300, 210)]
        self.assertEqual(layers.above(rows), ["Rust, get of a reader: 101 ns added, above 100 ns", "Go, get of a bucket: 210 ns added, above 200 ns"])
        self.assertEqual(layers.in_words(rows[0]), ("Rust", "put", "500 ns", "600 ns", "100 ns"))


if __name__ == "__main__":
    unittest.main()
