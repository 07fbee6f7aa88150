"""The table of what is the hardest to beat, and that README.md has the one that the figures give."""
import unittest

from scripts import compared
from scripts.figures import Figure, read


class Compared(unittest.TestCase):
    OWN = Figure("threads", "reads", "Vilgoued", 4, 10_000, 4e6, 3e6, 5e6, "a second")

    def test_the_hardest_to_beat_stands_in_the_row(self) -> None:
        slow, fast = self.OWN._replace(of="HashMap", median=1e6), self.OWN._replace(group="rust-threads", of="DashMap", median=2e6)
        self.assertEqual(list(compared.table([self.OWN, slow, fast]))[2:],
                         ["| Reads a second of 4 threads beside a writer, 500 keys of 10,000 | 4.00 M | Rust's DashMap: 2.00 M |\n"])

    def test_reads_tell_what_is_written_meanwhile(self) -> None:
        figures = [self.OWN, self.OWN._replace(of="HashMap"), self.OWN._replace(what="writes", of="HashMap", median=1000.0)]
        self.assertTrue(list(compared.table(figures))[-1].endswith("| the kit's HashMap: 4.00 M, beside 1.00 k writes |\n"))

    def test_of_times_the_lowest_counts(self) -> None:
        own = Figure("beside", "get", "Vilgoued", 0, 10_000, 90.0, 80.0, 99.0, "ns")
        rows = list(compared.table([own, own._replace(of="BTreeMap", median=200.0), own._replace(of="HashMap", median=40.0)]))
        self.assertTrue(rows[-1].endswith("| 90.0 ns | the kit's HashMap: 40.0 ns |\n"), rows)

    def test_the_table_of_the_readme_is_that_of_the_figures(self) -> None:
        with open(compared.README, encoding="utf-8") as file:
            text = file.read()
        self.assertEqual(text, compared.written(text, read(compared.FOLDER)))


if __name__ == "__main__":
    unittest.main()
