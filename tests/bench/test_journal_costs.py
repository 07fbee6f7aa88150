"""The measure of journal files, at its smallest."""
import unittest

from scripts import journal_costs
from scripts.journal_costs import Checkpoint, Library, Opening, Put
from tests import program


class JournalCosts(unittest.TestCase):
    def test_a_put_is_measured_in_memory_and_in_a_file(self) -> None:
        for measured in (journal_costs.put(program.path, [], 100), journal_costs.put_in_file(program.path, "each", 10)):
            with self.subTest(measured):
                self.assertGreater(measured.took, 0)
                self.assertGreater(measured.worked, 0)

    def test_a_file_has_all_that_was_put_when_its_opening_is_measured(self) -> None:
        hundred, thousand = (journal_costs.opening(program.path, writes) for writes in (100, 1_000))
        self.assertGreater(thousand.size, 9 * hundred.size)
        self.assertGreater(hundred.took, 0)

    def test_what_is_above_its_bound_is_told(self) -> None:
        modes, opened = [Put(1, 1), Put(9, 3), Put(40, 4), Put(500, 9)], Opening(47_000_000, 3)
        for measured in (None, Library(2, 4, Checkpoint(2, 3, 3))):
            self.assertEqual(journal_costs.above(modes, opened, measured), [])
        self.assertEqual(journal_costs.above([Put(1, 0.5)] + modes[1:], opened._replace(took=3.25), Library(2, 4.5, Checkpoint(2.5, 3.5, 4))),
                         ["an append adds 2.50 µs to a put, above 2 µs", "an opening takes 3.25 s, above 3 s",
                          "an append through the library adds 2.50 µs to a put, above 2 µs", "a checkpoint takes 2.50 s, above 2 s", "an opening of a checkpoint takes 3.50 s, above 3 s",
                          "an opening of a checkpoint by the program takes 4.00 s, above 3 s"])

    def test_the_page_has_a_row_for_each_mode(self) -> None:
        modes, opened = [Put(1, 2), Put(3, 4), Put(5, 6), Put(7, 8)], Opening(47_000_000, 1.5)
        self.assertNotIn("checkpoint", journal_costs.page(modes, opened, None, "2026-11-29"))
        page = journal_costs.page(modes, opened, Library(2.5, 8.5, Checkpoint(0.75, 1.25, 2.25)), "2026-11-29")
        for row in ("| in memory | 1.00 µs | 2.00 µs |", "| `--sync each` | 7.00 µs | 8.00 µs |", "has 47.0 MB, and is opened in 1.50 s.",
                    "takes 2.50 µs of the processor in memory, and 8.50 µs in a file with `sync=\"asked\"`.",
                    "A checkpoint of 1,000,000 stored writes takes 0.75 s through the library, and is opened there in 1.25 s.",
                    "opens it in 2.25 s."):
            with self.subTest(row):
                self.assertIn(row, page)


if __name__ == "__main__":
    unittest.main()
