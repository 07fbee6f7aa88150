"""The charts and the tables that the bench makes of its figures, into a folder that is thrown away."""
import os, tempfile, unittest
from typing import Dict, List, Set

from scripts import bench
from scripts.figures import Figure
from tests.bench import measured

# One size or two are no curve.
WITHOUT_CHART = {"collide", "naps", "pages"}


class Charts(unittest.TestCase):
    figures: List[Figure]
    groups: Set[str]
    charts: Dict[str, List[str]]
    text: str

    @classmethod
    def setUpClass(cls) -> None:
        cls.figures = measured.everything()
        cls.groups = {it.group for it in cls.figures}
        with tempfile.TemporaryDirectory() as folder:
            cls.charts = bench.tell(cls.figures, folder, os.getloadavg()[0], measured.machine(), [])
            with open(os.path.join(folder, "README.md"), encoding="utf-8") as told:
                cls.text = told.read()

    def test_each_group_has_its_charts_where_matplotlib_is_there(self) -> None:
        self.assertEqual(set(self.charts), self.groups - WITHOUT_CHART if bench.has_matplotlib() else set())

    def test_each_group_has_its_table(self) -> None:
        for group, title, _, _ in bench.GROUPS:
            if group in self.groups:
                with self.subTest(title):
                    self.assertIn("## " + title, self.text)

    def test_each_figure_has_its_row(self) -> None:
        self.assertEqual([it for it in self.figures if "| %s |" % bench.row_of(it) not in self.text], [])


if __name__ == "__main__":
    unittest.main()
