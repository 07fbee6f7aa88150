"""What the pages for C, Rust and Go say of costs has to be what docs/bench/layers.md measured, to which they and the bench's page link."""
import re, unittest

from tests.pages.examples import lines_of

MEASURED = "docs/bench/layers.md"


def text_of(page: str) -> str:
    return "\n".join(lines_of(page))


def added(package: str) -> dict[str, int]:
    """What a package adds to each call, in nanoseconds."""
    row = r"^\| %s \| (.+?) \| \d+ ns \| \d+ ns \| (-?\d+) ns \|$" % package
    return {call: int(ns) for call, ns in re.findall(row, text_of(MEASURED), re.M)}


def claimed(page: str) -> tuple[int, int]:
    """The least and the most that a page says that a call takes more."""
    least, most = re.findall(r"A call takes (\d+) ns to (\d+) ns more than its call of C", text_of(page))[0]
    return int(least), int(most)


class Layers(unittest.TestCase):
    def test_the_pages_link_to_what_was_measured(self) -> None:
        for page, link in (("docs/c.md", "bench/layers.md"), ("docs/rust.md", "bench/layers.md"), ("docs/go.md", "bench/layers.md"),
                           ("docs/bench/README.md", "layers.md")):
            with self.subTest(page):
                self.assertIn("](%s)" % link, text_of(page))

    def test_rust_and_go(self) -> None:
        for package, page in ("Rust", "docs/rust.md"), ("Go", "docs/go.md"):
            with self.subTest(package):
                costs = added(package).values()
                self.assertEqual(claimed(page), (min(costs), max(costs)))

    def test_c(self) -> None:
        costs = [int(ns) for ns in re.findall(r"^\| .+ \| (\d+) ns \|$", text_of(MEASURED), re.M)]
        section = text_of("docs/c.md").partition("\n### What it costs\n")[2].partition("\n#")[0]
        said = re.findall(r"([\d.]+) µs", section)
        self.assertTrue(said)
        for microseconds in said:
            with self.subTest(microseconds):
                self.assertIn(microseconds, ["%.*f" % (len(microseconds.partition(".")[2]), ns / 1000) for ns in costs])


if __name__ == "__main__":
    unittest.main()
