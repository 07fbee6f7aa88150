"""Each block of Rattle in README.md and docs/library.md has to stand, word for word, in a file of the crates of tests that hold their
examples, where they are proved and run: in src, and each block of a proof in proofs. A block may be indented less than in the file.
Each example file has to be quoted, too, so that none is left without a word of what it shows."""
import os, unittest
from typing import Iterator

from tests import top
from tests.pages.examples import lines_of

pages = ["README.md", "docs/library.md"]
crates = [os.path.join(top, "crates", name) for name in ("kv_run_tests", "kv_service_tests")]
kinds = {"```rust": ".rt", "```antt": ".antt"}


def blocks_of(page: str) -> tuple[list[tuple[str, str, list[str]]], bool]:
    """Of each block of code: its page and first line's number, the ending of the files that it may be of, and its lines."""
    blocks: list[tuple[str, str, list[str]]] = []
    block = None
    for number, line in enumerate(lines_of(page), 1):
        if block is None and line in kinds:
            block = ("%s:%d" % (page, number + 1), kinds[line], [])
        elif block is not None and line == "```":
            blocks.append(block)
            block = None
        elif block is not None:
            block[2].append(line)
    return blocks, block is not None


def indented(line: str, by: int) -> str:
    return " " * by + line if line else line


def stands_in(block: list[str], lines: list[str]) -> bool:
    for start in range(len(lines) - len(block) + 1):
        by = len(lines[start]) - len(lines[start].lstrip(" "))
        if [indented(line, by) for line in block] == lines[start:start + len(block)]:
            return True
    return False


def files() -> Iterator[str]:
    """The files of the crates, code and proofs."""
    for part in (os.path.join(crate, part) for crate in crates for part in ("src", "proofs")):
        for folder, _, names in sorted(os.walk(part)):
            for name in sorted(names):
                if name.endswith(tuple(kinds.values())):
                    yield os.path.join(folder, name)


def is_example(path: str) -> bool:
    return os.path.dirname(path) in [os.path.join(crate, "src", "examples") for crate in crates]


class Quoted(unittest.TestCase):
    def setUp(self) -> None:
        self.pages = {page: blocks_of(page) for page in pages}
        self.texts = {path: lines_of(path) for path in files()}

    def quotes(self, ending: str, block: list[str]) -> list[str]:
        """The files where a block stands."""
        return [path for path, lines in self.texts.items() if block and path.endswith(ending) and stands_in(block, lines)]

    def test_each_block_stands_in_a_file(self) -> None:
        for blocks, _ in self.pages.values():
            for place, ending, block in blocks:
                with self.subTest(place):
                    self.assertTrue(self.quotes(ending, block), "this block stands in no file of the crates of examples")

    def test_each_example_is_quoted(self) -> None:
        quoted = {path for blocks, _ in self.pages.values() for _, ending, block in blocks for path in self.quotes(ending, block)}
        for path in filter(is_example, self.texts):
            with self.subTest(os.path.relpath(path, top)):
                self.assertIn(path, quoted, "it is quoted nowhere")

    def test_each_page_has_whole_blocks(self) -> None:
        for page, (blocks, is_open_at_end) in self.pages.items():
            with self.subTest(page):
                self.assertTrue(blocks and not is_open_at_end, "no whole block of Rattle, or one with no end")


if __name__ == "__main__":
    unittest.main()
