"""The examples of pages in languages other than Rattle, which stand in files that are run."""
import os

from tests import top


def lines_of(path: str) -> list[str]:
    """The lines of a file of the repository."""
    with open(os.path.join(top, path), encoding="utf-8") as file:
        return file.read().splitlines()


def blocks(page: str, language: str) -> list[list[str]]:
    """The lines of each of a page's blocks in this language."""
    lines = lines_of(page)
    starts = [at + 1 for at, line in enumerate(lines) if line == "```" + language]
    return [lines[start:lines.index("```", start)] for start in starts]


def first_block(page: str, language: str) -> list[str]:
    """The lines of a page's first block in this language."""
    return blocks(page, language)[0]
