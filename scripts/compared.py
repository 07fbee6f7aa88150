#!/usr/bin/env python3
"""compared.py: writes into README.md, between its two marks, what the figures of docs/bench say of the bucket and of the rival that is
hardest to beat in each row: of all that the bench measured beside it, the kit's and Rust's own."""
import os, sys
from typing import Any, Iterator, Sequence

if __name__ == "__main__":
    sys.dont_write_bytecode = True
    sys.path.insert(0, os.path.dirname(os.path.dirname(os.path.realpath(__file__))))
from scripts import figures, top

FOLDER = os.path.join(top, "docs", "bench")
README = os.path.join(top, "README.md")
BEGIN, END = "<!-- scripts/compared.py wrote this table -->\n", "<!-- the end of it -->\n"
# Whose the figures of a bucket that threads share are.
OWN = "Vilgoued"
# A row, and its figure: group, what, the threads beside the writer, keys.
ROWS = (
    ("A read of what is newest, nobody else there", "beside", "get", 0, 10_000),
    ("A write that is published, nobody else there", "beside", "put", 0, 10_000),
    ("A snapshot of 1,000,000 keys", "beside", "copy", 0, 1_000_000),
    ("Reads a second of 4 threads beside a writer, 500 keys of 10,000", "threads", "reads", 4, 10_000),
    ("Reads a second of 4 threads beside a writer, 1,000,000 keys", "threads-all", "reads", 4, 1_000_000),
    ("Items a second of 31 followers", "feeds", "items", 31, 10_000),
    ("The writer's processor time of a write, 31 followers", "feeds", "processor time of a write", 31, 10_000),
    ("From a write's return to its item, one follower", "delay", "delay", 1, 10_000),
)
# The most keys that are fewer than a row names: what is written to has fewer.
FEWER = 0.95


def stands_in(figure: figures.Figure, row: Sequence[Any]) -> bool:
    _, group, what, others, keys = row
    return (figure.group.removeprefix("rust-") == group and (figure.what, figure.others) == (what, others)
            and FEWER * keys <= figure.keys <= keys)


def best(found: Sequence[figures.Figure]) -> figures.Figure:
    """The best of these figures: the highest of what is counted by the second, and the lowest of what takes time."""
    return (max if found[0].unit == "a second" else min)(found, key=lambda it: it.median)


def told(figure: figures.Figure, found: Sequence[figures.Figure]) -> str:
    """A figure in words; of reads with what the writer beside them writes, as a lock gives to the one what it takes from the other."""
    words = figures.in_words(figure.median, figure.unit)
    writes = [it for it in found if it[:5] == (figure.group, "writes", *figure[2:5])]
    return "%s, beside %s writes" % (words, figures.in_words(writes[0].median, writes[0].unit)) if figure.what == "reads" and writes else words


def table(found: Sequence[figures.Figure]) -> Iterator[str]:
    """The lines of the table: a row for each that the bucket and somebody else have a figure of."""
    yield "| | %s | The hardest to beat |\n" % OWN
    yield "|---|---|---|\n"
    for row in ROWS:
        of_row = [it for it in found if stands_in(it, row)]
        own, others = [it for it in of_row if it.of == OWN], [it for it in of_row if it.of != OWN]
        if own and others:
            rival = best(others)
            of = "%s%s" % ("Rust's " if rival.group.startswith("rust-") else "the kit's ", rival.of)
            yield "| %s | %s | %s: %s |\n" % (row[0], told(own[0], found), of, told(rival, found))


def written(text: str, found: Sequence[figures.Figure]) -> str:
    """A text with the table between its two marks."""
    before, _, rest = text.partition(BEGIN)
    _, _, behind = rest.partition(END)
    return "".join([before, BEGIN, "\n", *table(found), "\n", END, behind])


def write(found: Sequence[figures.Figure]) -> None:
    with open(README, encoding="utf-8") as file:
        text = file.read()
    if BEGIN in text:
        with open(README, "w", encoding="utf-8") as file:
            file.write(written(text, found))


def main() -> None:
    write(figures.read(FOLDER))


if __name__ == "__main__":
    main()
