"""The figures of the bench: scripts/bench.py makes them, and scripts/charts.py draws them."""
import collections, os
from typing import Any, Callable, Iterable, NamedTuple


class Figure(NamedTuple):
    """What was measured of what, beside how many others and among how many keys: the median, the least and the most of the rounds."""

    group: str
    what: str
    of: str
    others: int
    keys: int
    median: float
    least: float
    most: float
    unit: str


NAME = "figures.tsv"


def parsed(line: str, tenths: bool = False) -> Figure:
    """The figure of a line of the file, or of one that kv_bench prints, which counts in tenths of the unit."""
    group, what, of, others, keys, *values, unit = line.rstrip("\n").split("\t")
    median, least, most = (float(it) / (10 if tenths else 1) for it in values)
    return Figure(group, what, of, int(others), int(keys), median, least, most, unit)


def read(folder: str) -> list[Figure]:
    with open(os.path.join(folder, NAME), encoding="utf-8") as file:
        return [parsed(line) for line in file.readlines()[1:]]


def lines_of(figures: Iterable[Figure]) -> list[str]:
    """The lines of the file."""
    return ["\t".join(map(str, it)) for it in (Figure._fields, *figures)]


def grouped(figures: Iterable[Figure], name: Callable[[Figure], Any]) -> dict[Any, list[Figure]]:
    """The figures by the name that this gives to each."""
    found: dict[Any, list[Figure]] = collections.defaultdict(list)
    for it in figures:
        found[name(it)].append(it)
    return found


def in_digits(number: int) -> str:
    return "{:,}".format(number)


def in_words(value: float, unit: str) -> str:
    """A value with three digits, in the unit of its size."""
    steps = {"ns": (("ns", 1), ("µs", 1e3), ("ms", 1e6), ("s", 1e9)), "a second": (("", 1), ("k", 1e3), ("M", 1e6)),
             "bytes": (("B", 1),)}[unit]
    name, size = next((it for it in reversed(steps) if value >= it[1]), steps[0])
    scaled = value / size
    digits = 0 if scaled >= 100 or unit == "bytes" else 1 if scaled >= 10 else 2
    return ("%.*f %s" % (digits, scaled, name)).strip()
