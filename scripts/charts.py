#!/usr/bin/env python3
"""charts.py FOLDER: draws the figures of FOLDER/figures.tsv, which scripts/bench.py wrote, as charts beside them, by matplotlib
(python3-matplotlib in Debian's packages). It tells each chart as a line: its group, a tab, its file. Each shows medians, with
the least and the most of the rounds as bars, and can be read alone."""
import math, os, sys

import matplotlib
from matplotlib import figure as drawing, ticker
from matplotlib.backends.backend_svg import FigureCanvasSVG
from typing import Any, Callable, Optional, Sequence

if __name__ == "__main__":
    sys.dont_write_bytecode = True
    sys.path.insert(0, os.path.dirname(os.path.dirname(os.path.realpath(__file__))))
from scripts import figures

STYLE = {"svg.hashsalt": "bench", "font.size": 9, "axes.grid": True, "grid.alpha": 0.3, "svg.fonttype": "none"}
# The first of these names that stands in another one gives it its colour.
COLOURS = {"Vilgoued": "#0b6e4f", "Cache": "#1f77b4", "load": "#7fb3d9", "DashMap": "#8c2d5a", "parking_lot": "#c9a227", "crossbeam": "#1f77b4",
           "tokio": "#8c2d5a", "HashMap": "#b5541c", "BTreeMap": "#5b4b9a"}
MARKS = "os^vD*Ppx+<>hH1"
LINES = (":", "-.", "--", "-")


def name_of(figure: figures.Figure) -> str:
    """What was measured, or of what, where several are set side by side."""
    return figure.of or figure.what


def curve(axes: Any, found: Sequence[figures.Figure], at: Any, label: str, scale: float, colour: Optional[str] = None, mark: str = "o", line: str = "-") -> None:
    """What is below a hundredth of the unit is drawn there, since the scales are logarithmic."""
    found = sorted(found, key=at)
    low, middle, high = ([max(getattr(it, part) / scale, 0.01) for it in found] for part in ("least", "median", "most"))
    bars = [[m - l for m, l in zip(middle, low)], [h - m for m, h in zip(middle, high)]]
    axes.errorbar([at(it) for it in found], middle, yerr=bars, label=label, marker=mark, markersize=4, linewidth=1.2,
                  linestyle=line, capsize=2, color=colour)


def colour_of(what: str) -> Optional[str]:
    return next((colour for name, colour in COLOURS.items() if name in what), None)


def plain(axis: Any) -> None:
    """Numbers, and no powers of ten, at 1, 2 and 5 of each decade."""
    axis.set_major_locator(ticker.LogLocator(subs=(1, 2, 5), numticks=60))
    axis.set_major_formatter(ticker.FuncFormatter(lambda value, _: "{:,.0f}".format(value) if value >= 1 else "{:g}".format(value)))
    axis.set_minor_formatter(ticker.NullFormatter())


def across_keys(axes: Any, found: Sequence[figures.Figure]) -> None:
    """A tick at each size, but for one that a little larger one stands for."""
    sizes = sorted({it.keys for it in found})
    axes.set_xscale("log")
    axes.set_xticks([size for size, next_one in zip(sizes, [*sizes[1:], math.inf]) if next_one > 1.2 * size])
    axes.xaxis.set_major_formatter(ticker.FuncFormatter(lambda value, _: "{:,.0f}".format(value)))
    axes.xaxis.set_minor_formatter(ticker.NullFormatter())


class Chart:
    """A chart of one file. `with` it curves are drawn, and then it is written and told."""

    def __init__(self, folder: str, name: str, group: str, title: str, across: str, up: str) -> None:
        self.path, self.told = os.path.join(folder, name), "%s\t%s" % (group, name)
        self.drawing = drawing.Figure(figsize=(7.5, 4.8))
        FigureCanvasSVG(self.drawing)
        self.axes = self.drawing.subplots()
        self.labels = {"xlabel": across, "ylabel": up, "title": title}

    def __enter__(self) -> Any:
        return self.axes

    def __exit__(self, *raised: object) -> None:
        self.axes.set(yscale="log", **self.labels)
        plain(self.axes.yaxis)
        self.axes.legend(fontsize=7.5, loc="center left", bbox_to_anchor=(1.0, 0.5))
        self.drawing.tight_layout()
        self.drawing.savefig(self.path, metadata={"Date": None}, bbox_inches="tight")
        print(self.told)


def chart(folder: str, name: str, group: str, of_group: Any, title: str, across: str, up: str, scale: float) -> None:
    """One chart: keys across, one curve for each of what was measured."""
    with Chart(folder, name, group, title, across, up) as axes:
        for place, (what, found) in enumerate(figures.grouped(of_group, name_of).items()):
            curve(axes, found, lambda it: it.keys, what, scale, colour_of(what), MARKS[place % len(MARKS)])
        across_keys(axes, of_group)


def chart_of_others(folder: str, name: str, group: str, of_group: Any, title: str, across: str, up: str, scale: float) -> None:
    """One chart: threads beside the writer across; a colour for each that is set side by side, a line for each size."""
    with Chart(folder, name, group, title, across, up) as axes:
        for what, found in figures.grouped(of_group, name_of).items():
            for place, keys in enumerate(sorted({it.keys for it in found})):
                label = "%s, %s keys" % (what, figures.in_digits(keys))
                curve(axes, [it for it in found if it.keys == keys], lambda it: it.others, label, scale, colour_of(what),
                      MARKS[place], LINES[place % len(LINES)])
        axes.set(xticks=sorted({it.others for it in of_group}))


def at_both_ends(found: list[figures.Figure]) -> list[figures.Figure]:
    """The figures of 10,000 keys and of the most, where there are such: more curves could not be told apart."""
    return [it for it in found if it.keys == 10_000 or it.keys > 500_000] or found


def beside(of: Any, group: str, what: str) -> list[figures.Figure]:
    """The figures of Rust's own crates in a group, with the bucket's of the same."""
    found = [it for it in of["rust-" + group] if it.what == what]
    return [it for it in of[group] if it.what == what and it.of == "Vilgoued"] + found if found else []


def draw_peers(folder: str, of: Any) -> None:
    """The charts of Rust's own crates beside the bucket."""
    for word, title in (("get", "A get"), ("put", "A put")):
        if found := beside(of, "beside", word):
            chart(folder, "rust-beside-%s.svg" % word, "rust-beside", found, title + ", beside Rust's own crates, on one thread", "keys",
                  "µs a call", 1e3)
    for group, words in (("threads", ("reads", "writes")), ("threads-all", ("reads",)), ("feeds", ("items", "processor time of a write"))):
        for word in words:
            if found := at_both_ends(beside(of, group, word)):
                is_rate = found[0].unit == "a second"
                chart_of_others(folder, "rust-%s-%s.svg" % (group, word.split(" ")[0]), "rust-" + group, found,
                                "%s%s, beside Rust's own crates" % (word.capitalize(), " a second" if is_rate else ""),
                                "followers" if group == "feeds" else "readers", "thousands a second" if is_rate else "µs", 1e3)
    if found := beside(of, "delay", "delay"):
        chart_of_others(folder, "rust-delay.svg", "rust-delay", [it._replace(least=it.median) for it in at_both_ends(found)],
                        "From a write's return to its delivery (bars: 99 of 100 are below)", "followers", "µs", 1e3)


def draw(folder: str, of: Any) -> None:
    lists: Callable[[figures.Figure], bool] = lambda it: it.what.startswith(("keys of", "open a watch"))
    calls = of["calls"]
    if calls:
        chart(folder, "calls.svg", "calls", [it for it in calls if not lists(it)], "Calls of the library on one thread",
              "keys in the bucket", "µs a call", 1e3)
        chart(folder, "lists.svg", "calls", [it for it in calls if lists(it)], "Lists of keys, and watches that are opened",
              "keys in the bucket", "µs a call", 1e3)
    if of["compact"]:
        chart(folder, "compact.svg", "compact", of["compact"], "A compaction to the last revision",
              "stored writes", "ms", 1e6)
    for word, title in (("get", "A get"), ("put", "A put"), ("copy", "A snapshot, or a copy of the map")):
        found = [it for it in of["beside"] if it.what == word]
        if found:
            chart(folder, "beside-%s.svg" % word, "beside", found, title + ", beside maps under a lock, on one thread", "keys",
                  "µs a call", 1e3)
    for word in ("reads", "writes"):
        found = [it for it in of["threads"] if it.what == word]
        if found:
            chart_of_others(folder, "threads-%s.svg" % word, "threads", found, "%s a second, a writer beside readers" % word.capitalize(),
                            "readers", "thousands a second", 1e3)
    if reads := [it for it in of["threads-all"] if it.what == "reads"]:
        chart_of_others(folder, "threads-all-reads.svg", "threads-all", reads, "Reads a second of all keys, a writer beside readers", "readers",
                        "thousands a second", 1e3)
    # Bars from the median up: the least is nothing, where an item came before the write returned.
    delays = [it._replace(least=it.median) for it in of["delay"]]
    if delays:
        chart_of_others(folder, "delay.svg", "delay", delays, "From a write's return to its delivery (bars: 99 of 100 are below)",
                        "followers", "µs", 1e3)
    items = [it for it in of["feeds"] if it.what == "items"]
    if items:
        chart_of_others(folder, "feeds.svg", "feeds", items, "Items a second, of all followers of one writer", "followers",
                        "thousands a second", 1e3)
    if busy := [it for it in of["feeds"] if it.what == "processor time of a write"]:
        chart_of_others(folder, "feeds-busy.svg", "feeds", busy, "The writer's processor time of a write, beside followers", "followers", "µs", 1e3)
    if of["memory"]:
        chart(folder, "memory.svg", "memory", of["memory"], "Resident memory", "keys or writes", "bytes for each", 1)
    if of["lines"]:
        chart(folder, "lines.svg", "lines", of["lines"], "Lines through the program: processor time", "keys in the bucket",
              "µs a line", 1e3)


def main() -> None:
    folder = sys.argv[1]
    of = figures.grouped(figures.read(folder), lambda it: it.group)
    with matplotlib.rc_context(STYLE):
        draw(folder, of)
        draw_peers(folder, of)


if __name__ == "__main__":
    main()
