#!/usr/bin/env python3
"""layers.py: measures what a call of the library takes from C, and what the packages for Rust and Go add to it, and writes
docs/bench/layers.md. It wants the library (./library), a C compiler, cargo and go, and takes half a minute. What a package adds that is
above its bound is told on standard error."""
import datetime, os, re, subprocess, sys, tempfile
from typing import Any, Iterable, Sequence

if __name__ == "__main__":
    sys.dont_write_bytecode = True
    sys.path.insert(0, os.path.dirname(os.path.dirname(os.path.realpath(__file__))))
from scripts import top

PAGE = os.path.join(top, "docs", "bench", "layers.md")
LIBRARY = os.path.join(top, "lib", "libvilgoued.a")
# The nanoseconds that a package may add to a call.
BOUNDS = {"Rust": 100, "Go": 200}
# What each program of a package prints for a call.
ADDED = re.compile(r"^(.+): (\d+) ns in C, (\d+) ns here, (-?\d+) ns added$", re.M)
# And what that of the shell prints.
TOLD = re.compile(r"^(.+?) {2,}(\d+) ns$", re.M)


class Missing(Exception):
    """What has to be there first."""


def printed(words: Sequence[str], folder: str, **more: str) -> str:
    try:
        done = subprocess.run(words, cwd=os.path.join(top, folder), stdin=subprocess.DEVNULL, capture_output=True, text=True,
                              env={**os.environ, **more})
    except FileNotFoundError as error:
        raise Missing("there is no %s: apt-get install cargo golang-go build-essential" % error.filename) from error
    if done.returncode != 0:
        raise Missing("%s ended with status %d: %s" % (" ".join(words), done.returncode, done.stderr.strip()))
    return done.stdout


def shell() -> list[tuple[str, str]]:
    """What calls of a bucket that threads share take in C: what, and nanoseconds."""
    with tempfile.TemporaryDirectory() as folder:
        program = os.path.join(folder, "costs")
        printed(["cc", "-O2", "-I", "include", "-I", "tests/c", "tests/c/shared_costs.c", LIBRARY, "-lpthread", "-o", program], "")
        return [(call.strip(), ns + " ns") for call, ns in TOLD.findall(printed([program], ""))]


def packages() -> list[tuple[Any, ...]]:
    """What each package adds to a call: its name, the call, and the nanoseconds in C, there, and between the two."""
    rust = printed(["cargo", "run", "--release", "--offline", "--quiet", "--example", "costs"], "rust", VILGOUED_LIB=LIBRARY)
    go = printed(["go", "run", "./costs"], "go", GOFLAGS="-mod=mod", GOPROXY="off")
    return [(name, call, *map(int, numbers)) for name, text in (("Rust", rust), ("Go", go)) for call, *numbers in ADDED.findall(text)]


def above(rows: Iterable[tuple[Any, ...]]) -> list[str]:
    """What is added that is above its bound, in a line each."""
    return ["%s, %s: %d ns added, above %d ns" % (name, call, added, BOUNDS[name])
            for name, call, _, _, added in rows if added > BOUNDS[name]]


def in_words(row: tuple[Any, ...]) -> tuple[str, ...]:
    return (*row[:2], *("%d ns" % ns for ns in row[2:]))


def table(head: Sequence[str], rows: Iterable[Sequence[str]]) -> str:
    return "\n".join("| %s |" % " | ".join(row) for row in (head, ["---"] * len(head), *rows))


def page(of_shell: Iterable[Sequence[str]], of_packages: Iterable[tuple[Any, ...]], day: str) -> str:
    return """# What the library takes from C, Rust and Go

`scripts/layers.py` wrote this page on %s, on %d processors with nothing else to do. Nothing of it is promised.

Calls of a bucket that threads share, among 10,000 keys with values of 16 bytes, where gets ask for 500 of them (`tests/c/shared_costs.c`):

%s

What the packages add to a call, the least of 200 rounds among 16 keys (`rust/examples/costs.rs`, `go/costs`):

%s
""" % (day, os.cpu_count() or 1, table(["Call", "Takes"], of_shell),
       table(["Package", "Call", "In C", "There", "Added"], map(in_words, of_packages)))


def main() -> None:
    try:
        if not os.path.exists(LIBRARY):
            raise Missing("there is no lib/libvilgoued.a: run ./library")
        of_packages = packages()
        text = page(shell(), of_packages, datetime.date.today().isoformat())
    except Missing as error:
        sys.exit("layers: %s" % error)
    with open(PAGE, "w", encoding="utf-8") as file:
        file.write(text)
    for line in above(of_packages):
        print("layers: " + line, file=sys.stderr)


if __name__ == "__main__":
    main()
