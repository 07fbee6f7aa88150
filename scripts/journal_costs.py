#!/usr/bin/env python3
"""journal_costs.py: measures what it costs the program kvbucket and the library to keep a bucket in a file, what a checkpoint through the
library costs and the openings of its file, and writes docs/bench/journal.md. The file lies in the folder for temporary files (TMPDIR), on
whose disk the costs of a sync depend. It wants the program (scripts/build.py), and for the rest the library (./library), and takes about
a minute. What is above its bound is told on standard error."""
import datetime, os, subprocess, sys, tempfile, time
from typing import Iterable, NamedTuple, Optional, Sequence

if __name__ == "__main__":
    sys.dont_write_bytecode = True
    sys.path.insert(0, os.path.dirname(os.path.dirname(os.path.realpath(__file__))))
from scripts import current, top
from scripts.lines import VALUE, Program

PAGE = os.path.join(top, "docs", "bench", "journal.md")
LIBRARY = os.path.join(top, "lib", "libvilgoued.so")
KEYS = 10_000
ROUNDS = 5
# How often records are brought onto the disk, what the page calls it, and how many puts are timed at once.
MODES = (("", "in memory", 50_000), ("close", "`--sync close`", 50_000), ("100", "`--sync 100`", 20_000), ("each", "`--sync each`", 2_000))
# How many puts are timed at once from Python.
LIBRARY_COUNT = 50_000
# How many writes the file has that is opened anew, and how many a checkpoint stores.
WRITES = 1_000_000
# What an append without a sync may add to a put, in microseconds of the processor, and what the opening and the checkpoint may take, in
# seconds.
MOST_ADDED, MOST_OPENING, MOST_CHECKPOINT = 2, 3, 2
# Puts among so many keys, and tells the seconds of the processor that so many of these puts take, round after round, in memory or, where a
# path is given, in a file.
LIBRARY_PUTS = """\
import sys, time
from vilgoued import Bucket
keys, count, rounds, *path = sys.argv[1:]
names = ["device.%d.state" % number for number in range(int(keys))]
turns = [names[number % len(names)] for number in range(int(count))]
with Bucket("settings", path=path[0], sync="asked") if path else Bucket("settings") as bucket:
    for name in names:
        bucket.put(name, b"0123456789012345")
    for _ in range(int(rounds)):
        began = time.process_time()
        for name in turns:
            bucket.put(name, b"0123456789012345")
        print(time.process_time() - began)
"""
# Makes a bucket in a file, and tells the seconds of its checkpoint, and those of an opening of that.
CHECKPOINT = """\
import sys, time
from vilgoued import Bucket
path, writes = sys.argv[1], int(sys.argv[2])
with Bucket("settings", path=path, sync="asked") as bucket:
    for number in range(writes):
        bucket.put("device.%d.state" % number, b"0123456789012345")
    began = time.monotonic()
    bucket.checkpoint()
    print(time.monotonic() - began)
began = time.monotonic()
with Bucket("settings", path=path, sync="asked") as bucket:
    print(time.monotonic() - began)
"""


class Put(NamedTuple):
    """The microseconds that a put takes, and those of the processor for it."""
    took: float
    worked: float


class Opening(NamedTuple):
    """The bytes of a file, and the seconds that its opening takes."""
    size: int
    took: float


class Checkpoint(NamedTuple):
    """The seconds that a checkpoint takes, those of an opening of its file through the library, and those of one by the program."""
    made: float
    by_library: float
    by_program: float


class Library(NamedTuple):
    """The microseconds of the processor that a put takes from Python, in memory and in a file that is synced when asked, and a checkpoint."""
    in_memory: float
    in_file: float
    checkpoint: Checkpoint


def puts(count: int) -> str:
    return "".join("put device.%d.state %s\n" % (number % KEYS, VALUE) for number in range(count))


def median(numbers: Iterable[float]) -> float:
    ordered = sorted(numbers)
    return ordered[len(ordered) // 2]


def put(path: str, arguments: Sequence[str], count: int) -> Put:
    """A put of so many through a program that has all keys by then."""
    program = Program(path, arguments=arguments)
    program.tell(puts(KEYS), KEYS)
    lines, took, worked = puts(count), [], []
    for _ in range(ROUNDS):
        began = time.monotonic()
        worked.append(program.tell(lines, count) / count)
        took.append((time.monotonic() - began) * 1e6 / count)
    program.end()
    return Put(median(took), median(worked))


def put_in_file(path: str, sync: str, count: int) -> Put:
    with tempfile.TemporaryDirectory() as folder:
        return put(path, ["--journal", os.path.join(folder, "settings.kv"), "--sync", sync], count)


def run(path: str, file: str, lines: str) -> float:
    """The seconds of a run of these lines on a file that is synced at its close."""
    began = time.monotonic()
    done = subprocess.run([path, "--journal", file, "--sync", "close"], input=lines, stdout=subprocess.DEVNULL, text=True)
    if done.returncode != 0:
        sys.exit("journal_costs: %s ended with status %d" % (path, done.returncode))
    return time.monotonic() - began


def opening(path: str, writes: int) -> Opening:
    with tempfile.TemporaryDirectory() as folder:
        file = os.path.join(folder, "settings.kv")
        run(path, file, puts(writes))
        return Opening(os.path.getsize(file), median(run(path, file, "") for _ in range(3)))


def first_answer(path: str, file: str) -> float:
    """The seconds until the program answers a line on the bucket of a file."""
    began = time.monotonic()
    program = Program(path, arguments=["--bucket", "settings", "--journal", file, "--sync", "close"])
    program.tell("status\n", 1)
    took = time.monotonic() - began
    program.end()
    return took


def by_library(script: str, *arguments: str) -> list[float]:
    """The numbers that a script in Python tells, which has the library."""
    more = {"PYTHONPATH": os.path.join(top, "python"), "VILGOUED_LIB": LIBRARY}
    done = subprocess.run([sys.executable, "-c", script, *arguments], env={**os.environ, **more}, stdout=subprocess.PIPE, text=True)
    if done.returncode != 0:
        sys.exit("journal_costs: a script with the library ended with status %d" % done.returncode)
    return list(map(float, done.stdout.split()))


def library_put(count: int, *path: str) -> float:
    return median(by_library(LIBRARY_PUTS, str(KEYS), str(count), str(ROUNDS), *path)) * 1e6 / count


def library(path: str, count: int, writes: int) -> Library:
    """What so many puts take through the library, and a checkpoint of so many stored writes."""
    with tempfile.TemporaryDirectory() as folder:
        in_file = library_put(count, os.path.join(folder, "puts.kv"))
        file = os.path.join(folder, "settings.kv")
        made, taken = by_library(CHECKPOINT, file, str(writes))
        return Library(library_put(count), in_file, Checkpoint(made, taken, median(first_answer(path, file) for _ in range(3))))


def above(modes: Sequence[Put], opened: Opening, measured: Optional[Library]) -> list[str]:
    """What is above its bound, in a line each."""
    costs = [("an append adds %.2f µs to a put, above %d µs", modes[1].worked - modes[0].worked, MOST_ADDED),
             ("an opening takes %.2f s, above %d s", opened.took, MOST_OPENING)]
    if measured is not None:
        made, by_library, by_program = measured.checkpoint
        costs += [("an append through the library adds %.2f µs to a put, above %d µs", measured.in_file - measured.in_memory, MOST_ADDED),
                  ("a checkpoint takes %.2f s, above %d s", made, MOST_CHECKPOINT),
                  ("an opening of a checkpoint takes %.2f s, above %d s", by_library, MOST_OPENING),
                  ("an opening of a checkpoint by the program takes %.2f s, above %d s", by_program, MOST_OPENING)]
    return [said % (cost, most) for said, cost, most in costs if cost > most]


def of_library(measured: Library) -> str:
    made, by_library, by_program = measured.checkpoint
    return f"""
From Python a put among as many keys takes {measured.in_memory:.2f} µs of the processor in memory, and {measured.in_file:.2f} µs in a file with `sync="asked"`. There each write is made [in two versions](../DECISIONS.md#a-files-writes-from-c-are-made-in-a-ring-of-two-1-december).

A checkpoint of {WRITES:,} stored writes takes {made:.2f} s through the library, and is opened there in {by_library:.2f} s. The program opens it in {by_program:.2f} s.
"""


def page(modes: Sequence[Put], opened: Opening, measured: Optional[Library], day: str) -> str:
    rows = "\n".join("| %s | %.2f µs | %.2f µs |" % (name, *costs) for (_, name, _), costs in zip(MODES, modes))
    return """# What a journal file costs

`scripts/journal_costs.py` wrote this page on %s, on %d processors. Nothing of it is promised. A sync is as quick as the disk.

A put through `./kvbucket`, among %s keys with values of 16 bytes, the median of %d rounds:

| | Takes | Of that the processor |
|---|---|---|
%s

A file of %s such puts has %.1f MB, and is opened in %.2f s.
%s""" % (day, os.cpu_count() or 1, format(KEYS, ","), ROUNDS, rows, format(WRITES, ","), opened.size / 1e6, opened.took,
        of_library(measured) if measured else "")


def main() -> None:
    path = current.path_of("kvbucket")
    modes = [put_in_file(path, sync, count) if sync else put(path, [], count) for sync, _, count in MODES]
    opened = opening(path, WRITES)
    measured = library(path, LIBRARY_COUNT, WRITES) if os.path.exists(LIBRARY) else None
    with open(PAGE, "w", encoding="utf-8") as file:
        file.write(page(modes, opened, measured, datetime.date.today().isoformat()))
    for line in above(modes, opened, measured):
        print("journal_costs: " + line, file=sys.stderr)


if __name__ == "__main__":
    main()
