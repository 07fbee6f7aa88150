"""Races over a script of two watches and twenty puts, one after another: 200, or as many as RACES says. Each is of 4 workers, and
each tenth of 16. Each has to end by itself within 20 seconds, and to answer each put by a revision, 1 to 20 each once and rising for
each worker; each watch has to show its marker and then, in the order of the revisions, each put that it matches, once, with its
value. It tells in how many of the races workers wrote in between each other, and the time."""
import base64, json, os, subprocess, time, unittest
from typing import Any, Callable, Optional, Sequence

from tests import program

RACES = int(os.environ.get("RACES", 200))
PUTS = [("ab"[n % 2] + ".%d" % n, base64.b64encode(b"value %d" % n).decode()) for n in range(20)]
WATCHES = {">": lambda key: True, "a.*": lambda key: key.startswith("a.")}
SCRIPT = "".join(["watch %s\n" % filter for filter in WATCHES] + ["put %s %s\n" % put for put in PUTS]).encode()


def replies_are_right(replies: Sequence[dict[str, Any]], workers: int) -> Optional[list[int]]:
    """The revision of each put, in the order of the lines, if each worker answered those that were dealt to it."""
    dealt = [n for worker in range(workers) for n in range(worker, len(PUTS), workers)]
    if [reply.get("worker") for reply in replies] != [n % workers + 1 for n in dealt]:
        return None
    revisions = [reply for _, reply in sorted(zip(dealt, [reply.get("revision", 0) for reply in replies]))]
    rise = all(before < after for before, after in zip(revisions, revisions[workers:]))
    return revisions if rise and sorted(revisions) == list(range(1, len(PUTS) + 1)) else None


def items_of(watch: int, matches: Callable[[str], bool], revisions: Sequence[int]) -> list[dict[str, Any]]:
    """What a watch has to show."""
    puts = sorted((revision, put) for revision, put in zip(revisions, PUTS) if matches(put[0]))
    return [{"marker": True, "watch": watch}] + [
        {"key": key, "op": "PUT", "revision": revision, "size": len(base64.b64decode(value)), "value": value, "watch": watch}
        for revision, (key, value) in puts]


def race_of(workers: int) -> tuple[str, bool]:
    """What is wrong with one race, or nothing, and whether workers wrote in between each other."""
    try:
        done = subprocess.run([program.path, "--race", str(workers)], input=SCRIPT, capture_output=True, timeout=300)
    except subprocess.TimeoutExpired:
        return "it did not end", False
    if done.returncode != 0 or done.stderr:
        return "status %d, %r" % (done.returncode, done.stderr[-200:]), False
    lines = [json.loads(line) for line in done.stdout.splitlines()]
    revisions = replies_are_right(lines[:len(PUTS)], workers)
    if revisions is None:
        return "replies %r" % lines[:len(PUTS)], False
    worker_by_worker = [revision for worker in range(workers) for revision in revisions[worker::workers]]
    items = [item for watch, matches in enumerate(WATCHES.values(), 1) for item in items_of(watch, matches, revisions)]
    mixed = worker_by_worker != sorted(worker_by_worker)
    return "" if lines[len(PUTS):] == items else "items %r" % lines[len(PUTS):], mixed


class Races(unittest.TestCase):
    def test_each_race_makes_every_write_once_and_its_watches_see_all(self) -> None:
        mixed, longest, start = 0, 0.0, time.time()
        for race in range(RACES):
            began, workers = time.time(), 16 if race % 10 == 9 else 4
            fault, is_mixed = race_of(workers)
            mixed += is_mixed
            longest = max(longest, time.time() - began)
            with self.subTest(race=race + 1, workers=workers):
                self.assertEqual(fault, "")
        print("%d races, %d of them with workers that wrote in between each other: %.1f s, the longest %.2f s"
              % (RACES, mixed, time.time() - start, longest))


if __name__ == "__main__":
    unittest.main()
