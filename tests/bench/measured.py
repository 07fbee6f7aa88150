"""Figures of each of the bench's groups at its smallest size, by the programs kv_bench (BENCH, or the one in its crate) and kvbucket, and
of Rust's own crates where these can be built. Each is measured once, for all tests."""
import functools, os
from typing import Optional, cast

from scripts import bench, current, peers
from scripts.figures import Figure
from tests import program

BENCH = os.path.abspath(os.environ.get("BENCH") or current.path_of("kv_bench"))
SMALLEST = 1_000


@functools.lru_cache(maxsize=None)
def machine() -> bench.Machine:
    return bench.Machine(lambda: bench.map_get(BENCH))


@functools.lru_cache(maxsize=None)
def lines() -> list[Figure]:
    """Those of lines through kvbucket."""
    lines = bench.Lines(program.path, (SMALLEST,), 100, 100)
    for _ in range(3):
        lines.round(machine())
    return list(lines.figures())


@functools.lru_cache(maxsize=None)
def of_group(group: str) -> list[Figure]:
    return bench.measured(BENCH, group, SMALLEST, 1)


@functools.lru_cache(maxsize=None)
def in_large_pages() -> list[Figure]:
    return bench.in_large_pages(BENCH, "calls-reads", SMALLEST, 1)


@functools.lru_cache(maxsize=None)
def peer() -> Optional[str]:
    """The program of Rust's own crates, or none where they can't be built, which is told."""
    try:
        return peers.built()
    except peers.Missing as missing:
        print("left out: Rust's own crates: %s" % missing)
        return None


@functools.lru_cache(maxsize=None)
def of_peer(group: str) -> list[Figure]:
    return bench.measured(cast(str, peer()), group, SMALLEST, 1)


def everything() -> list[Figure]:
    own = [it for group, _ in bench.RUNS for it in of_group(group)]
    others = [it for group, _ in bench.RUNS_OF_PEERS for it in of_peer(group)] if peer() else []
    return lines() + own + in_large_pages() + others
