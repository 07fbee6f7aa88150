"""Runs a command with one of its requests for memory refused, by refuse.c, which the C compiler of the Rattle kit builds, or
else cc."""
import concurrent.futures, os, subprocess, tempfile, unittest
from typing import NamedTuple, Optional, Sequence

from scripts import kit

here = os.path.dirname(os.path.abspath(__file__))
# The seconds that one run may take (in refuse.c likewise).
LONGEST = 120

# A run: the number of the request that was to be refused, whether it was, and how the run ended: its status as that of a
# process (a signal is a negative number), and what it wrote.
Run = NamedTuple("Run", [("at", int), ("is_refused", bool), ("status", int), ("out", bytes), ("err", bytes)])


def library(folder: str) -> str:
    """The path of the library, which is built in this folder. It needs no headers, and finds the C library when it is loaded."""
    built = os.path.join(folder, "refuse.so")
    asked = ["-O1", "-shared", "-fPIC", "-nostdlib", "-o", built, os.path.join(here, "refuse.c")]
    compiler = kit.compiler()
    subprocess.run([compiler] + asked + (["-ldl"] if compiler == "cc" else ["-fuse-ld=lld"]), check=True)
    return built


def ran(command: Sequence[str], stdin: str, environment: dict[str, str], longest: Optional[float] = None) -> subprocess.CompletedProcess[bytes]:
    with open(stdin, "rb") as file:
        return subprocess.run(command, env=dict(os.environ, **environment), stdin=file, capture_output=True, timeout=longest)


def counted(command: Sequence[str], shim: str, folder: str, stdin: str = os.devnull) -> tuple[int, int]:
    """How a command ends with all memory, and how many requests it makes."""
    log = os.path.join(folder, "counted")
    try:
        status = ran(command, stdin, {"LD_PRELOAD": shim, "REFUSE_AT": "0", "REFUSE_LOG": log}, LONGEST).returncode
        with open(log) as file:
            return status, int(file.read().split()[0])
    except (OSError, IndexError, subprocess.TimeoutExpired):
        return -1, 0


def taken(path: str) -> bytes:
    with open(path, "rb") as file:
        text = file.read()
    os.remove(path)
    return text


def each(command: Sequence[str], shim: str, folder: str, numbers: range, stdin: str = os.devnull) -> list[Run]:
    """The runs with the requests of these numbers refused, a range."""
    log = os.path.join(folder, "log-%d" % numbers.start)
    asked = "%d %d %d" % (numbers.start, numbers.step, numbers.stop - 1)
    whole = ran(command, stdin, {"LD_PRELOAD": shim, "REFUSE_EACH": asked, "REFUSE_LOG": log})
    ended, refused = {}, {}
    for at, word, *told in map(bytes.split, taken(log).splitlines()):
        if word == b"ended":
            ended[int(at)] = os.waitstatus_to_exitcode(int(told[0]))
        else:
            refused[int(at)] = told[1] == b"1"
    if whole.returncode or list(ended) != list(numbers):
        raise RuntimeError("%s: not all runs with the requests %s refused took place: %r" % (command, asked, whole.stderr[-300:]))
    written = {at: [taken("%s-%d.%s" % (log, at, end)) for end in ("out", "err")] for at in numbers}
    return [Run(at, refused.get(at, False), ended[at], *written[at]) for at in numbers]


# A test or script that makes so many requests has each of them refused, and of one that makes more a sample is.
MOST = int(os.environ.get("MOST", 4000))
# How many runs there are at a time.
JOBS = int(os.environ.get("JOBS") or len(os.sched_getaffinity(0)))


def step_of(requests: int) -> int:
    """One in how many requests is refused."""
    return max(1, -(-requests // MOST))


def told_of(requests: int) -> str:
    """What is printed of a sample, and nothing where each request is refused."""
    step = step_of(requests)
    return ", a sample: one in %d" % step if step > 1 else ""


def in_turn(pool: concurrent.futures.Executor, command: Sequence[str], shim: str, folder: str, requests: int, stdin: str = os.devnull) -> list[Run]:
    """The runs with each of so many requests refused, or with so many of them at most, spread over all."""
    step = step_of(requests)
    firsts = range(1, min(requests, step * JOBS) + 1, step)
    parts = pool.map(lambda first: each(command, shim, folder, range(first, requests + 1, step * JOBS), stdin), firsts)
    return sorted(run for part in parts for run in part)


class RefusingTest(unittest.TestCase):
    """A test that runs commands with requests refused, several at a time."""

    def setUp(self) -> None:
        room = tempfile.TemporaryDirectory()
        self.addCleanup(room.cleanup)
        self.folder, self.pool = room.name, concurrent.futures.ThreadPoolExecutor(JOBS)
        self.addCleanup(self.pool.shutdown)
        self.shim = library(self.folder)

    def counted(self, command: Sequence[str], stdin: str = os.devnull) -> tuple[int, int]:
        return counted(command, self.shim, self.folder, stdin)

    def in_turn(self, command: Sequence[str], requests: int, stdin: str = os.devnull) -> list[Run]:
        return in_turn(self.pool, command, self.shim, self.folder, requests, stdin)
