#!/usr/bin/env python3
"""bench.py BENCH KVBUCKET [FOLDER]: measures the bucket and what a user would take in its place, by the programs
kv_bench and kvbucket, within five minutes, and Rust's own crates by the program of peers/, where that can be built (scripts/peers.py),
in two more. It writes into the folder (docs/bench where none is given) the figures as figures.tsv, a page of tables as README.md,
charts where matplotlib is there (scripts/charts.py), and where no folder is given the table of the repository's README.md
(scripts/compared.py). It tells on standard error what it is doing. tests/bench looks at whether that works."""
import collections, datetime, os, platform, random, subprocess, sys, time
from typing import Any, Callable, Iterable, Iterator, NamedTuple, Optional, Sequence

if __name__ == "__main__":
    sys.dont_write_bytecode = True
    sys.path.insert(0, os.path.dirname(os.path.dirname(os.path.realpath(__file__))))
from scripts import compared, kit, peers, top
from scripts.figures import NAME, Figure, grouped, in_digits, in_words, lines_of, parsed
from scripts.lines import VALUE, Program

# The seconds after which nothing is begun that may be left out: of the bucket, and of Rust's own crates.
BUDGET, BUDGET_OF_PEERS = 270, 120
# The machine counts as calm where a probe takes at most so many times the least that one took, of which so many are made
# first; and for how many seconds a calm moment is waited for, once and in all.
CALM = 1.25
PROBES = 10
PATIENCE = 3
WAITING = 30
SIZES = (1_000, 10_000, 100_000, 1_000_000)
# Of so many keys a bucket that stores a million writes has two of each.
WRITTEN_TWICE = (1_000, 10_000, 100_000, 500_000)
# Where what reads all keys is measured: where the caches have most of them, and where they have few.
BOTH_ENDS = (10_000, 1_000_000)
# Of keys of one place kv_bench makes 16,384.
OF_ONE_PLACE = (1_000, 10_000)
# How often the bench goes through its groups: what disturbs for some seconds meets one pass of these.
PASSES = 3
# The rounds of a process: with one, writes beside readers were measured to take longer. Memory is weighed once a process.
ROUNDS = 3
# What is measured in the first pass alone: more keys than these, since it takes long to fill a bucket with them, and the delays.
MOST_KEYS = 100_000
# The groups that kv_bench measures, and their sizes.
RUNS = (
    ("calls-growth", SIZES),
    ("calls-reads", SIZES),
    ("calls-writes", SIZES),
    ("calls-long", SIZES),
    ("beside-reads", SIZES),
    ("beside-writes", SIZES),
    ("beside-maps", SIZES),
    ("compact", SIZES),
    ("collide", OF_ONE_PLACE),
    ("memory-keys", SIZES),
    ("memory-writes", WRITTEN_TWICE),
    ("memory-held", WRITTEN_TWICE),
    ("memory-compacted", SIZES),
    ("memory-live", WRITTEN_TWICE[2:]),
    ("threads", SIZES),
    ("threads-all", BOTH_ENDS),
    ("delay", SIZES),
    ("feeds", SIZES),
    ("naps", (10_000,)),
)
# Those that the program of peers/ measures, each beside the one of this name.
RUNS_OF_PEERS = (
    ("beside", SIZES),
    ("threads", SIZES),
    ("threads-all", BOTH_ENDS),
    ("delay", BOTH_ENDS),
    ("feeds", SIZES),
)
# What is measured once more with pages of 2 MiB, and among how many keys.
LARGE_PAGES = {"GLIBC_TUNABLES": "glibc.malloc.hugetlb=1"}
IN_LARGE_PAGES = (("calls-reads", 1_000_000), ("calls-writes", 1_000_000))
# The rounds of lines through the program, which are spread over the whole run: what disturbs for a second meets few of them.
LINE_ROUNDS = 9
# The lines of a batch: so many gets that the first ones, which find no key in the caches, don't count; and so many puts that
# a bucket with the most keys that are written to has room for a round of them.
GETS = 20_000
PUTS = 2_000
MOST_WRITTEN = 990_000


def say(text: str) -> None:
    print("bench: " + text, file=sys.stderr, flush=True)


class Watch:
    """How long the bench has taken, and how much of that Rust's own crates."""

    def __init__(self) -> None:
        self.begin()

    def begin(self) -> None:
        self.started = time.monotonic()
        self.of_peers = 0.0

    def elapsed(self) -> float:
        return time.monotonic() - self.started

    def of_bucket(self) -> float:
        return self.elapsed() - self.of_peers


watch = Watch()


# The figures.


def run(bench: str, group: str, keys: int, rounds: int, **more: str) -> list[Figure]:
    done = subprocess.run([bench, group, str(keys), str(rounds)], stdin=subprocess.DEVNULL, capture_output=True, text=True,
                          env={**os.environ, **more})
    if done.returncode != 0:
        say("%s %s %d %d ended with status %d: %s" % (os.path.basename(bench), group, keys, rounds, done.returncode, done.stderr.strip()))
        sys.exit(1)
    return [parsed(line, tenths=True) for line in done.stdout.splitlines()]


def merged(figures: Sequence[Figure]) -> Figure:
    """One figure for the same figure of several passes."""
    medians = sorted(it.median for it in figures)
    return figures[0]._replace(median=medians[len(medians) // 2], least=min(it.least for it in figures), most=max(it.most for it in figures))


def measured(bench: str, group: str, keys: int, rounds: int) -> list[Figure]:
    say("%s at %s, after %d s" % (group, in_digits(keys), watch.elapsed()))
    return run(bench, group, keys, rounds)


def in_large_pages(bench: str, group: str, keys: int, rounds: int) -> list[Figure]:
    """The same with pages of 2 MiB, as figures of a group of their own."""
    say("%s at %s in large pages, after %d s" % (group, in_digits(keys), watch.elapsed()))
    return [it._replace(group="pages", of=LARGE) for it in run(bench, group, keys, rounds, **LARGE_PAGES)]


# What is run: by which of these, a group, a size, and how many rounds.
Run = NamedTuple("Run", [("by", str), ("group", str), ("keys", int), ("rounds", int)])
OF_BUCKET, OF_PEERS, IN_PAGES = "kv_bench", "peers", "pages"


def rounds_of(by: str, group: str, keys: int) -> int:
    """The rounds of a process, in the passes in which it is run."""
    is_once = keys > MOST_KEYS or group == "delay"
    is_brief = group.startswith("memory-") or (not is_once and (group == "feeds" or by == OF_PEERS))
    return 1 if is_brief or by == IN_PAGES else ROUNDS


def runs_of(number: int) -> list[Run]:
    """What is measured in the pass of this number. The largest sizes, which take longest, are last."""
    of_all = ((OF_BUCKET, RUNS), (OF_PEERS, RUNS_OF_PEERS), (IN_PAGES, [(group, [keys]) for group, keys in IN_LARGE_PAGES]))
    runs = [Run(by, group, keys, rounds_of(by, group, keys)) for by, groups in of_all for group, sizes in groups for keys in sizes
            if number == 0 or not (keys > MOST_KEYS or group == "delay")]
    return sorted(runs, key=lambda it: min(it.keys, WRITTEN_TWICE[-1]))


class Machine:
    """Whether the machine does other work meanwhile, by a probe that takes longer then."""

    def __init__(self, probe: Callable[[], float]) -> None:
        self.probe = probe
        self.least = min(probe() for _ in range(PROBES))
        self.begun = self.disturbed = 0
        self.waited = 0.0

    def is_calm(self) -> bool:
        took = self.probe()
        self.least = min(self.least, took)
        return took <= CALM * self.least

    def wait(self) -> None:
        """Waits for a calm moment, but not for ever."""
        began = time.monotonic()
        self.begun += 1
        while not self.is_calm():
            waited = time.monotonic() - began
            if waited >= min(PATIENCE, WAITING - self.waited):
                self.disturbed += 1
                break
        self.waited += time.monotonic() - began

    def told(self) -> str:
        return ("Before each process of `kv_bench`, and each size of a round of lines, it waited until a get of the kit's `HashMap` with "
                "10,000 keys took at most %s times the least that it took in this run, %s, but for %d s at most, and %d s in all. "
                "Of %d waits %d ended without." % (CALM, in_words(self.least, "ns"), PATIENCE, WAITING, self.begun, self.disturbed))


def map_get(bench: str) -> float:
    """A get of the kit's map: the same code whatever the bucket's is, and one that needs the caches."""
    return next(it.median for it in run(bench, "beside-maps", 10_000, 1) if it.what == "get" and it.of.startswith("HashMap"))


# Lines through the program, as scripts/lines.py measures them.


class Lines:
    """Programs with so many keys each, which wait for their next round. A full bucket takes no put, so in its place another
    one with fewer keys is written to."""

    def __init__(self, kvbucket: str, sizes: Sequence[int], gets: int, puts: int) -> None:
        self.gets, self.puts = gets, puts
        self.read = set(sizes)
        self.written = {min(size, MOST_WRITTEN) for size in sizes}
        self.programs = {keys: Program(kvbucket, os.environ) for keys in sorted(self.read | self.written)}
        # The last revisions, and the nanoseconds of each round.
        self.revisions = {keys: keys for keys in self.programs}
        self.times: dict[Any, list[float]] = collections.defaultdict(list)
        random.seed(1)
        # Gets that no round measures, since a program has waited for its round while others ran: as many as there are keys, or,
        # where nothing is read, as a few puts need.
        self.warming = {}
        for keys, program in self.programs.items():
            program.put(range(keys))
            some = self.some(keys, keys if keys in self.read else MOST_KEYS)
            self.warming[keys] = "".join(map(self.get, some)), len(some)

    def tell(self, size: int, keys: Sequence[int], line: Callable[[int], str]) -> float:
        """Tells a program a line for each key, and returns the nanoseconds a line."""
        return 1000 * self.programs[size].tell("".join(line(key) for key in keys), len(keys)) / len(keys)

    def time(self, size: int, what: str, keys: Sequence[int], line: Callable[[int], str]) -> None:
        self.times[what, size].append(self.tell(size, keys, line))

    def get(self, key: int) -> str:
        return "get device.%d.state\n" % key

    def put(self, key: int) -> str:
        return "put device.%d.state %s\n" % (key, VALUE)

    def some(self, size: int, lines: int) -> list[int]:
        return [random.randrange(size) for _ in range(lines)]

    def round_of_gets(self, size: int) -> None:
        self.time(size, "get", self.some(size, self.gets), self.get)

    def round_of_puts(self, size: int) -> None:
        self.time(size, "put, key that is there", self.some(size, self.puts), self.put)
        new = range(size, size + min(self.puts, size // 5))
        self.time(size, "put, new key", new, self.put)
        # The new keys go, and what was overwritten: the next round begins with as many keys as this one.
        self.tell(size, new, lambda key: "delete device.%d.state\n" % key)
        self.revisions[size] += self.puts + 2 * len(new)
        self.programs[size].tell("compact %d\n" % self.revisions[size], 1)

    def round(self, machine: Any) -> None:
        for size in self.programs:
            machine.wait()
            self.programs[size].tell(*self.warming[size])
            if size in self.read:
                self.round_of_gets(size)
            if size in self.written:
                self.round_of_puts(size)

    def figures(self) -> Iterator[Figure]:
        """Ends the programs, which have to have refused no line."""
        for program in self.programs.values():
            program.end()
        for (what, size), values in self.times.items():
            values.sort()
            yield Figure("lines", what, "", 0, size, values[len(values) // 2], values[0], values[-1], "ns")


# The page.


def column_of(keys: int) -> int:
    """The size in whose column a figure stands: what is written to has fewer keys than a bucket stores at most."""
    return min((size for size in (*SIZES, *WRITTEN_TWICE) if size >= keys), default=keys)


def cell(figure: Optional[Figure]) -> str:
    if figure is None:
        return ""
    words = tuple(in_words(it, figure.unit) for it in (figure.median, figure.least, figure.most))
    beside = "" if figure.keys == column_of(figure.keys) else ", of %s keys" % in_digits(figure.keys)
    return "%s (%s to %s)%s" % (*words, beside)


def row_of(figure: Figure) -> str:
    """What was measured, of what, and how many threads were beside the writer."""
    name = ", ".join(filter(None, (figure.what, figure.of)))
    return name + " (%d)" % figure.others if figure.group.removeprefix("rust-") in ("threads", "threads-all", "delay", "feeds", "naps") else name


def table(figures: Sequence[Figure], heading: str) -> Iterator[str]:
    """The rows are what was measured, the columns how many keys there were."""
    sizes = sorted({column_of(it.keys) for it in figures})
    found = {(row_of(it), column_of(it.keys)): it for it in figures}
    yield "| %s | %s |" % (heading, " | ".join(map(in_digits, sizes)))
    yield "|---" * (len(sizes) + 1) + "|"
    for row in dict.fromkeys(row_of(it) for it in figures):
        yield "| %s | %s |" % (row, " | ".join(cell(found.get((row, size))) for size in sizes))


GROUPS = (
    ("calls", "Calls on one thread", "By keys",
     "A bucket of one thread. A round is the mean of up to 5,000 calls, on keys that are spread over all; a listing, or the "
     "opening of a watch, by `*.17`, `a.*` or `>` is one call. `*.17` matches one key of all, `a.*` one of a hundred, `>` all. Where "
     "no size is told values have 16 bytes, and lie beside their revisions; those of 100 take a block of their own. A get is by a key "
     "that was parsed before. A put of a new key is one "
     "of the last tenth of those that fill an empty bucket. A watch that was opened is stopped within the time of a literal "
     "filter; a snapshot is let go at once. New keys, what changes nothing, what writes and long values are four processes."),
    ("pages", "Pages of 4 KiB and of 2 MiB", "By keys",
     "The calls of one thread once more in a process with `GLIBC_TUNABLES=glibc.malloc.hugetlb=1`, by which the C library asks for pages "
     "of 2 MiB; whether it gets them the system decides. All other figures are without, those of lines and of Rust's crates too."),
    ("compact", "A compaction", "By stored writes",
     "So many writes, to a thousand keys or one to each of as many keys, then one compaction to the last revision. It looks at each "
     "write and its key, and a bucket that threads share is locked meanwhile."),
    ("collide", "Keys of one place", "By keys",
     "A bucket of one thread, all of whose keys share a place, as somebody can choose them who knows the hash: they are 56 bytes "
     "long, and lie in one list. A put of a new key is one of the last tenth. That they share a place is checked."),
    ("beside", "Beside maps under a lock, on one thread", "By keys",
     "A `Live` with one reader: a get refreshes the version that it keeps and reads the key in that, a copy is the reader's "
     "version, let go at once; in another one, a put publishes a version. The maps are the kit's `HashMap` and `BTreeMap` under its `RwLock`; a put "
     "copies its key and value first, as a put of a bucket does, and a copy is a clone under the lock."),
    ("rust-beside", "Beside Rust's own crates, on one thread", "By keys",
     "The same of maps of Rust's own crates. `HashMap` is std's, with its own hash; im's shares its keys and values, by `Arc`. A put of an "
     "`ArcSwap` makes the next map of a copy and stores it; a get is by its `load` or by a `Cache` of the thread; a copy is the map that it "
     "has, or else a clone. None of them has revisions, a history, watches, or writes that ask for the last revision."),
    ("threads", "A writer beside readers", "By keys",
     "One thread writes without a pause for 0.15 s, the others read; in brackets how many read, in each round one number after "
     "the other. **Writer and readers ask for the same 500 keys, again and again**, spread over all, so the caches have most of what they "
     "look at, also where there are a million. Reads are of all readers together; each refreshes the version that its thread keeps. What "
     "a map's readers read stands beside what its writer writes meanwhile: each has the lock while the other has not. The processor time "
     "of a write is that of the writer's thread alone."),
    ("rust-threads", "A writer beside readers, of Rust's own crates", "By keys", "The same of maps of Rust's own crates."),
    ("threads-all", "A writer beside readers of all keys", "By keys",
     "The same, but writer and readers go through all keys, each reader from another one on."),
    ("rust-threads-all", "A writer beside readers of all keys, of Rust's own crates", "By keys", "The same of maps of Rust's own crates."),
    ("delay", "From a write's return to its delivery", "By keys",
     "One thread makes 1,000 writes with a pause of 0.1 ms after each; in brackets how many follow, each asleep until there "
     "is something. 0 ns is an item that came before the write returned. What stands last in a cell is what 99 of 100 items are "
     "not above. Beside a map the watch is an unbounded channel of the kit's `crossbeam_channel` to each follower, into "
     "which the writer sends while it has the lock."),
    ("rust-delay", "From a write's return to its delivery, of Rust's own crates", "By keys",
     "The same of std's `HashMap` and `RwLock`, and a channel to each follower, std's or `crossbeam_channel`'s unbounded one, or tokio's "
     "broadcast with room for 16,384, each follower with a runtime of its own thread."),
    ("feeds", "Followers of one writer", "By keys",
     "One thread makes 10,000 writes without a pause; in brackets how many follow. Items are of all followers together, up to "
     "the end of the last. The processor time of a write is that of the writer's thread alone: who wakes sleepers pays for that."),
    ("rust-feeds", "Followers of one writer, of Rust's own crates", "By keys", "The same of the maps and channels above."),
    ("naps", "Followers that nap", "By keys",
     "The same of followers that don't wait for a write: where there is nothing they sleep for 0.1 ms, refresh and look again. Nobody is "
     "woken, so the writer pays for none of them; an item comes up to a nap later."),
    ("memory", "Memory", "By keys or writes",
     "Resident memory after, less before, for each key or write; each a process of its own. Of fewer than 100,000 as many "
     "buckets are weighed at once as have so many. What a compaction frees stays with the process, for later writes. A bucket that "
     "threads share keeps up to two versions beside the one that is published."),
    ("lines", "Lines through the program", "By keys",
     "Processor time of `kvbucket` for a line and its answer, as `scripts/lines.py` measures it: batches of 20,000 gets and of "
     "2,000 puts, where the keys are new of a fifth of the keys at most. Nine rounds, spread over the whole run of the bench; "
     "each program waits with its keys in between, so a round begins with as many gets as there are keys (100,000 of 990,000), "
     "and ends with deletes of its new keys and a compaction, which are not measured. The program has pages of 4 KiB here, as `kv_bench` "
     "has; `./kvbucket` asks for pages of 2 MiB. A refused line ends the bench."),
)


# What stands in a table beside what is measured.
LARGE, SMALL = "pages of 2 MiB", "pages of 4 KiB"


def figures_of(group: str, figures: list[Figure]) -> list[Figure]:
    """The figures of a group's table: those of Rust's own crates stand below the bucket's, of the same sizes."""
    found = [it for it in figures if it.group == group]
    if group == "pages":
        beside = [it._replace(group=group, of=SMALL) for it in figures if it.group == "calls"]
        return sorted((it for it in found + beside if (it.what, it.keys) in {(it.what, it.keys) for it in found}), key=lambda it: it.what)
    if group.startswith("rust-"):
        sizes = {it.keys for it in found}
        mine = [it for it in figures if it.group == group.removeprefix("rust-") and it.of == compared.OWN and column_of(it.keys) in sizes]
        return mine + found
    return found


def of_file(path: str, key: str) -> str:
    with open(path, encoding="utf-8") as told:
        return next((line.split(":", 1)[1].strip() for line in told if line.startswith(key)), "unknown")


def machine_of(load: float) -> str:
    gigabytes = int(of_file("/proc/meminfo", "MemTotal").split()[0]) / 1e6
    return ("%s, %d processors for the bench, %.0f GB; Linux %s; the load when it began was %.1f" % (
        of_file("/proc/cpuinfo", "model name"), len(os.sched_getaffinity(0)), gigabytes, platform.release().split("-")[0], load))


def page(figures: Any, load: Any, machine: Any, left_out: Any, charts: Any) -> Iterator[str]:
    yield "# Measured"
    yield ""
    yield ("By `./bench`, on %s, in %d s. It goes through all groups in three passes; a cell has the median of their medians, and in "
           "brackets the least and the most of all rounds." % (datetime.date.today().isoformat(), watch.elapsed()))
    yield ""
    yield "- The machine: %s." % machine_of(load)
    yield "- %s" % machine.told()
    yield ("- The programs: `kv_bench` and `kvbucket`, proved and built by LLVM with %s. Times are of the system's monotonic "
           "clock, unless they are called processor time." % (kit.version() or "an unknown kit"))
    yield ("- Values of 16 bytes; keys of 3 to 8, and five entries of a key kept, but one where threads read all keys; of lines keys of 14 to 19, and one entry. A pass "
           "has three rounds, one of followers, of Rust's own crates and where memory is weighed; more than 100,000 keys, and the delays, have all their "
           "rounds in the first pass. What is read back is checked: a wrong answer ends the bench.")
    yield ("- A bucket stores at most 1,000,000 writes, and a full one takes none. So what is written to while it is measured has fewer "
           "keys in the last column, as its cells tell.")
    yield "- A bucket of threads has a place for each of the most readers or followers that its table names."
    if left_out:
        yield "- Left out: %s." % "; ".join(left_out)
    yield ("- Not claimed: that it is so on another machine, with other keys or values, or beside other work. No proof "
           "speaks of time or memory. Where no other is named, the maps, the lock and the channels are the kit's, and not those of Rust's "
           "library; Rust's own crates, which are faster at most of it, have tables of their own, by rustc's release build. Where there "
           "are more threads than processors, they share them.")
    yield "- What a call takes from C, and what the packages for Rust and Go add, is [measured apart](layers.md), and what a journal file costs [too](journal.md)."
    yield ""
    yield "All figures are in [figures.tsv](figures.tsv), drawn by `scripts/charts.py` where matplotlib is there."
    for group, title, heading, how in GROUPS:
        found = figures_of(group, figures)
        if found:
            yield from ("", "## " + title, "", how, "")
            yield from table(found, heading)
            for chart in charts.get(group, ()):
                yield from ("", "![%s](%s)" % (title, chart))


# The whole.


def write(folder: str, name: str, lines: Iterable[str]) -> None:
    with open(os.path.join(folder, name), "w", encoding="utf-8") as file:
        file.write("".join(line + "\n" for line in lines))


# Debian's Python may have matplotlib where another one, which comes first, has not.
PYTHONS = tuple(dict.fromkeys((sys.executable, "/usr/bin/python3")))


def has_matplotlib() -> bool:
    return any(subprocess.run([python, "-c", "import matplotlib"], capture_output=True).returncode == 0 for python in PYTHONS if os.path.exists(python))


def drawn(folder: str) -> dict[str, list[str]]:
    """The charts that were drawn, by group: none where no Python here has matplotlib."""
    for python in PYTHONS:
        done = subprocess.run([python, os.path.join(top, "scripts", "charts.py"), folder], capture_output=True, text=True)
        if done.returncode == 0:
            break
    else:
        say("no charts, and any that are there are of an earlier run: " + (done.stderr.strip().split("\n")[-1] or "scripts/charts.py failed"))
    charts: dict[str, list[str]] = collections.defaultdict(list)
    for line in done.stdout.splitlines():
        group, name = line.split("\t")
        charts[group].append(name)
    return charts


def tell(figures: Any, folder: str, load: Any, machine: Any, left_out: Any) -> Any:
    write(folder, NAME, lines_of(figures))
    charts = drawn(folder)
    write(folder, "README.md", page(figures, load, machine, left_out, charts))
    return charts


def peers_program(left_out: list[str]) -> Optional[str]:
    """The program of peers/, or None where it can't be built, which is told."""
    say("builds what measures Rust's own crates")
    try:
        return peers.built()
    except (peers.Missing, OSError) as error:
        left_out.append("Rust's own crates (%s)" % error)
        return None


class Bench:
    """A whole run: the programs, what was found, and what was left out."""

    def __init__(self, bench: str, kvbucket: str) -> None:
        self.left_out: list[str] = []
        self.found: list[Figure] = []
        self.bench, self.peers = bench, peers_program(self.left_out)
        watch.begin()
        self.machine = Machine(lambda: map_get(bench))
        self.lines: Optional[Lines] = None
        if os.access(kvbucket, os.X_OK):
            say("lines, after %d s" % watch.elapsed())
            self.lines = Lines(kvbucket, SIZES, GETS, PUTS)
        else:
            self.left_out.append("lines, as kvbucket was not built")

    def leave_out(self, what: str, minutes: str) -> None:
        self.left_out.append("%s, as the %s minutes were over" % (what, minutes))

    def round_of_lines(self) -> None:
        if self.lines is None:
            return
        if watch.of_bucket() > BUDGET:
            self.leave_out("a round of lines", "five")
        else:
            self.lines.round(self.machine)

    def of_bucket(self, it: Run) -> None:
        if watch.of_bucket() > BUDGET:
            self.leave_out("%s at %s, once" % (it.group, in_digits(it.keys)), "five")
            return
        self.machine.wait()
        self.found += (in_large_pages if it.by == IN_PAGES else measured)(self.bench, it.group, it.keys, it.rounds)

    def of_peers(self, it: Run) -> None:
        if self.peers is None:
            return
        if watch.of_peers > BUDGET_OF_PEERS:
            self.leave_out("%s of Rust's own crates at %s, once" % (it.group, in_digits(it.keys)), "two")
            return
        began = watch.elapsed()
        self.machine.wait()
        self.found += measured(self.peers, it.group, it.keys, it.rounds)
        watch.of_peers += watch.elapsed() - began

    def run(self) -> None:
        runs = [it for number in range(PASSES) for it in runs_of(number)]
        for place, it in enumerate(runs):
            # So many of the runs as there are rounds of lines begin with one.
            if place * LINE_ROUNDS // len(runs) != (place - 1) * LINE_ROUNDS // len(runs):
                self.round_of_lines()
            (self.of_peers if it.by == OF_PEERS else self.of_bucket)(it)

    def figures(self) -> list[Figure]:
        of_passes = grouped(self.found, lambda it: (it.group, it.what, it.of, it.others, it.keys)).values()
        return [*map(merged, of_passes), *(self.lines.figures() if self.lines else ())]


def whole(bench: str, kvbucket: str, folder: str) -> None:
    load = os.getloadavg()[0]
    it = Bench(bench, kvbucket)
    it.run()
    figures = it.figures()
    os.makedirs(folder, exist_ok=True)
    tell(figures, folder, load, it.machine, it.left_out)
    if folder == compared.FOLDER:
        compared.write(figures)
    say("%d figures, %d s, %d s of these for Rust's own crates" % (len(figures), watch.elapsed(), watch.of_peers))


def main() -> None:
    bench, kvbucket, *folder = sys.argv[1:]
    whole(bench, kvbucket, *(folder or [compared.FOLDER]))


if __name__ == "__main__":
    main()
