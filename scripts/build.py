#!/usr/bin/env python3
"""build.py [PROGRAM]: proves and builds a program, kvbucket where none is named, and every library that it stands on, as many
crates side by side as there are processors, and tells on standard error which are being proved, how many are done, and how
long it has taken. What was proved stays in the crates' folders out/, so a build that was interrupted goes on where it was.
A crate begins when those that it stands on are done, and gets its share of the processors: where the crates stand one on
another, one has them all."""
import concurrent.futures, os, re, signal, subprocess, sys, time
from typing import Any, Collection

if __name__ == "__main__":
    sys.dont_write_bytecode = True
    sys.path.insert(0, os.path.dirname(os.path.dirname(os.path.realpath(__file__))))
from scripts import current, kit, top


def processors() -> int:
    return len(os.sched_getaffinity(0))


def memory() -> int:
    """The bytes that programs can get."""
    with open("/proc/meminfo", encoding="ascii") as told:
        return next(1024 * int(line.split()[1]) for line in told if line.startswith("MemAvailable:"))


def log_of(crate: Any) -> str:
    return os.path.join(crate.folder, "out", "build.log")


def so_far(crate: Any) -> str:
    """How many of a crate's functions are proved, as the prover last said, or nothing."""
    try:
        with open(log_of(crate), encoding="utf-8", errors="replace") as log:
            told = re.findall(r"^so far: (\d+) of (\d+) functions", log.read(), re.M)
    except OSError:
        told = []
    return " (%s of %s functions)" % told[-1] if told else ""


def show(path: str) -> None:
    with open(path, encoding="utf-8", errors="replace") as log:
        sys.stderr.write("".join(log.readlines()[-20:]))


class Build:
    """The build of a program: which of the crates that it stands on are proved, which are being proved, and which failed."""

    def __init__(self, name: str, crates: Collection[Any]) -> None:
        self.name, self.crates = name, crates
        self.done = [it for it in crates if it.is_built()]
        self.running: dict[Any, int] = {}
        self.failed: list[Any] = []
        self.started = time.monotonic()

    def say(self, text: str) -> None:
        print("%s: %s" % (self.name, text), file=sys.stderr, flush=True)

    def elapsed(self) -> str:
        seconds = int(time.monotonic() - self.started)
        return "%d min %02d s" % divmod(seconds, 60) if seconds >= 60 else "%d s" % seconds

    def blame(self, log: str, why: str) -> None:
        """Shows the last lines of a log."""
        show(log)
        self.say("%s; all that was said of it is in %s" % (why, os.path.relpath(log, top)))

    def ready(self) -> list[Any]:
        waiting = [it for it in self.crates if it not in self.done and it not in self.running and it not in self.failed]
        return [it for it in waiting if all(dep in self.done for dep in it.below())]

    def jobs(self, beside: int) -> int:
        """The processors for a crate that is begun with so many others, where there are 3 GB for each."""
        free = processors() - sum(self.running.values())
        return max(1, min(free // beside, memory() // 3_000_000_000, 8))

    def tell(self, proving: str) -> None:
        self.say("proving %s; %d of %d crates done; %s" % (proving, len(self.done), len(self.crates) + 1, self.elapsed()))

    def prove_all(self) -> bool:
        """Proves each crate below the program, and tells whether all are proved."""
        with concurrent.futures.ThreadPoolExecutor(processors()) as pool:
            runs, told = {}, 0.0
            while len(self.done) < len(self.crates):
                ready = self.ready() if not self.failed else []
                for at, crate in enumerate(ready):
                    if len(self.running) < processors():
                        self.running[crate] = self.jobs(len(ready) - at)
                        os.makedirs(os.path.dirname(log_of(crate)), exist_ok=True)
                        crate.out = open(log_of(crate), "w", encoding="utf-8")
                        runs[pool.submit(prove, crate, self.running[crate])] = crate
                        told = 0.0
                if not runs:
                    break
                if time.monotonic() - told > 60:
                    self.tell(", ".join(it.name + so_far(it) for it in self.running) or "nothing more")
                    told = time.monotonic()
                ended, _ = concurrent.futures.wait(runs, timeout=5, return_when=concurrent.futures.FIRST_COMPLETED)
                for run in ended:
                    crate = runs.pop(run)
                    del self.running[crate]
                    (self.failed if run.result() else self.done).append(crate)
        for crate in self.failed:
            self.blame(log_of(crate), "%s was not proved" % crate.name)
        return not self.failed


def prove(crate: Any, jobs: int) -> Any:
    """Proves a library, and keeps what the prover says of it in its folder out/, as the file build.log."""
    with crate.out:
        return crate.build_rlib(["--jobs", str(jobs)], anew=False)


def arguments(folder: str) -> list[str]:
    """The arguments that the program is run with once, as its crate's file says, if it has one."""
    path = os.path.join(folder, "args")
    if not os.path.exists(path):
        return []
    with open(path, encoding="utf-8") as words:
        return ["--", *words.read().split("\n")[:-1]]


def link(folder: str, log: str) -> bool:
    """Proves and links the program itself, by rt, and runs it once on nothing."""
    with open(log, "w", encoding="utf-8") as file:
        done = subprocess.run(["rt", "run", *arguments(folder)], cwd=folder, stdin=subprocess.DEVNULL, stdout=file, stderr=file)
    return done.returncode == 0


def main() -> None:
    name = sys.argv[1] if len(sys.argv) > 1 else "kvbucket"
    program = current.path_of(name)
    # With Python's own handler an interrupt would wait for the checks that run.
    signal.signal(signal.SIGINT, signal.SIG_DFL)
    os.chdir(top)
    if kit.command() is None:
        print("%s: the Rattle kit's command rt is not on the path: install the kit, whose prover a build needs" % name, file=sys.stderr)
        sys.exit(2)
    whole = kit.crate(name)
    before = current.sources(name)
    with kit.held(whole):
        build = Build(name, list(whole.below()))
        if not build.prove_all():
            sys.exit(2)
    build.tell(name)
    os.makedirs(os.path.dirname(program), exist_ok=True)
    if not link(whole.folder, program + ".log") or not os.path.exists(program):
        build.blame(program + ".log", "the program was not built")
        sys.exit(2)
    if not current.keep(name, before):
        build.say("the sources changed while they were proved: run it again")
        sys.exit(2)
    build.say("proved and built: %d crates, %s" % (len(build.crates) + 1, build.elapsed()))


if __name__ == "__main__":
    main()
