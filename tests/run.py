#!/usr/bin/env python3
"""run.py PART [--program PROGRAM] [--bench BENCH] [--library FOLDER] [--tests TESTS]: runs a part of the tests. The last line is
'N passed, M failed', which counts each test, or where a test has subtests each of these. Where tests were left out, the line before it
is 'K left out', with the reasons.

PROGRAM is a built kvbucket, and BENCH a built kv_bench, and where none is named the one in its crate; FOLDER is where libvilgoued lies,
or else lib/, where ./library puts it; TESTS is a proved test program, crates/NAME/out/NAME_tests, whose requests for memory the part
`refusals` refuses. The part `lint` runs those linters that are installed. The part `server` starts a nats-server on loopback with its store in a temporary folder, and ends it; where there is none, and Debian's
package is not to be had, all of it is left out. How much is run, other parts read from variables: CRATES, RACES, KILLS, WRITES, MOST and JOBS."""
import argparse, collections, contextlib, os, sys, tempfile, unittest
from typing import Any, Iterator, Sequence

if __name__ == "__main__":
    sys.dont_write_bytecode = True
    sys.path.insert(0, os.path.dirname(os.path.dirname(os.path.realpath(__file__))))
from scripts import current, top

# The modules of each part.
PARTS = {
    "lint": ["tests.test_lint"],
    "release": ["tests.test_release", "tests.test_taking"],
    "bench": ["tests.bench.test_words", "tests.bench.test_journal_costs", "tests.bench.test_calm", "tests.bench.test_passes", "tests.bench.test_compared", "tests.bench.test_figures",
              "tests.bench.test_charts"],
    "arguments": ["tests.test_arguments", "tests.test_full_disk", "tests.test_unreadable_input"],
    "streams": ["tests.test_streams"],
    "compactions": ["tests.test_compactions"],
    "races": ["tests.test_races"],
    "journal": ["tests.test_journal", "tests.test_program_journal", "tests.test_system_files"],
    "scripts": ["tests.test_scripts"],
    "refusals": ["tests.memory.test_refusals"],
    "wrong-bodies": ["tests.test_wrong_bodies"],
    "library": ["tests.c.test_headers", "tests.c.test_library", "tests.c.test_shared", "tests.python.test_vilgoued", "tests.python.test_batches",
                "tests.python.test_following", "tests.python.test_mirrors", "tests.python.test_lagging", "tests.python.test_files",
                "tests.python.test_package", "tests.python.test_page", "tests.python.test_scripts", "tests.python.test_example", "tests.python.test_sanitizers"],
    "rust": ["tests.rust.test_rust"],
    "go": ["tests.go.test_go"],
    "server": ["tests.python.test_vilgoued", "tests.python.test_following", "tests.python.test_mirrors", "tests.python.test_lagging",
               "tests.python.test_page", "tests.server.test_scripts", "tests.server.test_moves", "tests.server.test_meanwhile",
               "tests.server.test_secure"],
    "quoted": ["tests.pages.test_quoted"],
    "pages": ["tests.pages.test_pages", "tests.pages.test_man", "tests.pages.test_contracts", "tests.pages.test_layers"],
}
# Those that run the program, and those that stand on the library.
RUN, LINKED = {"arguments", "streams", "compactions", "races", "journal", "scripts", "pages"}, {"library", "rust", "go"}


def missing(part: str) -> str:
    """What a part can't do without and is not there, in one sentence, or nothing."""
    program = os.environ.get("KVBUCKET") or current.path_of(current.PROGRAM)
    if part in RUN and not os.path.exists(program):
        return "there is no program %s: run ./kvbucket --build, or name one by --program" % program
    if part in LINKED and not os.path.exists(os.environ["VILGOUED_LIB"]):
        return "there is no library %s: run ./library, or name its folder by --library" % os.environ["VILGOUED_LIB"]
    return ""


class Counts(unittest.TextTestResult):
    """Counts the tests that passed, and in place of a test that has subtests these."""

    def __init__(self, *arguments: Any, **named: Any) -> None:
        super().__init__(*arguments, **named)
        self.passed = self.of_test = 0

    def startTest(self, test: unittest.TestCase) -> None:
        super().startTest(test)
        self.of_test = 0

    def addSubTest(self, test: Any, subtest: Any, error: Any) -> None:
        super().addSubTest(test, subtest, error)
        self.of_test += 1
        self.passed += error is None

    def addSuccess(self, test: unittest.TestCase) -> None:
        super().addSuccess(test)
        self.passed += not self.of_test

    def addExpectedFailure(self, test: unittest.TestCase, error: Any) -> None:
        super().addExpectedFailure(test, error)
        self.passed += 1

    def failed(self) -> int:
        return len(self.failures) + len(self.errors) + len(self.unexpectedSuccesses)


@contextlib.contextmanager
def nats_server() -> Iterator[bool]:
    """Starts a server for the tests on one, and tells whether there is one."""
    from tests.server import running
    with tempfile.TemporaryDirectory() as folder:
        program = running.program(folder)
        if program is None:
            yield False
            return
        os.environ["NATS_SERVER"] = program
        with running.Server(program) as server:
            os.environ["VILGOUED_SERVER"] = server.url
            yield True


def run(part: str) -> tuple[int, int, list[str]]:
    """Runs a part, and tells how many tests passed and failed, and why others were left out."""
    tests = unittest.defaultTestLoader.loadTestsFromNames(PARTS[part])
    result = unittest.TextTestRunner(stream=sys.stdout, verbosity=2, resultclass=Counts).run(tests)
    assert isinstance(result, Counts)
    for test, reason in result.skipped:
        print("left out: %s: %s" % (test, reason))
    return result.passed, result.failed(), [reason for _, reason in result.skipped]


def told(left_out: Sequence[str]) -> str:
    """How many tests were left out, and for which reasons."""
    reasons = ("%s (%d)" % it for it in collections.Counter(left_out).items())
    return "%d left out: %s" % (len(left_out), "; ".join(reasons))


def main() -> None:
    parser = argparse.ArgumentParser(description=__doc__, formatter_class=argparse.RawDescriptionHelpFormatter)
    parser.add_argument("part", choices=PARTS, metavar="PART", help=", ".join(PARTS))
    parser.add_argument("--program")
    parser.add_argument("--bench")
    parser.add_argument("--library", metavar="FOLDER", default=os.path.join(top, "lib"))
    parser.add_argument("--tests")
    asked = parser.parse_args()
    for name, path in (("KVBUCKET", asked.program), ("BENCH", asked.bench), ("TESTS", asked.tests)):
        if path:
            os.environ[name] = os.path.abspath(path)
    os.environ.setdefault("VILGOUED_LIB", os.path.join(os.path.abspath(asked.library), "libvilgoued.so"))
    if missing(asked.part):
        sys.exit("run.py: %s\n0 passed, 1 failed" % missing(asked.part))
    with nats_server() if asked.part == "server" else contextlib.nullcontext(True) as is_there:
        passed, failed, left_out = run(asked.part) if is_there else (0, 0, ["there is no nats-server: apt-get install nats-server"])
    if left_out:
        print(told(left_out))
    print("%d passed, %d failed" % (passed, failed))
    sys.exit(failed > 0 or passed == 0 and not left_out)


if __name__ == "__main__":
    main()
