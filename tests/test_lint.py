"""Linters over every shell script, every Python file, and every C file and header of the repository, each where it is installed; and
that each module of scripts and tests does nothing when it is imported."""
import collections, os, shutil, subprocess, sys, unittest
from typing import Optional

from tests import top

# How far the types are looked at. A class of setup.py stands on one of a package that has no types, or is not there.
MYPY = {"python/setup.py": ["--strict", "--allow-subclassing-any"], "": ["--strict"]}
# Annex K of C11, which this check asks for, is in no C library of Linux.
CLANG_CHECKS = "-*,clang-analyzer-*,-clang-analyzer-security.insecureAPI.DeprecatedOrUnsafeBufferHandling"
# What run.py gives to modules of tests, here with nothing behind it.
GIVEN = dict.fromkeys(("KVBUCKET", "BENCH", "TESTS", "VILGOUED_LIB", "VILGOUED_LIBRARY", "VILGOUED_SERVER", "NATS_SERVER"), "")
# What a Python is told in a folder that is none of the repository's; the first word is the repository.
IMPORT = """
import importlib, os, sys
sys.path.insert(0, sys.argv.pop(1))
names, sys.argv[1:] = sys.argv[1:], []
for name in names:
    try:
        importlib.import_module(name)
    except ModuleNotFoundError as missing:
        if missing.name != "matplotlib":
            raise
"""
LANGUAGES = {".sh": "shell", ".py": "python", ".c": "c", ".h": "c"}


def tracked() -> list[str]:
    """The files of the repository, and new ones that git does not ignore."""
    asked = ["git", "ls-files", "-z", "--cached", "--others", "--exclude-standard"]
    told = subprocess.run(asked, cwd=top, stdin=subprocess.DEVNULL, capture_output=True, check=True)
    paths = sorted(set(os.fsdecode(told.stdout).split("\0")))
    return [path for path in paths if os.path.isfile(os.path.join(top, path))]


def language_of(path: str) -> Optional[str]:
    """What a file is written in: its ending says it, or its first line where it has none."""
    ending = os.path.splitext(path)[1]
    if ending or not os.access(os.path.join(top, path), os.X_OK):
        return LANGUAGES.get(ending)
    with open(os.path.join(top, path), "rb") as file:
        first = file.readline()
    return "python" if b"python" in first else "shell" if first.startswith(b"#!") and b"sh" in first else None


class Lint(unittest.TestCase):
    def setUp(self) -> None:
        self.files = collections.defaultdict(list)
        for path in tracked():
            self.files[language_of(path)].append(path)

    def finds_nothing(self, command: str, *options: str) -> None:
        """Runs a linter, which is of Debian's package of its name."""
        program = shutil.which(command)
        if program is None:
            self.skipTest("%s is not installed: apt-get install %s" % (command, command))
        done = subprocess.run([program, *options], cwd=top, env=dict(os.environ, MYPYPATH="python"), stdin=subprocess.DEVNULL,
                              stdout=subprocess.PIPE, stderr=subprocess.STDOUT, text=True)
        if done.returncode != 0:
            self.fail("%s found:\n%s" % (command, done.stdout))

    def test_shellcheck_finds_nothing(self) -> None:
        self.finds_nothing("shellcheck", *self.files["shell"])

    def test_pyflakes_finds_nothing(self) -> None:
        self.finds_nothing("pyflakes3", *self.files["python"])

    def test_mypy_finds_nothing(self) -> None:
        # Which other packages are installed, and which have types, is not known everywhere.
        options = ["--no-error-summary", "--cache-dir=/dev/null", "--scripts-are-modules", "--ignore-missing-imports"]
        rest = set(self.files["python"])
        for folder, how in MYPY.items():
            paths = sorted(path for path in rest if path.startswith(folder))
            rest.difference_update(paths)
            if paths:
                self.finds_nothing("mypy", *options, *how, *paths)

    def test_cppcheck_finds_nothing(self) -> None:
        options = ["--quiet", "--error-exitcode=1", "--enable=warning,style,performance,portability", "--std=c11", "--inline-suppr"]
        self.finds_nothing("cppcheck", *options, *self.included(), *self.files["c"])

    def test_clang_tidy_finds_nothing(self) -> None:
        options = ["--quiet", "--warnings-as-errors=*", "--checks=" + CLANG_CHECKS]
        self.finds_nothing("clang-tidy", *options, *self.files["c"], "--", "-std=gnu11", *self.included())

    def included(self) -> list[str]:
        """The folders of the headers, as options of a C compiler."""
        return sorted({"-I" + os.path.dirname(path) for path in self.files["c"] if path.endswith(".h")})


class Modules(unittest.TestCase):
    def test_an_import_does_nothing(self) -> None:
        names = [os.path.splitext(path)[0].replace("/", ".") for path in tracked() if path.startswith(("scripts/", "tests/")) and path.endswith(".py")]
        done = subprocess.run([sys.executable, "-I", "-B", "-c", IMPORT, top, *names], cwd="/", env=GIVEN, stdin=subprocess.DEVNULL,
                              stdout=subprocess.PIPE, stderr=subprocess.STDOUT, text=True)
        if (done.returncode, done.stdout) != (0, ""):
            self.fail("status %d\n%s" % (done.returncode, done.stdout))


if __name__ == "__main__":
    unittest.main()
