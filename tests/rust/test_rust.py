"""The package for Rust in rust/, with the cargo that is on the path, or else Debian's: its tests and the examples of its page, the
worked scripts, linters where they are installed, and a follower in tokio where Debian's package of that is there. Nothing asks the
network, and what is built stays in out/rust."""
import contextlib
import glob
import os
import re
import shutil
import subprocess
import unittest

from tests import top
from tests.driven import Driven
from tests.replay import replay
from tests.worked import scripts

CARGO = shutil.which("cargo", path=os.environ.get("PATH", "") + ":/usr/bin")
PACKAGE, TARGET = os.path.join(top, "rust"), os.path.join(top, "out", "rust")
# Where Debian puts the sources of packages.
SOURCES = "/usr/share/cargo/registry"
OF_DEBIAN = ["--config", 'source.crates-io.replace-with="debian"', "--config", 'source.debian.directory="%s"' % SOURCES]
LIMIT = 400


def environment(**more: str) -> dict[str, str]:
    library = os.path.join(os.path.dirname(os.path.abspath(os.environ["VILGOUED_LIB"])), "libvilgoued.a")
    return dict(os.environ, VILGOUED_LIB=library, CARGO_TARGET_DIR=TARGET, CARGO_NET_OFFLINE="true", CARGO_TERM_COLOR="never", **more)


def unlock(folder: str) -> None:
    """Takes a folder's Cargo.lock away: another cargo can't read it, or this one that of another."""
    with contextlib.suppress(FileNotFoundError):
        os.unlink(os.path.join(folder, "Cargo.lock"))


def cargo(*words: str, folder: str = PACKAGE, **more: str) -> str:
    """What cargo prints, which has to succeed."""
    assert CARGO
    unlock(folder)
    try:
        done = subprocess.run([CARGO, *words], cwd=folder, env=environment(**more), stdin=subprocess.DEVNULL, stdout=subprocess.PIPE,
                              stderr=subprocess.STDOUT, text=True, timeout=LIMIT)
    finally:
        unlock(folder)
    if done.returncode != 0:
        raise AssertionError("cargo %s: status %d\n%s" % (" ".join(words), done.returncode, done.stdout))
    return done.stdout


def has(command: str) -> bool:
    """Whether cargo has this command."""
    asked = [CARGO or "", command, "--version"]
    return subprocess.run(asked, env=environment(), stdin=subprocess.DEVNULL, capture_output=True, timeout=LIMIT).returncode == 0


@unittest.skipUnless(CARGO, "there is no cargo: apt-get install cargo")
class Rust(unittest.TestCase):
    def test_its_tests_and_examples_pass(self) -> None:
        told = cargo("test", "--offline")
        print("\n".join(line for line in told.splitlines() if line.startswith("test result")))
        self.assertRegex(told, r"Page .*ok", "the examples of the page are not among them")

    def test_each_script_has_the_answers_of_the_program(self) -> None:
        cargo("build", "--offline", "--examples")
        for script in scripts():
            if not script.is_race:
                program = os.path.join(TARGET, "debug", "examples", "lines")
                with self.subTest(script.name), Driven(program, **script.settings) as bucket:
                    self.assertEqual(replay(bucket, script), script.output.decode().splitlines())

    def test_what_is_unsafe_stands_in_one_module_each_with_its_reason(self) -> None:
        for path in sorted(glob.glob(os.path.join(PACKAGE, "src", "*.rs"))):
            with open(path, encoding="utf-8") as file, self.subTest(os.path.basename(path)):
                lines = file.read().splitlines()
                unsafe = [at for at, line in enumerate(lines) if re.search(r"\bunsafe (\{|impl )", line)]
                self.assertEqual(bool(unsafe), path.endswith("sys.rs"))
                for at in unsafe:
                    self.assertRegex("\n".join(lines[max(0, at - 4):at + 1]), "SAFETY: ", "line %d" % (at + 1))

    def test_clippy_finds_nothing(self) -> None:
        if not has("clippy"):
            self.skipTest("clippy is not installed: apt-get install rust-clippy")
        cargo("clippy", "--offline", "--all-targets", "--", "-D", "warnings")

    def test_rustdoc_finds_nothing(self) -> None:
        cargo("doc", "--offline", "--no-deps", RUSTDOCFLAGS="-D warnings")

    @unittest.skipUnless(glob.glob(os.path.join(SOURCES, "tokio-1.*")), "there is no tokio: apt-get install librust-tokio-dev")
    def test_a_follower_is_awaited_in_tokio(self) -> None:
        told = cargo("test", "--offline", *OF_DEBIAN, folder=os.path.join(top, "tests", "rust", "tokio"))
        self.assertIn("3 passed; 0 failed", told)

    def test_what_calls_take_is_told(self) -> None:
        print(cargo("run", "--offline", "--quiet", "--release", "--example", "costs"), end="")


if __name__ == "__main__":
    unittest.main()
