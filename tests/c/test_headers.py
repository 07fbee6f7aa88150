"""The headers of libvilgoued, which C and C++ take, and the names that the library in the folder of VILGOUED_LIB has and wants."""
import os, shutil, unittest

from scripts.objects import OWN
from tests.c.compiling import C, CXX, INCLUDE, STRICT, libraries, ran
from tests.pages.examples import lines_of

HEADERS = [os.path.join(INCLUDE, name) for name in ("vilgoued.h", "vilgoued_shared.h")]


class Headers(unittest.TestCase):
    def test_it_is_c99(self) -> None:
        ran(C, "-std=c99", *STRICT, "-fsyntax-only", "-x", "c", *HEADERS)

    @unittest.skipUnless(shutil.which(CXX), "there is no %s: apt-get install g++" % CXX)
    def test_it_is_cpp(self) -> None:
        ran(CXX, "-std=c++11", *STRICT, "-fsyntax-only", "-x", "c++", *HEADERS)


class Names(unittest.TestCase):
    def names(self, kind: str, *options: str, library: str = "libvilgoued.so") -> set[tuple[str, str]]:
        """The names of one kind that a library tells, without the versions of those that it wants, each with the member that tells it."""
        told = (line.split() for line in ran("nm", "-A", *options, os.path.join(libraries, library)).splitlines())
        return {(words[-1].split("@")[0], words[0].split(":")[1]) for words in told if len(words) > 2 and words[-2] == kind}

    def wanted(self, by_the_shell: bool) -> set[str]:
        return {name for name, member in self.names("U", "-u", library="libvilgoued.a") if (member in OWN) == by_the_shell}

    def test_it_has_those_of_the_headers(self) -> None:
        self.assertEqual(sorted(name for name, _ in self.names("T", "-D", "--defined-only")), lines_of("tests/c/exported"))

    def test_what_is_proved_wants_nothing_but_memory(self) -> None:
        """A runtime, threads or locks would show here."""
        heap = {"rattle_alloc", "rattle_dealloc", "rattle_realloc"}
        self.assertLessEqual(self.wanted(by_the_shell=False), {*lines_of("tests/c/undefined"), *heap})

    def test_the_shell_wants_threads_a_clock_and_descriptors_too(self) -> None:
        own = {*lines_of("tests/c/undefined"), *lines_of("tests/c/exported")}
        self.assertLessEqual(self.wanted(by_the_shell=True) - own, set(lines_of("tests/c/undefined-shared")))


if __name__ == "__main__":
    unittest.main()
