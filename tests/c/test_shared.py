"""vilgoued_shared.h, the shell in C by which threads share a bucket, as programs in C use it: each function and each refusal; writers,
readers and followers at once; sleeping, waking and closing; each request for memory refused; all of the same under sanitizers and
valgrind where they are installed. What calls take is printed."""
import os, shutil, unittest

from tests.c.compiling import C, CHECKED, CXX, FILES, INCLUDE, OPENING, SHELL, STATIC, STRICT, ProgramTest, here, ran
from tests.pages.examples import blocks, lines_of

# What is proved is not built with the sanitizer of threads: that sees the handles which each call uses, and in the shared library
# nothing, not even that a count of owners orders a free behind the last read.
RACES = ["-g", "-O1", "-fsanitize=thread", "-include", os.path.join(here, "touching.h")]
NOT_SEEN = os.path.join(here, "races-not-seen")
# What is run where something looks on, and the word that tells it so. None of it is left out or made less: of the threads, which take
# longest, sanitizers run all in 5 s, and valgrind in 25 s of one processor.
PROGRAMS = ("shared_use", "shared_watchers", "shared_threads", "shared_sweep", "shared_syncs")


class Shell(ProgramTest):
    def test_compilers_have_nothing_to_say(self) -> None:
        for compiler in filter(shutil.which, sorted({C, "gcc", "clang"})):
            for source in (*SHELL, OPENING, *FILES):
                with self.subTest(compiler, source=source):
                    ran(compiler, "-std=c11", "-O2", "-pthread", *STRICT, "-I" + INCLUDE, "-c", source, "-o", os.path.join(self.folder, "it.o"))

    @unittest.skipUnless(shutil.which(CXX), "there is no %s: apt-get install g++" % CXX)
    def test_cpp_calls_it(self) -> None:
        program = os.path.join(self.folder, "shared_cpp")
        ran(CXX, "-std=c++11", "-Wall", "-Wextra", "-Werror", "-I" + INCLUDE, os.path.join(here, "shared_cpp.cpp"), *STATIC, "-o", program,
            "-pthread")
        ran(program)


class Programs(ProgramTest):
    def words(self, name: str, looking_on: str) -> list[str]:
        return {"shared_threads": [looking_on], "shared_syncs": [self.folder]}.get(name, [])

    def beside_all_names(self) -> list[str]:
        """A shared library that tells those names too which only the shell calls."""
        ran(C, "-shared", "-Wl,--whole-archive", *STATIC, "-Wl,--no-whole-archive", "-pthread", "-o",
            os.path.join(self.folder, "libvilgoued.so"))
        return ["-L" + self.folder, "-lvilgoued", "-Wl,-rpath," + self.folder]

    def test_each_function_and_each_refusal_is_as_the_header_says(self) -> None:
        ran(self.built("shared_use", "-O2"))

    def test_watchers_hand_each_item_to_their_function(self) -> None:
        ran(self.built("shared_watchers", "-O2"))

    def test_four_writers_four_readers_and_four_followers_lose_nothing(self) -> None:
        print(ran(self.built("shared_threads", "-O2")), end="")

    def test_each_request_for_memory_may_be_refused(self) -> None:
        print(ran(self.built("shared_sweep", "-O2")), end="")

    def test_writes_that_wait_for_one_sync_are_synced_together(self) -> None:
        print(ran(self.built("shared_syncs", "-O2"), self.folder), end="")

    def test_the_example_says_what_it_is_to_say(self) -> None:
        self.assertEqual(ran(self.built("shared_example", "-O2")).splitlines(), lines_of("tests/c/shared_example.stdout"))

    def test_what_calls_take_is_told(self) -> None:
        print(ran(self.built("shared_costs", "-O2")), end="")

    def test_sanitizers_of_addresses_and_undefined_behaviour_find_nothing(self) -> None:
        self.needs(*CHECKED)
        for name in PROGRAMS:
            with self.subTest(name):
                ran(self.built(name, *SHELL, *CHECKED), *self.words(name, "sanitizer"))

    def test_the_sanitizer_of_threads_finds_nothing(self) -> None:
        self.needs("-fsanitize=thread")
        library = self.beside_all_names()
        for name in PROGRAMS:
            with self.subTest(name):
                ran(self.built(name, *SHELL, *RACES, beside=library), *self.words(name, "sanitizer"),
                    TSAN_OPTIONS="suppressions=%s halt_on_error=1" % NOT_SEEN)

    @unittest.skipUnless(shutil.which("valgrind"), "valgrind is not installed: apt-get install valgrind")
    def test_valgrind_finds_nothing(self) -> None:
        for name in PROGRAMS:
            with self.subTest(name):
                ran("valgrind", "-q", "--leak-check=full", "--error-exitcode=9", "--fair-sched=yes", self.built(name, "-O2", "-g"),
                    *self.words(name, "valgrind"))


class Quoted(unittest.TestCase):
    def test_the_page_quotes_the_example(self) -> None:
        self.assertIn(lines_of("tests/c/shared_example.c"), blocks("docs/c.md", "c"))
        self.assertIn(lines_of("tests/c/shared_example.stdout"), blocks("docs/c.md", "text"))

    def test_a_watcher_on_a_thread_of_its_own_takes_twenty_lines(self) -> None:
        self.assertLessEqual(len(lines_of("tests/c/shared_example.c")), 20)
        python = [example for example in blocks("docs/python.md", "python") if "import threading" in example]
        self.assertTrue(python and all(len(example) <= 20 for example in python))


if __name__ == "__main__":
    unittest.main()
