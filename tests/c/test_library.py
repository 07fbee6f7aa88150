"""libvilgoued, in the folder of VILGOUED_LIB, as programs in C use it: they call each function, on threads too, and with each request
for memory refused; with sanitizers and valgrind where they are installed."""
import shutil, unittest

from tests.c.compiling import CHECKED, FILES, ProgramTest, ran
from tests.pages.examples import first_block, lines_of


class Programs(ProgramTest):
    def test_each_function_and_each_code_is_as_the_header_says(self) -> None:
        ran(self.built("use", "-O2"))

    def test_one_writer_three_readers_and_a_feed_lose_nothing(self) -> None:
        ran(self.built("threads", "-O2"))

    def test_each_request_for_memory_may_be_refused(self) -> None:
        ran(self.built("sweep", "-O2"), self.folder)

    def test_a_bucket_with_a_file_comes_again(self) -> None:
        ran(self.built("files", "-O2"), self.folder)

    def test_each_call_of_a_file_may_fail(self) -> None:
        ran(self.built("failing", "-O2"), self.folder)

    def test_the_example_says_what_it_is_to_say(self) -> None:
        self.assertEqual(ran(self.built("example", "-O2")).splitlines(), lines_of("tests/c/example.stdout"))

    def test_the_example_of_a_batch_says_what_it_is_to_say(self) -> None:
        self.assertEqual(ran(self.built("batch_example", "-O2")).splitlines(), lines_of("tests/c/batch_example.stdout"))

    def test_sanitizers_find_nothing(self) -> None:
        self.needs(*CHECKED)
        for name in "use", "threads", "sweep", "files", "failing":
            with self.subTest(name):
                ran(self.built(name, *(FILES if name in ("files", "failing") else []), *CHECKED), self.folder)

    @unittest.skipUnless(shutil.which("valgrind"), "valgrind is not installed: apt-get install valgrind")
    def test_valgrind_finds_nothing(self) -> None:
        for name in "use", "threads", "sweep", "files", "failing":
            with self.subTest(name):
                ran("valgrind", "-q", "--leak-check=full", "--error-exitcode=9", "--fair-sched=yes", self.built(name, "-O2", "-g"),
                    self.folder)


class Quoted(unittest.TestCase):
    def test_the_page_quotes_the_example(self) -> None:
        self.assertEqual(first_block("docs/c.md", "c"), lines_of("tests/c/example.c"))


if __name__ == "__main__":
    unittest.main()
