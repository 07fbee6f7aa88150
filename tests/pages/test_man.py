"""The manual pages in docs/man have to name each option and each command of `./kvbucket --help`, and each name and number of
include/vilgoued.h, and nothing of either kind that is not there."""
import os, re, shutil, subprocess, unittest

from scripts import current
from tests import program, top
from tests.pages.examples import lines_of

PAGES = ("docs/man/kvbucket.1", "docs/man/vilgoued.3")
OPTION = r"(?<![\w-])--?[A-Za-z][\w-]*"
NAME = r"\b(?:kv|KV)_\w+"
CODE = r"\b(KV_\w+)\W+(\d+)\b"


def text_of(page: str) -> str:
    return "\n".join(lines_of(page)).replace("\\-", "-")


def section_of(page: str, name: str) -> str:
    return text_of(page).partition("\n.SH %s\n" % name)[2].partition("\n.SH ")[0]


class Program(unittest.TestCase):
    def setUp(self) -> None:
        done = subprocess.run([program.path, "--help"], stdin=subprocess.DEVNULL, capture_output=True, text=True, check=True)
        self.options, _, self.commands = done.stdout.partition("\nOptions:\n")[2].partition("\nCommands:")

    def test_it_has_each_option(self) -> None:
        wanted = re.findall(OPTION, "\n".join(line for line in self.options.splitlines() if line.lstrip().startswith("-")))
        self.assertTrue(wanted)
        self.assertEqual(set(re.findall(OPTION, section_of(PAGES[0], "OPTIONS"))), set(wanted))

    def test_it_has_each_command(self) -> None:
        wanted = re.findall(r"^  ([a-z]+) ", self.commands, re.M)
        self.assertTrue(wanted)
        self.assertEqual(re.findall(r"^\.BI? ([a-z]+)", section_of(PAGES[0], "COMMANDS"), re.M), wanted)


class Header(unittest.TestCase):
    def setUp(self) -> None:
        self.header = re.sub(r"/\*.*?\*/", "", "\n".join(lines_of("include/vilgoued.h")), flags=re.S)

    def test_it_has_each_name(self) -> None:
        self.assertEqual(set(re.findall(NAME, text_of(PAGES[1]))), set(re.findall(NAME, self.header)))

    def test_it_has_the_number_of_each_code(self) -> None:
        codes = re.findall(CODE, self.header.partition("enum {\n")[2].partition("}")[0])
        self.assertTrue(codes)
        self.assertEqual(re.findall(CODE, section_of(PAGES[1], "CODES")), codes)

    def test_it_has_each_member_of_a_struct(self) -> None:
        members = [name for body in re.findall(r"struct \w+ \{(.*?)\}", self.header, re.S) for name in re.findall(r"(\w+)(?=[;,])", body)]
        handles = {"is_open", "at"}
        self.assertLessEqual(set(members) - handles, set(re.findall(r"\w+", section_of(PAGES[1], "TYPES"))))


class Form(unittest.TestCase):
    @unittest.skipUnless(shutil.which("groff"), "groff is not installed: apt-get install groff")
    def test_groff_finds_nothing_wrong(self) -> None:
        for page in current.files_in("docs/man"):
            with self.subTest(page):
                done = subprocess.run(["groff", "-man", "-Tutf8", "-ww", "-z", os.path.join(top, page)], capture_output=True, text=True)
                self.assertEqual((done.returncode, done.stderr), (0, ""))


if __name__ == "__main__":
    unittest.main()
