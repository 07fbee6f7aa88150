"""The package as users get it: its types, where it finds the library, what it says where there is none, and that pip installs it with
no network."""
import os
import re
import shutil
import subprocess
import sys
import unittest
from typing import List, Tuple

from tests import top
from tests.commands import InAFolder, ran
from tests.python.installing import with_modules

library = os.environ["VILGOUED_LIB"]
PACKAGE = os.path.join(top, "python", "vilgoued")

USER = """
import asyncio
from typing import List, Mapping, Optional
import vilgoued
import vilgoued.nats
from vilgoued import Bucket, Entry, Item, Value

bucket = Bucket("settings", history=5)
revision: int = bucket.put("a", b"1")
value: Optional[Value] = bucket.get("a")
either: "Value | bytes" = bucket.get("a", b"none")
shown: bytes = bucket["a"]
try:
    bucket.update("a", "2", last=7)
except vilgoued.WrongLastRevision as refused:
    revision = refused.last
except vilgoued.KvError as refused_so:
    print(refused_so.code)
for entry in bucket.watch("a.>"):
    if entry.marker:
        print("that was all")
    else:
        keys: List[str] = [entry.key]
for item in bucket.watch("a.>").follow(timeout=0.1):
    assert isinstance(item, Entry)
    size: int = item.size

async def read(there: vilgoued.nats.Bucket) -> None:
    async for item in there.watch(">").changes():
        kept: Item = item

mirror: Mapping[str, bytes] = bucket.mirror("a.>")
"""

WRONG = """
from vilgoued import Bucket

bucket = Bucket("settings")
bucket.put("a", 80)
for entry in bucket.watch(">"):
    print(entry.key)
bucket.mirror()["a"] = b"1"
"""


class Folder(InAFolder):
    def file(self, name: str, text: str) -> str:
        path = os.path.join(self.folder, name)
        with open(path, "w", encoding="utf-8") as file:
            file.write(text)
        return path


class Types(Folder):
    def setUp(self) -> None:
        super().setUp()
        python = with_modules("mypy")
        if python is None:
            self.skipTest("there is no mypy: apt-get install python3-mypy")
        self.python = python

    def mypy(self, *paths: str) -> Tuple[List[str], str]:
        environment = dict(os.environ, MYPYPATH=os.path.join(top, "python"))
        done = subprocess.run([self.python, "-m", "mypy", "--strict", "--cache-dir", self.folder, *paths], cwd=self.folder,
                              env=environment, capture_output=True, text=True)
        return [line for line in done.stdout.splitlines() if ": error: " in line], done.stdout + done.stderr

    def test_the_package_is_strict(self) -> None:
        faults, told = self.mypy(PACKAGE)
        self.assertEqual(faults, [], told)
        self.assertIn("no issues found", told)

    def test_what_users_write_is_strict(self) -> None:
        faults, told = self.mypy(self.file("user.py", USER))
        self.assertEqual(faults, [], told)
        self.assertIn("no issues found", told)

    def test_what_is_wrong_is_seen(self) -> None:
        faults, _ = self.mypy(self.file("wrong.py", WRONG))
        for text in ('"put" of "Bucket" has incompatible type "int"', 'Item "Marker" of', '"Mirror"'):
            self.assertTrue(any(text in fault for fault in faults), faults)


class Style(unittest.TestCase):
    def test_nothing_is_left_over(self) -> None:
        python = with_modules("pyflakes")
        if python is None:
            self.skipTest("there is no pyflakes: apt-get install python3-pyflakes")
        ran(python, "-m", "pyflakes", PACKAGE, os.path.join(top, "python", "setup.py"))


class Refusals(unittest.TestCase):
    def test_their_codes_and_names_are_those_of_the_rules(self) -> None:
        from vilgoued import refusals
        with open(os.path.join(top, "docs", "semantics.md"), encoding="utf-8") as page:
            rules = {name: int(code) for code, name in re.findall(r"^\| (\d+) \| (\w+) \|", page.read(), re.M)}
        own = {it.__name__: it.code for it in refusals._CLASSES.values()}
        for name, code in rules.items():
            # What comes in scripts and on the threads of Rattle alone has no class.
            if code not in (15, 16, 17, 18):
                self.assertEqual(own[name], code)
        self.assertEqual(set(own) - set(rules), {"FileFault", "FileDamaged", "FileBusy", "OtherBucket", "Closed", "TooLittleRoom", "OpenAlready",
                                                 "NoSuchStart", "OlderView", "NoDescriptor"})
        self.assertEqual(set(refusals.__all__), {"KvError", *own})


class TheLibrary(Folder):
    """A copy of the package in a folder of its own, which has no library beside it."""

    def setUp(self) -> None:
        super().setUp()
        self.package = shutil.copytree(PACKAGE, os.path.join(self.folder, "python", "vilgoued"), ignore=shutil.ignore_patterns("*.so", "__pycache__"))

    def told(self, **environment: str) -> str:
        """What a bucket says, or why there is none."""
        code = "import vilgoued\ntry:\n    vilgoued.Bucket('a')\n    print(vilgoued._library.path())\nexcept OSError as e:\n    print(e)"
        environment = {**{name: text for name, text in os.environ.items() if name != "VILGOUED_LIB"}, **environment}
        return ran(sys.executable, "-B", "-c", code, cwd=os.path.dirname(self.package), env=environment).rstrip("\n")

    def fake(self, machine: int) -> str:
        """A file that looks like a library for this processor."""
        path = os.path.join(self.folder, "fake.so")
        with open(path, "wb") as file:
            file.write(b"\x7fELF\2\1\1" + bytes(9) + b"\3\0" + bytes([machine, 0, 1, 0, 0, 0]) + bytes(40))
        return path

    def test_it_is_the_one_that_is_named(self) -> None:
        self.assertEqual(self.told(VILGOUED_LIB=library), library)

    def test_it_is_the_one_in_the_folder_that_is_named(self) -> None:
        self.assertEqual(self.told(VILGOUED_LIB=os.path.dirname(library)), library)

    def test_it_is_the_one_inside(self) -> None:
        inside = shutil.copy(library, os.path.join(self.package, "libvilgoued.so"))
        self.assertEqual(self.told(), inside)

    def test_it_is_the_one_that_the_checkout_built(self) -> None:
        self.file("library", "")
        os.mkdir(os.path.join(self.folder, "lib"))
        built = shutil.copy(library, os.path.join(self.folder, "lib", "libvilgoued.so"))
        self.assertEqual(self.told(), built)

    def test_it_is_the_one_of_the_system(self) -> None:
        elsewhere = os.path.join(self.folder, "elsewhere")
        os.mkdir(elsewhere)
        shutil.copy(library, os.path.join(elsewhere, "libvilgoued.so"))
        self.assertEqual(self.told(LD_LIBRARY_PATH=elsewhere), "libvilgoued.so")

    def test_one_sentence_says_that_there_is_none(self) -> None:
        self.assertEqual(self.told(), "libvilgoued.so is not there: ./library in a checkout of Vilgoued makes it, and VILGOUED_LIB names where it lies")
        self.assertRegex(self.told(VILGOUED_LIB="/no/such.so"), "^there is no /no/such.so: .*/library.* makes libvilgoued.so")

    def test_one_sentence_says_that_it_is_for_another_processor(self) -> None:
        told = self.told(VILGOUED_LIB=self.fake(183))
        self.assertRegex(told, "^.*fake.so is for aarch64, and this Python is for x86_64: ./library makes one for the machine that it runs on$")

    def test_one_sentence_says_that_it_is_no_library(self) -> None:
        told = self.told(VILGOUED_LIB=self.file("text.so", "no library at all, though of some length"))
        self.assertRegex(told, "^.*text.so is for no system that has ELF")

    def test_one_sentence_says_that_it_is_of_another_version(self) -> None:
        source = self.file("empty.c", "int kv_shared_open(void) { return 0; }\n")
        try:
            ran(os.environ.get("CC", "cc"), "-shared", "-fPIC", source, "-o", os.path.join(self.folder, "empty.so"))
        except FileNotFoundError:
            self.skipTest("there is no C compiler")
        told = self.told(VILGOUED_LIB=os.path.join(self.folder, "empty.so"))
        self.assertRegex(told, "empty.so is of another version, as it has no kv_shared_finish: ./library makes the one of this version")

    def test_one_sentence_says_that_the_c_library_is_too_old(self) -> None:
        from vilgoued import _library
        told = _library._why(library, OSError("/lib/libc.so.6: version `GLIBC_2.99' not found (required by it)"))
        self.assertRegex(told, "wants a newer C library than this system has .*GLIBC_2.99.*: ./library makes one for this system$")


class Installed(Folder):
    def test_pip_installs_it_with_no_network(self) -> None:
        python = with_modules("setuptools", "wheel", "pip", "venv", "ensurepip")
        if python is None:
            self.skipTest("no Python here has setuptools, wheel and venv: apt-get install python3-venv python3-wheel")
        ran(python, "-m", "venv", "--system-site-packages", os.path.join(self.folder, "venv"))
        of_venv = os.path.join(self.folder, "venv", "bin", "python")
        before = sorted(os.listdir(os.path.join(top, "python")))
        ran(of_venv, "-m", "pip", "install", "--no-build-isolation", "--no-index", "--quiet", os.path.join(top, "python"), cwd=self.folder)
        self.assertEqual(sorted(os.listdir(os.path.join(top, "python"))), before)
        environment = {name: text for name, text in os.environ.items() if name != "VILGOUED_LIB"}
        example = shutil.copy(os.path.join(top, "python", "example.py"), self.folder)
        with open(os.path.join(top, "python", "example.stdout"), encoding="utf-8") as file:
            self.assertEqual(ran(of_venv, example, cwd=self.folder, env=environment), file.read())
        where = "import os, vilgoued; print(os.path.dirname(vilgoued._library.path()) == os.path.dirname(vilgoued.__file__))"
        self.assertEqual(ran(of_venv, "-c", where, cwd=self.folder, env=environment), "True\n")
        version = "import importlib.metadata as m; print(m.version('vilgoued'), m.metadata('vilgoued').get_all('Requires-Dist'))"
        with open(os.path.join(top, "crates", "kv_run", "src", "help.rt"), encoding="utf-8") as file:
            (wanted,) = re.findall(r'VERSION: &str = "kvbucket ([\d.]+),', file.read())
        self.assertEqual(ran(of_venv, "-c", version, cwd=self.folder), wanted + " None\n")
        for tool in "vilgoued-to-nats", "vilgoued-from-nats":
            self.assertIn("nats URL NAME", ran(os.path.join(self.folder, "venv", "bin", tool), "--help", cwd=self.folder))


if __name__ == "__main__":
    unittest.main()
