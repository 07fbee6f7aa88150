"""A small tree with the scripts of a release, whose "proved" program is a script and whose library has one call. Its path has a space."""
import atexit, os, shutil, subprocess, sys, tempfile, unittest
from typing import Any

from scripts import archive
from tests import top

COPIED = ("kvbucket", "library", "release", "install", "scripts", "include", "c", "docs/man", "LICENSE", "python/setup.py", "python/pyproject.toml",
          "rust/build.rs")
PROGRAM = """#!/bin/sh
case "$*" in
  --version) echo "kvbucket 0.2.0, proved with Rattle's logic 0123" ;;
  *) echo "%s" ;;
esac
"""
KIT = """#!/bin/sh
case "$1" in
  version) echo "rattle-kit-0 logic 0123" ;;
  doc) echo "$(dirname "$0")/START-HERE.md" ;;
  lib) mkdir -p out && cp ../../kit/libkv_c.a out ;;
  try) echo "quick build"; echo "run=ended status=0 proved=no" >&2 ;;
esac
"""
LIBRARY = """#include <vilgoued.h>
uint64_t kv_reach(kv_bucket *bucket, uint64_t *floor) { *floor = %d; return bucket->is_open ? KV_OK : KV_CLOSED; }
"""
USER = """#include <vilgoued.h>
int main(void) { kv_bucket bucket = {0}; uint64_t floor; return kv_reach(&bucket, &floor) == KV_CLOSED ? 0 : 1; }
"""
ALTER = """
import sys
sys.path.insert(0, ".")
from scripts import archive
_, name, path, data = sys.argv
members = dict(archive.each(name))
members[path] = members[path]._replace(data=data.encode())
archive.write(name, members)
"""
PACKAGE = """import ctypes, os
library = ctypes.CDLL(os.path.join(os.path.dirname(os.path.abspath(__file__)), "libvilgoued.so"))
"""
# What a build and a release leave.
OUTPUTS = ("crates/kvbucket/out", "lib", "dist")
NEEDED = ("cc", "strip", "ar", "pkg-config")
missing = [name for name in NEEDED if not shutil.which(name)]


def copy(path: str, to: str) -> None:
    os.makedirs(os.path.dirname(to), exist_ok=True)
    if os.path.isdir(path):
        shutil.copytree(path, to)
    else:
        shutil.copy(path, to)


@unittest.skipIf(missing, "%s is not installed: apt-get install build-essential pkg-config" % " and ".join(missing))
class Tree(unittest.TestCase):
    """A test in a tree of its own."""

    # Where the outputs of the first tree that was built and released lie, for all others.
    outputs = ""

    def setUp(self) -> None:
        room = tempfile.TemporaryDirectory()
        self.addCleanup(room.cleanup)
        self.room, self.top = room.name, os.path.join(room.name, "a tree")
        for path in filter(lambda path: os.path.exists(os.path.join(top, path)), COPIED):
            copy(os.path.join(top, path), self.path(path))
        self.write("crates.txt", "low:\nkvbucket: low\nkv_c staticlib: low\n")
        for name in "low", "kvbucket", "kv_c":
            self.write("crates/%s/src/lib.rt" % name, "pub fn %s() {}\n" % name)
        self.write("python/vilgoued/__init__.py", PACKAGE)
        self.write("python/vilgoued/py.typed", "")
        self.write("python/vilgoued/__pycache__/it.pyc", "of another Python\n")
        self.write("kit/rt", KIT, is_run=True)

    def path(self, path: str) -> str:
        return os.path.join(self.top, path)

    def write(self, path: str, text: str, is_run: bool = False) -> None:
        os.makedirs(os.path.dirname(self.path(path)), exist_ok=True)
        with open(self.path(path), "w", encoding="utf-8") as file:
            file.write(text)
        os.chmod(self.path(path), 0o755 if is_run else 0o644)

    def run_in(self, *command: str, kit: bool = True, text: str = "", folder: str = ".", **environment: str) -> subprocess.CompletedProcess[str]:
        """How a command ends in the tree, or in a folder of it, with the kit on the path or without."""
        path = [os.path.dirname(sys.executable), "/usr/bin", "/bin"]
        given = {"HOME": self.room, "PATH": ":".join([self.path("kit"), *path] if kit else path), **environment}
        return subprocess.run(command, cwd=self.path(folder), env=given, input=text, capture_output=True, text=True)

    def works(self, *command: str, **how: Any) -> str:
        """What a command prints that has to succeed."""
        done = self.run_in(*command, **how)
        self.assertEqual(done.returncode, 0, done.stdout + done.stderr)
        return done.stdout

    def refused(self, *command: str, **how: Any) -> str:
        """The one sentence by which a command refuses."""
        done = self.run_in(*command, **how)
        self.assertNotEqual(done.returncode, 0, done.stdout)
        self.assertEqual((done.stdout, done.stderr.count("\n")), ("", 1), done.stderr)
        return done.stderr

    def keep(self, name: str, **environment: str) -> None:
        sources = self.works("scripts/current.py", "--sources", name, **environment)
        self.works("scripts/current.py", "--keep", name, "/dev/stdin", text=sources, **environment)

    def build_program(self, says: str = "built here") -> None:
        self.write("crates/kvbucket/out/kvbucket", PROGRAM % says, is_run=True)
        self.keep("kvbucket")

    def build_static(self, path: str, source: str) -> None:
        """Makes a static library of a text in C."""
        self.write("it.c", source)
        os.makedirs(os.path.dirname(self.path(path)), exist_ok=True)
        self.works("cc", "-Iinclude", "-fPIC", "-c", "it.c", "-o", "it.o")
        self.works("ar", "rcD", path, "it.o")

    def build_library(self, number: int = 1) -> None:
        self.build_static("lib/libvilgoued.a", LIBRARY % number)
        self.works("cc", "-shared", "-o", "lib/libvilgoued.so", "it.o")
        self.keep("libvilgoued")

    def make(self) -> str:
        """Builds all, makes the release, and answers its path."""
        self.build_program()
        self.build_library()
        self.works("./release")
        return self.path("dist/vilgoued-0.2.0-%s.tar.gz" % archive.machine())

    def release(self) -> str:
        """The same, of the tree as it was at first."""
        for path in OUTPUTS:
            shutil.rmtree(self.path(path), ignore_errors=True)
        if not Tree.outputs:
            self.make()
            Tree.outputs = tempfile.mkdtemp()
            atexit.register(shutil.rmtree, Tree.outputs)
            for path in OUTPUTS:
                copy(self.path(path), os.path.join(Tree.outputs, path))
        else:
            for path in OUTPUTS:
                copy(os.path.join(Tree.outputs, path), self.path(path))
        return self.path("dist/vilgoued-0.2.0-%s.tar.gz" % archive.machine())

    def forget_builds(self) -> None:
        for path in OUTPUTS[:2]:
            shutil.rmtree(self.path(path))

    def alter(self, name: str, path: str, data: str) -> None:
        """Makes the archive again, with other bytes of a member."""
        self.works(sys.executable, "-B", "-c", ALTER, name, path, data)
