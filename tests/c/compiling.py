"""Programs in C beside libvilgoued, in the folder of VILGOUED_LIB. The C compiler is CC, or else cc, and that for C++ is CXX, or
else c++."""
import os
from typing import Sequence

from tests import commands, top

here = os.path.dirname(os.path.abspath(__file__))
libraries = os.path.dirname(os.path.abspath(os.environ["VILGOUED_LIB"]))
C, CXX = os.environ.get("CC", "cc"), os.environ.get("CXX", "c++")
INCLUDE = os.path.join(top, "include")
# What a program is linked with.
STATIC = [os.path.join(libraries, "libvilgoued.a")]
# The shell, without the one file that is no part of a program: it gives each opening a number of its own.
SHELL = [os.path.join(top, "c", name) for name in ("shared.c", "watcher.c")]
OPENING = os.path.join(top, "c", "opening.c")
# Those that call what is proved by names that the shared library has for itself.
FILES = [os.path.join(top, "c", name) for name in ("files.c", "replacing.c", "checkpoint.c", "handles.c")]
STRICT = ["-pedantic", "-Wall", "-Wextra", "-Werror"]
CHECKED = ["-g", "-fsanitize=address,undefined", "-fno-sanitize-recover=all"]
# The calls of the system that a program has for itself.
WRAPPED = {
    "sweep": ("malloc", "realloc"), "shared_sweep": ("malloc", "realloc"), "files": ("flock",),
    "failing": ("open", "openat", "flock", "fstat", "fstatat", "fchmod", "realpath", "pread", "pwrite", "ftruncate", "fsync",
                "fdatasync", "renameat", "unlinkat", "getentropy"),
}


def ran(*command: str, **more: str) -> str:
    """What a command that has to succeed prints, with more in its environment."""
    return commands.ran(*command, env=dict(os.environ, **more))


class ProgramTest(commands.InAFolder):
    """A test that makes and runs programs of this folder."""

    def built(self, name: str, *flags: str, beside: Sequence[str] = STATIC) -> str:
        """Makes a program of this folder beside a library, the static one where none is named."""
        program = os.path.join(self.folder, name)
        wrapped = ["-Wl,--wrap=" + call for call in WRAPPED.get(name, ())]
        ran(C, "-Wall", "-Wextra", "-Werror", "-I" + INCLUDE, os.path.join(here, name + ".c"), *flags, *wrapped,
            *beside, "-o", program, "-pthread")
        return program

    def needs(self, *flags: str) -> None:
        """Leaves a test out where the compiler makes no program with these sanitizers, or it does not run."""
        empty = os.path.join(self.folder, "empty")
        with open(empty + ".c", "w", encoding="utf-8") as file:
            file.write("int main(void) { return 0; }\n")
        try:
            ran(C, *flags, empty + ".c", "-o", empty)
            ran(empty)
        except AssertionError:
            self.skipTest("%s has no %s" % (C, " ".join(flag for flag in flags if flag.startswith("-fsanitize"))))
