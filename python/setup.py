"""Builds the package with the library in it: the one that VILGOUED_LIB names, a file or the folder that has it; else the one that stands
for the sources of the checkout as they are now, in lib/ or in the release in dist/. With VILGOUED_LIB=none the package has none, and
looks for it when it is used. What is built on the way lies in a temporary folder."""
import functools
import os
import shutil
import subprocess
import sys
import tempfile
from typing import Optional, Tuple

from setuptools import setup
from setuptools.command.build_py import build_py

try:
    from setuptools.command.bdist_wheel import bdist_wheel
except ImportError:
    try:
        from wheel.bdist_wheel import bdist_wheel
    except ImportError:
        bdist_wheel = object

NAME = "libvilgoued.so"
NAMED = os.environ.get("VILGOUED_LIB") or ""
HERE = os.path.dirname(os.path.abspath(__file__))
FIND = os.path.join(os.path.dirname(HERE), "scripts", "find.py")
DO = "VILGOUED_LIB names a library, or is none for a package without one"

room = tempfile.mkdtemp()


def is_checkout() -> bool:
    """Whether this is the folder python/ of a checkout, and no copy of it that another folder's scripts happen to lie beside."""
    return os.path.basename(HERE) == "python" and os.path.exists(FIND)


def found() -> str:
    """The path of the library of the checkout."""
    done = subprocess.run([sys.executable, "-I", FIND, NAME, room], stdout=subprocess.PIPE, stderr=subprocess.PIPE)
    if done.returncode != 0:
        sys.exit("vilgoued: no %s was built here, and %s; %s" % (NAME, os.fsdecode(done.stderr).strip(), DO))
    return os.fsdecode(done.stdout).rstrip("\n")


@functools.lru_cache(maxsize=None)
def library() -> Optional[str]:
    """The path of the library, or None where the package is to have none."""
    if NAMED == "none":
        return None
    path = os.path.join(NAMED, NAME) if os.path.isdir(NAMED) else NAMED
    if path and not os.path.exists(path):
        sys.exit("vilgoued: there is no file %s: %s" % (path, DO))
    if not path and not is_checkout():
        sys.exit("vilgoued: %s is in no checkout, from which a %s comes: %s" % (HERE, NAME, DO))
    return path or found()


class WithLibrary(build_py):
    def run(self) -> None:
        super().run()
        path = library()
        if path and not getattr(self, "editable_mode", False):
            shutil.copyfile(path, os.path.join(self.build_lib, "vilgoued", NAME))


class Wheel(bdist_wheel):
    """For any Python 3, and where there is a library for one platform."""

    def finalize_options(self) -> None:
        super().finalize_options()
        self.root_is_pure = library() is None

    def get_tag(self) -> Tuple[str, str, str]:
        python, abi, platform = super().get_tag()
        return (python, abi, platform) if library() is None else ("py3", "none", platform)


try:
    library()
    setup(
        cmdclass={"build_py": WithLibrary, **({} if bdist_wheel is object else {"bdist_wheel": Wheel})},
        options={"build": {"build_base": room}, "egg_info": {"egg_base": room}},
    )
finally:
    shutil.rmtree(room)
