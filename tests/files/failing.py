"""Runs the program with one of its calls of a journal failing, by fail.c, which the C compiler of the Rattle kit builds, or else cc."""
import os, subprocess
from typing import Sequence

from scripts import kit
from tests import program

here = os.path.dirname(os.path.abspath(__file__))


def library(folder: str) -> str:
    """The path of the library, which is built in this folder. It needs no headers, and finds the C library when it is loaded."""
    built = os.path.join(folder, "fail.so")
    asked = ["-O1", "-shared", "-fPIC", "-nostdlib", "-fno-builtin", "-o", built, os.path.join(here, "fail.c")]
    compiler = kit.compiler()
    subprocess.run([compiler] + asked + (["-ldl"] if compiler == "cc" else ["-fuse-ld=lld"]), check=True)
    return built


def ran(library: str, folder: str, arguments: Sequence[str], script: bytes, at: int, how: int, once: bool) -> subprocess.CompletedProcess[bytes]:
    """A run whose call of this number, of those of files under the folder, fails so: `how` is an errno, with a minus behind a short write."""
    environment = dict(os.environ, LD_PRELOAD=library, FAIL_FOLDER=folder, FAIL_AT=str(at), FAIL_HOW=str(how), FAIL_LOG=log(library))
    if once:
        environment["FAIL_ONCE"] = "1"
    return subprocess.run([program.path, *arguments], input=script, capture_output=True, timeout=120, env=environment)


def calls_of(library: str, folder: str, command: Sequence[str]) -> str:
    """The calls of a command of which none fails, of files under the folder, where it has its temporary ones; a letter each."""
    environment = dict(os.environ, LD_PRELOAD=library, FAIL_FOLDER=folder, TMPDIR=folder, FAIL_LOG=log(library))
    subprocess.run(command, stdout=subprocess.DEVNULL, timeout=120, env=environment, check=True)
    return calls(library)


def log(library: str) -> str:
    return library + ".log"


def calls(library: str) -> str:
    """The calls of the last run, a letter each."""
    with open(log(library)) as file:
        return file.read()
