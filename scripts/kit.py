#!/usr/bin/env python3
"""What is asked of the Rattle kit, whose command rt is on the path.

    kit.py version    prints the kit and the logic that it proves in, as rt does, or nothing where there is no kit
    kit.py logic      prints the logic alone, as programs tell it"""
import contextlib, functools, importlib.machinery, importlib.util, os, shutil, subprocess, sys
from typing import Any, Iterator, Optional

if __name__ == "__main__":
    sys.dont_write_bytecode = True
    sys.path.insert(0, os.path.dirname(os.path.dirname(os.path.realpath(__file__))))
from scripts import top


def command() -> Optional[str]:
    """The path of rt, or None where it is not to be had."""
    return shutil.which("rt")


def folder() -> Optional[str]:
    """The folder of the kit's programs, of its guide and of its libraries, or None."""
    rt = command()
    return rt and os.path.dirname(os.path.realpath(rt))


def libraries() -> str:
    """The folder of the kit's libraries for Rattle."""
    return os.path.join(os.path.dirname(folder() or ""), "rattle")


def asked(*words: str) -> str:
    """What rt answers to these words, or nothing."""
    try:
        return subprocess.run(["rt", *words], stdin=subprocess.DEVNULL, capture_output=True, text=True).stdout.strip()
    except OSError:
        return ""


def version() -> str:
    """The kit and the logic that it proves in."""
    return asked("version")


def logic() -> str:
    """The logic that this kit proves in, as programs tell it: releases of one logic prove the same."""
    return version().partition(" ")[2]


def compiler() -> str:
    """A C compiler: the kit's own, or else cc."""
    clang = os.path.join(os.path.dirname(asked("doc")), "toolchain", "bin", "clang")
    return clang if os.access(clang, os.X_OK) else "cc"


@functools.cache
def builder() -> Any:
    """The kit's own builder of crates, which rt is made of: rt itself keeps two crates that stand on one from being proved side
    by side, as it holds every crate below the one that it works on."""
    loader = importlib.machinery.SourceFileLoader("rtlib", os.path.join(folder() or "", "rtlib.py"))
    spec = importlib.util.spec_from_loader("rtlib", loader)
    assert spec is not None
    made = importlib.util.module_from_spec(spec)
    sys.modules["rtlib"] = made
    loader.exec_module(made)
    made.guarded()
    return made


def crate(name: str) -> Any:
    """A crate of the repository, as the kit's builder knows it."""
    return builder().Crate(os.path.join(top, "crates", name), top, {})


@contextlib.contextmanager
def held(whole: Any) -> Iterator[None]:
    """No other run of the kit works in this crate, and in those below it, until the end of the block."""
    locks = builder().lock([*whole.below(), whole])
    try:
        yield
    finally:
        for it in locks:
            os.close(it)


def main() -> None:
    print({"version": version, "logic": logic}[sys.argv[1]]())


if __name__ == "__main__":
    main()
