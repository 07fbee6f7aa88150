#!/usr/bin/env python3
"""static.py: proves kv_c and builds its static library over the libraries below as `rt ci` has just proved and left them.
`rt lib` would prove each of those once more, since the gate builds them with their statements alone."""
import os, sys

if __name__ == "__main__":
    sys.dont_write_bytecode = True
    sys.path.insert(0, os.path.dirname(os.path.dirname(os.path.realpath(__file__))))
from scripts import kit


def main() -> None:
    rtlib, crate = kit.builder(), kit.crate("kv_c")
    missing = [it.name for it in crate.below() if not os.path.isdir(it.rlib)]
    if missing:
        sys.exit("static.py: %s is not built: run rt ci first" % missing[0])
    os.makedirs(os.path.join(crate.folder, "out"), exist_ok=True)
    with kit.held(crate):
        # It is what the tests wait for last: beside their other parts it takes 110 s in two jobs, and 85 s in four.
        words = crate.words(["--jobs", str(min(4, len(os.sched_getaffinity(0))))], keeps=False)
        words += ["--toolchain", rtlib.KIT + "/toolchain", "--backend", "llvm", "-o", "out/libkv_c.a"]
        status = crate.call(rtlib.RATTLE, "build", *words)
    sys.exit(status)


if __name__ == "__main__":
    main()
