#!/usr/bin/env python3
"""Whether what was built was made from the sources as they are now, so that nothing older than its sources, or of others, is run or
given away for it.

    current.py NAME              ends with status 0 where it is, and else with 1
    current.py --sources NAME    prints what it is made from
    current.py --keep NAME FILE  notes it as current, where it is still made from what FILE says

NAME is a program, as kvbucket, or libvilgoued, which ./library leaves in lib/. What it is made from is a text with a sum for each
crate that it stands on: of the crate's line of crates.txt, and of each file of its code, its definitions and its proofs; and with
one for each other file. A build leaves the text beside what it made, with the sums of that."""
from __future__ import annotations

import hashlib, os, re, subprocess, sys
from typing import NamedTuple

if __name__ == "__main__":
    sys.dont_write_bytecode = True
    sys.path.insert(0, os.path.dirname(os.path.dirname(os.path.realpath(__file__))))
from scripts import top

PARTS = ("src", "specs", "proofs")
PROGRAM, LIBRARY = "kvbucket", "libvilgoued"


class Built(NamedTuple):
    """What a build makes, as paths of the repository: of a crate and those below it, and of other files and folders."""

    crate: str
    others: tuple[str, ...]
    made: tuple[str, ...]


def built(name: str) -> Built:
    if name == LIBRARY:
        return Built("kv_c", ("library", "include", "c", "scripts/exports.map"), ("lib/libvilgoued.a", "lib/libvilgoued.so"))
    return Built(name, (), ("crates/%s/out/%s" % (name, name),))


def crates() -> dict[str, str]:
    """The line of each crate of crates.txt, by its name."""
    with open(os.path.join(top, "crates.txt"), encoding="utf-8") as file:
        lines = file.read().splitlines()
    return {re.split("[ :]", line)[0]: line for line in lines if re.match("[a-z0-9_]+[ :]", line)}


def below(name: str) -> list[str]:
    """This crate and those that it stands on, but for the kit's."""
    lines, found, waiting = crates(), set(), [name]
    while waiting:
        crate = waiting.pop()
        if crate in lines and crate not in found:
            found.add(crate)
            waiting += lines[crate].partition(":")[2].split()
    return sorted(found)


def sum_of(data: bytes) -> str:
    return hashlib.sha256(data).hexdigest()


def sum_line(path: str) -> str:
    """The sum of a file of the repository, and its path."""
    with open(os.path.join(top, path), "rb") as file:
        return "%s  %s\n" % (sum_of(file.read()), path)


def files_in(path: str) -> list[str]:
    """The files of the repository below a path, or the one that it is; none where nothing is there."""
    whole = os.path.join(top, path)
    if os.path.isfile(whole):
        return [path]
    found = (os.path.join(folder, name) for folder, _, names in os.walk(whole) for name in names)
    return sorted((os.path.relpath(it, top) for it in found), key=os.fsencode)


def crate_line(crate: str, line: str) -> str:
    """The sum of a crate, and its path."""
    files = (path for part in PARTS for path in files_in("crates/%s/%s" % (crate, part)))
    return "%s  crates/%s\n" % (sum_of("".join([line + "\n", *map(sum_line, files)]).encode()), crate)


def sources(name: str) -> str:
    """What this is made from."""
    lines, it = crates(), built(name)
    others = (path for other in it.others for path in files_in(other))
    return "".join([*(crate_line(crate, lines[crate]) for crate in below(it.crate)), *map(sum_line, others)])


def version_of(*command: str, word: str = "") -> str:
    """The first line with this word of what a tool tells of itself."""
    try:
        done = subprocess.run(command, stdin=subprocess.DEVNULL, capture_output=True, text=True)
    except OSError:
        return "none"
    return next((line.strip() for line in (done.stdout + done.stderr).splitlines() if word in line), "unknown")


def compiler() -> str:
    """The C compiler that ./library takes, and the tools that it links with: others make other bytes."""
    return "%s, %s" % (version_of(os.environ.get("CC") or "cc", "-v", word=" version "), version_of("strip", "--version"))


def path_of(name: str) -> str:
    """The path of a program, or of the first file of another thing that is made."""
    return os.path.join(top, built(name).made[0])


def note_of(name: str) -> str:
    """The file that a build leaves beside what it made."""
    return path_of(name) + ".sources"


def noted(name: str, made_from: str) -> str:
    """What this file holds of what is made from this."""
    by = "compiler: %s\n" % compiler() if name == LIBRARY else ""
    return "".join([made_from, by, *map(sum_line, built(name).made)])


def is_current(name: str) -> bool:
    try:
        with open(note_of(name), encoding="utf-8") as file:
            return file.read() == noted(name, sources(name))
    except (OSError, ValueError):
        return False


def keep(name: str, made_from: str) -> bool:
    """Notes it as current, if the sources are still these."""
    is_same = sources(name) == made_from
    if is_same:
        with open(note_of(name), "w", encoding="utf-8") as file:
            file.write(noted(name, made_from))
    return is_same


def main() -> None:
    words = sys.argv[1:]
    if words[:1] == ["--sources"]:
        sys.stdout.write(sources(words[1]))
    elif words[:1] == ["--keep"]:
        with open(words[2], encoding="utf-8") as file:
            if not keep(words[1], file.read()):
                sys.exit("%s: its sources changed while it was built: build it again" % words[1])
    else:
        sys.exit(not is_current(words[0]))


if __name__ == "__main__":
    main()
