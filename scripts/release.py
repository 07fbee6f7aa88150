#!/usr/bin/env python3
"""release.py [--check]: makes dist/vilgoued-VERSION-linux-x86_64.tar.gz from the program and the library that were proved and built last,
which have to be of the sources as they are now, and tells its size.

With --check it compares the release that lies in dist/ with what would be made now, byte for byte. What the machine's own C compiler makes
of the library it compares so where that is the compiler of the release, and else by the sums of its sources; what the kit makes of it by
its sum, whatever compiler there is. A checkout whose commits have or had a release has to have one; where there is none else, it says that
this is left out."""
import os, subprocess, sys, tempfile
from typing import Sequence

if __name__ == "__main__":
    sys.dont_write_bytecode = True
    sys.path.insert(0, os.path.dirname(os.path.dirname(os.path.realpath(__file__))))
from scripts import archive, current, kit, objects, top, wheel
from scripts.current import LIBRARY, PROGRAM

# How what is not current is built.
BUILDS = {PROGRAM: "./kvbucket --build", LIBRARY: "./library"}
LIBRARIES = ("lib/libvilgoued.a", "lib/libvilgoued.so.0", "lib/python/vilgoued/libvilgoued.so")
PACKAGE = "python/vilgoued"
PKG_CONFIG = """prefix=${pcfiledir}/../..
includedir=${prefix}/include
libdir=${prefix}/lib

Name: vilgoued
Description: A key-value bucket that you can watch
Version: %s
Libs: -L${libdir} -lvilgoued
Libs.private: -pthread
Cflags: -I${includedir}
"""


class Refused(Exception):
    """Why no release is made, or why the one that is there is no longer right."""


def read(path: str) -> bytes:
    with open(os.path.join(top, path), "rb") as file:
        return file.read()


def version() -> str:
    """The version, as the program tells it, which has to be proved in the logic of this kit."""
    told = subprocess.run([current.path_of(PROGRAM), "--version"], stdin=subprocess.DEVNULL, capture_output=True, text=True).stdout
    name, proved = told.rstrip("\n").partition(", proved with Rattle's ")[::2]
    if not name.startswith(PROGRAM + " ") or proved != kit.logic():
        raise Refused("the program says %r, and the kit proves in %s: run %s" % (told, kit.logic() or "no logic", BUILDS[PROGRAM]))
    return name.removeprefix(PROGRAM + " ")


def sources() -> str:
    """What the release is made from: the sums of the program's sources and of the library's."""
    lines = {line for name in BUILDS for line in current.sources(name).splitlines(True)}
    return "".join(sorted(lines, key=lambda line: line.split()[1]))


def stripped(path: str) -> bytes:
    """The bytes of a library without the names that nothing outside it asks for."""
    with tempfile.TemporaryDirectory() as folder:
        copy = os.path.join(folder, "copy")
        subprocess.run(["strip", "--enable-deterministic-archives", "--strip-unneeded", "-o", copy, os.path.join(top, path)], check=True)
        with open(copy, "rb") as file:
            return file.read()


def libraries() -> list[bytes]:
    """What the machine's own C compiler makes, in the order of LIBRARIES."""
    static, shared = map(stripped, current.built(LIBRARY).made)
    return [static, shared, shared]


def kit_part() -> str:
    """The sum of what the kit made of the static library that was built last, before anything was stripped of it."""
    return objects.sum_of_kit(read(current.built(LIBRARY).made[0]))


def package() -> dict[str, bytes]:
    """The files of the Python package, by their paths beside it."""
    paths = [path for path in current.files_in(PACKAGE) if "__pycache__" not in path and not path.endswith(".so")]
    if PACKAGE + "/__init__.py" not in paths:
        raise Refused("there is no Python package in %s: check out the whole repository" % PACKAGE)
    return {os.path.relpath(path, os.path.dirname(PACKAGE)): read(path) for path in paths}


def manual() -> dict[str, bytes]:
    """The manual pages, each in the folder of its section, which its ending tells."""
    return {"share/man/man%s/%s" % (path[-1], os.path.basename(path)): read(path) for path in current.files_in("docs/man")}


def needs(name: str) -> None:
    if not current.is_current(name):
        raise Refused("%s was not built from the sources as they are now: run %s" % (name, BUILDS[name]))


def wanted(compiler: str, libraries: Sequence[bytes]) -> tuple[str, dict[str, archive.Member]]:
    """The name of the release that has to be there now, and its members by path, with the libraries that this compiler made."""
    release = version()
    build = "version: %s\nkit: %s\ncompiler: %s\nlibvilgoued.a, what the kit made: %s\nsources:\n%s" % (
        release, kit.version(), compiler, kit_part(), sources())
    files = {"BUILD": build.encode(), "LICENSE": read("LICENSE"), "lib/pkgconfig/vilgoued.pc": (PKG_CONFIG % release).encode(),
             **{path: read(path) for path in current.files_in("include")}, **manual(), **dict(zip(LIBRARIES, libraries))}
    modules = package()
    files.update(("lib/python/" + path, data) for path, data in modules.items())
    name, data = wheel.wheel(release, modules, files["lib/python/" + wheel.LIBRARY])
    files["share/vilgoued/" + name] = data
    members = {path: archive.Member(data) for path, data in files.items()}
    members["bin/kvbucket"] = archive.Member(read(current.built(PROGRAM).made[0]), is_run=True)
    members["lib/libvilgoued.so"] = archive.Member(b"", link="libvilgoued.so.0")
    return archive.name_of(release), members


def make() -> None:
    needs(PROGRAM)
    needs(LIBRARY)
    name, members = wanted(current.compiler(), libraries())
    path = archive.write(name, members)
    print("made %s: %d files, %d kB" % (os.path.relpath(path, top), len(members), -(-os.path.getsize(path) // 1000)))


def told(build: str, word: str) -> str:
    """What BUILD tells behind this word."""
    return next((line[len(word) + 2:] for line in build.splitlines() if line.startswith(word + ": ")), "")


def older(build: str) -> list[str]:
    """The crates and files that are no longer those of BUILD."""
    return [line.split()[1] for line in sources().splitlines() if line not in build.splitlines()]


def commits_have_one() -> bool:
    """Whether this is a checkout, and one of its commits has dist/."""
    if not os.path.lexists(os.path.join(top, ".git")):
        return False
    try:
        done = subprocess.run(["git", "rev-list", "--max-count=1", "--all", "--", os.path.relpath(archive.FOLDER, top)], cwd=top,
                              stdin=subprocess.DEVNULL, capture_output=True, text=True)
    except OSError as error:
        raise Refused("this is a checkout, and git, which tells whether its commits have a release, is not there: apt-get install git") from error
    if done.returncode != 0:
        raise Refused("git does not tell whether the commits of this checkout have a release: %s" % done.stderr.strip().partition("\n")[0])
    return done.stdout != ""


def check() -> None:
    if not archive.machines() and not commits_have_one():
        print("1 left out: there is no release in dist/ to compare, and no commit has one")
        return
    name = archive.only()
    there = dict(archive.each(name))
    build = there.get("BUILD", archive.Member(b"")).data.decode()
    changed = older(build)
    if changed:
        raise Refused("the release is older than its sources (%s): run ./release" % ", ".join(changed))
    if told(build, "kit") != kit.version():
        raise Refused("the release is of %s, and the kit is %s: run ./release" % (told(build, "kit"), kit.version() or "not there"))
    needs(PROGRAM)
    needs(LIBRARY)
    compiler = told(build, "compiler")
    is_by_another = compiler != current.compiler()
    made = [there.get(path, archive.Member(b"")).data for path in LIBRARIES] if is_by_another else libraries()
    now, members = wanted(compiler, made)
    wrong = sorted(path for path in {*there, *members} if there.get(path) != members.get(path))
    if wrong:
        raise Refused("the release is not what was built (%s): run ./release" % ", ".join(wrong))
    if name != now or archive.unpacked(name) != archive.tar(now, members):
        raise Refused("the release has not the form that ./release gives it: run ./release")
    print("the release is what was built: %d files" % len(members))
    if is_by_another:
        print("of the libraries what the kit made was compared, and the sources of the rest, since another compiler made them: " + compiler)


def main() -> None:
    try:
        if sys.argv[1:] not in ([], ["--check"]):
            raise Refused("the only argument is --check, which compares the release in dist/ with what was built")
        check() if sys.argv[1:] else make()
    except (Refused, archive.Missing, OSError, ValueError, subprocess.CalledProcessError) as error:
        sys.exit("release: %s" % error)


if __name__ == "__main__":
    main()
