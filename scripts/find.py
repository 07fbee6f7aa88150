#!/usr/bin/env python3
"""find.py NAME [FOLDER]: prints the path of what stands for the sources as they are now: of the program kvbucket, or of the library,
libvilgoued.a or libvilgoued.so. It is the one that was built here, or else that of a release in dist/, which is unpacked into FOLDER,
or into out/release where none is named. Where there is neither, one sentence says why, and the status is 1."""
from __future__ import annotations

import os, sys, tempfile
from typing import Optional

if __name__ == "__main__":
    sys.dont_write_bytecode = True
    sys.path.insert(0, os.path.dirname(os.path.dirname(os.path.realpath(__file__))))
from scripts import archive, current, top
from scripts.current import LIBRARY, PROGRAM

UNPACKED = os.path.join(top, "out", "release")
# Of each file: what it is built as, and where it stands in a release.
FILES = {
    PROGRAM: (PROGRAM, "bin/kvbucket"),
    "libvilgoued.a": (LIBRARY, "lib/libvilgoued.a"),
    "libvilgoued.so": (LIBRARY, "lib/libvilgoued.so.0"),
}


def changed(release: str, name: str) -> list[str]:
    """What has other sources now than this release, of those that this is made from."""
    build = next((member.data.decode() for path, member in archive.each(release) if path == "BUILD"), "").splitlines()
    return [line.split()[1] for line in current.sources(name).splitlines() if line not in build]


def of_release(file: str) -> bytes:
    """The bytes of a file in a release of the sources as they are now."""
    name, inside = FILES[file]
    others = {release: changed(release, name) for release in archive.names() or [archive.only()]}
    release = next((it for it, paths in others.items() if not paths), None)
    if release is None:
        paths = ", ".join(sorted({path for paths in others.values() for path in paths}))
        raise archive.Missing("the release in dist/ is of other sources (%s): get the one of these, or build them with the Rattle kit" % paths)
    data = next((member.data for path, member in archive.each(release) if path == inside), None)
    if data is None:
        raise archive.Missing("dist/%s.tar.gz has no %s: get it again, or run ./release" % (release, inside))
    return data


def unpack(data: bytes, path: str) -> str:
    """Puts a file where it can be run, unless it lies there already."""
    try:
        with open(path, "rb") as there:
            if there.read() == data:
                return path
    except OSError:
        os.makedirs(os.path.dirname(path), exist_ok=True)
    with tempfile.TemporaryDirectory(dir=os.path.dirname(path)) as room:
        new = os.path.join(room, "new")
        with open(new, "wb") as file:
            file.write(data)
        os.chmod(new, 0o644 if path.endswith(".a") else 0o755)
        os.replace(new, path)
    return path


def own_folder(data: bytes) -> str:
    """A folder of the user's for a file with these bytes, for where the checkout can't be written."""
    caches = os.environ.get("XDG_CACHE_HOME") or os.path.expanduser("~/.cache")
    return os.path.join(caches, "vilgoued", current.sum_of(data))


def built(file: str) -> Optional[str]:
    """The path of a file that was built here from the sources as they are now, or None."""
    name = FILES[file][0]
    paths = [os.path.join(top, path) for path in current.built(name).made] if current.is_current(name) else []
    return next((path for path in paths if os.path.basename(path) == file), None)


def find(file: str, folder: Optional[str] = None) -> str:
    """The path of a file, or archive.Missing."""
    path = built(file)
    if path:
        return path
    data = of_release(file)
    try:
        return unpack(data, os.path.join(folder or UNPACKED, file))
    except OSError:
        if folder:
            raise
        return unpack(data, os.path.join(own_folder(data), file))


def main() -> None:
    words = sys.argv[1:]
    if not 1 <= len(words) <= 2 or words[0] not in FILES:
        sys.exit("find.py: name one of %s, and at most a folder to unpack it into" % ", ".join(FILES))
    try:
        print(find(*words))
    except (archive.Missing, OSError) as error:
        sys.exit(str(error))


if __name__ == "__main__":
    main()
