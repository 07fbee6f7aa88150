"""The archive of a release: a tar whose bytes are those of its members alone. They are sorted, and have no times and no owners."""
from __future__ import annotations

import gzip, io, os, platform, re, sys, tarfile, zlib
from typing import Iterable, Iterator, NamedTuple, Optional

from scripts import top

FOLDER = os.path.join(top, "dist")


class Member(NamedTuple):
    """What lies in it: bytes, or a symbolic link to this path."""

    data: bytes
    is_run: bool = False
    link: str = ""


class Missing(Exception):
    """Why there is no release for this machine, in one sentence."""


def machine() -> str:
    """What a program has to be built for to run here."""
    return "%s-%s" % (sys.platform, platform.machine())


def name_of(version: str) -> str:
    return "vilgoued-%s-%s" % (version, machine())


def path_of(name: str) -> str:
    return os.path.join(FOLDER, name + ".tar.gz")


def header_of(path: str, member: Optional[Member], earlier: dict[Optional[Member], str]) -> tarfile.TarInfo:
    """What the tar tells of a member, or of a folder, which is None. Without times and owners that is 1970, and root. What has the
    bytes of an earlier member is a hard link to it."""
    header = tarfile.TarInfo(path)
    header.mode = 0o644
    if member is None:
        header.type, header.mode = tarfile.DIRTYPE, 0o755
    elif member.link:
        header.type, header.linkname, header.mode = tarfile.SYMTYPE, member.link, 0o777
    elif member.data and member in earlier:
        header.type, header.linkname = tarfile.LNKTYPE, earlier[member]
    else:
        header.size = len(member.data)
    if member and member.is_run:
        header.mode = 0o755
    return header


def folders_of(paths: Iterable[str]) -> set[str]:
    return {path[:at] for path in paths for at, letter in enumerate(path) if letter == "/"}


def tar(name: str, members: dict[str, Member]) -> bytes:
    """The tar of these members, in a folder of this name."""
    whole: dict[str, Optional[Member]] = {"%s/%s" % (name, path): member for path, member in members.items()}
    whole.update(dict.fromkeys(folders_of(whole)))
    written = io.BytesIO()
    earlier: dict[Optional[Member], str] = {}
    with tarfile.open(fileobj=written, mode="w", format=tarfile.USTAR_FORMAT) as file:
        for path in sorted(whole, key=os.fsencode):
            member = whole[path]
            file.addfile(header_of(path, member, earlier), io.BytesIO(member.data if member else b""))
            earlier.setdefault(member, path)
    return written.getvalue()


def write(name: str, members: dict[str, Member]) -> str:
    """Writes the archive, in place of each other one for this machine, and answers its path."""
    packed = io.BytesIO()
    with gzip.GzipFile("", "wb", 9, packed, mtime=0) as file:
        file.write(tar(name, members))
    os.makedirs(FOLDER, exist_ok=True)
    path = path_of(name)
    with open(path + ".new", "wb") as file:
        file.write(packed.getvalue())
    for other in names():
        os.remove(path_of(other))
    os.rename(path + ".new", path)
    return path


def machines() -> dict[str, str]:
    """For which machine each archive is, by its name."""
    there = os.listdir(FOLDER) if os.path.isdir(FOLDER) else []
    found = map(re.compile(r"(vilgoued-.+-([^-]+-[^-]+))\.tar\.gz").fullmatch, sorted(there))
    return {it[1]: it[2] for it in found if it}


def names() -> list[str]:
    """The names of the archives for this machine."""
    return [name for name, of in machines().items() if of == machine()]


def only() -> str:
    """The name of the one archive for this machine."""
    here, elsewhere = names(), sorted(set(machines().values()))
    if len(here) > 1:
        raise Missing("dist/ has %d releases for %s, of which one may stay: %s" % (len(here), machine(), ", ".join(here)))
    if not here and elsewhere:
        raise Missing("the release in dist/ is for %s, and this machine is %s: get or make one for it" % (" and ".join(elsewhere), machine()))
    if not here:
        raise Missing("there is no release in dist/: get one, or make it by ./release with the Rattle kit")
    return here[0]


def unpacked(name: str) -> bytes:
    """The bytes of an archive's tar."""
    with gzip.open(path_of(name)) as file:
        return file.read()


def each(name: str) -> Iterator[tuple[str, Member]]:
    """The paths of an archive's members, and these, in order."""
    try:
        with tarfile.open(path_of(name), "r:gz") as file:
            for header in file:
                path, is_run = header.name.partition("/")[2], header.mode == 0o755
                if header.issym():
                    yield path, Member(b"", False, header.linkname)
                elif not header.isdir():
                    data = file.extractfile(header)
                    yield path, Member(data.read() if data else b"", is_run)
    except (tarfile.TarError, EOFError, zlib.error) as error:
        raise Missing("dist/%s.tar.gz is no whole archive (%s): get it again, or run ./release" % (name, error)) from None
