"""The objects of a static library, as ar writes it in GNU's form, and what of libvilgoued.a the kit made."""
import hashlib
from typing import Iterator

START, HEADER = b"!<arch>\n", 60
# The objects of the shell in C, which the machine's own compiler makes; all others of libvilgoued.a are the kit's.
OWN = ("checkpoint.o", "files.o", "handles.o", "opening.o", "replacing.o", "shared.o", "watcher.o")


def headers(data: bytes) -> Iterator[tuple[str, bytes]]:
    """The name that stands before each member, and the member's bytes."""
    if not data.startswith(START):
        raise ValueError("it is no static library")
    at = len(START)
    while at < len(data):
        name, size = data[at:at + 16].decode().rstrip(), int(data[at + 48:at + 58])
        at += HEADER
        yield name, data[at:at + size]
        at += size + size % 2


def objects(data: bytes) -> Iterator[tuple[str, bytes]]:
    """The name and the bytes of each object, in order: without the table of symbols, and that of long names."""
    long_names = b""
    for name, content in headers(data):
        if name == "//":
            long_names = content
        elif name[1:].isdigit():
            start = int(name[1:])
            yield long_names[start:long_names.index(b"/\n", start)].decode(), content
        elif name not in ("/", "/SYM64/"):
            yield name.rstrip("/"), content


def sum_of_kit(data: bytes) -> str:
    """The sum of all that the kit made, whoever compiled the rest."""
    lines = ("%s  %s\n" % (hashlib.sha256(content).hexdigest(), name) for name, content in objects(data) if name not in OWN)
    return hashlib.sha256("".join(lines).encode()).hexdigest()
