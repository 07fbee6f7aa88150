"""Makes journal files, as docs/journal.md has them."""
import struct
from tests.journal import crc32c


def framed(data: bytes, payloads: list[bytes]) -> bytes:
    """The file with frames of these payloads at its end."""
    seed, = struct.unpack_from(">Q", data, 9)
    for payload in payloads:
        data += struct.pack(">II", len(payload), crc32c(struct.pack(">QQ", seed, len(data)) + payload)) + payload
    return data


def checkpointed(data: bytes, writes: list[tuple[int, str, str, bytes]], last: int, values: int, floor: int, sealed: bool) -> bytes:
    """The file that begins as this one, with a checkpoint of these stored writes and numbers in place of its entries. A write has its
    revision, what it did, its key and its value."""
    length, = struct.unpack_from(">I", data, 17)
    kinds = {"put": 1, "delete": 2, "purge": 3}
    stored = [struct.pack(">IBIBB", 0, 7, revision, kinds[op], len(key)) + key.encode() + value for revision, op, key, value in writes]
    return framed(data[:25 + length], [*stored, struct.pack(">IBQQQ?", 0, 8, last, values, floor, sealed)])
