"""Reads a journal file, by the words of docs/journal.md alone."""
import collections, struct
from typing import Any, Iterator, Optional

MAGIC = b"vilgoued\x01"
SEARCH, LONGEST = 2_097_152, 1_048_845
KINDS = {1: "put", 2: "delete", 3: "purge", 4: "seal", 5: "compact", 7: "stored", 8: "checkpoint", 9: "closed", 10: "batch"}
Journal = collections.namedtuple("Journal", "seed bucket history value_limit write_limit revision_limit entries end damaged")


class NoJournal(Exception):
    """The bytes do not begin as a journal does."""


def crc32c(data: bytes) -> int:
    """CRC-32C (Castagnoli) of bytes, bit by bit."""
    crc = 0xFFFFFFFF
    for byte in data:
        crc ^= byte
        for _ in range(8):
            crc = crc >> 1 ^ 0x82F63B78 if crc & 1 else crc >> 1
    return crc ^ 0xFFFFFFFF


def frame_at(data: bytes, seed: int, at: int) -> Optional[bytes]:
    """The payload of the whole frame that begins at this offset, or None."""
    length, checksum = struct.unpack_from(">II", data, at) if len(data) >= at + 8 else (0, 0)
    payload = data[at + 8:at + 8 + length]
    whole = length and len(payload) == length and crc32c(struct.pack(">QQ", seed, at) + payload) == checksum
    return payload if whole else None


def records(data: bytes) -> Iterator[tuple[Any, ...]]:
    """What the records tell that stand one behind the other, each behind its length."""
    while data:
        length, = struct.unpack_from(">I", data)
        yield record(data[4:4 + length])
        data = data[4 + length:]


def record(data: bytes) -> tuple[Any, ...]:
    """What a record tells: its kind, and what follows from that."""
    kind, rest = KINDS[data[0]], data[1:]
    if kind in ("put", "delete", "purge"):
        return kind, rest[1:1 + rest[0]].decode("ascii"), rest[1 + rest[0]:]
    if kind == "batch":
        return kind, list(records(rest))
    if kind == "stored":
        return kind, struct.unpack_from(">I", rest)[0], record(rest[4:])
    return kind, *struct.unpack({"seal": ">", "checkpoint": ">QQQ?"}.get(kind, ">Q"), rest)


def entry(payload: bytes) -> tuple[Any, ...]:
    """What an entry tells: the number of loose bytes before it, and its record."""
    return struct.unpack_from(">I", payload)[0], *record(payload[4:])


def shows_damage(data: bytes, seed: int, bad: int) -> bool:
    """Whether a whole frame behind the bad offset says that this offset was on the disk."""
    def says_so(bytes_there: bytes, at: int) -> bool:
        payload = frame_at(bytes_there, seed, at)
        return payload is not None and len(payload) >= 4 and struct.unpack_from(">I", payload)[0] < at - bad

    if len(data) >= bad + 4 and says_so(data, bad + 8 + struct.unpack_from(">I", data, bad)[0]):
        return True
    return any(says_so(data[:at + LONGEST], at) for at in range(bad + 1, min(len(data), bad + SEARCH)))


def read(data: bytes) -> Journal:
    """The journal in these bytes; `end` is where its last whole frame ends."""
    seed = struct.unpack_from(">Q", data, 9)[0] if len(data) >= 17 and data.startswith(MAGIC) else None
    first = frame_at(data, seed, 17) if seed is not None else None
    if seed is None or first is None or first[:5] != b"\0\0\0\0\6":
        raise NoJournal
    at, entries = 25 + len(first), []
    while (payload := frame_at(data, seed, at)) is not None:
        entries.append(entry(payload))
        at += 8 + len(payload)
    limits = struct.unpack_from(">QQQQ", first, 5)
    return Journal._make([seed, first[37:].decode("ascii"), *limits, entries, at, shows_damage(data, seed, at)])
