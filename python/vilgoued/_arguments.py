"""What callers hand in, as the library takes it."""
from __future__ import annotations

import operator
import os
from typing import Optional, SupportsIndex, Union

from ._library import Options
from .refusals import OptionsClash

Name = Union[str, bytes]
Data = Union[str, bytes, bytearray, memoryview]
Path = Union[str, bytes, "os.PathLike[str]", "os.PathLike[bytes]"]


def data_of(value: Data) -> bytes:
    """The bytes of a value: of a text in UTF-8, or of what has bytes. A number has none, and is a TypeError."""
    if isinstance(value, bytes):
        return value
    return value.encode() if isinstance(value, str) else bytes(memoryview(value))


def name_of(text: Name) -> bytes:
    """The bytes of a name. Half a surrogate pair, which no name has, gives bytes that are refused as any other wrong ones."""
    if not isinstance(text, str):
        return data_of(text)
    try:
        return text.encode()
    except UnicodeEncodeError:
        return text.encode("utf-8", "surrogatepass")


def number_of(number: SupportsIndex) -> int:
    """A number of 64 bits."""
    found = operator.index(number)
    if not 0 <= found < 1 << 64:
        raise OverflowError(f"{found} is not a number of 64 bits: give one from 0 to 18446744073709551615")
    return found


def sync_of(sync: Union[str, SupportsIndex]) -> int:
    """When what is accepted is brought onto the disk, as the library takes it."""
    if isinstance(sync, str):
        if sync not in ("each", "asked"):
            raise ValueError(f"sync is {sync!r}: give 'each', 'asked', or how many writes there are from one sync to the next")
        return 1 if sync == "each" else 0
    number = number_of(sync)
    if number == 0:
        raise ValueError("sync is 0: give 'asked' for no sync but those that are asked for")
    return number


def clash(history: bool, updates: bool, since: Optional[SupportsIndex]) -> None:
    """Refuses two starts of one watch."""
    if history + updates + (since is not None) > 1:
        raise OptionsClash()


def options_of(
    history: bool, updates: bool, since: Optional[SupportsIndex], ignore_deletes: bool, headers_only: bool
) -> Options:
    """What a watch begins with, and how it shows writes."""
    clash(history, updates, since)
    start = 1 if history else 2 if updates else 3 if since is not None else 0
    return Options(start, number_of(since or 0), ignore_deletes, headers_only)
