"""What calls answer."""
from __future__ import annotations

from typing import ClassVar, Literal, NamedTuple, Optional, Union


Op = Literal["PUT", "DEL", "PURGE"]


class Value(NamedTuple):
    """A value, and the revision of its put."""

    value: bytes
    revision: int


class Status(NamedTuple):
    """The numbers of a bucket: how many entries of a key it keeps, its last revision, how many writes it stores and how many
    entries of them reads find, its open watches, and whether its writes have ended."""

    history: int
    last: int
    stored: int
    values: int
    watches: int
    sealed: bool


class _Fields(NamedTuple):
    key: str
    op: Op
    revision: int
    size: int
    value: Optional[bytes]


class Entry(_Fields):
    """An entry that a watch hands out. `value` is None where it isn't shown, and `size` tells its bytes all the same."""

    __slots__ = ()
    marker: ClassVar[Literal[False]] = False


class Marker:
    """The end of what a watch begins with: the one value MARKER."""

    __slots__ = ()
    marker: ClassVar[Literal[True]] = True

    def __repr__(self) -> str:
        return "MARKER"

    def __reduce__(self) -> str:
        return "MARKER"


MARKER = Marker()

Item = Union[Entry, Marker]
