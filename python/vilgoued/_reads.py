"""What can be read of a bucket, and of a snapshot of one."""
from __future__ import annotations

import ctypes
from typing import List, Optional, SupportsIndex

from ._arguments import Name, name_of, number_of
from ._closing import Closing
from ._finding import Finds
from ._items import Status, Value
from ._library import KEY_NOT_FOUND, TOO_LITTLE_ROOM, Function, Handle, Room, StatusStruct, check, give_back, room
from .refusals import refusal


class Reads(Finds, Closing):
    """Reads by functions of the library, which are handed the handle's address first."""

    def __init__(
        self, get: Function, get_at: Function, keys: Function, status: Function, snapshot: Function, close: Function
    ) -> None:
        self._handle = Handle()
        self._at = ctypes.addressof(self._handle)
        self._kv_get, self._kv_get_at, self._kv_keys, self._kv_get_status = get, get_at, keys, status
        self._kv_snapshot, self._kv_close = snapshot, close

    def close(self) -> None:
        """Frees what is held. What is closed stays so."""
        self._kv_close(self._at)

    def __del__(self) -> None:
        if hasattr(self, "_kv_close"):
            self.close()

    def _find(self, key: Name, at: Optional[SupportsIndex] = None) -> Optional[Value]:
        name, used = name_of(key), room()
        try:
            while True:
                if at is None:
                    code = self._kv_get(self._at, name, len(name), *used.value)
                else:
                    code = self._kv_get_at(self._at, name, len(name), number_of(at), *used.value)
                if code == 0:
                    return Value._make((used.values[: used.size.value], used.number.value))
                if code == KEY_NOT_FOUND:
                    return None
                if code != TOO_LITTLE_ROOM:
                    raise refusal(code, 0)
                used.grow(used.size.value)
        finally:
            give_back(used)

    def keys(self, filter: Name = ">") -> List[str]:
        """The keys that a filter matches, or one of several filters with a comma between two, and that have a value: each once,
        in the order of their last puts."""
        name, kept = name_of(filter), room()
        try:
            used = kept
            code = self._kv_keys(self._at, name, len(name), *used.keys)
            while code == TOO_LITTLE_ROOM:
                # A list of keys may be as large as the bucket, so its room is not kept.
                used = Room(used.size.value)
                code = self._kv_keys(self._at, name, len(name), *used.keys)
            check(code)
            names: bytes = used.values[: used.size.value]
            return names.decode().split("\0")[:-1]
        finally:
            give_back(kept)

    def status(self) -> Status:
        """The numbers of the bucket; those of a snapshot have no watches."""
        told = StatusStruct()
        check(self._kv_get_status(self._at, ctypes.addressof(told)))
        return Status(told.history, told.last, told.stored, told.values, told.watches, told.sealed)
