"""Writes that are made in one step."""
from __future__ import annotations

import ctypes
from types import TracebackType
from typing import Any, Optional, SupportsIndex, Type

from ._arguments import Data, Name, data_of, name_of, number_of
from ._closing import Held
from ._library import Function, check, library
from ._reads import Reads
from .refusals import Closed, FileFault, refusal


class Batch(Held):
    """Writes that are gathered, and made in one step: all of them, or none. A `with` block makes them at its end, and makes
    none of them where it raises; or `write` does.

    Each write is judged behind those before it, so an update may name the revision of an earlier one. What refuses the batch
    has `at`, the index of that write in it, from 0; then the bucket and the batch are as they were. A key that is none, and a
    value that is longer than any bucket takes, are refused when they are gathered.

    Any thread may gather; calls of several threads come one after another."""

    revisions: range
    """The revisions of the writes that were made last, in their order; empty before that."""

    def __init__(self, bucket: Reads) -> None:
        loaded = library()
        super().__init__(loaded.kv_batch_close)
        self._bucket, self._kv_size = bucket, loaded.kv_batch_size
        self.revisions = range(0)

    def _size(self) -> int:
        size = ctypes.c_size_t()
        check(self._kv_size(self._at, ctypes.addressof(size)))
        return size.value

    def _gather(self, function: Function, *arguments: Any) -> None:
        with self._lock:
            code = function(self._at, *arguments)
            if code:
                raise refusal(code, 0, self._size())

    def put(self, key: Name, value: Data) -> None:
        """Gives the key the value."""
        name, data = name_of(key), data_of(value)
        self._gather(library().kv_batch_put, name, len(name), data, len(data))

    def create(self, key: Name, value: Data) -> None:
        """The same, where the key has no value."""
        name, data = name_of(key), data_of(value)
        self._gather(library().kv_batch_create, name, len(name), data, len(data))

    def update(self, key: Name, value: Data, *, last: SupportsIndex) -> None:
        """The same, where `last` is the key's last revision, 0 where it was never written."""
        name, data = name_of(key), data_of(value)
        self._gather(library().kv_batch_update, name, len(name), data, len(data), number_of(last))

    def delete(self, key: Name, *, last: Optional[SupportsIndex] = None) -> None:
        """Ends the value of the key; with `last`, only where that is the key's last revision."""
        name = name_of(key)
        self._gather(library().kv_batch_delete, name, len(name), last is not None, number_of(last or 0))

    def purge(self, key: Name, *, last: Optional[SupportsIndex] = None) -> None:
        """The same, and the key's earlier entries go."""
        name = name_of(key)
        self._gather(library().kv_batch_purge, name, len(name), last is not None, number_of(last or 0))

    def __setitem__(self, key: Name, value: Data) -> None:
        self.put(key, value)

    def __delitem__(self, key: Name) -> None:
        self.delete(key)

    def __len__(self) -> int:
        """How many writes are gathered."""
        with self._lock:
            return self._size()

    def write(self) -> range:
        """Makes what is gathered, and answers the revisions. Then nothing is gathered. Of no writes nothing is made, and the
        range is empty."""
        revision, at = ctypes.c_uint64(), ctypes.c_size_t()
        with self._lock:
            size = self._size()
            write = library().kv_shared_write_all
            code = write(self._bucket._at, self._at, ctypes.addressof(revision), ctypes.addressof(at))
            if code:
                raise refusal(code, revision.value, None if code in (Closed.code, FileFault.code) else at.value)
            first = revision.value if size else revision.value + 1
            self.revisions = range(first, first + size)
            return self.revisions

    def close(self) -> None:
        """Forgets what is gathered."""
        super().close()

    def __exit__(
        self, kind: Optional[Type[BaseException]], error: Optional[BaseException], trace: Optional[TracebackType]
    ) -> None:
        if kind is None:
            self.write()
        else:
            self.close()
