"""A bucket in the memory of this process."""
from __future__ import annotations

import ctypes
import os
from types import TracebackType
from typing import Any, List, Optional, SupportsIndex, Type, Union

from ._arguments import Data, Name, Path, data_of, name_of, number_of, options_of, sync_of
from ._batch import Batch
from ._items import Entry
from ._library import Function, Limits, check, give_back, library, room
from ._mirror import Mirror
from ._reads import Reads
from ._snapshot import Snapshot
from ._watch import Watch


class Bucket(Reads):
    """A bucket of this name, with no writes. Any thread may use it.

    `history` is how many entries of each key are kept, 1 to 64; the others are limits: the bytes of a value, the writes that
    are stored, and the last revision.

    With a `path` it outlives the process, by a file: what it had accepted is there again. `sync` says when what it accepts is on
    the disk: `"each"` time, before the write returns; a number, before each of so many returns; `"asked"`, once `sync` or
    `close` does."""

    dropped: int
    """How many bytes of a torn end, which a crash had left, were cut off the file; 0 without one."""

    def __init__(
        self,
        name: Name,
        history: SupportsIndex = 1,
        *,
        value_limit: SupportsIndex = 1_048_576,
        write_limit: SupportsIndex = 1_000_000,
        revision_limit: SupportsIndex = 4_294_967_295,
        path: Optional[Path] = None,
        sync: Union[str, SupportsIndex] = "each",
    ) -> None:
        loaded = library()
        self._kv_put, self._kv_create, self._kv_update = loaded.kv_shared_put, loaded.kv_shared_create, loaded.kv_shared_update
        self._kv_delete, self._kv_purge = loaded.kv_shared_delete, loaded.kv_shared_purge
        super().__init__(
            loaded.kv_shared_get, loaded.kv_shared_get_at, loaded.kv_shared_keys, loaded.kv_shared_get_status,
            loaded.kv_shared_snapshot, loaded.kv_shared_close,
        )
        limits = Limits(*map(number_of, (history, value_limit, write_limit, revision_limit)))
        text, every = name_of(name), sync_of(sync)
        dropped, offset = ctypes.c_uint64(), ctypes.c_uint64()
        if path is None:
            check(loaded.kv_shared_open(self._at, text, len(text), ctypes.addressof(limits)))
        else:
            file, (limits_at, dropped_at, offset_at) = os.fsencode(path), map(ctypes.addressof, (limits, dropped, offset))
            code = loaded.kv_shared_open_file(
                self._at, file, len(file), text, len(text), limits_at, every, dropped_at, offset_at
            )
            check(code, offset.value)
        self.dropped = dropped.value

    def __exit__(
        self, kind: Optional[Type[BaseException]], error: Optional[BaseException], trace: Optional[TracebackType]
    ) -> None:
        code = self._kv_close(self._at)
        if error is None:
            check(code)

    def __del__(self) -> None:
        if hasattr(self, "_kv_close"):
            self._kv_close(self._at)

    def _write(self, function: Function, *arguments: Any) -> int:
        used = room()
        try:
            code = function(self._at, *arguments, used.number_at)
            if code:
                check(code, used.number.value)
            return used.number.value
        finally:
            give_back(used)

    def put(self, key: Name, value: Data) -> int:
        """Gives the key the value, and answers the revision of the write."""
        name, data = name_of(key), data_of(value)
        return self._write(self._kv_put, name, len(name), data, len(data))

    def create(self, key: Name, value: Data) -> int:
        """The same, where the key has no value."""
        name, data = name_of(key), data_of(value)
        return self._write(self._kv_create, name, len(name), data, len(data))

    def update(self, key: Name, value: Data, *, last: SupportsIndex) -> int:
        """The same, where `last` is the key's last revision, 0 where it was never written."""
        name, data = name_of(key), data_of(value)
        return self._write(self._kv_update, name, len(name), data, len(data), number_of(last))

    def delete(self, key: Name, *, last: Optional[SupportsIndex] = None) -> int:
        """Ends the value of the key; with `last`, only where that is the key's last revision."""
        name = name_of(key)
        return self._write(self._kv_delete, name, len(name), last is not None, number_of(last or 0))

    def purge(self, key: Name, *, last: Optional[SupportsIndex] = None) -> int:
        """The same, and the key's earlier entries go."""
        name = name_of(key)
        return self._write(self._kv_purge, name, len(name), last is not None, number_of(last or 0))

    def __setitem__(self, key: Name, value: Data) -> None:
        self.put(key, value)

    def __delitem__(self, key: Name) -> None:
        self.delete(key)

    def batch(self) -> Batch:
        """Gathers writes, and makes them in one step, or none of them: `with bucket.batch() as batch` makes them at the end of
        its block. A watch is handed them one by one, and no read sees some of them without the others."""
        return Batch(self)

    def sync(self) -> None:
        """Brings all that was accepted onto the disk. Where a call of the file fails, FileFault, and from then on each write and
        each sync; reads and watches go on. Without a file there is nothing to bring."""
        check(library().kv_shared_sync(self._at))

    def checkpoint(self) -> None:
        """Replaces the file by one that has what the bucket stores, and none of what led to it. It is written beside the file, under
        its name with `.checkpoint` behind it; a crash leaves the old file or the new one. FileFault where this fails: before the
        new one has the name, the bucket goes on with the old one, and behind that it goes on no more, as behind a `sync` that
        failed. `compact` does this by itself where the file has more than twice the bytes. Without a file nothing happens."""
        check(library().kv_shared_checkpoint(self._at))

    def seal(self) -> None:
        """Ends the writes."""
        check(library().kv_shared_seal(self._at))

    def compact(self, floor: SupportsIndex) -> None:
        """Compacts to the floor: of the writes at or below it only the retained ones stay stored. BadFloor where it is 0,
        above the last revision, or below the floor so far; else WatchBehind, which has `watch`, the least number of one
        that has still to hand out an entry at or below the floor that came after it was opened."""
        self._write(library().kv_shared_compact, number_of(floor))

    def reach(self) -> int:
        """The highest floor to which the bucket can be compacted now, so that no watch refuses it and none that is followed is
        Lagged; 0 where there is none."""
        return self._write(library().kv_shared_reach)

    def history(self, key: Name) -> List[Entry]:
        """The retained entries of the key, oldest first; none where it was never written."""
        with self.snapshot() as moment:
            return moment.history(key)

    def snapshot(self) -> Snapshot:
        """What the bucket has accepted by now."""
        return Snapshot(self)

    def watch(
        self,
        filters: Name,
        *,
        history: bool = False,
        updates: bool = False,
        since: Optional[SupportsIndex] = None,
        ignore_deletes: bool = False,
        headers_only: bool = False,
    ) -> Watch:
        """A watch of the keys that a filter matches, or one of several filters with a comma between two. As an iterator it goes
        through what is there; `follow` sleeps for more, and `changes` waits for more in asyncio.

        At most 64 are open at a time that are not followed, and one that is behind refuses a compaction: who needs it no
        longer calls `stop`, or opens it by `with`."""
        return Watch(self, filters, options_of(history, updates, since, ignore_deletes, headers_only))

    def mirror(self, filters: Name = ">") -> Mirror:
        """The keys that match and their values, as a mapping that keeps itself up to date."""
        return Mirror(self, filters)

    def finish(self) -> None:
        """Tells who follows that no write comes any more: they end once all was handed out."""
        check(library().kv_shared_finish(self._at))

    def close(self) -> None:
        """Frees the bucket. Who follows comes to the end, and each later call is Closed. What is closed stays so. A file ends
        cleanly, with all on the disk: it is FileFault where that fails, or had failed, and frees the bucket all the same."""
        check(self._kv_close(self._at))
