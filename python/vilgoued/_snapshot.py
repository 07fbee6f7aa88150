"""Snapshots of a bucket, and feeds over them."""
from __future__ import annotations

import ctypes
import threading
from typing import Any, Iterator, List, Optional, SupportsIndex

from ._arguments import Name, name_of, options_of
from ._closing import Held
from ._items import Entry, Item
from ._library import KEY_NOT_FOUND, TOO_LITTLE_ROOM, Function, Options, check, give_back, library, room, take
from ._reads import Reads


def _in_turn(lock: threading.Lock, function: Any) -> Function:
    """The function, of which one call at a time is made under this lock."""

    def call(*arguments: Any) -> Any:
        with lock:
            return function(*arguments)

    return call


class Snapshot(Reads):
    """What a bucket had accepted by a moment. Any thread may read it; calls of several threads come one after another."""

    def __init__(self, reader: Reads) -> None:
        loaded, lock = library(), threading.Lock()
        self._kv_history = _in_turn(lock, loaded.kv_view_history)
        self._kv_feed_open = _in_turn(lock, loaded.kv_feed_open)
        self._kv_feed_refresh = _in_turn(lock, loaded.kv_feed_refresh)
        calls = (
            loaded.kv_view_get, loaded.kv_view_get_at, loaded.kv_view_keys, loaded.kv_view_get_status, loaded.kv_snapshot,
            loaded.kv_view_close,
        )
        super().__init__(*(_in_turn(lock, call) for call in calls))
        check(reader._kv_snapshot(reader._at, self._at))

    def snapshot(self) -> Snapshot:
        """The same moment once more."""
        return Snapshot(self)

    def history(self, key: Name) -> List[Entry]:
        """The retained entries of the key, oldest first; none where it was never written."""
        name, used = name_of(key), room()
        entries: List[Entry] = []
        try:
            while True:
                code = self._kv_history(self._at, name, len(name), len(entries), *used.entry)
                if code == TOO_LITTLE_ROOM:
                    used.grow(used.item.value_size)
                    continue
                if code == KEY_NOT_FOUND or code == 0 and used.item.kind == 0:
                    return entries
                check(code)
                entries.append(used.entry_of(name))
        finally:
            give_back(used)

    def watch(
        self,
        filters: Name,
        *,
        history: bool = False,
        updates: bool = False,
        since: Optional[SupportsIndex] = None,
        ignore_deletes: bool = False,
        headers_only: bool = False,
    ) -> Feed:
        """A feed that begins with this moment: a watch that goes on as it is refreshed, also on another thread."""
        return Feed(self, filters, options_of(history, updates, since, ignore_deletes, headers_only))


class Feed(Held, Iterator[Item]):
    """A watch over snapshots: an iterator over what there was in its first one, and each later write up to the last. It ends
    where nothing is left, and goes on after a refresh. Any thread may use it; calls come one after another."""

    def __init__(self, snapshot: Snapshot, filters: Name, options: Options) -> None:
        loaded = library()
        super().__init__(loaded.kv_feed_close)
        self._kv_take = loaded.kv_feed_take
        names = name_of(filters)
        check(snapshot._kv_feed_open(snapshot._at, names, len(names), ctypes.addressof(options), self._at))

    def refresh(self, snapshot: Snapshot) -> None:
        """Goes on to a later snapshot of the same bucket, which may be closed then. OtherBucket where it is of another one;
        Lagged, which has `floor`, where the bucket was compacted past what the feed has still to hand out: then take what is
        left, and watch the snapshot."""
        used = room()
        try:
            with self._lock:
                code = snapshot._kv_feed_refresh(self._at, snapshot._at, used.number_at)
            check(code, used.number.value)
        finally:
            give_back(used)

    def __next__(self) -> Item:
        with self._lock:
            item = take(self._kv_take, self._at)
        if item is None:
            raise StopIteration
        return item
