"""Watches of a bucket."""
from __future__ import annotations

import ctypes
import threading
from typing import TYPE_CHECKING, Optional

from ._arguments import Name, name_of
from ._following import Following
from ._items import Item
from ._library import Handle, Options, check, library, take
from .refusals import Closed, NoSuchWatch

if TYPE_CHECKING:
    from ._bucket import Bucket


class Follower:
    """A watch that goes on by itself, on the library's side, and has a descriptor to wait on. Any thread may use it."""

    def __init__(self, bucket: Bucket, filters: bytes, options: Options) -> None:
        loaded = library()
        self._bucket = bucket
        self._handle, self._lock = Handle(), threading.Lock()
        self._at = ctypes.addressof(self._handle)
        self._next, self._stop, self._kv_close = loaded.kv_follower_next, loaded.kv_follower_stop, loaded.kv_follower_close
        check(loaded.kv_follower_open(bucket._at, filters, len(filters), ctypes.addressof(options), self._at))
        found = ctypes.c_int()
        check(loaded.kv_follower_fd(self._at, ctypes.addressof(found)))
        self.descriptor = found.value

    def take(self) -> Optional[Item]:
        """The next item, or None where there is none now. Closed where none comes any more."""
        with self._lock:
            return take(self._next, self._at, 0, may_lag=True)

    def stop(self) -> None:
        """Wakes who waits, for whom it then has ended."""
        self._stop(self._at)

    def __del__(self) -> None:
        if hasattr(self, "_kv_close"):
            self._kv_close(self._at)


class Watch(Following):
    """A watch of a bucket. It is open until it is stopped, or its bucket is closed.

    As an iterator it is held by the bucket: what it has still to hand out refuses a compaction. Once it is followed it goes
    on by itself: it refuses no compaction, counts as none of the 64, and is Lagged where one came too early for it."""

    def __init__(self, bucket: Bucket, filters: Name, options: Options) -> None:
        loaded = library()
        self._bucket, self._filters = bucket, name_of(filters)
        self._later = Options(2, 0, options.ignore_deletes, options.headers_only)
        self._kv_take, self._kv_stop = loaded.kv_shared_take, loaded.kv_shared_stop
        self._lock = threading.Lock()
        self._follower: Optional[Follower] = None
        self._is_held, self._is_stopped, self._last, self._handed = True, False, 0, 0
        number = ctypes.c_uint64()
        check(
            loaded.kv_shared_watch(
                bucket._at, self._filters, len(self._filters), ctypes.addressof(options), ctypes.addressof(number)
            )
        )
        self.number = number.value

    def _take_held(self) -> Optional[Item]:
        item = take(self._kv_take, self._bucket._at, self.number)
        if item is not None and not item.marker:
            self._last = item.revision
        return item

    def _take_later(self) -> Optional[Item]:
        """What the follower has; but for what the bucket handed out between its opening and the end of the held watch."""
        if self._is_stopped or self._follower is None:
            raise NoSuchWatch()
        item = self._follower.take()
        while item is not None and not item.marker and item.revision <= self._last:
            item = self._follower.take()
        self._handed += item is not None
        return item

    def _take(self) -> Optional[Item]:
        with self._lock:
            if self._is_held:
                return self._take_held()
            try:
                return self._take_later()
            except Closed:
                return None

    def _take_following(self) -> Optional[Item]:
        with self._lock:
            while self._is_held:
                item = self._take_held()
                if item is not None:
                    return item
                # The follower begins before the last look at what is held, so nothing is left out between the two.
                if self._follower is None:
                    self._follower = Follower(self._bucket, self._filters, self._later)
                else:
                    self._let_go()
            return self._take_later()

    def _let_go(self) -> None:
        handed = ctypes.c_uint64()
        check(self._kv_stop(self._bucket._at, self.number, ctypes.addressof(handed)))
        self._is_held, self._handed = False, handed.value

    def _descriptor(self) -> int:
        if self._follower is None:
            raise NoSuchWatch()
        return self._follower.descriptor

    def stop(self) -> int:
        with self._lock:
            if self._is_stopped:
                raise NoSuchWatch()
            if self._is_held:
                self._let_go()
            self._is_stopped = True
            if self._follower is not None:
                self._follower.stop()
            return self._handed
