"""A mapping that keeps itself as a bucket is."""
from __future__ import annotations

import threading
from typing import Callable, Dict, ItemsView, Iterator, KeysView, List, Mapping, Optional, Protocol, TypeVar, ValuesView

from ._arguments import Name
from ._closing import Closing
from ._following import Following, is_readable
from ._items import Entry, Value
from .refusals import Closed, Lagged, NoSuchWatch

OnChange = Callable[[str, Optional[bytes]], object]
_OnChange = TypeVar("_OnChange", bound=OnChange)


class _Watched(Protocol):
    """A bucket, in this process or on a server."""

    def watch(self, filters: Name) -> Following:
        ...


def _call(told: OnChange, key: str, value: Optional[bytes]) -> None:
    """Tells of a change. What is raised goes where that of a thread goes, so that it holds up nobody else."""
    try:
        told(key, value)
    except Exception as error:
        threading.excepthook(threading.ExceptHookArgs((type(error), error, error.__traceback__, threading.current_thread())))


class Mirror(Closing, Mapping[str, bytes]):
    """The keys that match a filter, or a list of filters, and their values. It can only be read, by any thread.

    Each access first goes on to all that is published: it shows each write that had returned before the access began, in
    this thread or in any other. From the first `on_change` or `wait` on a thread of its own goes on too, as soon as there is
    something, until the mirror is closed or its bucket has ended. A delete and a purge take their key away. Once the bucket is
    finished or closed it stays as it was when it last went on."""

    def __init__(self, bucket: _Watched, filters: Name) -> None:
        self._bucket, self._filters = bucket, filters
        self._lock = threading.RLock()
        self._moved = threading.Condition(self._lock)
        self._values: Dict[str, Value] = {}
        self._told: List[OnChange] = []
        self._is_going_on, self._has_ended = False, False
        # How many changes there were, and how many of these before the last access or wait.
        self._changes = self._seen = self.revision = 0
        self._thread: Optional[threading.Thread] = None
        self._watch = self._begin()
        self._seen = self._changes

    def _begin(self) -> Following:
        """Takes in what is there now: at first, and once more where a compaction came too early."""
        watch = self._bucket.watch(self._filters)
        found: Dict[str, Value] = {}
        try:
            for item in watch.follow(0):
                if not item.marker:
                    self._take_in(item, found)
        except Lagged:
            return self._begin()
        for key in [key for key in self._values if key not in found]:
            del self._values[key]
            self._tell(key, None)
        for key, value in found.items():
            if self._values.get(key) != value:
                self._values[key] = value
                self._tell(key, value.value)
        return watch

    def _take_in(self, entry: Entry, values: Dict[str, Value]) -> bool:
        """Has the values be as behind this entry, and answers whether that changes anything."""
        self.revision = max(self.revision, entry.revision)
        if entry.value is None:
            return values.pop(entry.key, None) is not None
        values[entry.key] = Value(entry.value, entry.revision)
        return True

    def _tell(self, key: str, value: Optional[bytes]) -> None:
        self._changes += 1
        for told in self._told:
            _call(told, key, value)

    def _go_on(self) -> None:
        """Goes on for who reads."""
        with self._lock:
            # What is told of a change, and reads here, sees the mapping behind that change.
            if not self._is_going_on:
                self._advance()
                self._seen = self._changes

    def _advance(self) -> None:
        """Goes on to all that is published, and wakes who waits."""
        self._is_going_on = True
        try:
            self._go_through()
        finally:
            self._is_going_on = False
            self._moved.notify_all()

    def _go_through(self) -> None:
        while True:
            try:
                item = self._watch._take_following()
            except Lagged:
                self._watch = self._begin()
                continue
            except (Closed, NoSuchWatch):
                self._has_ended = True
                return
            if item is None:
                return
            if not item.marker and self._take_in(item, self._values):
                self._tell(item.key, item.value)

    def _follow(self) -> None:
        """Has a thread go on, where none does."""
        if self._thread is None and not self._has_ended:
            self._thread = threading.Thread(target=self._keep_up, name="a mirror of vilgoued", daemon=True)
            self._thread.start()

    def _keep_up(self) -> None:
        try:
            # The watch is held during the sleep: who reads meanwhile may begin another, and its descriptor would be closed.
            watch = self._next_watch()
            while watch is not None:
                is_readable(watch._descriptor(), None)
                watch = self._next_watch()
        finally:
            with self._lock:
                self._thread = None
                self._moved.notify_all()

    def _next_watch(self) -> Optional[Following]:
        """Goes on, and answers what to sleep for; nothing where it has ended."""
        with self._lock:
            self._advance()
            return None if self._has_ended else self._watch

    def wait(self, timeout: Optional[float] = None) -> bool:
        """Sleeps until something has changed since the last access or wait, for so many seconds at most; False where nothing did,
        or where the bucket has ended."""
        with self._lock:
            seen = self._seen
            self._go_on()
            self._follow()
            self._moved.wait_for(lambda: self._changes != seen or self._thread is None, timeout)
            self._seen = self._changes
            return self._changes != seen

    def on_change(self, told: _OnChange) -> _OnChange:
        """Has `told` called with the key and its value, or None where it has none any more, for each change from now on, in their
        order: at once, by the mirror's thread, or by one that reads and is there before. Others that read wait until it returns.
        What it raises goes to `threading.excepthook`, and the next change is told all the same. It may stand as a decorator."""
        with self._lock:
            self._told = [*self._told, told]
            self._follow()
        return told

    def copy(self) -> Dict[str, bytes]:
        """All of it, of one moment."""
        with self._lock:
            self._go_on()
            return {key: value.value for key, value in self._values.items()}

    def get_value(self, key: str) -> Optional[Value]:
        """The value with its revision, or None."""
        with self._lock:
            self._go_on()
            return self._values.get(key)

    def __getitem__(self, key: str) -> bytes:
        with self._lock:
            self._go_on()
            return self._values[key].value

    def __len__(self) -> int:
        return len(self.copy())

    def __iter__(self) -> Iterator[str]:
        return iter(self.copy())

    def keys(self) -> KeysView[str]:
        return self.copy().keys()

    def values(self) -> ValuesView[bytes]:
        return self.copy().values()

    def items(self) -> ItemsView[str, bytes]:
        return self.copy().items()

    def close(self) -> None:
        """Ends it: it stays as it is."""
        with self._lock:
            self._has_ended = True
            self._watch._stop_if_open()

    def __repr__(self) -> str:
        return f"Mirror({self.copy()!r})"
