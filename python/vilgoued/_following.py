"""Going through what is there, sleeping for more, and waiting for more in asyncio."""
from __future__ import annotations

import asyncio
import math
import select
import time
from abc import ABC, abstractmethod
from types import TracebackType
from typing import AsyncIterator, Iterator, Optional, Type, TypeVar

from ._items import Item
from .refusals import Closed, NoSuchWatch

_Self = TypeVar("_Self", bound="Following")

# How many items in a row asyncio's other tasks wait for.
_IN_A_ROW = 64
# The longest wait that poll takes, in milliseconds.
_LONGEST = (1 << 31) - 1


def is_readable(descriptor: int, until: Optional[float]) -> bool:
    """Sleeps until a descriptor is readable; False where it is not by this time of the monotonic clock."""
    waiting = select.poll()
    waiting.register(descriptor, select.POLLIN)
    while True:
        left = _LONGEST if until is None else min(max(math.ceil((until - time.monotonic()) * 1000), 0), _LONGEST)
        if waiting.poll(left):
            return True
        if until is not None and until <= time.monotonic():
            return False


def deadline(timeout: Optional[float]) -> Optional[float]:
    return None if timeout is None else time.monotonic() + timeout


class Following(Iterator[Item], ABC):
    """An iterator over what is there now: it ends where nothing is left, and goes on when there is more."""

    _is_awaited = False

    @abstractmethod
    def _take(self) -> Optional[Item]:
        """The next item of what is there now, or None."""

    @abstractmethod
    def _take_following(self) -> Optional[Item]:
        """The same, once it follows: where it answers None, the descriptor is not readable before there may be more."""

    async def _take_in_asyncio(self) -> Optional[Item]:
        return self._take_following()

    @abstractmethod
    def _descriptor(self) -> int:
        """The descriptor of what follows."""

    @abstractmethod
    def stop(self) -> int:
        """Ends the watch, and answers how many items it was handed, the end marker counted. Who sleeps in `follow` or waits in
        `changes` has come to the end."""

    def _stop_if_open(self) -> None:
        """Stops it, if it is still open."""
        try:
            self.stop()
        except (NoSuchWatch, Closed):
            pass

    def __enter__(self: _Self) -> _Self:
        return self

    def __exit__(
        self, kind: Optional[Type[BaseException]], error: Optional[BaseException], trace: Optional[TracebackType]
    ) -> None:
        self._stop_if_open()

    async def _readable(self) -> None:
        """Waits in asyncio until the descriptor is readable."""
        if self._is_awaited:
            raise RuntimeError("another task goes through the changes of this watch: open a watch for each")
        loop, descriptor = asyncio.get_running_loop(), self._descriptor()
        is_there: asyncio.Future[None] = loop.create_future()
        loop.add_reader(descriptor, lambda: None if is_there.done() else is_there.set_result(None))
        self._is_awaited = True
        try:
            await is_there
        finally:
            self._is_awaited = False
            loop.remove_reader(descriptor)

    def __next__(self) -> Item:
        item = self._take()
        if item is None:
            raise StopIteration
        return item

    def follow(self, timeout: Optional[float] = None) -> Iterator[Item]:
        """Goes through what is there, and then sleeps for more. It ends once nothing came for so many seconds, if they are
        given, or when the bucket is finished or closed, or the watch stopped. It can be followed again, and goes on
        where it was."""
        try:
            until = None
            while True:
                item = self._take_following()
                if item is None:
                    until = until or deadline(timeout)
                    if not is_readable(self._descriptor(), until):
                        return
                else:
                    until = None
                    yield item
        except (Closed, NoSuchWatch):
            pass

    def changes(self) -> AsyncIterator[Item]:
        """The same in asyncio, with no thread and no limit of time. Each step can be cancelled, and loses no item."""
        return _Changes(self)


class _Changes(AsyncIterator[Item]):
    def __init__(self, following: Following) -> None:
        self._following = following
        self._in_a_row = 0

    def __aiter__(self) -> _Changes:
        return self

    async def __anext__(self) -> Item:
        if self._in_a_row == _IN_A_ROW:
            self._in_a_row = 0
            await asyncio.sleep(0)
        try:
            item = await self._following._take_in_asyncio()
            while item is None:
                self._in_a_row = 0
                await self._following._readable()
                item = await self._following._take_in_asyncio()
        except (Closed, NoSuchWatch):
            raise StopAsyncIteration from None
        self._in_a_row += 1
        return item
