"""What is open until it is closed."""
from __future__ import annotations

import ctypes
import threading
from abc import ABC, abstractmethod
from types import TracebackType
from typing import Optional, Type, TypeVar

from ._library import Function, Handle

_Self = TypeVar("_Self", bound="Closing")


class Closing(ABC):
    """A `with` block closes it at its end."""

    @abstractmethod
    def close(self) -> None:
        """What is closed stays so."""

    def __enter__(self: _Self) -> _Self:
        return self

    def __exit__(
        self, kind: Optional[Type[BaseException]], error: Optional[BaseException], trace: Optional[TracebackType]
    ) -> None:
        self.close()


class Held(Closing):
    """A handle of the library, with which one call at a time is made."""

    def __init__(self, close: Function) -> None:
        self._handle, self._lock = Handle(), threading.Lock()
        self._at = ctypes.addressof(self._handle)
        self._kv_close = close

    def close(self) -> None:
        """Frees what is held. What is closed stays so."""
        with self._lock:
            self._kv_close(self._at)

    def __del__(self) -> None:
        if hasattr(self, "_kv_close"):
            self.close()
