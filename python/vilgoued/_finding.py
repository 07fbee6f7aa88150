"""What is found under a key, whatever finds it."""
from __future__ import annotations

from typing import Optional, SupportsIndex, TypeVar, Union, overload

from ._arguments import Name
from ._items import Value

_T = TypeVar("_T")


class Finds:
    """Reads of one key, by a way to find its value."""

    def _find(self, key: Name, at: Optional[SupportsIndex] = None) -> Optional[Value]:
        raise NotImplementedError

    @overload
    def get(self, key: Name, default: None = None, *, at: Optional[SupportsIndex] = None) -> Optional[Value]:
        ...

    @overload
    def get(self, key: Name, default: _T, *, at: Optional[SupportsIndex] = None) -> Union[Value, _T]:
        ...

    def get(self, key: Name, default: Optional[_T] = None, *, at: Optional[SupportsIndex] = None) -> Union[Value, Optional[_T]]:
        """The value of the key with its revision, or `default`; with `at`, the put of that revision, if retained."""
        found = self._find(key, at)
        return default if found is None else found

    def __getitem__(self, key: Name) -> bytes:
        found = self._find(key)
        if found is None:
            raise KeyError(key)
        return found.value

    def __contains__(self, key: Name) -> bool:
        return self._find(key) is not None
