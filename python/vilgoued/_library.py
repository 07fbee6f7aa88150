"""The library for C, libvilgoued.so: where it lies, its functions, and the structs and memory that they take."""
from __future__ import annotations

import ctypes
import functools
import os
import platform
import struct
from typing import Any, Callable, Dict, Iterator, List, Optional, Tuple

from ._items import MARKER, Entry, Item, Op
from .refusals import refusal

NAME = "libvilgoued.so"
_HERE = os.path.dirname(os.path.abspath(__file__))
_CHECKOUT = os.path.dirname(os.path.dirname(_HERE))

Function = Callable[..., int]

# What is told by a code, and leads to no exception everywhere.
KEY_NOT_FOUND, TOO_LITTLE_ROOM = 12, 33


class Limits(ctypes.Structure):
    _fields_ = [(name, ctypes.c_uint64) for name in ("history", "value_limit", "write_limit", "revision_limit")]


class Options(ctypes.Structure):
    _fields_ = [
        ("start", ctypes.c_uint32),
        ("since", ctypes.c_uint64),
        ("ignore_deletes", ctypes.c_bool),
        ("headers_only", ctypes.c_bool),
    ]


class ItemStruct(ctypes.Structure):
    _fields_ = [
        ("kind", ctypes.c_uint32),
        ("op", ctypes.c_uint32),
        ("revision", ctypes.c_uint64),
        ("key_size", ctypes.c_size_t),
        ("size", ctypes.c_uint64),
        ("value_size", ctypes.c_size_t),
        ("has_value", ctypes.c_bool),
    ]


class StatusStruct(ctypes.Structure):
    _fields_ = [
        *[(name, ctypes.c_uint64) for name in ("history", "last", "stored", "values", "watches")],
        ("sealed", ctypes.c_bool),
    ]


# Handles, of whatever kind, have 16 bytes, which only the library reads.
Handle = ctypes.c_uint64 * 2

# Pointers are handed over as addresses, which costs least; each is of an object that the caller keeps.
_Kinds = List[Any]
_AT, _NUMBER, _SIZE, _FLAG = ctypes.c_void_p, ctypes.c_uint64, ctypes.c_size_t, ctypes.c_bool
_BYTES: _Kinds = [ctypes.c_char_p, _SIZE]
_ROOM: _Kinds = [_AT, _SIZE]

_READS: Dict[str, _Kinds] = {
    "get": [_AT, *_BYTES, *_ROOM, _AT, _AT],
    "get_at": [_AT, *_BYTES, _NUMBER, *_ROOM, _AT, _AT],
    "history": [_AT, *_BYTES, _SIZE, *_ROOM, _AT, _AT],
    "keys": [_AT, *_BYTES, *_ROOM, _AT, _AT],
    "get_status": [_AT, _AT],
}
_FUNCTIONS: Dict[str, _Kinds] = {
    "kv_shared_open": [_AT, *_BYTES, _AT],
    "kv_shared_finish": [_AT],
    "kv_shared_open_file": [_AT, *_BYTES, *_BYTES, _AT, _NUMBER, _AT, _AT],
    "kv_shared_sync": [_AT],
    "kv_shared_checkpoint": [_AT],
    "kv_shared_close": [_AT],
    "kv_shared_put": [_AT, *_BYTES, *_BYTES, _AT],
    "kv_shared_create": [_AT, *_BYTES, *_BYTES, _AT],
    "kv_shared_update": [_AT, *_BYTES, *_BYTES, _NUMBER, _AT],
    "kv_shared_delete": [_AT, *_BYTES, _FLAG, _NUMBER, _AT],
    "kv_shared_purge": [_AT, *_BYTES, _FLAG, _NUMBER, _AT],
    "kv_shared_write_all": [_AT, _AT, _AT, _AT],
    "kv_shared_seal": [_AT],
    "kv_shared_compact": [_AT, _NUMBER, _AT],
    "kv_shared_reach": [_AT, _AT],
    "kv_shared_snapshot": [_AT, _AT],
    "kv_shared_watch": [_AT, *_BYTES, _AT, _AT],
    "kv_shared_take": [_AT, _NUMBER, *_ROOM, *_ROOM, _AT],
    "kv_shared_stop": [_AT, _NUMBER, _AT],
    "kv_follower_open": [_AT, *_BYTES, _AT, _AT],
    "kv_follower_next": [_AT, _NUMBER, *_ROOM, *_ROOM, _AT, _AT],
    "kv_follower_fd": [_AT, _AT],
    "kv_follower_stop": [_AT],
    "kv_batch_put": [_AT, *_BYTES, *_BYTES],
    "kv_batch_create": [_AT, *_BYTES, *_BYTES],
    "kv_batch_update": [_AT, *_BYTES, *_BYTES, _NUMBER],
    "kv_batch_delete": [_AT, *_BYTES, _FLAG, _NUMBER],
    "kv_batch_purge": [_AT, *_BYTES, _FLAG, _NUMBER],
    "kv_batch_size": [_AT, _AT],
    "kv_snapshot": [_AT, _AT],
    "kv_feed_open": [_AT, *_BYTES, _AT, _AT],
    "kv_feed_refresh": [_AT, _AT, _AT],
    "kv_feed_take": [_AT, *_ROOM, *_ROOM, _AT],
    "kv_code_name": [_NUMBER, *_ROOM, _AT],
    **{"kv_shared_" + name: kinds for name, kinds in _READS.items()},
    **{"kv_view_" + name: kinds for name, kinds in _READS.items()},
}
_CLOSES = ("kv_follower_close", "kv_view_close", "kv_feed_close", "kv_batch_close")


def _paths() -> Iterator[str]:
    """Where the library may lie, the likeliest first."""
    yield os.path.join(_HERE, NAME)
    if os.path.exists(os.path.join(_CHECKOUT, "library")):
        yield os.path.join(_CHECKOUT, "lib", NAME)


def path() -> str:
    """The library's path: what VILGOUED_LIB names, a file or the folder that has it, else inside of the package, else where a
    checkout builds it, else the bare name, which the system's loader looks for."""
    named = os.environ.get("VILGOUED_LIB") or ""
    if os.path.isdir(named):
        named = os.path.join(named, NAME)
    return next(filter(None, [named, *filter(os.path.exists, _paths()), NAME]))


def _machine_of(file: str) -> str:
    """The processor that a library was built for, or nothing."""
    try:
        with open(file, "rb") as opened:
            head = opened.read(20)
    except OSError:
        return ""
    if len(head) < 20 or head[:4] != b"\x7fELF":
        return "no system that has ELF"
    (number,) = struct.unpack("<H" if head[5] == 1 else ">H", head[18:20])
    return {3: "i686", 40: "arm", 62: "x86_64", 183: "aarch64", 243: "riscv64"}.get(number, f"processor {number}")


def _why(file: str, error: OSError) -> str:
    """What is missing, and how to get it."""
    if os.path.sep in file and not os.path.exists(file):
        return f"there is no {file}: ./library in a checkout of Vilgoued makes {NAME}, and VILGOUED_LIB names where it lies"
    if file == NAME and "cannot open shared object file" in str(error):
        return f"{NAME} is not there: ./library in a checkout of Vilgoued makes it, and VILGOUED_LIB names where it lies"
    machine, here = _machine_of(file), platform.machine()
    if machine and (machine != here or struct.calcsize("P") != 8):
        return f"{file} is for {machine}, and this Python is for {here}: ./library makes one for the machine that it runs on"
    if "GLIBC_" in str(error):
        return f"{file} wants a newer C library than this system has ({error}): ./library makes one for this system"
    return f"{file} does not load: {error}"


@functools.lru_cache(maxsize=None)
def library() -> ctypes.CDLL:
    """The library, which is loaded when it is first wanted. Where it can't be, that is an OSError."""
    file = path()
    try:
        loaded = ctypes.CDLL(file)
    except OSError as error:
        raise OSError(_why(file, error)) from None
    try:
        for name, kinds in _FUNCTIONS.items():
            function = getattr(loaded, name)
            function.argtypes, function.restype = kinds, _NUMBER
        for name in _CLOSES:
            function = getattr(loaded, name)
            function.argtypes, function.restype = [_AT], None
    except AttributeError:
        raise OSError(f"{file} is of another version, as it has no {name}: ./library makes the one of this version") from None
    return loaded


_OPS: Tuple[Op, Op, Op] = ("PUT", "DEL", "PURGE")


class Room:
    """Memory that answers are copied to, and the arguments that name it, which are made once."""

    def __init__(self, size: int = 4096) -> None:
        self.size, self.number, self.count = ctypes.c_size_t(), ctypes.c_uint64(), ctypes.c_size_t()
        self.item = ItemStruct()
        # Slices of arrays of characters are bytes, which the types of ctypes do not say.
        self._keys: Any = ctypes.create_string_buffer(255)
        self.number_at = ctypes.addressof(self.number)
        self.grow(size)

    def grow(self, size: int) -> None:
        """Makes room for a value of this size."""
        self.values: Any = ctypes.create_string_buffer(size)
        values = ctypes.addressof(self.values), size
        size_at, count_at, item_at = map(ctypes.addressof, (self.size, self.count, self.item))
        self.value = (*values, size_at, self.number_at)
        self.entry = (*values, item_at, count_at)
        self.keys = (*values, size_at, count_at)
        self.items = (ctypes.addressof(self._keys), len(self._keys), *values, item_at)
        self.items_or_floor = (*self.items, self.number_at)

    def entry_of(self, key: bytes) -> Entry:
        """The entry that was copied."""
        item = self.item
        value = self.values[: item.value_size] if item.has_value else None
        return Entry(key.decode(), _OPS[item.op], item.revision, item.size, value)

    def taken(self) -> Optional[Item]:
        """The item that was handed out, or None where nothing was."""
        if self.item.kind == 2:
            return self.entry_of(self._keys[: self.item.key_size])
        return MARKER if self.item.kind == 1 else None


# Rooms that no call uses now. A call takes one out, so two threads, or a call and a signal's handler, never have the same.
_rooms: List[Room] = []
give_back = _rooms.append


def room() -> Room:
    """A room for one call, which gives it back. It stays as large as it grew, which is no larger than a value."""
    try:
        return _rooms.pop()
    except IndexError:
        return Room()


def check(code: int, number: int = 0) -> None:
    """Raises the refusal of a code, if it is one."""
    if code:
        raise refusal(code, number)


def take(function: Function, *before: int, may_lag: bool = False) -> Optional[Item]:
    """The next item that a function of the library hands out, or None where nothing is left."""
    used = room()
    try:
        code = function(*before, *(used.items_or_floor if may_lag else used.items))
        while code == TOO_LITTLE_ROOM:
            used.grow(used.item.value_size)
            code = function(*before, *(used.items_or_floor if may_lag else used.items))
        check(code, used.number.value)
        return used.taken()
    finally:
        give_back(used)
