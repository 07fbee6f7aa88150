"""A key-value bucket in the memory of this process, with wildcard watches, and with a file if it is to outlive that.

    from vilgoued import Bucket

    with Bucket("settings", history=5) as bucket:
        bucket["app.port"] = b"80"
        for entry in bucket.watch("app.>"):
            print("that was all" if entry.marker else entry)

Any thread may use a bucket. It stands on libvilgoued.so, which lies inside of this package or where VILGOUED_LIB names it.
`vilgoued.nats` has the same bucket on a NATS server, and needs no library.
"""
from ._batch import Batch
from ._bucket import Bucket
from ._items import MARKER, Entry, Item, Marker, Op, Status, Value
from ._mirror import Mirror
from ._snapshot import Feed, Snapshot
from ._watch import Watch
from .refusals import (
    BadBucket, BadConfig, BadFilter, BadFloor, BadKey, Closed, FileBusy, FileDamaged, FileFault, JournalFull, KeyExists, KeyNotFound,
    KvError, Lagged, NoDescriptor, NoSuchStart, NoSuchWatch, OlderView, OpenAlready, OptionsClash, OtherBucket,
    OutOfMemory, Sealed, TooLittleRoom, TooManyWatches, ValueTooLarge, WatchBehind,
    WrongLastRevision,
)

__all__ = [
    "Batch", "Bucket", "Entry", "Feed", "Item", "MARKER", "Marker", "Mirror", "Op", "Snapshot", "Status",
    "Value", "Watch", "KvError", "OutOfMemory", "BadBucket", "BadConfig", "BadKey", "BadFilter",
    "OptionsClash", "ValueTooLarge", "Sealed", "JournalFull", "KeyExists", "WrongLastRevision",
    "KeyNotFound", "NoSuchWatch", "TooManyWatches", "BadFloor", "WatchBehind", "Lagged", "FileFault", "FileDamaged", "FileBusy",
    "OtherBucket", "Closed",
    "TooLittleRoom", "OpenAlready", "NoSuchStart", "OlderView", "NoDescriptor",
]
