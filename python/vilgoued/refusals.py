"""Why calls are refused: a class for each reason, with its code (docs/semantics.md). A refused call leaves the bucket as it was."""
from __future__ import annotations

from typing import Dict, Optional, Type

__all__ = [
    "KvError",
    "OutOfMemory",
    "BadBucket",
    "BadConfig",
    "BadKey",
    "BadFilter",
    "OptionsClash",
    "ValueTooLarge",
    "Sealed",
    "JournalFull",
    "KeyExists",
    "WrongLastRevision",
    "KeyNotFound",
    "NoSuchWatch",
    "TooManyWatches",
    "BadFloor",
    "WatchBehind",
    "Lagged",
    "FileFault",
    "FileDamaged",
    "FileBusy",
    "OtherBucket",
    "Closed",
    "TooLittleRoom",
    "OpenAlready",
    "NoSuchStart",
    "OlderView",
    "NoDescriptor",
]


class KvError(Exception):
    """Why a call was refused. Where that was a write of a batch, `at` is its place in the batch, from 0."""

    code: Optional[int] = None
    at: Optional[int] = None
    _text = ""

    def _tell(self) -> str:
        return super().__str__() or self._text

    def __str__(self) -> str:
        return self._tell() if self.at is None else f"{self._tell()} (write {self.at} of a batch)"


class OutOfMemory(KvError):
    """Memory was refused. The call can be made again."""

    code = 1
    _text = "a request for memory was refused: the bucket is as it was, and the call can be made again"


class BadBucket(KvError):
    """The name is none of a bucket."""

    code = 2
    _text = "a bucket's name has 1 to 64 letters, digits, _ and -: choose such a name"


class BadConfig(KvError):
    """A number is outside its limits."""

    code = 3
    _text = (
        "a number is outside its limits: history is 1 to 64, value_limit at most 1048576, write_limit 1 to 1000000, "
        "revision_limit 1 to 4294967295"
    )


class BadKey(KvError):
    """The text is no key."""

    code = 4
    _text = "a key has 1 to 255 letters, digits and -/_= in tokens with a dot between two, none of which is empty"


class BadFilter(KvError):
    """The text is no filter, or no list of filters."""

    code = 5
    _text = (
        "a filter is a key, in which * may stand for a token and > at the end for the rest; a list has 1 to 16 of them, "
        "with a comma between two"
    )


class OptionsClash(KvError):
    """Two of `history`, `updates` and `since`."""

    code = 6
    _text = "two of history, updates and since: a watch begins with one of them"


class ValueTooLarge(KvError):
    """The value is longer than `value_limit`."""

    code = 7
    _text = "the value is longer than value_limit: write a shorter one, or open the bucket with a higher limit"


class Sealed(KvError):
    """A write to a sealed bucket."""

    code = 8
    _text = "the bucket is sealed: it takes no more writes, and can still be read"


class JournalFull(KvError):
    """The bucket stores as many writes as it may, or gave its last revision."""

    code = 9
    _text = (
        "the stored writes reach write_limit: compact(reach()) frees those that were overwritten; "
        "or the last revision reaches revision_limit, which ends the writes"
    )


class KeyExists(KvError):
    """A create of a key that has a value."""

    code = 10
    _text = "the key has a value: update it at its last revision, or put"


class WrongLastRevision(KvError):
    """The key's last revision is another one: `last`, 0 where it was never written."""

    code = 11

    def __init__(self, last: int = 0) -> None:
        super().__init__(last)
        self.last = last

    def _tell(self) -> str:
        return f"the key's last revision is {self.last}: read the key again, and give this one"


class KeyNotFound(KvError):
    """There is no such entry."""

    code = 12
    _text = "there is no such entry: the key has no value, or no longer the one of this revision"


class NoSuchWatch(KvError):
    """The watch was stopped."""

    code = 13
    _text = "the watch was stopped, or never opened: open another"


class TooManyWatches(KvError):
    """64 watches are open, or all numbers were given."""

    code = 14
    _text = "64 watches are open, or all numbers were given: stop one, or follow it"


class BadFloor(KvError):
    """The floor is 0, above the last revision, or below the last compaction's."""

    code = 19
    _text = (
        "the floor is 0, above the last revision, or below the last compaction's: reach() tells the highest that nobody refuses"
    )


class WatchBehind(KvError):
    """An open watch is behind the floor: `watch` is the least number of such a one."""

    code = 20

    def __init__(self, watch: int = 0) -> None:
        super().__init__(watch)
        self.watch = watch

    def _tell(self) -> str:
        return (
            f"the watch {self.watch} has still to be handed an entry at or below the floor: "
            "take from it, stop it, or compact to reach()"
        )


class Lagged(KvError):
    """The bucket was compacted, to `floor`, before this had gone on as far, so it would leave out entries."""

    code = 21

    def __init__(self, floor: int = 0) -> None:
        super().__init__(floor)
        self.floor = floor

    def _tell(self) -> str:
        return f"what follows lags behind a compaction, whose floor is {self.floor}: open a new watch, which begins with what there is"


class FileFault(KvError):
    """A call of the bucket's file has failed. Nothing more is written; reads and watches go on."""

    code = 22
    _text = "the bucket's file has failed, and it takes no more writes: open it again, which tells what is in it"


class FileDamaged(KvError):
    """The file has other bytes than were written, or is none of a bucket. They are good up to the offset `at`."""

    code = 23

    def __init__(self, at: int = 0) -> None:
        super().__init__(at)
        self.at = at

    def __str__(self) -> str:
        return f"the file is damaged, or none of a bucket: its bytes are good up to offset {self.at}; take it from a copy"


class FileBusy(KvError):
    """Another opening has the file, in this process or another."""

    code = 24
    _text = "another opening has the file, in this process or another: close that one first"


class OtherBucket(KvError):
    """The snapshot is of another bucket than the feed, or the file than the one that is opened."""

    code = 25
    _text = (
        "the snapshot is of another bucket than the feed: take one of the bucket that the feed began with; "
        "or the file is of a bucket with another name, history or limits: open it with those that it was made with"
    )


class Closed(KvError):
    """The bucket, the snapshot or the feed is closed."""

    code = 32
    _text = "it is closed: open another"


class TooLittleRoom(KvError):
    """What would be copied has no room. No call of this package is refused so."""

    code = 33
    _text = "there is too little room"


class OpenAlready(KvError):
    """The handle is open. No call of this package is refused so."""

    code = 34
    _text = "the handle is open already"


class NoSuchStart(KvError):
    """A watch has no such start. No call of this package is refused so."""

    code = 35
    _text = "a watch has no such start"


class OlderView(KvError):
    """The snapshot has fewer writes than the one that the feed has gone on to."""

    code = 36
    _text = "the snapshot is older than the one that the feed has gone on to: take a newer one"


class NoDescriptor(KvError):
    """The system gives no descriptor to wait on."""

    code = 64
    _text = "the system gives no descriptor: too many files are open; close some, or raise the limit (ulimit -n)"


_CLASSES: Dict[int, Type[KvError]] = {
    refusal.code: refusal for refusal in KvError.__subclasses__() if refusal.code is not None
}


def refusal(code: int, number: int, at: Optional[int] = None) -> KvError:
    """The refusal of this code; the four that tell a number have this one. One of a batch has the index of its write."""
    told = _CLASSES[code](number) if code in (11, 20, 21, 23) else _CLASSES[code]()
    if at is not None:
        told.at = at
    return told
