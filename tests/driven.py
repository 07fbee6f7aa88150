"""A bucket of a package in another language, which a program of that language drives by lines (rust/examples/lines.rs,
go/lines/main.go). So what runs on a bucket of Python, as the worked scripts do, runs on it."""
import re, subprocess
from typing import Any, List, Optional, Sequence, Union, cast

from vilgoued import Item, KvError, Lagged, WatchBehind, WrongLastRevision
from vilgoued._items import MARKER, Entry, Status, Value
from vilgoued.refusals import refusal

DEFAULTS = {"history": 1, "value_limit": 1 << 20, "write_limit": 1_000_000, "revision_limit": (1 << 32) - 1}
TELLING = (WrongLastRevision, WatchBehind, Lagged)


def worded(text: Union[str, bytes]) -> str:
    """A text or bytes as a word of a line."""
    return "x" + (text.encode() if isinstance(text, str) else bytes(text)).hex()


def unworded(word: str) -> bytes:
    return bytes.fromhex(word[1:])


def entry_of(words: Sequence[str]) -> Entry:
    key, op, revision, size, value = words
    return Entry(unworded(key).decode(), cast(Any, op), int(revision), int(size), None if value == "-" else unworded(value))


def refused(text: str) -> KvError:
    """The refusal of such a text as `11 WrongLastRevision { last: 3 }`, behind which the place in a batch may stand, as ` at 1`. It
    has to have the name of its code, and its number."""
    found = re.fullmatch(r"(\d+) (\w+)(?: \{ (\w+): (\d+) \})?(?: at (\d+))?", text)
    if not found:
        raise AssertionError("no refusal: " + text)
    it = refusal(int(found[1]), int(found[4] or 0), None if found[5] is None else int(found[5]))
    if type(it).__name__ != found[2] or isinstance(it, TELLING) != (found[3] is not None) or not hasattr(it, found[3] or "code"):
        raise AssertionError("not what its code says: " + text)
    return it


def last_of(last: Optional[int]) -> list[int]:
    return [] if last is None else [last]


class Writes:
    """The writes of a bucket and of a batch, as words of a line."""

    def _write(self, name: str, key: str, *words: object) -> Any:
        raise NotImplementedError

    def put(self, key: str, value: Union[str, bytes]) -> Any:
        return self._write("put", key, worded(value))

    def create(self, key: str, value: Union[str, bytes]) -> Any:
        return self._write("create", key, worded(value))

    def update(self, key: str, value: Union[str, bytes], last: int) -> Any:
        return self._write("update", key, last, worded(value))

    def delete(self, key: str, last: Optional[int] = None) -> Any:
        return self._write("delete", key, *last_of(last))

    def purge(self, key: str, last: Optional[int] = None) -> Any:
        return self._write("purge", key, *last_of(last))


class Driven(Writes):
    """A bucket with the calls that tests.replay makes."""

    def __init__(self, *program: str, **settings: Any) -> None:
        limits = [str(it) for it in {**DEFAULTS, **settings}.values()]
        self._process = subprocess.Popen([*program, *limits], stdin=subprocess.PIPE, stdout=subprocess.PIPE, text=True)

    def __enter__(self) -> "Driven":
        return self

    def __exit__(self, *_: object) -> None:
        assert self._process.stdin and self._process.stdout
        self._process.stdin.close()
        self._process.stdout.close()
        try:
            if self._process.wait(30) != 0:
                raise AssertionError("the program ended with status %d" % self._process.returncode)
        finally:
            self._process.kill()

    def ask(self, *words: Any) -> List[str]:
        assert self._process.stdin and self._process.stdout
        self._process.stdin.write(" ".join(map(str, words)) + "\n")
        self._process.stdin.flush()
        how, _, told = self._process.stdout.readline().rstrip("\n").partition(" ")
        if how not in ("ok", "no"):
            raise AssertionError("no answer to %r" % (words,))
        if how == "no":
            raise refused(told)
        return told.split()

    def _write(self, name: str, key: str, *words: object) -> int:
        return int(self.ask(name, worded(key), *words)[0])

    def batch(self) -> "DrivenBatch":
        return DrivenBatch(self)

    def get(self, key: str, at: Optional[int] = None) -> Optional[Value]:
        words = self.ask("get", worded(key), *last_of(at))
        if words == ["empty"]:
            return None
        entry = entry_of(words)
        if (entry.key, entry.op, entry.size) != (key, "PUT", len(entry.value or b"")):
            raise AssertionError("not what was asked for: %r" % (entry,))
        return Value(entry.value or b"", entry.revision)

    def history(self, key: str) -> list[Entry]:
        words = self.ask("history", worded(key))
        return [entry_of(words[at:at + 5]) for at in range(0, len(words), 5)]

    def keys(self, filter: str) -> list[str]:
        return [unworded(word).decode() for word in self.ask("keys", worded(filter))]

    def status(self) -> Status:
        history, last, stored, values, watches, sealed = map(int, self.ask("status"))
        return Status(history, last, stored, values, watches, bool(sealed))

    def seal(self) -> None:
        self.ask("seal")

    def compact(self, floor: int) -> None:
        self.ask("compact", floor)

    def watch(self, filters: str, history: bool, updates: bool, since: Optional[int], ignore_deletes: bool, headers_only: bool) -> "DrivenWatch":
        starts = [name for name, is_asked in (("history", history), ("updates", updates), ("from", since is not None)) if is_asked]
        if len(starts) > 1:
            # These packages have one value for what a watch begins with, so two can't be asked for.
            raise refusal(6, 0)
        words = [*(starts or ["latest"]), since or 0, int(ignore_deletes), int(headers_only)]
        return DrivenWatch(self, int(self.ask("watch", worded(filters), *words)[0]))


class DrivenBatch(Writes):
    """Writes that are made by one line, in which an `&` stands between two."""

    def __init__(self, bucket: Driven) -> None:
        self._bucket = bucket
        self._lines: List[Any] = []

    def _write(self, name: str, key: str, *words: object) -> None:
        # These packages see at the write whether a key is one; a script has to be told before a later line that is no command.
        self._bucket.get(key)
        self._lines.append([name, worded(key), *words])

    def write(self) -> range:
        words = [word for line in self._lines for word in ["&", *line]]
        first, end = map(int, self._bucket.ask("batch", *words[1:]))
        return range(first, end)


class DrivenWatch:
    def __init__(self, bucket: Driven, number: int) -> None:
        self._bucket, self.number = bucket, number

    def __iter__(self) -> "DrivenWatch":
        return self

    def __next__(self) -> Item:
        words = self._bucket.ask("take", self.number)
        if words == ["empty"]:
            raise StopIteration
        return MARKER if words == ["marker"] else entry_of(words)

    def stop(self) -> int:
        return int(self._bucket.ask("stop", self.number)[0])
