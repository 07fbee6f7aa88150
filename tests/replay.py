"""Runs the lines of a script (docs/script.md) on a bucket of Python, over the library for C or a NATS server, and writes the answers as
./kvbucket does. So it can be seen what another bucket answers to the same lines. It has no race."""
import base64, json, re
from typing import Any, Callable, Optional, Union

from vilgoued import Entry, KeyNotFound, KvError, NoSuchWatch

from tests.worked import Script

NUMBER = r"(\d{1,20})"
COMMANDS = {
    "put": r"put ([^ ]+) (.*)",
    "create": r"create ([^ ]+) (.*)",
    "update": r"update ([^ ]+) %s (.*)" % NUMBER,
    "delete": r"delete ([^ ]+)(?: %s)?" % NUMBER,
    "purge": r"purge ([^ ]+)(?: %s)?" % NUMBER,
    "get": r"get ([^ ]+)(?: %s)?" % NUMBER,
    "history": r"history ([^ ]+)",
    "keys": r"keys ([^ ]+)",
    "watch": r"watch ([^ ]+)((?: (?:history|updates|from=\d{1,20}|nodeletes|meta))*)",
    "take": r"take %s %s" % (NUMBER, NUMBER),
    "stop": r"stop " + NUMBER,
    "status": r"status",
    "seal": r"seal",
    "compact": r"compact " + NUMBER,
    "place": r"place ([^ ]+)",
    "batch": r"batch " + NUMBER,
}
# What a line is answered by.
Told = dict[str, Any]
WRITES = ("put", "create", "update", "delete", "purge")


class BadCommand(KvError):
    """A line that is no command."""

    code = 16


def number(text: str) -> int:
    """A number of 64 bits."""
    if int(text) >= 1 << 64:
        raise BadCommand()
    return int(text)


class Base64:
    """Values as the base64 of their bytes, `-` for none."""

    FORM = re.compile("(?:[A-Za-z0-9+/]{4})*(?:[A-Za-z0-9+/]{4}|[A-Za-z0-9+/]{3}=|[A-Za-z0-9+/]{2}==)")

    def read(self, text: str) -> bytes:
        data = b"" if text == "-" else base64.b64decode(text) if self.FORM.fullmatch(text) else None
        if data is None or text != "-" and self.shown(data) != text:
            raise BadCommand()
        return data

    def shown(self, data: bytes) -> str:
        return base64.b64encode(data).decode()


class Text:
    """Values as their text."""

    def read(self, text: str) -> bytes:
        return text.encode("latin-1")

    def shown(self, data: bytes) -> str:
        return data.decode()


Form = Union[Base64, Text]


def words_of(line: str) -> tuple[str, tuple[Any, ...]]:
    """The name of a command, and what stands behind it."""
    name = line.split(" ")[0]
    words = re.fullmatch(COMMANDS[name], line) if name in COMMANDS else None
    if words is None:
        raise BadCommand()
    return name, words.groups()


def write(to: Any, form: Form, name: str, key: str, *words: Any) -> Any:
    """Asks a bucket or a batch for a write, whose value is of this form."""
    if name == "update":
        return to.update(key, form.read(words[1]), last=number(words[0]))
    if name in ("put", "create"):
        return getattr(to, name)(key, form.read(words[0]))
    return getattr(to, name)(key, last=None if words[0] is None else number(words[0]))


def refused(refusal: KvError) -> Told:
    """A refusal as an answer shows it; the places of a batch count from 1 there."""
    it = {"code": refusal.code, "error": type(refusal).__name__}
    it.update((name, getattr(refusal, name)) for name in ("last", "watch") if hasattr(refusal, name))
    return it if refusal.at is None else {**it, "at": refusal.at + 1}


def written(told: Told) -> str:
    """An answer as its line."""
    return json.dumps(told, separators=(",", ":"), sort_keys=True, ensure_ascii=False)


class Gathered:
    """The lines of a batch, as far as they were read. The first that is no write, or has no key, refuses it, before what the bucket
    refuses; the lines behind it belong to the batch all the same."""

    def __init__(self, batch: Any, form: Form, size: int) -> None:
        self.batch, self.form, self.size = batch, form, size
        self.read = 0
        self.refusal: Optional[KvError] = None

    def add(self, line: str) -> None:
        if self.refusal is None:
            try:
                name, words = words_of(line)
                if name not in WRITES:
                    raise BadCommand()
                write(self.batch, self.form, name, *words)
            except KvError as refusal:
                self.refuse(refusal)
        self.read += 1

    def refuse(self, refusal: KvError) -> None:
        refusal.at, self.refusal = self.read, refusal

    def written(self) -> Told:
        if self.read < self.size and self.refusal is None:
            self.refuse(BadCommand())
        if self.refusal is not None:
            raise self.refusal
        return {"revisions": list(self.batch.write())}


class Session:
    """A bucket, the watches that its script opened, and the batch whose lines it is at."""

    def __init__(self, bucket: Any, name: str, form: Form) -> None:
        self.bucket, self.name, self.form = bucket, name, form
        self.watches: dict[int, Any] = {}
        self.gathered: Any = None

    def answers(self, line: str) -> list[str]:
        """The answers to a line: none, one, or those of a `take`."""
        return [] if line == "" or line.startswith("#") else self.answered(self.told, line)

    def at_end(self) -> list[str]:
        """The answer to a batch of which the script has not all lines."""
        return [] if self.gathered is None else self.answered(self.written)

    def answered(self, asked: Callable[..., Any], *words: str) -> list[str]:
        try:
            told = asked(*words)
        except KvError as refusal:
            told = refused(refusal)
        return [written(it) for it in (told if isinstance(told, list) else [told])]

    def told(self, line: str) -> Any:
        if self.gathered is not None:
            self.gathered.add(line)
            return self.written_if_whole()
        name, words = words_of(line)
        return {"revision": write(self.bucket, self.form, name, *words)} if name in WRITES else getattr(self, name)(*words)

    def batch(self, size: str) -> Any:
        self.gathered = Gathered(self.bucket.batch(), self.form, number(size))
        return self.written_if_whole()

    def written_if_whole(self) -> Any:
        return self.written() if self.gathered.read == self.gathered.size else []

    def written(self) -> Any:
        gathered, self.gathered = self.gathered, None
        return gathered.written()

    def shown(self, entry: Entry) -> Told:
        """An entry as an answer shows it."""
        it = {"key": entry.key, "op": entry.op, "revision": entry.revision, "size": entry.size}
        return it if entry.value is None else {**it, "value": self.form.shown(entry.value)}

    def get(self, key: str, at: Optional[str]) -> Told:
        found = self.bucket.get(key, at=None if at is None else number(at))
        if found is None:
            raise KeyNotFound()
        return {"key": key, "op": "PUT", "revision": found.revision, "size": len(found.value),
                "value": self.form.shown(found.value)}

    def history(self, key: str) -> Told:
        entries = self.bucket.history(key)
        if not entries:
            raise KeyNotFound()
        return {"entries": [self.shown(entry) for entry in entries]}

    def keys(self, filters: str) -> Told:
        return {"keys": self.bucket.keys(filters)}

    def watch(self, filters: str, words: str) -> Told:
        asked = words.split()
        names = [word.partition("=")[0] for word in asked]
        if len(set(names)) < len(names):
            raise BadCommand()
        since = next((number(word[5:]) for word in asked if word.startswith("from=")), None)
        watch = self.bucket.watch(filters, history="history" in asked, updates="updates" in asked, since=since,
                                  ignore_deletes="nodeletes" in asked, headers_only="meta" in asked)
        self.watches[watch.number] = watch
        return {"watch": watch.number}

    def open_watch(self, text: str) -> Any:
        if number(text) not in self.watches:
            raise NoSuchWatch()
        return self.watches[number(text)]

    def take(self, text: str, count: str) -> list[Told]:
        if not 1 <= number(count) <= 1_000_000:
            raise BadCommand()
        watch, items = self.open_watch(text), []
        for _ in range(number(count)):
            item = next(watch, None)
            items.append({"empty": True} if item is None else {"marker": True} if item.marker else self.shown(item))
            if item is None:
                break
        return [{**it, "watch": watch.number} for it in items]

    def stop(self, text: str) -> Told:
        return {"handed": self.open_watch(text).stop(), "stopped": number(text)}

    def status(self) -> Told:
        return {"bucket": self.name, **self.bucket.status()._asdict()}

    def seal(self) -> Told:
        self.bucket.seal()
        return {"sealed": True}

    def compact(self, floor: str) -> Told:
        self.bucket.compact(number(floor))
        return {"compacted": number(floor)}

    def place(self, key: str) -> Told:
        """The hash of a key, FNV-1a of 32 bits, for which a bucket of Python has no call; a get sees whether it is a key."""
        self.bucket.get(key)
        hash = 2166136261
        for byte in key.encode():
            hash = (hash ^ byte) * 16777619 % (1 << 32)
        return {"place": "%08x" % hash}


def replay(bucket: Any, script: Script) -> list[str]:
    """The answers of a bucket to a script (worked.py), line by line."""
    session = Session(bucket, script.bucket, Text() if script.is_text else Base64())
    answers = [answer for line, _ in script.steps for answer in session.answers(line.decode("latin-1").removesuffix("\r"))]
    return answers + session.at_end()
