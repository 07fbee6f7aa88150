"""The wrong bodies of a crate, each of which its contracts must refuse: files crates/NAME/wrong-bodies/*.edit, with lines

    in: FUNCTION        the function whose proof has to fail, by its whole path
    file: src/..        the file that is changed
    old: TEXT           what stands there, once
    new: TEXT           what is put there; more pairs may follow

A check of the crate costs far more than what one changed function adds to it. So bodies of different functions are tried in one
check, each of which has to refuse its own function. Where nothing is said of that function but that it calls another one that was
changed too, the body is tried once more."""
import os, shutil, subprocess, tempfile
from typing import Iterable, NamedTuple, Optional, Sequence

from scripts import kit, top

FOLDER = "wrong-bodies"


class Unreadable(Exception):
    """A wrong body that cannot be read or applied: it shows nothing."""


class Change(NamedTuple):
    file: str
    old: str
    new: str


class Body(NamedTuple):
    crate: str
    name: str
    function: str
    changes: tuple[Change, ...]


class Text(NamedTuple):
    """A source file with the places in it that were changed, each by where it stood at first."""
    text: str
    places: tuple[tuple[int, int, str], ...] = ()

    def changed(self, change: Change) -> "Optional[Text]":
        """With one more change, or None where it would touch another one."""
        if self.text.count(change.old) != 1:
            raise Unreadable("its old text is %d times in %s" % (self.text.count(change.old), change.file))
        start = self.text.index(change.old)
        end = start + len(change.old)
        if any(start < other_end and other_start < end for other_start, other_end, _ in self.places):
            return None
        return Text(self.text, (*self.places, (start, end, change.new)))

    def whole(self) -> str:
        parts, at = [], 0
        for start, end, new in sorted(self.places):
            parts += [self.text[at:start], new]
            at = end
        return "".join([*parts, self.text[at:]])


def folder_of(crate: str) -> str:
    return os.path.join(top, "crates", crate)


def read_text(path: str) -> str:
    with open(path, encoding="utf-8") as file:
        return file.read()


def body_of(crate: str, name: str) -> Body:
    function, file, old, changes = "", "", None, []
    for line in read_text(os.path.join(folder_of(crate), FOLDER, name)).splitlines():
        word, _, text = line.partition(": ")
        if word == "in":
            function = text
        elif word == "file":
            file = text
        elif word == "old" and old is None:
            old = text
        elif word in ("new", "new:") and old is not None:
            changes.append(Change(file, old, text))
            old = None
        else:
            raise Unreadable("crates/%s/%s/%s: %s" % (crate, FOLDER, name, line))
    if not function or not changes or old is not None:
        raise Unreadable("crates/%s/%s/%s: no function, or no change" % (crate, FOLDER, name))
    return Body(crate, name.removesuffix(".edit"), function, tuple(changes))


def bodies_of(crate: str) -> list[Body]:
    folder = os.path.join(folder_of(crate), FOLDER)
    return [body_of(crate, it) for it in sorted(os.listdir(folder))] if os.path.isdir(folder) else []


def crates() -> list[str]:
    """The crates that have wrong bodies."""
    every = os.listdir(os.path.join(top, "crates"))
    return sorted(it for it in every if os.path.isdir(os.path.join(folder_of(it), FOLDER)))


class Batch:
    """Bodies of different functions, which are tried in one check."""

    def __init__(self, crate: str) -> None:
        self.crate = crate
        self.bodies: list[Body] = []
        self.texts: dict[str, Text] = {}

    def takes(self, body: Body) -> bool:
        """Adds a body, where none of its function is there and no change touches another."""
        if any(it.function == body.function for it in self.bodies):
            return False
        texts = dict(self.texts)
        for change in body.changes:
            before = texts.get(change.file) or Text(read_text(os.path.join(folder_of(self.crate), change.file)))
            after = before.changed(change)
            if after is None:
                return False
            texts[change.file] = after
        self.texts = texts
        self.bodies.append(body)
        return True


def batch_of(bodies: Iterable[Body]) -> tuple[Batch, list[Body]]:
    """The bodies that can be tried in one check, from the first on, and the others."""
    made, others = None, []
    for body in bodies:
        made = made or Batch(body.crate)
        if not made.takes(body):
            others.append(body)
    assert made is not None
    return made, others


class Told(NamedTuple):
    """What a check says of the functions that it was asked for."""
    lines: Sequence[str]

    def is_refused(self, function: str) -> bool:
        """Whether the proof of this function failed by itself, and not for want of another's: a goal of its own stayed open, for which
        calls have what their contracts say, or one of its own answers fails, or all that it calls is proved."""
        said = next((it for it in self.lines if it.startswith("fn %s: " % function)), "").partition(": ")[2]
        path = function.split("::")[1:]
        proofs = tuple("./proofs/%s/" % "/".join([*path[:-1], it]) for it in (path[-1], "+" + path[-1]))
        fails = "; `search` did not prove " in said or any(it.startswith(proofs) and ": error: " in it for it in self.lines)
        return said.startswith(("not proved", "no proof: expected")) and (fails or "; it calls " not in said)


def kept_for(crate: str, folder: str) -> str:
    """A place in this folder for what checks of the crate keep: with what a check of the whole crate left, if one did. Nothing that is
    refused rests on that, and the checks take a third of the time."""
    left, kept = os.path.join(folder_of(crate), "out", "incremental"), os.path.join(folder, "kept")
    if os.path.isdir(left):
        shutil.copytree(left, kept)
    else:
        os.mkdir(kept)
    return kept


class Tried:
    """A crate whose wrong bodies are tried one batch after another, each over what the earlier ones kept of the rest."""

    def __init__(self, crate: str, kept: str) -> None:
        self.name, self.kept, self.checks = crate, kept, 0
        self.crate = kit.crate(crate)

    def check(self, texts: dict[str, Text], only: Iterable[str]) -> Told:
        """Checks functions of a copy of the crate with these texts in place of its own."""
        with tempfile.TemporaryDirectory() as folder:
            for part in ("src", "specs", "proofs"):
                if os.path.isdir(os.path.join(folder_of(self.name), part)):
                    shutil.copytree(os.path.join(folder_of(self.name), part), os.path.join(folder, part))
            for path, text in texts.items():
                with open(os.path.join(folder, path), "w", encoding="utf-8") as file:
                    file.write(text.whole())
            words = [kit.builder().RATTLE, "check", *self.crate.words(["--jobs", "1"], keeps=False), "--incremental", self.kept]
            words += [word for it in only for word in ("--only", it)]
            ran = subprocess.run(words, cwd=folder, stdin=subprocess.DEVNULL, stdout=subprocess.PIPE, stderr=subprocess.STDOUT, text=True,
                                 errors="replace")
        return Told(ran.stdout.rstrip("\n").split("\n"))

    def refused(self, batch: Batch) -> set[str]:
        """Which bodies of a batch the check refuses."""
        self.checks += 1
        told = self.check(batch.texts, [it.function for it in batch.bodies])
        return {it.name for it in batch.bodies if told.is_refused(it.function)}

    def not_refused(self, bodies: Sequence[Body]) -> list[str]:
        """The bodies that no check refuses. Those that a check leaves open, as they wait for another one's function, are tried in the
        next one; where a check refuses none, each of its bodies is tried by itself."""
        left, lost = list(bodies), []
        while left:
            batch, others = batch_of(left)
            found = self.refused(batch)
            if not found and len(batch.bodies) == 1:
                lost.append(batch.bodies[0].name)
            elif not found:
                lost += [name for it in batch.bodies for name in self.not_refused([it])]
            left = others + [it for it in batch.bodies if found and it.name not in found]
        return lost
