"""The worked scripts of tests/scripts, one file NAME.txt each, in which what is asked and what is answered stand in turn:

    ./kvbucket --history 2
    > put a MQ==
    {"revision":1}
    > take 1 1
    {"code":13,"error":"NoSuchWatch"}

The first line is there where the program has arguments. A line of the script stands behind `> `, and the lines that answer it follow,
each as it is; a race answers when it has read all of its lines. A byte of a script that is no printable character of ASCII, a
backslash, and a space at the end of a line is written as `\\xNN`. Each line of a script ends with a line feed, a carriage return
before that is written as `\\x0d`."""
import os, re
from typing import Iterator, NamedTuple

from tests import top

folder = os.path.join(top, "tests", "scripts")
PROMPT, PROGRAM = b"> ", b"./kvbucket "


class Script(NamedTuple):
    """A script: its steps are lines, each with the lines that answer it."""

    name: str
    arguments: list[str]
    steps: list[tuple[bytes, list[bytes]]]

    @property
    def input(self) -> bytes:
        return b"".join(line + b"\n" for line, _ in self.steps)

    @property
    def output(self) -> bytes:
        return b"".join(answer + b"\n" for _, answers in self.steps for answer in answers)

    @property
    def options(self) -> dict[str, str]:
        """What the arguments set, such as {"history": "2", "text": ""}."""
        options = re.findall(r"--([\w-]+)(?:[= ](?!--)(\S+))?", " ".join(self.arguments))
        return {name.replace("-", "_"): value for name, value in options}

    @property
    def is_race(self) -> bool:
        return "race" in self.options

    @property
    def is_text(self) -> bool:
        """Whether values stand in it as text, and not in base64."""
        return "text" in self.options

    @property
    def bucket(self) -> str:
        return self.options.get("bucket", "kv")

    @property
    def settings(self) -> dict[str, int]:
        """The limits and the history as arguments of a bucket in Python, such as history=2."""
        return {name: int(value) for name, value in self.options.items() if name not in ("bucket", "text", "race")}


def unescaped(text: bytes) -> bytes:
    return re.sub(rb"\\x([0-9a-f]{2})", lambda found: bytes.fromhex(found[1].decode()), text)


def parsed(name: str, text: bytes) -> Script:
    """The script of a file's text."""
    lines = text.split(b"\n")
    if lines.pop() != b"":
        raise ValueError("%s: its last line has no end" % name)
    arguments = lines.pop(0).decode().split()[1:] if lines and lines[0].startswith(PROGRAM) else []
    steps: list[tuple[bytes, list[bytes]]] = []
    for line in lines:
        if line.startswith(PROMPT) or line == PROMPT.rstrip():
            steps.append((unescaped(line[len(PROMPT):]), []))
        elif line and steps:
            steps[-1][1].append(line)
        else:
            raise ValueError("%s: %r answers no line of the script" % (name, line))
    return Script(name, arguments, steps)


def scripts() -> Iterator[Script]:
    """All of them, by name."""
    for name in sorted(os.listdir(folder)):
        with open(os.path.join(folder, name), "rb") as file:
            yield parsed(name.removesuffix(".txt"), file.read())
