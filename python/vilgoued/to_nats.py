"""to-nats URL NAME [ARGUMENT..] < SCRIPT: moves a bucket to a NATS server. Runs a script through ./kvbucket with these arguments
(as --history 5, or --text), and writes the entries that its bucket retains in the end, by revision, into the bucket NAME there,
which is made where there is none and has to be empty.

Tells what was written, and what could not go along. The status is 0 where all entries are there, 1 where they are not: then
standard error says why, and how far it came; 2 for a fault in the arguments that are not those of ./kvbucket."""
from __future__ import annotations

import argparse
import json
import os
import re
import subprocess
import sys
from base64 import b64decode
from typing import Any, Dict, List, Tuple

from .nats import Bucket, Entry, KvError, copy_to

_OF_CHECKOUT = os.path.join(os.path.dirname(os.path.realpath(__file__)), "..", "..", "kvbucket")
PROGRAM = _OF_CHECKOUT if os.path.exists(_OF_CHECKOUT) else "kvbucket"

_Answer = Dict[str, Any]


class Failed(Exception):
    """Why not all of it is there."""


def tail(script: bytes) -> bytes:
    """What is asked behind a script: its open watches are ended, and one on all that is retained is taken to its end. Numbers of
    watches are given once, so that this one has some number up to one more than the script has lines that open one."""
    opened = len(re.findall(rb"^watch ", script, re.M))
    lines = ["stop %d" % number for number in range(1, opened + 1)] + ["watch > history"]
    lines += ["take %d 1000000" % number for number in range(1, opened + 2)] + ["status"]
    return "".join(line + "\n" for line in lines).encode()


def value_of(answer: _Answer, is_text: bool) -> bytes:
    """The bytes of an answer's value, which a script of values as text writes none of that are no text."""
    value: str = answer.get("value", "")
    return value.encode() if is_text else b64decode(value)


def run(program: str, arguments: List[str], script: bytes) -> Tuple[List[Entry], _Answer]:
    """The retained entries of the bucket that a script makes, and its status."""
    try:
        done = subprocess.run([program, *arguments], input=script + b"\n" + tail(script), stdout=subprocess.PIPE)
    except OSError as error:
        raise Failed("%s does not run (%s): install it, or name another by --program" % (program, error.strerror)) from None
    if done.returncode != 0:
        raise Failed("the script was not run to its end, as stands above, and nothing was written: mend that, and run it again")
    answers: List[_Answer] = [json.loads(line) for line in done.stdout.splitlines()]
    watch = next((it["watch"] for it in reversed(answers) if list(it) == ["watch"]), None)
    if watch is None or "history" not in answers[-1]:
        raise Failed("the program did not show the bucket of its script, and nothing was written: name a kvbucket by --program")
    shown = [it for it in answers if it.get("watch") == watch and "op" in it]
    return [entry_of(it, "--text" in arguments) for it in shown], answers[-1]


def entry_of(answer: _Answer, is_text: bool) -> Entry:
    """The entry that an answer shows."""
    value = value_of(answer, is_text) if answer["op"] == "PUT" else None
    return Entry(answer["key"], answer["op"], answer["revision"], answer["size"], value)


def copy(entries: List[Entry], bucket: Bucket) -> List[int]:
    """Writes the entries, and answers the revision that each has there."""
    there: List[int] = []
    for entry in entries:
        try:
            there.append(copy_to(bucket, entry))
        except (KvError, OSError) as error:
            raise Failed("%s\n%s" % (blame(entry, error), progress(entries, there))) from None
    return there


def blame(entry: Entry, error: Exception) -> str:
    unknown = ", and this write may be there or not" if isinstance(error, OSError) else ""
    return "revision %d, key %s: %s: %s%s" % (entry.revision, entry.key, type(error).__name__, error, unknown)


def progress(entries: List[Entry], there: List[int]) -> str:
    """How far it came."""
    if not there:
        return "written: nothing"
    first, last = entries[0].revision, entries[len(there) - 1].revision
    return "written: %d entries, of the revisions %d to %d, which are %d to %d there" % (len(there), first, last, there[0], there[-1])


def main() -> None:
    parser = argparse.ArgumentParser(prog="to-nats", description=__doc__, formatter_class=argparse.RawDescriptionHelpFormatter,
                                     allow_abbrev=False)
    parser.add_argument("url")
    parser.add_argument("name")
    parser.add_argument("--after", type=int, metavar="R", help="write only the entries behind revision R, into a bucket that may have some")
    parser.add_argument("--program", default=PROGRAM, metavar="PATH", help="another program than ./kvbucket")
    asked, arguments = parser.parse_known_args()
    try:
        entries, status = run(asked.program, arguments, sys.stdin.buffer.read())
        with Bucket(asked.url, asked.name, status["history"]) as bucket:
            last = bucket.status().last
            if last > 0 and asked.after is None:
                raise Failed("the bucket %s has had writes, up to revision %d, and nothing was written: "
                             "name an empty one, or go on with --after R" % (asked.name, last))
            entries = [entry for entry in entries if entry.revision > (asked.after or 0)]
            print(progress(entries, copy(entries, bucket)))
    except (Failed, KvError, OSError, ValueError) as error:
        sys.exit("to-nats: %s" % error)
    print("did not go along: the revisions, as the server gives its own; limits of values, writes and revisions; open watches")
    if status["sealed"]:
        print("did not go along: the seal")


if __name__ == "__main__":
    main()
