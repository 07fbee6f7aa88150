"""Buckets for tests, in this process, or where VILGOUED_SERVER is the URL of a NATS server on that."""
import itertools
import os
import threading
import unittest
from typing import Any, Callable, Iterable, List, TypeVar, Union

import vilgoued
import vilgoued.nats
from vilgoued import Item

_Test = TypeVar("_Test", bound=Callable[..., object])

server = os.environ.get("VILGOUED_SERVER", "")
_fresh = itertools.count(1)
# Seconds that are longer than anything here takes, however much else the machine does.
LONG = 300


def open_bucket(name: Union[str, bytes], *arguments: Any, **settings: Any) -> Any:
    """The bucket of this name, in one package or the other."""
    if server:
        return vilgoued.nats.Bucket(server, name, *arguments, **settings)
    return vilgoued.Bucket(name, *arguments, **settings)


def fresh_bucket(**settings: Any) -> Any:
    """A bucket with no writes."""
    return open_bucket(f"settings-{os.getpid()}-{next(_fresh)}", **settings)


def differs_on_a_server(reason: str) -> Callable[[_Test], _Test]:
    """Marks a test that has to fail there, and tells why."""
    return unittest.expectedFailure if server else lambda test: test


def later(call: Callable[..., object], *arguments: Any) -> threading.Timer:
    """Makes a call in a moment, on another thread."""
    timer = threading.Timer(0.1, call, arguments)
    timer.start()
    return timer


def revisions(items: Iterable[Item]) -> List[int]:
    return [0 if item.marker else item.revision for item in items]


class OfBucket(unittest.TestCase):
    """Tests of a bucket that keeps three entries of each key."""

    def setUp(self) -> None:
        self.bucket = fresh_bucket(history=3)
        self.addCleanup(self.bucket.close)
