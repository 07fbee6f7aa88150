"""What a bucket on a server answers while others write to it, between one question to the server and the next."""
import os
import subprocess
import threading
import unittest
from typing import Any, cast

from tests import top
from vilgoued.nats import Bucket
from vilgoued.refusals import KeyExists

server = os.environ.get("VILGOUED_SERVER", "")


class Interrupted(Bucket):
    """A bucket that lets another client write behind each of its questions for an entry."""

    meanwhile = None

    def _entry(self, **asked: Any) -> Any:
        found = super()._entry(**asked)
        if self.meanwhile:
            self.meanwhile()
        return found


class Meanwhile(unittest.TestCase):
    def buckets(self, name: str, history: int = 1) -> Any:
        """A bucket that is interrupted, and another client's."""
        buckets = Interrupted(server, name, history), Bucket(server, name, history)
        for bucket in buckets:
            self.addCleanup(bucket.close)
        return buckets

    def test_a_watch_of_several_filters_goes_by_revision(self) -> None:
        bucket, other = self.buckets("filters")
        watch = bucket.watch("a.*,c.*,b.*", updates=True)

        def write() -> None:
            bucket.meanwhile = None
            for key in ("a.x", "b.y", "c.z", "a.x"):
                other[key] = b"1"

        bucket.meanwhile = write
        self.assertEqual([(it.key, it.revision) for it in watch], [("b.y", 2), ("c.z", 3), ("a.x", 4)])

        def write_two() -> None:
            bucket.meanwhile = None
            other["a.w"] = other["b.w"] = b"1"

        bucket.meanwhile = write_two
        self.assertEqual([it.key for it in watch], ["a.w", "b.w"])

    def test_keys_name_each_key_once(self) -> None:
        bucket, other = self.buckets("keys")
        for key in ("a", "hot", "c"):
            other[key] = b"1"
        bucket.meanwhile = lambda: other.put("hot", b"2")
        self.assertEqual(sorted(bucket.keys()), ["a", "c", "hot"])

    def test_a_history_has_no_more_than_is_kept(self) -> None:
        for history in (1, 3):
            bucket, other = self.buckets("history-%d" % history, history)
            for number in range(4):
                other["hot"] = b"%d" % number
            bucket.meanwhile = lambda: other.put("hot", b"2")
            entries = bucket.history("hot")
            self.assertIn(len(entries), range(1, history + 1))
            self.assertEqual({it.key for it in entries}, {"hot"})

    def test_a_create_of_a_key_that_others_delete_is_made(self) -> None:
        bucket, other = self.buckets("create")
        turns = iter(range(3))
        bucket.meanwhile = lambda: next(turns, None) is None or other.delete("k")
        other.delete("k")
        self.assertGreater(bucket.create("k", b"1"), 1)
        with self.assertRaises(KeyExists):
            bucket.create("k", b"2")

    def test_a_script_of_a_bucket_that_others_write_is_told_to_be_none_of_a_moment(self) -> None:
        with Bucket(server, "written") as other:
            for number in range(100):
                other["k.%d" % number] = b"1"
            over = threading.Event()

            def write() -> None:
                while not over.is_set():
                    other["k.50"] = b"2"

            writer = threading.Thread(target=write)
            writer.start()
            try:
                done = subprocess.run([os.path.join(top, "python", "from-nats"), server, "written"], capture_output=True, text=True, timeout=300)
            finally:
                over.set()
                writer.join()
        self.assertEqual(done.returncode, 1)
        self.assertIn("others wrote meanwhile", done.stderr)


class Half:
    """A socket whose caller is interrupted when half of what it sends is on its way."""

    def __init__(self, socket: Any) -> None:
        self._socket = socket

    def __getattr__(self, name: str) -> Any:
        return getattr(self._socket, name)

    def sendall(self, data: bytes) -> None:
        self._socket.sendall(data[:len(data) // 2])
        raise KeyboardInterrupt


class Interruptions(unittest.TestCase):
    def test_a_caller_that_was_interrupted_can_go_on(self) -> None:
        with Bucket(server, "interrupted") as bucket:
            cast(Any, bucket._server)._socket = Half(bucket._server._socket)
            with self.assertRaises(KeyboardInterrupt):
                bucket["a"] = b"1" * 1000
            bucket["b"] = b"2"
            self.assertEqual(bucket["b"], b"2")
            self.assertIsNone(bucket.get("a"))
