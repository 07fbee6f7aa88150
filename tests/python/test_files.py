"""Tests of buckets with a file: what they had accepted outlives the process."""
import os
import random
import resource
import signal
import subprocess
import sys
import tempfile
import time
import unittest
from typing import Any, Callable, List, Union

import vilgoued
from tests import top
from tests.python.buckets import server

CHECKPOINTER = """
import sys
from vilgoued import Bucket

bucket = Bucket("settings", history=2, path=sys.argv[1], sync="each")
for number in range(int(sys.argv[2])):
    bucket.put("app.n%d" % (number % 10), b"%d" % number)
    print(number, flush=True)
    bucket.checkpoint()
"""
WRITER = """
import sys
from vilgoued import Bucket

bucket = Bucket("settings", history=2, path=sys.argv[1], sync="each")
for number in range(int(sys.argv[2])):
    bucket.put("app.n%d" % (number % 10), b"%d" % number)
    print(number, flush=True)
"""


@unittest.skipIf(server, "a bucket on a server has no file")
class Files(unittest.TestCase):
    def setUp(self) -> None:
        room = tempfile.TemporaryDirectory()
        self.addCleanup(room.cleanup)
        self.path = os.path.join(room.name, "settings.kv")

    def opened(self, name: str = "settings", **settings: Any) -> vilgoued.Bucket:
        bucket = vilgoued.Bucket(name, path=self.path, **settings)
        self.addCleanup(bucket.close)
        return bucket

    def test_what_was_accepted_is_there_again(self) -> None:
        with self.opened(history=2) as bucket:
            bucket["a"] = b"1"
            bucket["a"] = "2"
            with bucket.batch() as batch:
                batch["b"] = b"3"
                del batch["a"]
            self.assertEqual(bucket.dropped, 0)
        with self.opened(history=2) as bucket:
            self.assertEqual((bucket["b"], bucket.get("a"), bucket.get("a", at=2)), (b"3", None, (b"2", 2)))
            self.assertEqual([entry.revision for entry in bucket.watch(">") if not entry.marker], [3, 4])
            self.assertEqual((bucket.put("c", b"4"), bucket.status().last), (5, 5))

    def test_a_value_may_be_as_long_as_it_may(self) -> None:
        values = [bytes([number]) * size for number, size in enumerate((0, 16_384, 16_385, 1_048_576))]
        with self.opened() as bucket:
            for number, value in enumerate(values):
                bucket["a.%d" % number] = value
            with bucket.batch() as batch:
                for number, value in enumerate(values):
                    batch["b.%d" % number] = value
        with self.opened() as bucket:
            self.assertEqual([bucket[name + ".%d" % number] for name in "ab" for number in range(4)], values + values)

    def test_a_path_is_a_text_or_bytes_or_a_path(self) -> None:
        folder = os.path.dirname(self.path)
        paths: List[Union[str, bytes]] = [os.path.join(folder, "\N{EURO SIGN}"), os.path.join(os.fsencode(folder), b"\xff")]
        for path in paths:
            with vilgoued.Bucket("settings", path=path) as bucket:
                bucket["a"] = b"1"
            self.assertTrue(os.path.getsize(path))
        with self.assertRaises(TypeError):
            vilgoued.Bucket("settings", path=7)  # type: ignore[arg-type]

    def test_it_is_synced_each_time_or_at_times_or_where_that_is_asked_for(self) -> None:
        for sync in ("each", "asked", 1, 7):
            with self.opened(sync=sync) as bucket:
                bucket["a"] = b"1"
                bucket.sync()
        for wrong in ("never", "", 0):
            with self.assertRaises(ValueError):
                self.opened(sync=wrong)
        for none in (None, 1.5):
            with self.assertRaises(TypeError):
                self.opened(sync=none)

    def writer(self, program: str = WRITER) -> "subprocess.Popen[bytes]":
        environment = dict(os.environ, PYTHONPATH=os.path.join(top, "python"))
        return subprocess.Popen([sys.executable, "-c", program, self.path, "1000000"], env=environment, stdout=subprocess.PIPE)

    def killed(self, writer: "subprocess.Popen[bytes]") -> list[bytes]:
        """Kills a writer, and answers the lines that were not read."""
        assert writer.stdout is not None
        writer.send_signal(signal.SIGKILL)
        lines = writer.stdout.read().split()
        writer.stdout.close()
        self.assertEqual(writer.wait(), -signal.SIGKILL)
        return lines

    def test_a_process_that_is_killed_leaves_what_was_answered(self) -> None:
        writer = self.writer()
        assert writer.stdout is not None
        for _ in range(50):
            writer.stdout.readline()
        with self.assertRaises(vilgoued.FileBusy):
            self.opened(history=2)
        lines = self.killed(writer)
        answered = int(lines[-1]) + 1 if lines else 50
        with self.opened(history=2) as bucket:
            last = bucket.status().last
            # The write that was under way when it died may be there.
            self.assertIn(last - answered, (0, 1))
            for number in range(answered - 10, answered):
                self.assertEqual(bucket.get("app.n%d" % (number % 10), at=number + 1), (b"%d" % number, number + 1))
            self.assertEqual(bucket.put("app.n0", b"last"), last + 1)

    def test_it_may_be_killed_at_any_moment(self) -> None:
        self.may_be_killed(WRITER)

    def test_it_may_be_killed_while_its_file_is_replaced(self) -> None:
        self.may_be_killed(CHECKPOINTER)

    def may_be_killed(self, program: str) -> None:
        last = 0
        for trial in range(24):
            writer = self.writer(program)
            assert writer.stdout is not None
            if trial % 4:
                writer.stdout.readline()
            time.sleep(random.uniform(0, 0.03))
            lines = self.killed(writer)
            written = int(lines[-1]) + 1 if lines else 1 if trial % 4 else 0
            with self.opened(history=2) as bucket:
                found = bucket.status().last
            self.assertIn(found - last - written, (0, 1))
            last = found

    def test_one_opening_at_a_time_has_the_file(self) -> None:
        bucket = self.opened()
        with self.assertRaises(vilgoued.FileBusy) as refused:
            self.opened()
        self.assertEqual(refused.exception.code, 24)
        bucket.close()
        self.opened()

    def test_a_torn_end_is_dropped_and_told(self) -> None:
        with self.opened() as bucket:
            bucket["a"] = b"1"
        with open(self.path, "ab") as file:
            file.write(b"torn")
        with self.opened() as bucket:
            self.assertEqual((bucket.dropped, bucket["a"]), (4, b"1"))
        with self.opened() as bucket:
            self.assertEqual(bucket.dropped, 0)

    def test_damage_is_refused_with_its_offset(self) -> None:
        with self.opened() as bucket:
            bucket["a"] = b"1"
            offset = os.path.getsize(self.path)
            bucket["a"] = b"2"
            bucket["a"] = b"3"
        with open(self.path, "r+b") as file:
            file.seek(offset + 12)
            file.write(b"\xff")
        with self.assertRaises(vilgoued.FileDamaged) as refused:
            self.opened()
        self.assertEqual((refused.exception.at, refused.exception.code), (offset, 23))
        self.assertIn("offset %d;" % offset, str(refused.exception))
        with open(self.path, "wb") as file:
            file.write(b"no journal")
        with self.assertRaises(vilgoued.FileDamaged) as refused:
            self.opened()
        self.assertEqual(refused.exception.at, 0)

    def test_a_file_of_another_bucket_is_refused(self) -> None:
        self.opened().close()
        with self.assertRaises(vilgoued.OtherBucket):
            self.opened("others")
        with self.assertRaises(vilgoued.OtherBucket):
            self.opened(history=2)
        with self.assertRaises(vilgoued.BadBucket):
            self.opened("no name")

    def test_behind_a_fault_it_is_only_read(self) -> None:
        bucket = self.opened()
        bucket["a"] = b"1"
        watch = bucket.watch(">")
        before = resource.getrlimit(resource.RLIMIT_FSIZE)
        resource.setrlimit(resource.RLIMIT_FSIZE, (os.path.getsize(self.path) + 10, before[1]))
        try:
            with self.assertRaises(vilgoued.FileFault):
                bucket["a"] = b"2"
        finally:
            resource.setrlimit(resource.RLIMIT_FSIZE, before)
        calls: List[Callable[[], object]] = [lambda: bucket.put("a", b"2"), bucket.seal, bucket.sync, lambda: bucket.compact(1)]
        for call in calls:
            with self.assertRaises(vilgoued.FileFault):
                call()
        with self.assertRaises(vilgoued.FileFault) as refused:
            with bucket.batch() as batch:
                batch["a"] = b"2"
        self.assertIsNone(refused.exception.at)
        self.assertEqual((bucket["a"], [entry.value for entry in watch if not entry.marker]), (b"1", [b"1"]))
        with self.assertRaises(vilgoued.FileFault):
            bucket.close()
        bucket.close()
        with self.opened() as bucket:
            self.assertEqual((bucket["a"], bucket.dropped), (b"1", 10))

    def test_where_no_file_can_be_that_is_a_fault(self) -> None:
        for path in (os.path.dirname(self.path), os.path.join(self.path, "no", "folder")):
            with self.assertRaises(vilgoued.FileFault):
                vilgoued.Bucket("settings", path=path)

    def test_a_checkpoint_leaves_the_bucket_and_a_compaction_makes_its_file_small(self) -> None:
        with self.opened(history=2) as bucket:
            for number in range(100):
                bucket["a"] = b"%d" % number
            watch, before = bucket.watch("a"), os.path.getsize(self.path)
            bucket.checkpoint()
            bucket["a"] = b"more"
            self.assertEqual([entry.revision for entry in watch if not entry.marker], [100, 101])
            bucket["b"] = b"1"
            watch.stop()
            bucket.compact(102)
            self.assertLess(os.path.getsize(self.path), before // 2)
            bucket["b"] = b"2"
        self.assertEqual(os.listdir(os.path.dirname(self.path)), [os.path.basename(self.path)])
        with self.opened(history=2) as bucket:
            self.assertEqual((bucket.get("a"), bucket.get("b"), bucket.status().last), ((b"more", 101), (b"2", 103), 103))
        with self.assertRaises(vilgoued.Closed):
            bucket.checkpoint()

    def test_without_a_file_nothing_is_synced(self) -> None:
        with vilgoued.Bucket("settings") as bucket:
            bucket.sync()
            bucket.checkpoint()
            self.assertEqual(bucket.dropped, 0)


if __name__ == "__main__":
    unittest.main()
