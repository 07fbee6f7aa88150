"""Watches that sleep for more, or wait for it in asyncio; over the library or on a NATS server, as test_vilgoued."""
import asyncio
import itertools
import os
import signal
import subprocess
import sys
import threading
import time
import unittest
from typing import Any, Callable, List

import vilgoued
from tests import top
from tests.python.buckets import LONG, OfBucket, fresh_bucket, later, revisions, server


class Follow(OfBucket):
    def test_it_sleeps_until_there_is_more(self) -> None:
        self.bucket["app.a"] = b"1"
        items = self.bucket.watch("app.>").follow(LONG)
        self.assertEqual(revisions([next(items), next(items)]), [1, 0])
        began = time.monotonic()
        timer = later(self.bucket.put, "app.b", b"2")
        self.assertEqual(next(items), vilgoued.Entry("app.b", "PUT", 2, 1, b"2"))
        self.assertLess(time.monotonic() - began, LONG / 2)
        timer.join()

    def test_what_does_not_match_is_slept_over(self) -> None:
        items = self.bucket.watch("app.>", updates=True).follow(LONG)

        def write() -> None:
            self.bucket["other"] = b""
            time.sleep(0.1)
            self.bucket["app.b"] = b""

        timer = later(write)
        self.assertEqual(next(items).key, "app.b")
        timer.join()

    def test_it_loses_nothing_and_repeats_nothing(self) -> None:
        watch = self.bucket.watch("app.*", updates=True)
        found: List[Any] = []
        reader = threading.Thread(target=lambda: found.extend(watch.follow(LONG)))
        reader.start()
        count = 60 if server else 3000
        for number in range(count):
            self.bucket[f"app.{number % 7 if not server else number}"] = b"1"
        self.bucket.finish()
        reader.join(LONG)
        self.assertEqual(revisions(found), list(range(1, count + 1)))
        self.assertEqual(watch.stop(), count)

    def test_it_goes_on_where_the_iterator_was(self) -> None:
        for key in ("a", "b"):
            self.bucket[key] = b"1"
        watch = self.bucket.watch(">")
        self.assertEqual(next(watch).revision, 1)
        self.assertEqual(revisions(watch.follow(0)), [2, 0])
        self.bucket["c"] = b"1"
        self.assertEqual(revisions(watch), [3])
        self.bucket["d"] = b"1"
        self.assertEqual(revisions(watch.follow(0)), [4])
        self.assertEqual(watch.stop(), 5)
        with self.assertRaises(vilgoued.NoSuchWatch):
            next(watch)

    def test_it_shows_what_the_watch_would(self) -> None:
        watch = self.bucket.watch("a.*", ignore_deletes=True, headers_only=True)
        self.assertEqual(revisions(watch.follow(0)), [0])
        self.bucket["a.x"] = b"12"
        del self.bucket["a.x"]
        self.bucket["b"] = b"1"
        self.assertEqual(list(watch.follow(0)), [vilgoued.Entry("a.x", "PUT", 1, 2, None)])

    def test_large_values_come_whole(self) -> None:
        watch = self.bucket.watch(">", updates=True)
        self.assertEqual(list(watch.follow(0)), [])
        self.bucket["a"] = bytes(100_000)
        self.assertEqual([item.value for item in watch.follow(0)], [bytes(100_000)])

    def test_it_ends_when_the_time_is_over(self) -> None:
        watch = self.bucket.watch(">", updates=True)
        began = time.monotonic()
        self.assertEqual(list(watch.follow(0.2)), [])
        self.assertGreaterEqual(time.monotonic() - began, 0.2)

    def ends(self, end: Callable[[Any], object]) -> None:
        watch = self.bucket.watch(">")
        items = watch.follow(LONG)
        self.assertEqual(next(items), vilgoued.MARKER)
        timer = later(end, watch)
        self.assertEqual(list(items), [])
        timer.join()

    def test_a_finish_ends_it(self) -> None:
        self.ends(lambda watch: self.bucket.finish())

    def test_the_close_of_its_bucket_ends_it(self) -> None:
        self.ends(lambda watch: self.bucket.close())

    def test_a_stop_ends_it(self) -> None:
        self.ends(lambda watch: watch.stop())

    def test_behind_a_finish_all_is_handed_out(self) -> None:
        self.bucket["a"] = b"1"
        self.bucket.finish()
        self.assertEqual(revisions(self.bucket.watch(">").follow()), [1, 0])

    def test_an_interrupt_ends_the_sleep(self) -> None:
        # Who runs this in the background may have it ignore interrupts.
        before = signal.signal(signal.SIGINT, signal.default_int_handler)
        self.addCleanup(signal.signal, signal.SIGINT, before)
        watch = self.bucket.watch(">", updates=True)
        timer = threading.Timer(0.1, os.kill, (os.getpid(), signal.SIGINT))
        with self.assertRaises(KeyboardInterrupt):
            timer.start()
            list(watch.follow(LONG))
        timer.join()
        self.bucket["a"] = b"1"
        self.assertEqual(revisions(watch.follow(0)), [1])

    def test_two_threads_follow_one_watch(self) -> None:
        watch, found = self.bucket.watch(">", updates=True), []
        readers = [threading.Thread(target=lambda: found.extend(watch.follow(LONG))) for _ in range(2)]
        for reader in readers:
            reader.start()
        for number in range(50):
            self.bucket[f"a.{number}"] = b"1"
            time.sleep(0.001)
        self.bucket.finish()
        for reader in readers:
            reader.join(LONG)
        self.assertEqual(sorted(revisions(found)), list(range(1, 51)))

    @unittest.skipIf(server, "watches have no limit there")
    def test_who_is_followed_counts_as_none_of_the_64(self) -> None:
        watches = [self.bucket.watch(">") for _ in range(64)]
        for watch in watches:
            self.assertEqual(revisions(watch.follow(0)), [0])
        self.assertEqual(self.bucket.status().watches, 0)
        self.assertEqual(self.bucket.watch(">").number, 65)


class Changes(OfBucket):
    def test_they_come_in_asyncio(self) -> None:
        async def run() -> Any:
            found: List[Any] = []

            async def read() -> None:
                async for item in self.bucket.watch("app.>").changes():
                    found.append(item)

            reader = asyncio.ensure_future(read())
            for number in range(30):
                self.bucket[f"app.{number}"] = b"1"
                await asyncio.sleep(0.001)
            self.bucket.finish()
            await asyncio.wait_for(reader, LONG)
            return found

        found = asyncio.run(run())
        self.assertEqual([item.key for item in found if not item.marker], [f"app.{number}" for number in range(30)])

    def test_they_wait_without_holding_up_others(self) -> None:
        async def run() -> Any:
            changes, steps = self.bucket.watch(">", updates=True).changes(), 0
            first = asyncio.ensure_future(changes.__anext__())
            while steps < 20:
                steps += 1
                await asyncio.sleep(0.005)
            self.assertFalse(first.done())
            self.bucket["a"] = b"1"
            return await asyncio.wait_for(first, LONG)

        self.assertEqual(asyncio.run(run()).revision, 1)

    def test_another_thread_wakes_them(self) -> None:
        async def run() -> Any:
            timer = later(self.bucket.put, "a", b"1")
            item = await asyncio.wait_for(self.bucket.watch("a", updates=True).changes().__anext__(), LONG)
            timer.join()
            return item

        self.assertEqual(asyncio.run(run()).value, b"1")

    def test_a_step_that_is_cancelled_loses_nothing(self) -> None:
        async def run() -> None:
            changes = self.bucket.watch(">", updates=True).changes()
            for number in range(1, 4):
                with self.assertRaises(asyncio.TimeoutError):
                    await asyncio.wait_for(changes.__anext__(), 0.05)
                self.bucket["a"] = b"1"
                self.assertEqual((await asyncio.wait_for(changes.__anext__(), LONG)).revision, number)

        asyncio.run(run())

    def test_a_second_task_is_refused(self) -> None:
        async def run() -> None:
            watch = self.bucket.watch(">", updates=True)
            first = asyncio.ensure_future(watch.changes().__anext__())
            await asyncio.sleep(0.1)
            with self.assertRaisesRegex(RuntimeError, "another task"):
                await asyncio.wait_for(watch.changes().__anext__(), LONG)
            self.bucket["a"] = b"1"
            self.assertEqual((await asyncio.wait_for(first, LONG)).revision, 1)

        asyncio.run(run())

    def test_the_close_of_the_bucket_ends_them(self) -> None:
        async def run() -> Any:
            changes = self.bucket.watch(">").changes()
            self.assertEqual(await changes.__anext__(), vilgoued.MARKER)
            timer = later(self.bucket.close)
            found = [item async for item in changes]
            timer.join()
            return found

        self.assertEqual(asyncio.run(run()), [])


SIX_THREADS = """
import threading
from vilgoued import Bucket, KvError

bucket, refused = Bucket("six"), []

def write(number):
    for at in range(5000):
        try:
            bucket.put(f"k.{number}.{at}", b"%d" % at)
        except KvError as refusal:
            refused.append(refusal)

threads = [threading.Thread(target=write, args=(number,)) for number in range(6)]
for thread in threads:
    thread.start()
for thread in threads:
    thread.join()
keys = set(bucket.keys())
values = sum(bucket[f"k.{number}.{at}"] == b"%d" % at for number in range(6) for at in range(5000))
print(len(refused), bucket.status().last, len(keys), values)
"""


NO_DESCRIPTORS = """
import resource
from vilgoued import MARKER, Bucket, NoDescriptor

bucket = Bucket("none")
bucket["a"] = b"1"
watch = bucket.watch("a")
limits = resource.getrlimit(resource.RLIMIT_NOFILE)
resource.setrlimit(resource.RLIMIT_NOFILE, (3, limits[1]))
followed = watch.follow(0)
print(next(followed).key, next(followed))
try:
    next(followed)
except NoDescriptor as refused:
    print(refused.code, bucket.status().watches)
resource.setrlimit(resource.RLIMIT_NOFILE, limits)
bucket["a"] = b"2"
print(next(followed, None), next(watch.follow(0)).value)
"""


@unittest.skipIf(server, "a descriptor of the library")
class Descriptors(unittest.TestCase):
    def test_where_the_system_gives_none_the_watch_stays_as_it_was(self) -> None:
        done = subprocess.run(
            [sys.executable, "-B", "-c", NO_DESCRIPTORS], cwd=os.path.join(top, "python"), capture_output=True, text=True, timeout=LONG)
        self.assertEqual((done.stdout, done.stderr), ("a MARKER\n64 1\nNone b'2'\n", ""))

    def test_they_are_given_back(self) -> None:
        with fresh_bucket() as bucket:
            before = len(os.listdir("/proc/self/fd"))
            for _ in range(50):
                with bucket.watch(">") as watch:
                    self.assertEqual(list(watch.follow(0)), [vilgoued.MARKER])
                with bucket.mirror() as mirror:
                    self.assertEqual(len(mirror), 0)
            del watch, mirror
            self.assertEqual(len(os.listdir("/proc/self/fd")), before)


@unittest.skipIf(server, "six threads of one process")
class Threads(unittest.TestCase):
    def test_six_threads_put_to_one_bucket(self) -> None:
        done = subprocess.run(
            [sys.executable, "-B", "-c", SIX_THREADS], cwd=os.path.join(top, "python"), capture_output=True, text=True, timeout=LONG)
        self.assertEqual((done.stdout, done.stderr), ("0 30000 30000 30000\n", ""))

    def test_threads_read_write_and_watch_one_bucket(self) -> None:
        bucket = fresh_bucket(history=2)
        wrong: List[Any] = []

        def use(number: int) -> None:
            try:
                for at in range(200):
                    bucket[f"k.{number}"] = b"%d" % at
                    if bucket[f"k.{number}"] != b"%d" % at or bucket.history(f"k.{number}")[-1].value != b"%d" % at:
                        wrong.append(at)
                    with bucket.watch(f"k.{number}") as watch:
                        if revisions(watch)[-1] != 0:
                            wrong.append(at)
            except vilgoued.KvError as refusal:
                wrong.append(refusal)

        threads = [threading.Thread(target=use, args=(number,)) for number in range(6)]
        for thread in threads:
            thread.start()
        for thread in threads:
            thread.join()
        self.assertEqual(wrong, [])
        bucket.close()

    def test_a_snapshot_and_a_feed_are_used_by_several(self) -> None:
        with fresh_bucket() as bucket:
            for number in range(500):
                bucket[f"k.{number}"] = b"%d" % number
            with bucket.snapshot() as view:
                feed = view.watch(">")
                found: List[Any] = []
                wrong: List[Any] = []

                def use() -> None:
                    try:
                        found.extend(feed)
                        wrong.extend(number for number in range(500) if view[f"k.{number}"] != b"%d" % number)
                    except vilgoued.KvError as refusal:
                        wrong.append(refusal)

                threads = [threading.Thread(target=use) for _ in range(4)]
                for thread in threads:
                    thread.start()
                for thread in threads:
                    thread.join()
        self.assertEqual((wrong, sorted(revisions(found))), ([], list(range(501))))

    def test_a_close_ends_those_who_call_meanwhile(self) -> None:
        bucket = fresh_bucket()
        refused: List[Any] = []

        def use() -> None:
            try:
                for at in itertools.count():
                    # Not so many that the bucket is full, however long the pause is.
                    if at < 1000:
                        bucket["a"] = b"1"
                    bucket.get("a")
            except vilgoued.KvError as refusal:
                refused.append(type(refusal))

        threads = [threading.Thread(target=use) for _ in range(4)]
        for thread in threads:
            thread.start()
        time.sleep(0.05)
        bucket.close()
        for thread in threads:
            thread.join(LONG)
        self.assertEqual(refused, [vilgoued.Closed] * 4)


if __name__ == "__main__":
    unittest.main()
