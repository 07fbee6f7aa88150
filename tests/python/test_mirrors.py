"""Mirrors, over the library or on a NATS server, as test_vilgoued; one that lags stands in test_lagging."""
import threading
import time
import unittest
from typing import Any, Callable, List, Optional, Tuple
from unittest import mock

from tests.python.buckets import LONG, OfBucket, fresh_bucket, later, server
from vilgoued import Mirror


class Mirrors(OfBucket):
    def setUp(self) -> None:
        super().setUp()
        self.bucket["app.a"] = b"1"
        self.bucket["app.b"] = b"2"
        self.bucket["db.c"] = b"3"

    def test_it_is_a_mapping_of_what_matches(self) -> None:
        mirror = self.bucket.mirror("app.>")
        self.assertEqual(mirror, {"app.a": b"1", "app.b": b"2"})
        self.assertEqual((mirror["app.a"], mirror.get("db.c"), len(mirror)), (b"1", None, 2))
        self.assertIn("app.b", mirror)
        self.assertEqual(sorted(mirror), ["app.a", "app.b"])
        self.assertEqual(mirror.get_value("app.b"), (b"2", 2))
        with self.assertRaises(KeyError):
            mirror["db.c"]
        with self.assertRaises(TypeError):
            mirror["app.a"] = b"2"

    def test_each_access_shows_each_write_before_it(self) -> None:
        mirror = self.bucket.mirror("app.>")
        for number in range(20):
            self.bucket["app.a"] = b"%d" % number
            self.assertEqual(mirror["app.a"], b"%d" % number)
        del self.bucket["app.a"]
        self.assertNotIn("app.a", mirror)
        self.bucket.purge("app.b")
        self.assertEqual(len(mirror), 0)
        self.assertEqual(mirror.revision, self.bucket.status().last)

    def test_it_tells_of_each_change(self) -> None:
        mirror: Mirror = self.bucket.mirror("app.>")
        told: List[Any] = []

        @mirror.on_change
        def tell(key: str, value: Optional[bytes]) -> None:
            told.append((key, value, mirror.get(key)))

        self.bucket["app.a"] = b"5"
        self.bucket["db.c"] = b"5"
        del self.bucket["app.b"]
        self.bucket.delete("app.never")
        # Behind an access all is told that was written before it.
        self.assertEqual(mirror.copy(), {"app.a": b"5"})
        self.assertEqual(told, [("app.a", b"5", b"5"), ("app.b", None, None)])

    def test_it_tells_of_each_change_in_order_though_nobody_reads_it(self) -> None:
        mirror: Mirror = self.bucket.mirror("app.>")
        is_over = threading.Event()
        told: List[Tuple[str, Optional[bytes]]] = []

        @mirror.on_change
        def tell(key: str, value: Optional[bytes]) -> None:
            told.append((key, value))
            if key == "app.last":
                is_over.set()

        count = 30 if server else 2000
        for number in range(count):
            self.bucket[f"app.{number}"] = b"%d" % number
        self.bucket["app.last"] = b""
        self.assertTrue(is_over.wait(LONG))
        self.assertEqual(told, [*((f"app.{number}", b"%d" % number) for number in range(count)), ("app.last", b"")])

    def test_its_thread_ends_with_it_or_with_its_bucket(self) -> None:
        ends: List[Callable[[Any, Any], object]] = [
            lambda bucket, mirror: mirror.close(), lambda bucket, mirror: bucket.close(), lambda bucket, mirror: bucket.finish()]
        for end in ends:
            with fresh_bucket() as bucket:
                mirror, before = bucket.mirror(), set(threading.enumerate())
                self.assertEqual(len(mirror), 0)
                self.assertEqual(set(threading.enumerate()), before)
                mirror.on_change(lambda key, value: None)
                mirror.on_change(lambda key, value: None)
                (thread,) = set(threading.enumerate()) - before
                end(bucket, mirror)
                thread.join(LONG)
                self.assertFalse(thread.is_alive())
                self.assertFalse(mirror.wait(LONG))

    def test_what_a_callback_raises_is_told_as_that_of_a_thread_and_loses_nothing(self) -> None:
        mirror: Mirror = self.bucket.mirror("app.>")
        raised = [ValueError("first"), ValueError("second")]
        told: List[str] = []

        @mirror.on_change
        def tell(key: str, value: Optional[bytes]) -> None:
            told.append(key)
            raise raised[len(told) - 1]

        with mock.patch("threading.excepthook") as hook:
            self.bucket["app.a"] = b"5"
            self.bucket["app.b"] = b"6"
            self.assertEqual(mirror, {"app.a": b"5", "app.b": b"6"})
        self.assertEqual(told, ["app.a", "app.b"])
        self.assertEqual([it.args[0].exc_value for it in hook.call_args_list], raised)

    def test_it_waits_for_a_change(self) -> None:
        mirror = self.bucket.mirror("app.>")
        timer = later(self.bucket.put, "app.c", b"7")
        self.assertTrue(mirror.wait(LONG))
        self.assertEqual(mirror["app.c"], b"7")
        timer.join()
        self.assertFalse(mirror.wait(0.05))

    def test_a_wait_tells_of_a_change_between_two(self) -> None:
        mirror, is_told = self.bucket.mirror("app.>"), threading.Event()
        mirror.on_change(lambda key, value: is_told.set())
        for _ in range(3):
            self.assertFalse(mirror.wait(0.01))
            is_told.clear()
            self.bucket["app.c"] = b"7"
            self.assertTrue(is_told.wait(LONG))
            self.assertTrue(mirror.wait(LONG))

    def test_a_change_wakes_each_thread_that_waits(self) -> None:
        mirror = self.bucket.mirror("app.>")
        found: List[Any] = []
        threads = [threading.Thread(target=lambda: found.append(mirror.wait(LONG))) for _ in range(3)]
        for thread in threads:
            thread.start()
        while len(mirror._moved._waiters) < len(threads):
            time.sleep(0.001)
        self.bucket["app.c"] = b"7"
        for thread in threads:
            thread.join(LONG)
        self.assertEqual(found, [True] * 3)

    def test_behind_the_close_it_stays_as_it_was(self) -> None:
        mirror = self.bucket.mirror("app.>")
        self.bucket.close()
        self.assertFalse(mirror.wait(LONG))
        self.assertEqual(mirror, {"app.a": b"1", "app.b": b"2"})

    def test_its_own_close_ends_it(self) -> None:
        with self.bucket.mirror("app.>") as mirror:
            self.assertEqual(len(mirror), 2)
        self.bucket["app.c"] = b"1"
        self.assertEqual(len(mirror), 2)
        self.assertEqual(self.bucket.status().watches, 0)


if __name__ == "__main__":
    unittest.main()
