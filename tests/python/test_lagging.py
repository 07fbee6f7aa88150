"""Watches, feeds and mirrors that lag: nobody takes from them while the bucket goes on. A watch that is held loses nothing, as the bucket
waits for it; what follows by itself is Lagged where a compaction came too early for it."""
import asyncio
import unittest

import vilgoued
from tests.python.buckets import OfBucket, differs_on_a_server, revisions, server


class Held(OfBucket):
    @differs_on_a_server("what is overwritten before it is asked for is never handed out")
    def test_a_watch_that_lags_is_handed_every_entry_once(self) -> None:
        self.bucket["a"] = b"1"
        watch = self.bucket.watch("a")
        for _ in range(4):
            self.bucket["a"] = b"1"
        self.assertEqual(revisions(watch), [1, 0, 2, 3, 4, 5])


@unittest.skipIf(server, "a server has no floors")
class Followed(OfBucket):
    def test_a_watch_that_is_followed_and_lags_is_told_the_floor(self) -> None:
        watch = self.bucket.watch("a")
        self.assertEqual(revisions(watch.follow(0)), [0])
        for _ in range(3):
            self.bucket["a"] = b"1"
        self.assertEqual(self.bucket.reach(), 0)
        self.bucket.compact(3)
        with self.assertRaises(vilgoued.Lagged) as refused:
            list(watch.follow(0))
        self.assertEqual(refused.exception.floor, 3)
        with self.assertRaises(vilgoued.Lagged):
            asyncio.run(watch.changes().__anext__())

    def test_a_mirror_that_lags_begins_anew_and_tells_what_changed(self) -> None:
        self.bucket["a"] = self.bucket["b"] = b"1"
        mirror, told = self.bucket.mirror(), []
        mirror.on_change(lambda key, value: told.append((key, value)))
        # Its thread can't go on meanwhile.
        with mirror._lock:
            del self.bucket["a"]
            self.bucket["c"] = b"3"
            self.bucket.compact(4)
            self.assertEqual(mirror, {"b": b"1", "c": b"3"})
        self.assertEqual(told, [("a", None), ("c", b"3")])
        self.bucket["d"] = b"4"
        self.assertEqual((mirror["d"], told[2:]), (b"4", [("d", b"4")]))


@unittest.skipIf(server, "a server has no snapshots")
class Feeds(OfBucket):
    def setUp(self) -> None:
        super().setUp()
        for _ in range(4):
            self.bucket["a"] = b"1"

    def test_a_feed_that_lags_is_told_the_floor(self) -> None:
        with self.bucket.snapshot() as view:
            feed, ahead = view.watch("a"), view.watch("a")
        self.bucket["a"] = b"5"
        with self.bucket.snapshot() as view:
            feed.refresh(view)
            ahead.refresh(view)
        self.assertEqual([it.marker or it.revision for it in ahead], [4, True, 5])
        self.bucket.compact(5)
        self.bucket["a"] = b"6"
        with self.bucket.snapshot() as view:
            with self.assertRaises(vilgoued.Lagged) as refused:
                feed.refresh(view)
            self.assertEqual(refused.exception.floor, 5)
            ahead.refresh(view)
            self.assertEqual([it.marker or it.revision for it in feed], [4, True, 5])
            feed.refresh(view)
        self.assertEqual([it.revision for it in feed], [6])
        self.assertEqual([it.revision for it in ahead], [6])

    def test_a_feed_whose_snapshot_ends_below_the_floor_lags(self) -> None:
        with self.bucket.snapshot() as view:
            feed = view.watch("b")
        self.bucket["b"] = b"1"
        self.bucket.compact(5)
        with self.bucket.snapshot() as view, self.assertRaises(vilgoued.Lagged) as refused:
            feed.refresh(view)
        self.assertEqual(refused.exception.floor, 5)


if __name__ == "__main__":
    unittest.main()
