"""Tests of vilgoued over libvilgoued.so, which VILGOUED_LIB names. Where VILGOUED_SERVER is the URL of a NATS server, they
are the tests of vilgoued.nats over it, and those that differ there are expected to fail."""
import ctypes
import pickle
import threading
import unittest
from typing import Any, Callable, List, Tuple, Union

import vilgoued
from tests.python.buckets import differs_on_a_server, fresh_bucket, open_bucket, server
from vilgoued import Entry, Snapshot, _library


class Writes(unittest.TestCase):
    def setUp(self) -> None:
        self.bucket = fresh_bucket(history=3)
        self.addCleanup(self.bucket.close)

    def test_a_get_finds_what_was_put(self) -> None:
        self.assertEqual(self.bucket.put("app.port", b"80"), 1)
        self.assertEqual(self.bucket.get("app.port"), (b"80", 1))
        self.bucket["app.port"] = b"8080\0x"
        self.assertEqual(self.bucket["app.port"], b"8080\0x")
        self.assertEqual(self.bucket.get("app.port", at=1), (b"80", 1))
        self.assertIn("app.port", self.bucket)

    def test_a_value_is_text_or_bytes_and_nothing_else(self) -> None:
        texts: Tuple[Any, ...] = (b"", "\N{EURO SIGN}", bytearray(b"1\0"), memoryview(b"abcd")[::2])
        for value in texts:
            self.bucket["a"] = value
            self.assertEqual(self.bucket["a"], value.encode() if isinstance(value, str) else bytes(value))
        for value in (80, True, 1.5, None, [56, 48]):
            for write in (self.bucket.put, self.bucket.create):
                with self.assertRaises(TypeError):
                    write("b", value)
        self.assertNotIn("b", self.bucket)

    def test_a_key_that_never_was_has_no_value(self) -> None:
        self.assertIsNone(self.bucket.get("app.port"))
        self.assertEqual(self.bucket.get("app.port", b"none"), b"none")
        with self.assertRaises(KeyError):
            self.bucket["app.port"]

    def test_a_create_of_a_key_that_has_a_value_is_refused(self) -> None:
        self.bucket.create("a", b"1")
        with self.assertRaises(vilgoued.KeyExists):
            self.bucket.create("a", b"2")
        del self.bucket["a"]
        self.assertEqual(self.bucket.create("a", b"2"), 3)

    def test_an_update_at_another_revision_is_refused_and_told_the_last_one(self) -> None:
        self.assertEqual(self.bucket.update("a", b"1", last=0), 1)
        with self.assertRaises(vilgoued.WrongLastRevision) as refused:
            self.bucket.update("a", b"2", last=7)
        self.assertEqual(refused.exception.last, 1)
        self.assertEqual(self.bucket.update("a", b"2", last=1), 2)

    def test_a_delete_keeps_earlier_entries_and_a_purge_does_not(self) -> None:
        self.bucket["a"] = b"1"
        for refused in (self.bucket.delete, self.bucket.purge):
            with self.assertRaises(vilgoued.WrongLastRevision) as error:
                refused("a", last=9)
            self.assertEqual(error.exception.last, 1)
        self.assertEqual(self.bucket.delete("a", last=1), 2)
        self.assertEqual(self.bucket.get("a", at=1), (b"1", 1))
        self.assertEqual(self.bucket.purge("a"), 3)
        self.assertIsNone(self.bucket.get("a", at=1))

    def test_a_sealed_bucket_refuses_writes(self) -> None:
        self.bucket.seal()
        with self.assertRaises(vilgoued.Sealed):
            self.bucket["a"] = b"1"
        self.assertTrue(self.bucket.status().sealed)

    def test_a_put_over_the_value_limit_is_refused(self) -> None:
        with fresh_bucket(value_limit=2) as bucket:
            with self.assertRaises(vilgoued.ValueTooLarge):
                bucket["a"] = b"123"
            bucket["a"] = b"12"

    @differs_on_a_server("headers count for the limit of a value, and all but a put have headers")
    def test_a_create_at_the_value_limit_is_accepted(self) -> None:
        with fresh_bucket(value_limit=2) as bucket:
            bucket.create("a", b"12")

    @differs_on_a_server("writes have no limit there")
    def test_a_put_over_the_write_limit_is_refused(self) -> None:
        with fresh_bucket(write_limit=1) as bucket:
            bucket["a"] = b"12"
            with self.assertRaises(vilgoued.JournalFull):
                bucket["a"] = b"12"

    def test_a_large_value_comes_whole(self) -> None:
        value = bytes(range(256)) * 4096
        self.bucket["a"] = value
        self.assertEqual(self.bucket["a"], value)
        self.assertEqual([entry.value for entry in self.bucket.watch("a") if not entry.marker], [value])

    def test_a_history_is_the_retained_entries_oldest_first(self) -> None:
        self.assertEqual(self.bucket.history("a"), [])
        for value in (b"1", b"2", b"3"):
            self.bucket["a"] = value
        self.bucket.delete("a")
        self.assertEqual(
            self.bucket.history("a"),
            [Entry("a", "PUT", 2, 1, b"2"), Entry("a", "PUT", 3, 1, b"3"), Entry("a", "DEL", 4, 0, None)],
        )
        self.bucket["large"] = bytes(5000)
        self.assertEqual(self.bucket.history("large")[0].value, bytes(5000))

    def test_keys_come_in_the_order_of_their_last_puts(self) -> None:
        for key in ("b", "a.x", "c", "b"):
            self.bucket[key] = b"1"
        self.bucket.delete("c")
        self.assertEqual(self.bucket.keys(), ["a.x", "b"])
        self.assertEqual(self.bucket.keys(filter="a.>"), ["a.x"])
        self.assertEqual(self.bucket.keys("d"), [])
        for number in range(1000):
            self.bucket[f"many.{number}"] = b""
        self.assertEqual(self.bucket.keys("many.*"), [f"many.{number}" for number in range(1000)])
        # Each once, though two filters match it.
        self.assertEqual(self.bucket.keys("b,a.>,*"), ["a.x", "b"])
        for filter in ("", "a..b", "a.>,,b", ",".join(["a"] * 17)):
            with self.assertRaises(vilgoued.BadFilter):
                self.bucket.keys(filter)
        self.assertEqual(self.bucket.watch(">").number, 1)

    def test_a_status_counts_writes_values_and_watches(self) -> None:
        self.bucket["a"] = b"1"
        self.bucket["a"] = b"2"
        self.bucket.watch(">")
        self.assertEqual(self.bucket.status(), (3, 2, 2, 2, 1, False))

    @differs_on_a_server("only what is retained is stored there")
    def test_a_purged_write_is_stored_until_a_compaction(self) -> None:
        self.bucket["a"] = b"1"
        self.bucket.purge("a")
        self.assertEqual(self.bucket.status(), (3, 2, 2, 1, 0, False))


class Watches(unittest.TestCase):
    def setUp(self) -> None:
        self.bucket = fresh_bucket(history=3)
        self.addCleanup(self.bucket.close)
        self.bucket["app.port"] = b"80"
        self.bucket["app.port"] = b"8080"
        self.bucket["db.port"] = b"5432"

    def test_a_watch_begins_with_the_latest_entries_and_goes_on(self) -> None:
        watch = self.bucket.watch("app.>")
        self.assertEqual(list(watch), [Entry("app.port", "PUT", 2, 4, b"8080"), vilgoued.MARKER])
        del self.bucket["app.port"]
        self.bucket["db.port"] = b"1"
        self.assertEqual(list(watch), [Entry("app.port", "DEL", 4, 0, None)])
        self.assertEqual(watch.stop(), 3)
        with self.assertRaises(vilgoued.NoSuchWatch):
            next(watch)

    def test_a_watch_begins_with_what_is_asked_for(self) -> None:
        def revisions(**options: Any) -> List[int]:
            return [0 if entry.marker else entry.revision for entry in self.bucket.watch(">", **options)]

        self.assertEqual(revisions(history=True), [1, 2, 3, 0])
        self.assertEqual(revisions(updates=True), [])
        self.assertEqual(revisions(since=2), [2, 3, 0])
        with self.assertRaises(vilgoued.OptionsClash):
            self.bucket.watch(">", history=True, updates=True)

    def test_a_watch_ends_with_its_block(self) -> None:
        with self.bucket.watch(">") as watch:
            next(watch)
        with self.assertRaises(vilgoued.NoSuchWatch):
            next(watch)
        with self.bucket.watch(">") as watch:
            watch.stop()
        self.assertEqual(self.bucket.status().watches, 0)
        with self.bucket.watch(">"):
            self.bucket.close()

    def test_a_watch_leaves_out_values_and_deletes_where_it_is_asked_to(self) -> None:
        watch = self.bucket.watch("app.*,db.*", headers_only=True, ignore_deletes=True)
        self.assertEqual(next(watch), Entry("app.port", "PUT", 2, 4, None))
        self.bucket.delete("app.port")
        self.assertEqual([entry.marker or entry.key for entry in watch], ["db.port", True])

    def test_the_latest_entries_come_by_revision(self) -> None:
        self.bucket["db.port"] = b"1"
        self.bucket.delete("app.port")
        self.assertEqual([it.marker or it.revision for it in self.bucket.watch(">")], [4, 5, True])
        self.assertEqual([it.marker or it.revision for it in self.bucket.watch(">", ignore_deletes=True)], [4, True])

    def test_an_entry_that_several_filters_match_comes_once(self) -> None:
        watch = self.bucket.watch("db.>,app.port,*.port", history=True)
        self.assertEqual([it.marker or it.revision for it in watch], [1, 2, 3, True])

    @differs_on_a_server("watches have no limit there")
    def test_a_65th_watch_is_refused(self) -> None:
        watches = [self.bucket.watch(">") for _ in range(64)]
        with self.assertRaises(vilgoued.TooManyWatches):
            self.bucket.watch(">")
        watches[0].stop()
        self.assertEqual(self.bucket.watch(">").number, 65)


@unittest.skipIf(server, "a server has no floors")
class Compactions(unittest.TestCase):
    def setUp(self) -> None:
        self.bucket = fresh_bucket(history=2)
        self.addCleanup(self.bucket.close)
        for value in (b"1", b"2", b"3", b"4"):
            self.bucket["a"] = value

    def test_a_compaction_frees_what_is_no_longer_retained(self) -> None:
        self.bucket["b"] = b"1"
        del self.bucket["b"]
        self.assertEqual(self.bucket.reach(), 6)
        self.bucket.compact(5)
        self.assertEqual(self.bucket.status(), (2, 6, 4, 4, 0, False))
        self.assertEqual([entry.revision for entry in self.bucket.history("a")], [3, 4])
        self.bucket.compact(6)
        self.assertEqual(self.bucket.history("b"), [])
        self.assertEqual(self.bucket.status().stored, 2)

    def test_compactions_make_room_for_more_writes_than_the_limit(self) -> None:
        with fresh_bucket(write_limit=2) as bucket:
            for number in range(1, 101):
                self.assertEqual(bucket.put("a", b"%d" % number), number)
                bucket.compact(number)
            self.assertEqual(bucket.status().stored, 1)

    def test_a_floor_that_is_none_is_refused(self) -> None:
        for floor in (0, 5):
            with self.assertRaises(vilgoued.BadFloor):
                self.bucket.compact(floor)
        self.bucket.compact(3)
        with self.assertRaises(vilgoued.BadFloor):
            self.bucket.compact(2)
        with self.assertRaises(OverflowError):
            self.bucket.compact(-1)

    def test_a_watch_that_is_behind_refuses_a_compaction(self) -> None:
        first, second = self.bucket.watch("b"), self.bucket.watch("a")
        self.bucket["a"] = b"5"
        self.bucket["a"] = b"6"
        self.bucket.compact(4)
        self.assertEqual(self.bucket.reach(), 4)
        with self.assertRaises(vilgoued.WatchBehind) as refused:
            self.bucket.compact(5)
        self.assertEqual(refused.exception.watch, second.number)
        self.assertEqual([it.marker or it.revision for it in second], [4, True, 5, 6])
        self.assertEqual(self.bucket.reach(), 6)
        self.bucket.compact(6)
        self.assertEqual([it.marker for it in first], [True])


class Refusals(unittest.TestCase):
    def test_a_bucket_of_a_bad_name_or_number_is_refused(self) -> None:
        names: Tuple[Any, ...] = ("", "no name", "x" * 65, b"\xff", "a\udc80")
        for name in names:
            with self.assertRaises(vilgoued.BadBucket):
                open_bucket(name)
        with self.assertRaises(vilgoued.BadConfig):
            fresh_bucket(history=65)

    def test_a_text_that_is_no_key_or_no_filter_is_refused(self) -> None:
        with fresh_bucket() as bucket:
            for key in ("", "a..b", ".a", "a b", b"a\xff", "a\udc80", "x" * 256):
                with self.assertRaises(vilgoued.BadKey):
                    bucket.put(key, b"1")
                with self.assertRaises(vilgoued.BadKey):
                    bucket.get(key)
            for filters in ("", "a.>.b", "a,", b"\xff", "a\udc80"):
                with self.assertRaises(vilgoued.BadFilter):
                    bucket.watch(filters)

    def test_a_closed_bucket_refuses_every_call(self) -> None:
        bucket = fresh_bucket()
        watch = bucket.watch(">")
        bucket.close()
        bucket.close()
        reads = lambda: bucket.get("a"), lambda: bucket.get("a", at=0), lambda: bucket.history("a"), bucket.keys, bucket.status
        for call in (*reads, lambda: bucket.put("a", b""), bucket.seal, lambda: next(watch), watch.stop):
            with self.assertRaises(vilgoued.Closed):
                call()

    @unittest.skipIf(server, "the names are the library's")
    def test_each_class_has_the_name_of_its_code(self) -> None:
        room, size = ctypes.create_string_buffer(17), ctypes.c_size_t()

        def name_of(code: int) -> Union[str, int]:
            done = _library.library().kv_code_name(code, ctypes.addressof(room), len(room), ctypes.addressof(size))
            return room.raw[: size.value].decode() if done == 0 else done

        for code, refusal in vilgoued.refusals._CLASSES.items():
            self.assertEqual(name_of(code), 37 if refusal is vilgoued.NoDescriptor else refusal.__name__)
        self.assertEqual([name_of(code) for code in (0, 26, 31, 38, (1 << 64) - 1)], [37] * 5)

    def test_they_say_what_is_wrong(self) -> None:
        with fresh_bucket() as bucket:
            bucket["a"] = b"1"
            faults: List[Tuple[Callable[[], object], str]] = [
                (lambda: bucket.put("a..b", b""), "a key has 1 to 255"),
                (lambda: bucket.create("a", b""), "the key has a value"),
                (lambda: bucket.update("a", b"", last=7), "the key's last revision is 1"),
                (lambda: bucket.watch("a", history=True, updates=True), "two of history"),
            ]
            for call, text in faults:
                with self.assertRaisesRegex(vilgoued.KvError, text):
                    call()

    def test_they_cross_processes(self) -> None:
        refusal = pickle.loads(pickle.dumps(vilgoued.WrongLastRevision(3)))
        self.assertEqual((type(refusal), refusal.last, str(refusal)), (vilgoued.WrongLastRevision, 3, str(vilgoued.WrongLastRevision(3))))
        self.assertIs(pickle.loads(pickle.dumps(vilgoued.MARKER)), vilgoued.MARKER)
        self.assertEqual(pickle.loads(pickle.dumps(Entry("a", "DEL", 2, 0, None))), Entry("a", "DEL", 2, 0, None))

    def test_a_number_is_a_whole_one_of_64_bits(self) -> None:
        with fresh_bucket() as bucket:
            with self.assertRaises(OverflowError):
                bucket.update("a", b"", last=-1)
            with self.assertRaises(OverflowError):
                bucket.delete("a", last=1 << 64)
            calls: List[Callable[[], object]] = [
                lambda: bucket.update("a", b"", last=1.0), lambda: bucket.get("a", at=1.0), lambda: bucket.watch(">", since=1.5)]
            for call in calls:
                with self.assertRaises(TypeError):
                    call()


@unittest.skipIf(server, "a server has no snapshots")
class Snapshots(unittest.TestCase):
    def test_a_snapshot_stays_as_it_was(self) -> None:
        with fresh_bucket() as bucket:
            bucket["a"] = b"1"
            with bucket.snapshot() as view:
                bucket["a"] = b"2"
                self.assertEqual(view["a"], b"1")
                self.assertEqual(view.get("a"), (b"1", 1))
                self.assertIsNone(view.get("b"))
            with self.assertRaises(vilgoued.Closed):
                view.get("a")

    def test_a_snapshot_has_the_reads_of_its_bucket(self) -> None:
        with fresh_bucket(history=2) as bucket:
            for value in (b"1", b"2"):
                bucket["a.x"] = value
            with bucket.snapshot() as view:
                bucket.purge("a.x")
                bucket["b"] = b"3"
                self.assertEqual(view.get("a.x", at=1), (b"1", 1))
                self.assertEqual([entry.revision for entry in view.history("a.x")], [1, 2])
                self.assertEqual(view.keys("a.>"), ["a.x"])
                self.assertEqual(view.status(), (2, 2, 2, 2, 0, False))
                self.assertIn("a.x", view)
                self.assertNotIn("b", view)
                with view.snapshot() as same:
                    self.assertEqual(same["a.x"], b"2")

    def test_a_feed_goes_on_to_later_snapshots(self) -> None:
        with fresh_bucket(history=2) as bucket:
            for value in (b"1", b"2"):
                bucket["a"] = value
            with bucket.snapshot() as view:
                feed = view.watch("a", history=True)
                bucket["b"] = b"3"
                del bucket["a"]
                self.assertEqual([entry.marker or entry.revision for entry in feed], [1, 2, True])
                with bucket.snapshot() as later:
                    feed.refresh(later)
                with self.assertRaises(vilgoued.OlderView):
                    feed.refresh(view)
                with fresh_bucket(history=2) as other, other.snapshot() as foreign, self.assertRaises(vilgoued.OtherBucket):
                    feed.refresh(foreign)
                self.assertEqual(list(feed), [Entry("a", "DEL", 4, 0, None)])
                with self.assertRaises(vilgoued.BadFilter):
                    view.watch("")
            feed.close()
            with self.assertRaises(vilgoued.Closed):
                next(feed)

    def test_a_closed_bucket_has_no_snapshot(self) -> None:
        bucket = fresh_bucket()
        bucket.close()
        with self.assertRaises(vilgoued.Closed):
            bucket.snapshot()

    def test_snapshots_taken_on_several_threads_only_grow(self) -> None:
        lock = threading.Lock()
        wrong = []
        with fresh_bucket() as bucket:
            bucket["a"] = b"1"

            def read() -> None:
                last = 0
                while last < 500:
                    with lock:
                        view = Snapshot(bucket)
                    with view:
                        value, revision = view.get("a") or (b"0", 0)
                    if int(value) != revision or revision < last:
                        wrong.append((value, revision, last))
                    last = revision

            readers = [threading.Thread(target=read) for _ in range(3)]
            for reader in readers:
                reader.start()
            for number in range(2, 501):
                with lock:
                    bucket.put("a", b"%d" % number)
            for reader in readers:
                reader.join()
        self.assertEqual(wrong, [])


if __name__ == "__main__":
    unittest.main()
