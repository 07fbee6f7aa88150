"""Batches of vilgoued over libvilgoued.so, which VILGOUED_LIB names: what they make, what refuses them, and what others see of them."""
import pickle
import threading
import unittest
from typing import Any, Callable, List, Optional, Tuple, cast

import vilgoued
import vilgoued.nats
from vilgoued import Bucket


class Batches(unittest.TestCase):
    def setUp(self) -> None:
        self.bucket = Bucket("settings", history=2, value_limit=1 << 20)
        self.addCleanup(self.bucket.close)

    def last(self) -> int:
        return self.bucket.status().last

    def test_it_is_made_at_the_end_of_its_block(self) -> None:
        watch = self.bucket.watch(">", updates=True)
        with self.bucket.batch() as batch:
            batch.put("app.port", b"80")
            batch.create("db", "\N{EURO SIGN}")
            batch["app.port"] = bytearray(b"81")
            batch.update("app.port", b"82", last=3)
            del batch["db"]
            batch.purge("db", last=5)
            batch.delete("app.port", last=4)
            batch.purge("app.port")
            self.assertEqual((len(batch), self.last(), batch.revisions), (8, 0, range(0)))
        self.assertEqual((len(batch), self.last(), batch.revisions), (0, 8, range(1, 9)))
        self.assertEqual(
            [(it.key, it.op, it.value, it.revision) for it in watch if not it.marker],
            [
                ("app.port", "PUT", b"80", 1), ("db", "PUT", "\N{EURO SIGN}".encode(), 2), ("app.port", "PUT", b"81", 3),
                ("app.port", "PUT", b"82", 4), ("db", "DEL", None, 5), ("db", "PURGE", None, 6), ("app.port", "DEL", None, 7),
                ("app.port", "PURGE", None, 8),
            ],
        )

    def test_nothing_is_made_where_the_block_raises(self) -> None:
        with self.assertRaises(ZeroDivisionError), self.bucket.batch() as batch:
            batch.put("a", b"1")
            1 / 0
        self.assertEqual((len(batch), self.last(), batch.revisions), (0, 0, range(0)))

    def test_it_is_made_by_a_write_again_and_again(self) -> None:
        batch = self.bucket.batch()
        self.assertEqual(batch.write(), range(1, 1))
        batch.put("a", b"1")
        batch.put("b", b"2")
        self.assertEqual(batch.write(), range(1, 3))
        self.assertEqual(batch.write(), range(3, 3))
        batch.put("a", b"3")
        self.assertEqual((batch.write(), batch.revisions, self.last()), (range(3, 4), range(3, 4), 3))
        batch.put("a", b"4")
        batch.close()
        self.assertEqual((len(batch), batch.write(), self.last()), (0, range(4, 4), 3))

    def test_it_is_refused_for_one_of_its_writes_and_changes_nothing(self) -> None:
        self.bucket["a"] = b"1"
        refusals: List[Tuple[Callable[[Any], object], Any, Optional[int]]] = [
            (lambda batch: batch.create("a", b"3"), vilgoued.KeyExists, None),
            (lambda batch: batch.update("a", b"3", last=1), vilgoued.WrongLastRevision, 2),
            (lambda batch: batch.delete("a", last=1), vilgoued.WrongLastRevision, 2),
            (lambda batch: batch.purge("b", last=1), vilgoued.WrongLastRevision, 0),
            (lambda batch: batch.put("a..b", b"3"), vilgoued.BadKey, None),
            (lambda batch: batch.put("b", bytes((1 << 20) + 1)), vilgoued.ValueTooLarge, None),
        ]
        for gather, refusal, number in refusals:
            with self.assertRaises(refusal) as refused:
                with self.bucket.batch() as batch:
                    batch.put("a", b"2")
                    gather(batch)
            self.assertEqual((refused.exception.at, getattr(refused.exception, "last", None), self.last()), (1, number, 1))
            self.assertRegex(str(refused.exception), r" \(write 1 of a batch\)$")
            again = pickle.loads(pickle.dumps(refused.exception))
            self.assertEqual((type(again), again.at, str(again)), (refusal, 1, str(refused.exception)))
        self.assertIsNone(vilgoued.KeyExists().at)

    def test_one_that_was_refused_can_be_made_later(self) -> None:
        batch = self.bucket.batch()
        batch.put("a", b"1")
        batch.update("b", b"2", last=1)
        for _ in range(2):
            with self.assertRaises(vilgoued.WrongLastRevision) as refused:
                batch.write()
            self.assertEqual((refused.exception.at, len(batch)), (1, 2))
        self.bucket["b"] = b"0"
        self.assertEqual((batch.write(), len(batch), self.bucket["b"]), (range(2, 4), 0, b"2"))

    def test_a_sealed_a_full_and_a_closed_bucket_refuse_it(self) -> None:
        with Bucket("small", write_limit=2) as bucket:
            with self.assertRaises(vilgoued.JournalFull) as refused, bucket.batch() as batch:
                for _ in range(3):
                    batch.put("a", b"1")
            self.assertEqual((refused.exception.at, bucket.status().last), (2, 0))
            bucket.seal()
            with self.assertRaises(vilgoued.Sealed) as sealed:
                batch.write()
            self.assertEqual(sealed.exception.at, 0)
        with self.assertRaises(vilgoued.Closed) as closed:
            batch.write()
        self.assertEqual((closed.exception.at, len(batch)), (None, 3))

    def test_what_is_no_value_or_no_number_is_not_gathered(self) -> None:
        batch = self.bucket.batch()
        for value in (80, None):
            with self.assertRaises(TypeError):
                batch.put("a", cast(Any, value))
        with self.assertRaises(OverflowError):
            batch.update("a", b"1", last=-1)
        self.assertEqual(len(batch), 0)

    def test_any_thread_gathers(self) -> None:
        batch = self.bucket.batch()

        def gather(thread: int) -> None:
            for number in range(500):
                batch.put(f"{thread}.{number}", b"1")

        threads = [threading.Thread(target=gather, args=[number]) for number in range(4)]
        for thread in threads:
            thread.start()
        for thread in threads:
            thread.join()
        self.assertEqual((batch.write(), len(self.bucket.keys())), (range(1, 2001), 2000))

    def test_nobody_sees_half_of_one(self) -> None:
        wrong: List[Any] = []
        watch = self.bucket.watch(">", updates=True)

        def write(thread: int) -> None:
            for number in range(1000):
                with self.bucket.batch() as batch:
                    batch["left"] = batch["right"] = f"{thread} {number}"

        def read() -> None:
            while self.last() < 4000:
                if self.last() % 2:
                    wrong.append(self.last())
                with self.bucket.snapshot() as moment:
                    if (moment.get("left") or [None])[0] != (moment.get("right") or [None])[0]:
                        wrong.append((moment.get("left"), moment.get("right")))

        def follow() -> None:
            items: Any = iter(watch.follow())
            for left in items:
                right = next(items)
                if (left.key, right.key, left.value) != ("left", "right", right.value):
                    wrong.append((left, right))

        threads = [threading.Thread(target=write, args=[number]) for number in range(2)]
        others = [threading.Thread(target=read), threading.Thread(target=follow)]
        for thread in threads + others:
            thread.start()
        for thread in threads:
            thread.join()
        self.bucket.finish()
        for thread in others:
            thread.join()
        self.assertEqual((wrong, self.last()), ([], 4000))

    def test_a_server_has_none(self) -> None:
        with self.assertRaisesRegex(NotImplementedError, "a server has no batches"):
            vilgoued.nats.Bucket.batch(cast(Any, None))


if __name__ == "__main__":
    unittest.main()
