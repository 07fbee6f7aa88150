//! Each refusal, with its data; and that bad input changes nothing.
use std::time::Duration;
use vilgoued::{BatchRefused, Bucket, Error, Item, Limits, Options, Start, Write};

fn open() -> Bucket {
    Bucket::open("settings", Limits { value_limit: 8, ..Limits::default() }).unwrap()
}

/// What follows the end marker only.
const UPDATES: Options = Options { start: Start::Updates, ignore_deletes: false, headers_only: false };

#[test]
fn a_bucket_of_a_bad_name_is_refused() {
    for name in ["", "a.b", "a b", &"a".repeat(65)] {
        assert_eq!(Bucket::open(name, Limits::default()).unwrap_err(), Error::BadBucket, "{name}");
    }
}

#[test]
fn numbers_outside_their_limits_are_refused() {
    for limits in [
        Limits { history: 0, ..Limits::default() },
        Limits { history: 65, ..Limits::default() },
        Limits { value_limit: 1_048_577, ..Limits::default() },
        Limits { write_limit: 0, ..Limits::default() },
        Limits { revision_limit: 1 << 32, ..Limits::default() },
    ] {
        assert_eq!(Bucket::open("settings", limits).unwrap_err(), Error::BadConfig, "{limits:?}");
    }
}

#[test]
fn a_text_that_is_no_key_is_refused_by_every_call() {
    let bucket = open();
    for key in ["", ".", "a..b", "a*", ">", "ä", "a\0b", "a b", &"k".repeat(256)] {
        assert_eq!(bucket.put(key, "1"), Err(Error::BadKey), "{key}");
        assert_eq!(bucket.create(key, "1"), Err(Error::BadKey), "{key}");
        assert_eq!(bucket.update(key, "1", 0), Err(Error::BadKey), "{key}");
        assert_eq!(bucket.delete(key), Err(Error::BadKey), "{key}");
        assert_eq!(bucket.purge(key), Err(Error::BadKey), "{key}");
        assert_eq!(bucket.get(key), Err(Error::BadKey), "{key}");
        assert_eq!(bucket.get_at(key, 1), Err(Error::BadKey), "{key}");
        assert_eq!(bucket.history(key), Err(Error::BadKey), "{key}");
        assert_eq!(bucket.reader().unwrap().get(key), Err(Error::BadKey), "{key}");
    }
    assert_eq!(bucket.status().unwrap().last, 0);
    assert_eq!(bucket.put(&"k".repeat(255), "1"), Ok(1));
}

#[test]
fn a_text_that_is_no_filter_is_refused_by_every_call() {
    let bucket = open();
    for filters in ["", ",", "a,", "a..b", "a*", "a.>.b", &["a"; 17].join(",")] {
        assert_eq!(bucket.follow(filters, Options::default()).unwrap_err(), Error::BadFilter, "{filters}");
        assert_eq!(bucket.watch(filters, Options::default()).unwrap_err(), Error::BadFilter, "{filters}");
        assert_eq!(bucket.keys(filters), Err(Error::BadFilter), "{filters}");
    }
    assert_eq!(bucket.keys("*.>,a"), Ok(vec![]));
    assert_eq!(bucket.status().unwrap().watches, 0);
}

#[test]
fn a_put_over_the_value_limit_is_refused() {
    let bucket = open();
    assert_eq!(bucket.put("a", "123456789"), Err(Error::ValueTooLarge));
    assert_eq!(bucket.put("a", "12345678"), Ok(1));
    assert_eq!(bucket.put("a", ""), Ok(2));
    assert_eq!(bucket.get("a").unwrap().unwrap().value(), Some(&b""[..]));
}

#[test]
fn a_create_of_a_key_that_has_a_value_is_refused() {
    let bucket = open();
    assert_eq!(bucket.create("a", "1"), Ok(1));
    assert_eq!(bucket.create("a", "2"), Err(Error::KeyExists));
    assert_eq!(bucket.delete("a"), Ok(2));
    assert_eq!(bucket.create("a", "3"), Ok(3));
}

#[test]
fn a_write_at_another_revision_is_refused_and_told_the_last_one() {
    let bucket = open();
    bucket.put("a", "1").unwrap();
    let refused = Err(Error::WrongLastRevision { last: 1 });
    assert_eq!(bucket.update("a", "2", 7), refused);
    assert_eq!(bucket.delete_at("a", 7), refused);
    assert_eq!(bucket.purge_at("a", 0), refused);
    assert_eq!(bucket.update("b", "2", u64::MAX), Err(Error::WrongLastRevision { last: 0 }));
    assert_eq!(bucket.update("a", "2", 1), Ok(2));
    assert_eq!(bucket.delete_at("a", 2), Ok(3));
    assert_eq!(bucket.purge_at("a", 3), Ok(4));
}

#[test]
fn a_batch_is_refused_for_one_of_its_writes_and_changes_nothing() {
    let bucket = open();
    bucket.put("a", "1").unwrap();
    let large = vec![0; (1 << 20) + 1];
    for (writes, at, error) in [
        ([Write::put("b", "2"), Write::create("b", "3")], 1, Error::KeyExists),
        ([Write::update("a", "2", 7), Write::put("b", "3")], 0, Error::WrongLastRevision { last: 1 }),
        ([Write::put("a", "2"), Write::update("a", "3", 1)], 1, Error::WrongLastRevision { last: 2 }),
        ([Write::put("a", "2"), Write::delete_at("a", 1)], 1, Error::WrongLastRevision { last: 2 }),
        ([Write::put("a", "2"), Write::purge_at("b", 1)], 1, Error::WrongLastRevision { last: 0 }),
        ([Write::put("b", "2"), Write::put("b", "123456789")], 1, Error::ValueTooLarge),
        ([Write::put("b", "2"), Write::create("b", &large)], 1, Error::ValueTooLarge),
        ([Write::put("b", "2"), Write::delete("b..c")], 1, Error::BadKey),
        ([Write::update("", "2", 1), Write::purge("b")], 0, Error::BadKey),
    ] {
        assert_eq!(bucket.write_all(&writes), Err(BatchRefused { at, error }));
        assert_eq!(bucket.status().unwrap().last, 1);
    }
    let refused = BatchRefused { at: 1, error: Error::KeyExists };
    assert_eq!(refused.to_string(), "the write 1 of a batch is refused");
    assert_eq!(std::error::Error::source(&refused).unwrap().to_string(), "the key has a value");
    assert_eq!(Error::from(refused), Error::KeyExists);
    bucket.seal().unwrap();
    assert_eq!(bucket.write_all(&[Write::put("a", "2")]), Err(BatchRefused { at: 0, error: Error::Sealed }));
    assert_eq!(bucket.write_all(&[]), Ok(2..2));
}

#[test]
fn a_read_of_what_is_not_there_finds_none() {
    let bucket = open();
    bucket.put("a", "1").unwrap();
    bucket.delete("a").unwrap();
    assert_eq!(bucket.get("a"), Ok(None));
    assert_eq!(bucket.get_at("a", 0), Ok(None));
    assert_eq!(bucket.get("b"), Ok(None));
    assert_eq!(bucket.history("b"), Ok(vec![]));
}

#[test]
fn a_full_and_a_sealed_bucket_refuse_writes() {
    let bucket = Bucket::open("settings", Limits { write_limit: 2, ..Limits::default() }).unwrap();
    bucket.put("a", "1").unwrap();
    bucket.put("a", "2").unwrap();
    assert_eq!(bucket.put("a", "3"), Err(Error::JournalFull));
    assert_eq!(bucket.compact(0), Err(Error::BadFloor));
    assert_eq!(bucket.compact(3), Err(Error::BadFloor));
    assert_eq!(bucket.compact(2), Ok(()));
    assert_eq!(bucket.put("a", "3"), Ok(3));
    assert_eq!(bucket.seal(), Ok(()));
    assert_eq!(bucket.put("a", "4"), Err(Error::Sealed));
    assert!(bucket.status().unwrap().is_sealed);
}

#[test]
fn a_held_watch_that_is_behind_refuses_a_compaction_and_its_end_does_not() {
    let bucket = open();
    let _idle = bucket.watch("b", Options::default()).unwrap();
    let watch = bucket.watch("a", Options::default()).unwrap();
    bucket.put("a", "1").unwrap();
    assert_eq!(bucket.compact(1), Err(Error::WatchBehind { watch: 2 }));
    assert_eq!(bucket.reach(), Ok(0));
    drop(watch);
    assert_eq!(bucket.reach(), Ok(1));
    assert_eq!(bucket.compact(1), Ok(()));
    assert_eq!(bucket.status().unwrap().watches, 1);
}

#[test]
fn a_sixty_fifth_held_watch_is_refused() {
    let bucket = open();
    let held: Vec<_> = (0..64).map(|_| bucket.watch(">", Options::default()).unwrap()).collect();
    assert_eq!(bucket.watch(">", Options::default()).unwrap_err(), Error::TooManyWatches);
    drop(held);
    assert_eq!(bucket.watch(">", Options::default()).unwrap().number(), 65);
}

#[test]
fn a_follower_that_lags_is_told_the_floor() {
    let bucket = open();
    bucket.put("a", "1").unwrap();
    let mut follower = bucket.follow(">", UPDATES).unwrap();
    bucket.put("a", "2").unwrap();
    bucket.put("a", "3").unwrap();
    assert_eq!(bucket.reach(), Ok(1));
    bucket.compact(3).unwrap();
    let lagged = Error::Lagged { floor: 3 };
    assert_eq!(follower.next_timeout(Duration::from_secs(9)), Err(lagged));
    assert_eq!(follower.next_timeout(Duration::MAX), Err(lagged));
    // As an iterator it tells so once, so that who leaves out refusals comes to an end.
    assert_eq!(follower.by_ref().collect::<Vec<_>>(), [Err(lagged)]);
    assert_eq!(follower.next(), None);
    drop(follower);
    assert_eq!(bucket.reach(), Ok(3));
}

#[test]
fn a_closed_bucket_refuses_every_call() {
    let bucket = open();
    bucket.put("a", "1").unwrap();
    let reader = bucket.reader().unwrap();
    let snapshot = bucket.snapshot().unwrap();
    let mut follower = bucket.follow(">", Options::default()).unwrap();
    let mut watch = bucket.watch(">", Options::default()).unwrap();
    bucket.close();
    bucket.close();
    assert_eq!(bucket.put("a", "2"), Err(Error::Closed));
    assert_eq!(bucket.create("", "2"), Err(Error::Closed));
    assert_eq!(bucket.update("a", "2", 1), Err(Error::Closed));
    assert_eq!(bucket.delete("a"), Err(Error::Closed));
    assert_eq!(bucket.purge("a"), Err(Error::Closed));
    let closed = Err(BatchRefused { at: 0, error: Error::Closed });
    assert_eq!(bucket.write_all(&[Write::put("a", "1"), Write::put("", "2")]), closed);
    assert_eq!(bucket.write_all(&[]), closed);
    assert_eq!(bucket.get("a"), Err(Error::Closed));
    assert_eq!(bucket.get_at("a", 1), Err(Error::Closed));
    assert_eq!(bucket.keys(">"), Err(Error::Closed));
    assert_eq!(bucket.history("a"), Err(Error::Closed));
    assert_eq!(bucket.status(), Err(Error::Closed));
    assert_eq!(bucket.seal(), Err(Error::Closed));
    assert_eq!(bucket.compact(1), Err(Error::Closed));
    assert_eq!(bucket.reach(), Err(Error::Closed));
    assert_eq!(bucket.finish(), Err(Error::Closed));
    assert_eq!(bucket.snapshot().unwrap_err(), Error::Closed);
    assert_eq!(bucket.reader().unwrap_err(), Error::Closed);
    assert_eq!(bucket.follow(">", UPDATES).unwrap_err(), Error::Closed);
    assert_eq!(bucket.watch(">", UPDATES).unwrap_err(), Error::Closed);
    assert_eq!(reader.get("a"), Err(Error::Closed));
    assert_eq!(reader.history("a"), Err(Error::Closed));
    assert_eq!(follower.next_timeout(Duration::MAX), Err(Error::Closed));
    assert_eq!(follower.wait(), Err(Error::Closed));
    assert_eq!(follower.next(), None);
    assert_eq!(follower.stopper().stop(), Err(Error::Closed));
    assert_eq!(watch.try_next(), Err(Error::Closed));
    assert_eq!(watch.next(), None);
    assert_eq!(watch.stop(), Err(Error::Closed));
    // What was accepted by a moment stays.
    assert_eq!(snapshot.get("a").unwrap().unwrap().value(), Some(&b"1"[..]));
    drop(bucket);
    assert_eq!(snapshot.keys(">"), Ok(vec!["a".to_owned()]));
    assert_eq!(reader.get("a"), Err(Error::Closed));
}

#[test]
fn a_stop_ends_a_follower_and_behind_a_drop_there_is_none() {
    let bucket = open();
    bucket.put("a", "1").unwrap();
    let mut follower = bucket.follow(">", Options::default()).unwrap();
    let stopper = follower.stopper();
    assert_eq!(stopper.stop(), Ok(()));
    assert_eq!(follower.next(), None);
    assert_eq!(follower.wait(), Err(Error::Closed));
    assert_eq!(stopper.clone().stop(), Ok(()));
    drop(follower);
    assert_eq!(stopper.stop(), Err(Error::Closed));
}

#[test]
fn followers_end_behind_a_finish_once_all_was_handed_out() {
    let bucket = open();
    let mut follower = bucket.follow(">", UPDATES).unwrap();
    bucket.put("a", "1").unwrap();
    bucket.finish().unwrap();
    assert!(matches!(follower.next(), Some(Ok(Item::Entry(entry))) if entry.key() == "a"));
    assert_eq!(follower.wait(), Err(Error::Closed));
    assert_eq!(bucket.put("a", "2"), Ok(2));
    assert_eq!(follower.count(), 1);
}

#[test]
fn each_refusal_has_a_text_and_a_code() {
    let refusals = [Error::OutOfMemory, Error::NoDescriptor, Error::Unknown { code: 99 }, Error::Lagged { floor: 3 }];
    for refusal in refusals {
        assert!(!refusal.to_string().is_empty());
    }
    assert_eq!(refusals.map(|it| it.code()), [1, 64, 99, 21]);
    assert_eq!(Error::Lagged { floor: 3 }.to_string(), "what follows lags behind a compaction, whose floor is 3");
    let _: Box<dyn std::error::Error + Send + Sync> = Box::new(Error::Closed);
}
