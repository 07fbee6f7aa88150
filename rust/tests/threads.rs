//! Many threads at once.
use std::collections::BTreeMap;
use std::sync::atomic::{AtomicBool, Ordering};
use vilgoued::{Bucket, Error, Item, Limits, Options, Start, Write};

const WRITERS: u64 = 4;
const FOLLOWERS: usize = 8;
const WRITES: u64 = 25_000;

#[test]
fn eight_followers_lose_nothing_of_a_hundred_thousand_writes_of_four() {
    let bucket = Bucket::open("settings", Limits::default()).unwrap();
    let followers: Vec<_> = (0..FOLLOWERS)
        .map(|_| bucket.follow("writer.>", Options { start: Start::Updates, ..Options::default() }).unwrap())
        .collect();
    let (written, handed) = std::thread::scope(|scope| {
        let watchers: Vec<_> = followers
            .into_iter()
            .map(|mut follower| {
                scope.spawn(move || {
                    let mut handed = vec![];
                    loop {
                        match follower.wait() {
                            Ok(Item::Entry(entry)) => {
                                handed.push((entry.revision(), entry.key().to_owned(), entry.into_value()));
                            }
                            Ok(Item::Marker) => panic!("there is no end marker"),
                            Err(refusal) => break assert_eq!(refusal, Error::Closed),
                        }
                    }
                    handed
                })
            })
            .collect();
        let writers: Vec<_> = (0..WRITERS)
            .map(|writer| {
                let bucket = &bucket;
                scope.spawn(move || {
                    (0..WRITES)
                        .map(move |at| {
                            let (key, value) = (format!("writer.{writer}.{}", at % 100), format!("{writer} {at}"));
                            (bucket.put(&key, &value).unwrap(), key, Some(value.into_bytes()))
                        })
                        .collect::<Vec<_>>()
                })
            })
            .collect();
        let mut written: Vec<_> = writers.into_iter().flat_map(|it| it.join().unwrap()).collect();
        bucket.finish().unwrap();
        written.sort();
        (written, watchers.into_iter().map(|it| it.join().unwrap()).collect::<Vec<_>>())
    });
    assert_eq!(written.len() as u64, WRITERS * WRITES);
    assert!(written.iter().zip(1..).all(|(it, revision)| it.0 == revision));
    for one in handed {
        assert!(one == written);
    }
}

#[test]
fn nobody_sees_half_of_a_batch() {
    let bucket = Bucket::open("settings", Limits::default()).unwrap();
    let mut follower = bucket.follow(">", Options { start: Start::Updates, ..Options::default() }).unwrap();
    std::thread::scope(|scope| {
        let writers: Vec<_> = (0..2)
            .map(|writer| {
                let bucket = &bucket;
                scope.spawn(move || {
                    for at in 0..WRITES / 5 {
                        let value = format!("{writer} {at}");
                        bucket.write_all(&[Write::put("left", &value), Write::put("right", &value)]).unwrap();
                    }
                })
            })
            .collect();
        scope.spawn(|| {
            let reader = bucket.reader().unwrap();
            while reader.status().unwrap().last < WRITES / 5 * 4 {
                assert_eq!(reader.status().unwrap().last % 2, 0);
                let moment = bucket.snapshot().unwrap();
                let [left, right] = ["left", "right"].map(|key| moment.get(key).unwrap().and_then(vilgoued::Entry::into_value));
                assert_eq!(left, right);
            }
        });
        scope.spawn(move || {
            let mut handed = 0;
            while let Ok(left) = follower.wait() {
                let (left, right) = (left.into_entry().unwrap(), follower.next().unwrap().unwrap().into_entry().unwrap());
                assert_eq!((left.key(), right.key(), left.value()), ("left", "right", right.value()));
                handed += 2;
            }
            assert_eq!(handed, WRITES / 5 * 4);
        });
        for writer in writers {
            writer.join().unwrap();
        }
        bucket.finish().unwrap();
    });
}

#[test]
fn a_reader_reads_each_write_that_had_returned_and_nothing_older_than_before() {
    let bucket = Bucket::open("settings", Limits::default()).unwrap();
    let is_over = AtomicBool::new(false);
    std::thread::scope(|scope| {
        for _ in 0..4 {
            let reader = bucket.reader().unwrap();
            let (bucket, is_over) = (&bucket, &is_over);
            scope.spawn(move || {
                let mut last = BTreeMap::new();
                while !is_over.load(Ordering::Relaxed) {
                    let told = bucket.status().unwrap().last;
                    let read = reader.get("a").unwrap().map_or(0, |it| it.revision());
                    assert!(read >= told && read >= *last.get("a").unwrap_or(&0));
                    last.insert("a", read);
                }
            });
        }
        for _ in 0..5_000 {
            bucket.put("a", "1").unwrap();
        }
        is_over.store(true, Ordering::Relaxed);
    });
}

#[test]
fn a_bucket_may_be_closed_while_others_write_read_and_wait() {
    for _ in 0..20 {
        let bucket = Bucket::open("settings", Limits::default()).unwrap();
        std::thread::scope(|scope| {
            for _ in 0..2 {
                let mut follower = bucket.follow(">", Options::default()).unwrap();
                let reader = bucket.reader().unwrap();
                scope.spawn(|| while bucket.put("a", "1") != Err(Error::Closed) {});
                scope.spawn(move || while reader.get("a") != Err(Error::Closed) {});
                scope.spawn(move || while follower.wait() != Err(Error::Closed) {});
            }
            std::thread::sleep(std::time::Duration::from_millis(5));
            bucket.close();
        });
    }
}
