//! What calls answer.
use std::time::{Duration, Instant};
use vilgoued::{Bucket, Durability, Entry, Error, Item, Limits, Op, Options, Start, Write};

fn shown(item: Item) -> String {
    item.into_entry().map_or("marker".to_owned(), |it| {
        format!("{} {} {} {} {:?}", it.key(), it.op(), it.revision(), it.size(), it.value().map(String::from_utf8_lossy))
    })
}

fn all(items: impl Iterator<Item = Result<Item, Error>>) -> Vec<String> {
    items.map(|it| shown(it.unwrap())).collect()
}

/// A bucket with some writes.
fn written() -> Bucket {
    let bucket = Bucket::open("settings", Limits::with_history(2)).unwrap();
    for value in ["1", "2", "3"] {
        bucket.put("app.port", value).unwrap();
    }
    bucket.put("app.host", "localhost").unwrap();
    bucket.delete("app.host").unwrap();
    bucket.put("db", "x").unwrap();
    bucket
}

#[test]
fn reads_of_a_bucket_a_reader_and_a_snapshot_agree() {
    let bucket = written();
    let (reader, snapshot) = (bucket.reader().unwrap(), bucket.snapshot().unwrap());
    let port = bucket.get("app.port").unwrap().unwrap();
    assert_eq!((port.key(), port.op(), port.revision(), port.size()), ("app.port", Op::Put, 3, 1));
    assert_eq!(port.value(), Some(&b"3"[..]));
    assert_eq!(reader.get("app.port").unwrap(), Some(port.clone()));
    assert_eq!(snapshot.get("app.port").unwrap(), Some(port.clone()));
    assert_eq!(port.into_value(), Some(b"3".to_vec()));
    let earlier = bucket.get_at("app.port", 2).unwrap();
    assert_eq!(earlier.as_ref().and_then(Entry::value), Some(&b"2"[..]));
    assert_eq!(bucket.get_at("app.port", 1).unwrap(), None);
    assert_eq!(reader.get_at("app.port", 2).unwrap(), earlier);
    assert_eq!(snapshot.get_at("app.port", 2).unwrap(), earlier);
    let history = bucket.history("app.host").unwrap();
    assert_eq!(
        history.iter().map(|it| (it.revision(), it.op(), it.value())).collect::<Vec<_>>(),
        [(4, Op::Put, Some(&b"localhost"[..])), (5, Op::Delete, None)]
    );
    assert_eq!(reader.history("app.host").unwrap(), history);
    assert_eq!(snapshot.history("app.host").unwrap(), history);
    assert_eq!(bucket.keys(">").unwrap(), ["app.port", "db"]);
    assert_eq!(reader.keys("app.>").unwrap(), ["app.port"]);
    assert_eq!(snapshot.keys("*").unwrap(), ["db"]);
    assert_eq!(snapshot.keys("db,app.port,>").unwrap(), ["app.port", "db"]);
    let status = bucket.status().unwrap();
    assert_eq!((status.history, status.last, status.stored, status.values), (2, 6, 6, 5));
    assert_eq!(reader.status().unwrap(), status);
    assert_eq!(snapshot.status().unwrap(), status);
    bucket.purge("app.port").unwrap();
    assert_eq!(reader.get("app.port").unwrap(), None);
    assert_eq!(snapshot.history("app.port").unwrap().len(), 2);
}

#[test]
fn watches_begin_with_what_is_asked_for() {
    let bucket = written();
    let asked = |start, ignore_deletes, headers_only| {
        let options = Options { start, ignore_deletes, headers_only };
        let followed = all(bucket.follow("app.>", options).unwrap());
        assert_eq!(all(bucket.watch("app.>", options).unwrap()), followed);
        followed
    };
    let (port, host) = ("app.port PUT 3 1 Some(\"3\")", "app.host DEL 5 0 None");
    assert_eq!(asked(Start::Latest, false, false), [port, host, "marker"]);
    assert_eq!(asked(Start::Latest, true, false), [port, "marker"]);
    assert_eq!(asked(Start::Updates, false, false), [""; 0]);
    assert_eq!(asked(Start::From(4), false, true), ["app.host PUT 4 9 None", host, "marker"]);
    assert_eq!(asked(Start::History, false, true)[..2], ["app.port PUT 2 1 None", "app.port PUT 3 1 None"]);
}

#[test]
fn values_of_all_sizes_come_as_they_were_put() {
    let bucket = Bucket::open("settings", Limits::with_history(64)).unwrap();
    let mut follower = bucket.follow(">", Options { start: Start::Updates, ..Options::default() }).unwrap();
    let values: Vec<Vec<u8>> =
        [0, 1, 1023, 1024, 1025, 5000, 1 << 20].map(|size: usize| (0..size).map(|it| it as u8).collect()).to_vec();
    for value in &values {
        bucket.put("a", value).unwrap();
        assert_eq!(bucket.get("a").unwrap().unwrap().value(), Some(&value[..]));
        assert_eq!(bucket.reader().unwrap().get("a").unwrap().unwrap().into_value().as_ref(), Some(value));
    }
    let handed: Vec<_> = follower.by_ref().map(|it| it.unwrap().into_entry().unwrap().into_value().unwrap()).collect();
    assert!(handed == values);
    let kept: Vec<_> = bucket.history("a").unwrap().into_iter().map(|it| it.into_value().unwrap()).collect();
    assert!(kept == values);
}

#[test]
fn a_batch_is_made_in_one_step_and_handed_out_write_by_write() {
    let bucket = Bucket::open("settings", Limits::with_history(2)).unwrap();
    assert_eq!(bucket.write_all(&[]), Ok(1..1));
    let follower = bucket.follow(">", Options { start: Start::Updates, ..Options::default() }).unwrap();
    let value = vec![56, 49];
    let asked = [
        Write::put("app.port", "80"),
        Write::create("db", &[0, 1, 2]),
        Write::update("app.port", &value, 1),
        Write::delete("db"),
        Write::purge_at("db", 4),
        Write::delete_at("app.port", 3),
        Write::purge("app.port"),
        Write::create("app.port", ""),
    ];
    assert_eq!(bucket.write_all(&asked), Ok(1..9));
    assert_eq!(
        all(follower),
        [
            "app.port PUT 1 2 Some(\"80\")",
            "db PUT 2 3 Some(\"\\0\\u{1}\\u{2}\")",
            "app.port PUT 3 2 Some(\"81\")",
            "db DEL 4 0 None",
            "db PURGE 5 0 None",
            "app.port DEL 6 0 None",
            "app.port PURGE 7 0 None",
            "app.port PUT 8 0 Some(\"\")",
        ]
    );
    assert_eq!(bucket.write_all(&[]), Ok(9..9));
    assert_eq!(bucket.status().unwrap().last, 8);
}

#[test]
fn more_keys_than_a_small_room_holds_come_whole() {
    let bucket = Bucket::open("settings", Limits::default()).unwrap();
    let keys: Vec<String> = (0..1000).map(|it| format!("device.{it}.state")).collect();
    for key in &keys {
        bucket.put(key, "").unwrap();
    }
    assert_eq!(bucket.keys(">").unwrap(), keys);
}

#[test]
fn a_wait_ends_with_its_time_or_with_an_item() {
    let bucket = Bucket::open("settings", Limits::default()).unwrap();
    let mut follower = bucket.follow(">", Options { start: Start::Updates, ..Options::default() }).unwrap();
    let began = Instant::now();
    assert_eq!(follower.next_timeout(Duration::from_millis(30)), Ok(None));
    assert!(began.elapsed() >= Duration::from_millis(30));
    assert_eq!(follower.next_timeout(Duration::ZERO), Ok(None));
    std::thread::scope(|scope| {
        scope.spawn(|| {
            std::thread::sleep(Duration::from_millis(20));
            bucket.put("a", "1").unwrap();
        });
        assert_eq!(shown(follower.next_timeout(Duration::from_secs(300)).unwrap().unwrap()), "a PUT 1 1 Some(\"1\")");
    });
}

#[test]
fn others_can_end_a_wait() {
    for end in [|bucket: &Bucket| bucket.finish().unwrap(), Bucket::close] {
        let bucket = Bucket::open("settings", Limits::default()).unwrap();
        let mut follower = bucket.follow("a", Options { start: Start::Updates, ..Options::default() }).unwrap();
        let sleeper = std::thread::spawn(move || follower.wait());
        std::thread::sleep(Duration::from_millis(20));
        end(&bucket);
        assert_eq!(sleeper.join().unwrap(), Err(Error::Closed));
    }
    let bucket = Bucket::open("settings", Limits::default()).unwrap();
    let mut follower = bucket.follow("a", Options { start: Start::Updates, ..Options::default() }).unwrap();
    let stopper = follower.stopper();
    let sleeper = std::thread::spawn(move || follower.wait());
    std::thread::sleep(Duration::from_millis(20));
    stopper.stop().unwrap();
    assert_eq!(sleeper.join().unwrap(), Err(Error::Closed));
    // The one that was stopped holds no compaction back.
    bucket.put("a", "1").unwrap();
    assert_eq!(bucket.reach(), Ok(1));
}

#[test]
fn what_may_go_to_other_threads_is_send_and_what_they_may_share_is_sync() {
    fn goes<T: Send>() {}
    fn is_shared<T: Sync>() {}
    goes::<vilgoued::Reader>();
    goes::<vilgoued::Snapshot>();
    goes::<vilgoued::Follower>();
    goes::<vilgoued::Watch>();
    is_shared::<Bucket>();
    is_shared::<vilgoued::Follower>();
    is_shared::<vilgoued::Watch>();
    is_shared::<vilgoued::Stopper>();
    goes::<vilgoued::Stopper>();
    goes::<Bucket>();
    goes::<Entry>();
}

#[test]
fn a_checkpoint_leaves_the_bucket_and_a_compaction_makes_its_file_small() {
    let folder = std::env::temp_dir().join(format!("vilgoued-checkpoint-{}", std::process::id()));
    std::fs::create_dir_all(&folder).unwrap();
    let path = folder.join("settings.kv");
    let opened = || Bucket::open_file(&path, "settings", Limits::with_history(2), Durability::Asked).unwrap().0;
    let bucket = opened();
    for _ in 0..100 {
        bucket.put("app.port", "80").unwrap();
    }
    let before = std::fs::metadata(&path).unwrap().len();
    bucket.checkpoint().unwrap();
    bucket.compact(100).unwrap();
    assert!(std::fs::metadata(&path).unwrap().len() < before / 2);
    assert_eq!(bucket.put("app.port", "81"), Ok(101));
    drop(bucket);
    assert_eq!(opened().get("app.port").unwrap().unwrap().revision(), 101);
    std::fs::remove_dir_all(&folder).unwrap();
    assert_eq!(written().checkpoint(), Ok(()));
}
