//! A follower in tokio: its descriptor wakes the task, with no thread of its own.
use std::time::Duration;
use tokio::io::unix::AsyncFd;
use tokio::io::Interest;
use vilgoued::{Bucket, Error, Follower, Item, Limits, Options};

/// The next item, or none where none comes any more.
async fn next(follower: &mut AsyncFd<Follower>) -> Result<Option<Item>, Error> {
    loop {
        match follower.get_mut().next_timeout(Duration::ZERO) {
            Ok(Some(item)) => return Ok(Some(item)),
            Err(Error::Closed) => return Ok(None),
            Err(refusal) => return Err(refusal),
            Ok(None) => follower.readable_mut().await.unwrap().clear_ready(),
        }
    }
}

fn in_tokio(what: impl std::future::Future<Output = ()>) {
    let runtime = tokio::runtime::Builder::new_current_thread().enable_all().build().unwrap();
    runtime.block_on(async { tokio::time::timeout(Duration::from_secs(60), what).await.expect("it ends in time") });
}

fn following(bucket: &Bucket) -> AsyncFd<Follower> {
    AsyncFd::with_interest(bucket.follow("app.>", Options::default()).unwrap(), Interest::READABLE).unwrap()
}

#[test]
fn items_come_as_they_are_written() {
    in_tokio(async {
        let bucket = Bucket::open("settings", Limits::default()).unwrap();
        let mut follower = following(&bucket);
        assert_eq!(next(&mut follower).await, Ok(Some(Item::Marker)));
        let writer = std::thread::spawn(move || {
            for at in 0..1000 {
                bucket.put("app.port", at.to_string()).unwrap();
                bucket.put("db.port", "1").unwrap();
                if at % 100 == 0 {
                    std::thread::sleep(Duration::from_millis(3));
                }
            }
            bucket.finish().unwrap();
            bucket
        });
        for at in 0..1000 {
            let item = next(&mut follower).await.unwrap().unwrap();
            assert_eq!(item.entry().unwrap().value(), Some(at.to_string().as_bytes()));
        }
        assert_eq!(next(&mut follower).await, Ok(None));
        writer.join().unwrap();
    });
}

#[test]
fn a_step_that_is_cancelled_loses_nothing() {
    in_tokio(async {
        let bucket = Bucket::open("settings", Limits::default()).unwrap();
        let mut follower = following(&bucket);
        assert_eq!(next(&mut follower).await, Ok(Some(Item::Marker)));
        for at in 1..=20 {
            assert!(tokio::time::timeout(Duration::from_millis(1), next(&mut follower)).await.is_err());
            bucket.put("app.port", "1").unwrap();
            assert_eq!(next(&mut follower).await.unwrap().unwrap().entry().unwrap().revision(), at);
        }
    });
}

#[test]
fn a_stop_and_a_close_wake_the_task() {
    in_tokio(async {
        let bucket = Bucket::open("settings", Limits::default()).unwrap();
        let mut follower = following(&bucket);
        let stopper = follower.get_ref().stopper();
        let mut other = following(&bucket);
        let ender = std::thread::spawn(move || {
            std::thread::sleep(Duration::from_millis(20));
            stopper.stop().unwrap();
            std::thread::sleep(Duration::from_millis(20));
            bucket.close();
        });
        assert_eq!(next(&mut follower).await, Ok(Some(Item::Marker)));
        assert_eq!(next(&mut follower).await, Ok(None));
        assert_eq!(next(&mut other).await, Ok(Some(Item::Marker)));
        assert_eq!(next(&mut other).await, Ok(None));
        ender.join().unwrap();
    });
}
