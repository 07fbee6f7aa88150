//! A watch that goes on by itself.
use crate::sys::{Following, Room, Stopping};
use crate::{Error, Item};
use std::fmt;
use std::os::unix::io::{AsFd, AsRawFd, BorrowedFd, RawFd};
use std::sync::Arc;
use std::time::Duration;

/// A time that is never over.
const FOREVER: u64 = u64::MAX;
/// The longest time that is one, in seconds: a hundred years.
const LONGEST: u64 = 100 * 366 * 24 * 3600;

/// A watch that goes on by itself, and can sleep.
///
/// As an iterator it hands out what is there, and ends where nothing is left; it can be iterated again once there is more. It
/// hands out a refusal once and ends behind it, and it ends where the follower has come to its end.
///
/// ```
/// # use vilgoued::{Bucket, Limits, Options};
/// let bucket = Bucket::open("settings", Limits::default())?;
/// let mut follower = bucket.follow(">", Options::default())?;
/// let watcher = std::thread::spawn(move || {
///     let mut keys = vec![];
///     while let Ok(item) = follower.wait() {
///         keys.extend(item.entry().map(|it| it.key().to_owned()));
///     }
///     keys
/// });
/// bucket.put("app.port", "80")?;
/// bucket.put("app.host", "localhost")?;
/// bucket.finish()?;
/// assert_eq!(watcher.join().unwrap(), ["app.port", "app.host"]);
/// # Ok::<(), vilgoued::Error>(())
/// ```
///
/// A compaction beyond what it has gone on to makes it lag: then it is refused as [`Error::Lagged`] for ever, and another one
/// begins anew. [`crate::Bucket::reach`] tells how far nobody lags, and a follower that stands still holds that back.
///
/// Its descriptor is readable while there may be an item, so loops can wait on it: until an iteration or a
/// [`Follower::next_timeout`] finds nothing left, and again once anything is published. It is readable for ever at the end.
pub struct Follower {
    following: Following,
    room: Room,
    is_refused: bool,
}

impl Follower {
    pub(crate) fn of(following: Following) -> Result<Follower, Error> {
        Ok(Follower { following, room: Room::new()?, is_refused: false })
    }

    /// The next item; where there is none it sleeps for one, and answers none where this time was over first.
    /// [`Error::Closed`] where none comes any more: the bucket was finished and all was handed out, or it was closed, or this
    /// was stopped. Lagged.
    #[inline]
    pub fn next_timeout(&mut self, timeout: Duration) -> Result<Option<Item>, Error> {
        self.following.next(milliseconds(timeout), &mut self.room)
    }

    /// The same, for as long as it takes.
    pub fn wait(&mut self) -> Result<Item, Error> {
        loop {
            if let Some(item) = self.following.next(FOREVER, &mut self.room)? {
                return Ok(item);
            }
        }
    }

    /// What stops this, on any thread.
    pub fn stopper(&self) -> Stopper {
        Stopper { of: self.following.stopping().clone() }
    }
}

/// So many milliseconds, and a begun one is a whole one.
#[inline]
fn milliseconds(timeout: Duration) -> u64 {
    if timeout.as_secs() > LONGEST {
        return FOREVER;
    }
    timeout.as_secs() * 1000 + u64::from((timeout.subsec_nanos() + 999_999) / 1_000_000)
}

impl Iterator for Follower {
    type Item = Result<Item, Error>;

    #[inline]
    fn next(&mut self) -> Option<Result<Item, Error>> {
        if self.is_refused {
            return None;
        }
        match self.following.next(0, &mut self.room) {
            Err(Error::Closed) => None,
            Err(refusal) => {
                self.is_refused = refusal != Error::OutOfMemory;
                Some(Err(refusal))
            }
            Ok(item) => item.map(Ok),
        }
    }
}

impl AsFd for Follower {
    fn as_fd(&self) -> BorrowedFd<'_> {
        self.following.descriptor()
    }
}

impl AsRawFd for Follower {
    fn as_raw_fd(&self) -> RawFd {
        self.following.descriptor().as_raw_fd()
    }
}

impl fmt::Debug for Follower {
    fn fmt(&self, to: &mut fmt::Formatter<'_>) -> fmt::Result {
        to.debug_struct("Follower").field("descriptor", &self.as_raw_fd()).finish_non_exhaustive()
    }
}

/// Stops a follower, on any thread.
#[derive(Clone)]
pub struct Stopper {
    of: Arc<Stopping>,
}

impl Stopper {
    /// Ends the follower: who sleeps in it is woken, and each of its calls is [`Error::Closed`] from then on. That is also the
    /// answer here where the follower was dropped, or its bucket is closed.
    pub fn stop(&self) -> Result<(), Error> {
        self.of.stop()
    }
}

impl fmt::Debug for Stopper {
    fn fmt(&self, to: &mut fmt::Formatter<'_>) -> fmt::Result {
        to.debug_struct("Stopper").finish_non_exhaustive()
    }
}
