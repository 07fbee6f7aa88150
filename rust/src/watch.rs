//! A watch that the bucket holds.
use crate::sys::{Room, Shared};
use crate::{Error, Item, Options};
use std::fmt;
use std::sync::Arc;

/// A watch that the bucket holds, under its lock. What it has still to hand out refuses a compaction, so it never lags. It ends
/// where it is dropped.
///
/// As an iterator it hands out what is there, and ends where nothing is left or the bucket is closed; it can be iterated again
/// once there is more.
///
/// ```
/// # use vilgoued::{Bucket, Error, Limits, Options};
/// let bucket = Bucket::open("settings", Limits::default())?;
/// let mut watch = bucket.watch("app.>", Options::default())?;
/// bucket.put("app.port", "80")?;
/// assert_eq!(bucket.compact(1), Err(Error::WatchBehind { watch: watch.number() }));
/// assert_eq!(watch.by_ref().count(), 2);
/// bucket.compact(1)?;
/// assert_eq!(watch.stop(), Ok(2));
/// # Ok::<(), Error>(())
/// ```
pub struct Watch {
    shared: Arc<Shared>,
    number: u64,
    room: Room,
    is_stopped: bool,
}

impl Watch {
    pub(crate) fn open(shared: Arc<Shared>, filters: &str, options: &Options) -> Result<Watch, Error> {
        let room = Room::new()?;
        let number = shared.watch(filters, options)?;
        Ok(Watch { shared, number, room, is_stopped: false })
    }

    /// Its number, from 1, by which a refused compaction names it.
    pub fn number(&self) -> u64 {
        self.number
    }

    /// The next item, or none where nothing is left.
    pub fn try_next(&mut self) -> Result<Option<Item>, Error> {
        self.shared.take(self.number, &mut self.room)
    }

    /// Ends the watch, and answers how many items it has handed out, the end marker among them.
    pub fn stop(mut self) -> Result<u64, Error> {
        self.is_stopped = true;
        self.shared.stop(self.number)
    }
}

impl Iterator for Watch {
    type Item = Result<Item, Error>;

    fn next(&mut self) -> Option<Result<Item, Error>> {
        match self.try_next() {
            Err(Error::Closed) => None,
            told => told.transpose(),
        }
    }
}

impl Drop for Watch {
    fn drop(&mut self) {
        if !self.is_stopped {
            // Where the bucket is closed, so is the watch.
            let _ = self.shared.stop(self.number);
        }
    }
}

impl fmt::Debug for Watch {
    fn fmt(&self, to: &mut fmt::Formatter<'_>) -> fmt::Result {
        to.debug_struct("Watch").field("number", &self.number).finish_non_exhaustive()
    }
}
