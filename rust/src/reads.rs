//! What reads a bucket beside its lock.
use crate::sys::{self, Shared};
use crate::{Entry, Error, Status};
use std::fmt;
use std::sync::Arc;

/// One thread's reader of a bucket. Each call first goes on to all that is published, so it reads each write that had returned
/// when it began, and nothing older than it read before; where nothing is new that takes no lock.
///
/// It goes to another thread, but is used by one at a time:
///
/// ```compile_fail,E0277
/// # use vilgoued::{Bucket, Limits};
/// # let bucket = Bucket::open("settings", Limits::default()).unwrap();
/// let reader = bucket.reader().unwrap();
/// std::thread::scope(|scope| {
///     scope.spawn(|| reader.get("app.port"));
/// });
/// ```
///
/// ```
/// # use vilgoued::{Bucket, Limits};
/// # let bucket = Bucket::open("settings", Limits::default()).unwrap();
/// let reader = bucket.reader().unwrap();
/// std::thread::scope(|scope| {
///     scope.spawn(move || reader.get("app.port"));
/// });
/// ```
pub struct Reader {
    reader: sys::Reader,
    shared: Arc<Shared>,
}

impl Reader {
    pub(crate) fn of(reader: sys::Reader, shared: Arc<Shared>) -> Reader {
        Reader { reader, shared }
    }

    /// The latest entry of the key, where that is a put. BadKey.
    #[inline]
    pub fn get(&self, key: &str) -> Result<Option<Entry>, Error> {
        self.reader.reads().get(key)
    }

    /// The retained put of the key that has this revision. BadKey.
    pub fn get_at(&self, key: &str, revision: u64) -> Result<Option<Entry>, Error> {
        self.reader.reads().get_at(key, revision)
    }

    /// The retained entries of the key, oldest first, which are of one moment. It takes the lock once. BadKey.
    pub fn history(&self, key: &str) -> Result<Vec<Entry>, Error> {
        sys::View::open(&self.shared)?.history(key)
    }

    /// The keys that a filter matches, or one of up to 16 filters with a comma between two, and that have a value: each once,
    /// in the order of their last puts. BadFilter.
    pub fn keys(&self, filters: &str) -> Result<Vec<String>, Error> {
        self.reader.reads().keys(filters)
    }

    /// The numbers of the bucket.
    pub fn status(&self) -> Result<Status, Error> {
        self.reader.reads().status()
    }
}

impl fmt::Debug for Reader {
    fn fmt(&self, to: &mut fmt::Formatter<'_>) -> fmt::Result {
        to.debug_struct("Reader").finish_non_exhaustive()
    }
}

/// What a bucket had accepted by a moment. It stays as it is, and can be read behind the bucket's close.
///
/// It goes to another thread, but is used by one at a time:
///
/// ```compile_fail,E0277
/// # use vilgoued::{Bucket, Limits};
/// # let bucket = Bucket::open("settings", Limits::default()).unwrap();
/// let before = bucket.snapshot().unwrap();
/// std::thread::scope(|scope| {
///     scope.spawn(|| before.get("app.port"));
/// });
/// ```
///
/// ```
/// # use vilgoued::{Bucket, Limits};
/// let bucket = Bucket::open("settings", Limits::default())?;
/// bucket.put("app.port", "80")?;
/// let before = bucket.snapshot()?;
/// bucket.delete("app.port")?;
/// assert!(bucket.get("app.port")?.is_none());
/// assert_eq!(before.get("app.port")?.unwrap().value(), Some(&b"80"[..]));
/// # Ok::<(), vilgoued::Error>(())
/// ```
pub struct Snapshot {
    view: sys::View,
}

impl Snapshot {
    pub(crate) fn of(view: sys::View) -> Snapshot {
        Snapshot { view }
    }

    /// The latest entry of the key, where that is a put. BadKey.
    pub fn get(&self, key: &str) -> Result<Option<Entry>, Error> {
        self.view.reads().get(key)
    }

    /// The retained put of the key that has this revision. BadKey.
    pub fn get_at(&self, key: &str, revision: u64) -> Result<Option<Entry>, Error> {
        self.view.reads().get_at(key, revision)
    }

    /// The retained entries of the key, oldest first; none where it was never written. BadKey.
    pub fn history(&self, key: &str) -> Result<Vec<Entry>, Error> {
        self.view.history(key)
    }

    /// The keys that a filter matches, or one of up to 16 filters with a comma between two, and that have a value: each once,
    /// in the order of their last puts. BadFilter.
    pub fn keys(&self, filters: &str) -> Result<Vec<String>, Error> {
        self.view.reads().keys(filters)
    }

    /// The numbers of the bucket at that moment.
    pub fn status(&self) -> Result<Status, Error> {
        self.view.reads().status()
    }
}

impl fmt::Debug for Snapshot {
    fn fmt(&self, to: &mut fmt::Formatter<'_>) -> fmt::Result {
        to.debug_struct("Snapshot").finish_non_exhaustive()
    }
}
