//! A bucket.
use crate::sys::{self, Shared};
use crate::{BatchRefused, Durability, Entry, Error, Follower, Limits, Options, Reader, Snapshot, Status, Watch, Write};
use std::fmt;
use std::ops::Range;
use std::path::Path;
use std::sync::Arc;

/// A bucket, which any number of threads use at once. It is freed where it is dropped or closed.
///
/// Each write holds the bucket's lock, and is published before it returns: a reader's next call reads it, and a follower is
/// handed it. Each call behind a close is refused as [`Error::Closed`], and each may be refused as [`Error::OutOfMemory`].
///
/// ```
/// # use vilgoued::{Bucket, Limits};
/// let bucket = Bucket::open("settings", Limits::default())?;
/// std::thread::scope(|scope| {
///     scope.spawn(|| bucket.put("app.port", "80"));
///     scope.spawn(|| bucket.put("app.host", "localhost"));
/// });
/// assert_eq!(bucket.status()?.last, 2);
/// # Ok::<(), vilgoued::Error>(())
/// ```
pub struct Bucket {
    shared: Arc<Shared>,
}

impl Bucket {
    /// Opens a bucket of this name with no writes. BadBucket, BadConfig.
    pub fn open(name: &str, limits: Limits) -> Result<Bucket, Error> {
        Ok(Bucket { shared: Shared::open(name, &limits)? })
    }

    /// Opens a bucket that outlives the process, by a file: what it had accepted is there again, but its watches. Where there is no
    /// file it is made. Answers too how many bytes of a torn end were cut off, which a crash had left. FileBusy, FileDamaged,
    /// OtherBucket, FileFault.
    ///
    /// ```
    /// # use vilgoued::{Bucket, Durability, Error, Limits};
    /// # let folder = std::env::temp_dir().join(format!("vilgoued-{}", std::process::id()));
    /// # std::fs::create_dir_all(&folder).unwrap();
    /// let path = folder.join("settings.kv");
    /// let (bucket, _) = Bucket::open_file(&path, "settings", Limits::default(), Durability::Each)?;
    /// bucket.put("app.port", "80")?;
    /// drop(bucket);
    /// let (bucket, dropped) = Bucket::open_file(&path, "settings", Limits::default(), Durability::Each)?;
    /// assert_eq!(bucket.get("app.port")?.unwrap().value(), Some(&b"80"[..]));
    /// assert_eq!(dropped, 0);
    /// # std::fs::remove_dir_all(&folder).unwrap();
    /// # Ok::<(), Error>(())
    /// ```
    pub fn open_file(path: impl AsRef<Path>, name: &str, limits: Limits, durability: Durability) -> Result<(Bucket, u64), Error> {
        let (shared, dropped) = Shared::open_file(path.as_ref(), name, &limits, durability.number())?;
        Ok((Bucket { shared }, dropped))
    }

    /// Brings all that was accepted onto the disk; without a file there is nothing to bring. FileFault, and from then on each write
    /// and each sync: reads and watches go on.
    pub fn sync(&self) -> Result<(), Error> {
        self.shared.sync()
    }

    /// Replaces the file by one that has what the bucket stores, and none of what led to it. It is written beside the file, under its
    /// name with `.checkpoint` behind it; a crash leaves the old file or the new one. FileFault where this fails: before the new one
    /// has the name, the bucket goes on with the old one, and behind that it goes on no more, as behind a [`sync`](Bucket::sync)
    /// that failed. [`compact`](Bucket::compact) does this by itself where the file has more than twice the bytes. Without a file
    /// nothing happens.
    pub fn checkpoint(&self) -> Result<(), Error> {
        self.shared.checkpoint()
    }

    /// Gives the key the value, and answers the revision of the write. BadKey, ValueTooLarge, Sealed, JournalFull.
    #[inline]
    pub fn put(&self, key: &str, value: impl AsRef<[u8]>) -> Result<u64, Error> {
        self.shared.put(key, value.as_ref())
    }

    /// The same, where the key has no value. KeyExists.
    pub fn create(&self, key: &str, value: impl AsRef<[u8]>) -> Result<u64, Error> {
        self.shared.create(key, value.as_ref())
    }

    /// The same, where `last` is the key's last revision, 0 where it was never written. WrongLastRevision.
    pub fn update(&self, key: &str, value: impl AsRef<[u8]>, last: u64) -> Result<u64, Error> {
        self.shared.update(key, value.as_ref(), last)
    }

    /// Ends the value of the key.
    pub fn delete(&self, key: &str) -> Result<u64, Error> {
        self.shared.delete(key, None)
    }

    /// The same, where `last` is the key's last revision. WrongLastRevision.
    pub fn delete_at(&self, key: &str, last: u64) -> Result<u64, Error> {
        self.shared.delete(key, Some(last))
    }

    /// Ends the value of the key, and its earlier entries go.
    pub fn purge(&self, key: &str) -> Result<u64, Error> {
        self.shared.purge(key, None)
    }

    /// The same, where `last` is the key's last revision. WrongLastRevision.
    pub fn purge_at(&self, key: &str, last: u64) -> Result<u64, Error> {
        self.shared.purge(key, Some(last))
    }

    /// Makes several writes in one step, or none of them, and answers their revisions, in their order. Each is judged behind
    /// those before it, so an update may name the revision of an earlier one. No read sees some of them without the others; a
    /// follower is handed them one by one, and then what is written later. Of no writes nothing is made, and the range is empty.
    ///
    /// Where one is refused, nothing has changed: the refusal has its place, and what it is refused with as a single write.
    ///
    /// ```
    /// # use vilgoued::{BatchRefused, Bucket, Error, Limits, Write};
    /// let bucket = Bucket::open("accounts", Limits::default())?;
    /// assert_eq!(bucket.write_all(&[Write::put("anna", "40"), Write::put("berta", "60")])?, 1..3);
    /// let moved = [Write::update("anna", "50", 1), Write::update("berta", "50", 1)];
    /// let refused = bucket.write_all(&moved).unwrap_err();
    /// assert_eq!(refused, BatchRefused { at: 1, error: Error::WrongLastRevision { last: 2 } });
    /// assert_eq!(bucket.get("anna")?.unwrap().value(), Some(&b"40"[..]));
    /// # Ok::<(), Error>(())
    /// ```
    pub fn write_all(&self, writes: &[Write<'_>]) -> Result<Range<u64>, BatchRefused> {
        self.shared.write_all(writes)
    }

    /// Ends the writes.
    pub fn seal(&self) -> Result<(), Error> {
        self.shared.seal()
    }

    /// Compacts to a floor: of the writes at or below it only the retained ones stay stored. BadFloor; WatchBehind, with the
    /// least number of a held watch that has still to hand out an entry at or below the floor that came after its opening.
    pub fn compact(&self, floor: u64) -> Result<(), Error> {
        self.shared.compact(floor)
    }

    /// The highest floor to which a compaction is refused by no held watch and makes no follower lag; 0 where there is none.
    pub fn reach(&self) -> Result<u64, Error> {
        self.shared.reach()
    }

    /// The latest entry of the key, where that is a put. BadKey.
    #[inline]
    pub fn get(&self, key: &str) -> Result<Option<Entry>, Error> {
        self.shared.reads().get(key)
    }

    /// The retained put of the key that has this revision. BadKey.
    pub fn get_at(&self, key: &str, revision: u64) -> Result<Option<Entry>, Error> {
        self.shared.reads().get_at(key, revision)
    }

    /// The retained entries of the key, oldest first; none where it was never written. BadKey.
    pub fn history(&self, key: &str) -> Result<Vec<Entry>, Error> {
        self.snapshot()?.history(key)
    }

    /// The keys that a filter matches, or one of up to 16 filters with a comma between two, and that have a value: each once,
    /// in the order of their last puts. BadFilter.
    pub fn keys(&self, filters: &str) -> Result<Vec<String>, Error> {
        self.shared.reads().keys(filters)
    }

    /// The numbers of the bucket.
    pub fn status(&self) -> Result<Status, Error> {
        self.shared.reads().status()
    }

    /// What the bucket has accepted by now.
    pub fn snapshot(&self) -> Result<Snapshot, Error> {
        sys::View::open(&self.shared).map(Snapshot::of)
    }

    /// A reader, for a thread that reads often: it takes the lock only where something new was published.
    pub fn reader(&self) -> Result<Reader, Error> {
        Ok(Reader::of(sys::Reader::open(&self.shared)?, self.shared.clone()))
    }

    /// A follower of the keys that a filter matches, or one of up to 16 filters with a comma between two. BadFilter,
    /// NoDescriptor.
    pub fn follow(&self, filters: &str, options: Options) -> Result<Follower, Error> {
        Follower::of(sys::Following::open(&self.shared, filters, &options)?)
    }

    /// A watch that the bucket holds: it never lags, as it refuses a compaction where it is behind. At most 64 are open at a
    /// time. BadFilter, TooManyWatches.
    pub fn watch(&self, filters: &str, options: Options) -> Result<Watch, Error> {
        Watch::open(self.shared.clone(), filters, &options)
    }

    /// Tells followers that no write comes any more: each comes to its end once all was handed out. It stops no writer.
    pub fn finish(&self) -> Result<(), Error> {
        self.shared.finish()
    }

    /// Frees the bucket, and wakes its followers, who come to the end, also where they had items left. It waits for the calls
    /// that others are in, and each call behind it is [`Error::Closed`]. Snapshots can be read on.
    pub fn close(&self) {
        self.shared.close();
    }
}

impl Drop for Bucket {
    fn drop(&mut self) {
        self.close();
    }
}

impl fmt::Debug for Bucket {
    fn fmt(&self, to: &mut fmt::Formatter<'_>) -> fmt::Result {
        to.debug_struct("Bucket").field("status", &self.status()).finish()
    }
}
