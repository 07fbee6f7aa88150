//! Why calls are refused.
use std::error;
use std::fmt;

/// Why a call was refused: the names of the rules, with what they tell. A refused call leaves the bucket as it was.
#[derive(Clone, Copy, Debug, PartialEq, Eq, Hash)]
#[non_exhaustive]
pub enum Error {
    /// Memory was refused. The call can be made again, and no item is lost by it.
    OutOfMemory,
    /// The name is none of a bucket: 1 to 64 letters, digits, `_` and `-`.
    BadBucket,
    /// A number is outside its limits.
    BadConfig,
    /// The text is no key.
    BadKey,
    /// The text is no filter, or no list of filters.
    BadFilter,
    /// The value is longer than `value_limit`.
    ValueTooLarge,
    /// A write to a sealed bucket.
    Sealed,
    /// The bucket stores as many writes as it may, or gave its last revision.
    JournalFull,
    /// A create of a key that has a value.
    KeyExists,
    /// The key's last revision is another one: `last`, 0 where it was never written.
    WrongLastRevision {
        /// The key's last revision.
        last: u64,
    },
    /// There is no such entry.
    KeyNotFound,
    /// The watch was stopped.
    NoSuchWatch,
    /// 64 held watches are open, or all numbers were given.
    TooManyWatches,
    /// The floor is 0, above the last revision, or below the last compaction's.
    BadFloor,
    /// A held watch is behind the floor.
    WatchBehind {
        /// The least number of such a watch.
        watch: u64,
    },
    /// The bucket was compacted before this had gone on as far, so it would leave out entries.
    Lagged {
        /// The floor of that compaction.
        floor: u64,
    },
    /// A call of the bucket's file has failed: nothing more is written, and reads go on.
    FileFault,
    /// The file has other bytes than were written, or is none of a bucket.
    FileDamaged {
        /// The offset up to which its bytes are good.
        at: u64,
    },
    /// Another opening has the file, in this process or another.
    FileBusy,
    /// The file is that of a bucket with another name or other limits.
    OtherBucket,
    /// The bucket or the follower is closed, or the bucket was finished and all was handed out.
    Closed,
    /// The system gives no descriptor to wait on.
    NoDescriptor,
    /// A code that this package does not know.
    Unknown {
        /// The library's number of it.
        code: u64,
    },
}

impl Error {
    /// The refusal of a code of the library; four tell a number.
    #[cold]
    pub(crate) fn of(code: u64, number: u64) -> Error {
        match code {
            1 => Error::OutOfMemory,
            2 => Error::BadBucket,
            3 => Error::BadConfig,
            4 => Error::BadKey,
            5 => Error::BadFilter,
            7 => Error::ValueTooLarge,
            8 => Error::Sealed,
            9 => Error::JournalFull,
            10 => Error::KeyExists,
            11 => Error::WrongLastRevision { last: number },
            12 => Error::KeyNotFound,
            13 => Error::NoSuchWatch,
            14 => Error::TooManyWatches,
            19 => Error::BadFloor,
            20 => Error::WatchBehind { watch: number },
            21 => Error::Lagged { floor: number },
            22 => Error::FileFault,
            23 => Error::FileDamaged { at: number },
            24 => Error::FileBusy,
            25 => Error::OtherBucket,
            32 => Error::Closed,
            64 => Error::NoDescriptor,
            code => Error::Unknown { code },
        }
    }

    /// The number that the rules give it.
    pub fn code(&self) -> u64 {
        match *self {
            Error::OutOfMemory => 1,
            Error::BadBucket => 2,
            Error::BadConfig => 3,
            Error::BadKey => 4,
            Error::BadFilter => 5,
            Error::ValueTooLarge => 7,
            Error::Sealed => 8,
            Error::JournalFull => 9,
            Error::KeyExists => 10,
            Error::WrongLastRevision { .. } => 11,
            Error::KeyNotFound => 12,
            Error::NoSuchWatch => 13,
            Error::TooManyWatches => 14,
            Error::BadFloor => 19,
            Error::WatchBehind { .. } => 20,
            Error::Lagged { .. } => 21,
            Error::FileFault => 22,
            Error::FileDamaged { .. } => 23,
            Error::FileBusy => 24,
            Error::OtherBucket => 25,
            Error::Closed => 32,
            Error::NoDescriptor => 64,
            Error::Unknown { code } => code,
        }
    }
}

impl fmt::Display for Error {
    fn fmt(&self, to: &mut fmt::Formatter<'_>) -> fmt::Result {
        match self {
            Error::OutOfMemory => to.write_str("a request for memory was refused"),
            Error::BadBucket => to.write_str("a bucket's name has 1 to 64 letters, digits, _ and -"),
            Error::BadConfig => to.write_str("a number is outside its limits"),
            Error::BadKey => to.write_str("a key has 1 to 255 letters, digits and -/_= in tokens with a dot between two"),
            Error::BadFilter => to.write_str("a filter is a key, in which * may stand for a token and > at the end for the rest"),
            Error::ValueTooLarge => to.write_str("the value is longer than value_limit"),
            Error::Sealed => to.write_str("the bucket is sealed"),
            Error::JournalFull => to.write_str("the stored writes reach write_limit, or the last revision revision_limit"),
            Error::KeyExists => to.write_str("the key has a value"),
            Error::WrongLastRevision { last } => write!(to, "the key's last revision is {last}"),
            Error::KeyNotFound => to.write_str("there is no such entry"),
            Error::NoSuchWatch => to.write_str("the watch was stopped"),
            Error::TooManyWatches => to.write_str("64 held watches are open, or all numbers were given"),
            Error::BadFloor => to.write_str("the floor is 0, above the last revision, or below the last compaction's"),
            Error::WatchBehind { watch } => {
                write!(to, "the watch {watch} has still to be handed an entry at or below the floor")
            }
            Error::Lagged { floor } => write!(to, "what follows lags behind a compaction, whose floor is {floor}"),
            Error::FileFault => to.write_str("the bucket's file has failed, and it takes no more writes"),
            Error::FileDamaged { at } => {
                write!(to, "the file is damaged, or none of a bucket: its bytes are good up to offset {at}")
            }
            Error::FileBusy => to.write_str("another opening has the file"),
            Error::OtherBucket => to.write_str("the file is of a bucket with another name or other limits"),
            Error::Closed => to.write_str("it is closed"),
            Error::NoDescriptor => to.write_str("the system gives no descriptor: too many files are open"),
            Error::Unknown { code } => write!(to, "the library refused it by the code {code}, which this package does not know"),
        }
    }
}

impl error::Error for Error {}
