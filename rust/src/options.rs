//! What a bucket and a watch are opened with.

/// The numbers that a bucket is opened with.
///
/// ```
/// # use vilgoued::Limits;
/// let limits = Limits { history: 5, ..Limits::default() };
/// assert_eq!(limits.value_limit, 1_048_576);
/// ```
#[derive(Clone, Copy, Debug, PartialEq, Eq)]
pub struct Limits {
    /// How many entries of each key are kept: 1 to 64, and 1 where nothing is said.
    pub history: u64,
    /// How many bytes a value may have: up to 1,048,576, which it is where nothing is said.
    pub value_limit: u64,
    /// How many writes may be stored: 1 to 1,000,000, which it is where nothing is said.
    pub write_limit: u64,
    /// The last revision: 1 to 4,294,967,295, which it is where nothing is said.
    pub revision_limit: u64,
}

impl Default for Limits {
    fn default() -> Limits {
        Limits { history: 1, value_limit: 1_048_576, write_limit: 1_000_000, revision_limit: 4_294_967_295 }
    }
}

impl Limits {
    /// These limits, with so many entries of each key.
    pub fn with_history(history: u64) -> Limits {
        Limits { history, ..Limits::default() }
    }
}

/// When what a bucket with a file accepts is on the disk.
#[derive(Clone, Copy, Debug, PartialEq, Eq, Default)]
pub enum Durability {
    /// When its call answers.
    #[default]
    Each,
    /// When the call of each so many answers; a number of 0 is 1.
    Every(u64),
    /// Once [`Bucket::sync`](crate::Bucket::sync) is called, or the bucket is closed.
    Asked,
}

impl Durability {
    /// The library's number of it.
    pub(crate) fn number(self) -> u64 {
        match self {
            Durability::Each => 1,
            Durability::Every(writes) => writes.max(1),
            Durability::Asked => 0,
        }
    }
}

/// What a watch begins with.
#[derive(Clone, Copy, Debug, PartialEq, Eq, Default)]
pub enum Start {
    /// The latest entry of each key that matches, markers included.
    #[default]
    Latest,
    /// All retained entries that match.
    History,
    /// Nothing, and no end marker.
    Updates,
    /// The retained entries that match, from this revision on.
    From(u64),
}

/// How a watch is opened.
///
/// ```
/// # use vilgoued::{Options, Start};
/// let all = Options { start: Start::History, ..Options::default() };
/// assert!(!all.ignore_deletes && !all.headers_only);
/// ```
#[derive(Clone, Copy, Debug, PartialEq, Eq, Default)]
pub struct Options {
    /// What it begins with.
    pub start: Start,
    /// Leaves out the markers of deletes and purges.
    pub ignore_deletes: bool,
    /// Shows no values; their sizes stay.
    pub headers_only: bool,
}
