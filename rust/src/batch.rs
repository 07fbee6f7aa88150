//! Writes that are made in one step.
use crate::Error;
use std::error;
use std::fmt;

/// A write that is asked for, as one of several that are made in one step by [`Bucket::write_all`](crate::Bucket::write_all).
#[derive(Clone, Copy, Debug, PartialEq, Eq, Hash)]
pub enum Write<'a> {
    /// Gives the key the value.
    Put {
        /// The key.
        key: &'a str,
        /// The value.
        value: &'a [u8],
    },
    /// The same, where the key has no value.
    Create {
        /// The key.
        key: &'a str,
        /// The value.
        value: &'a [u8],
    },
    /// The same, where `last` is the key's last revision.
    Update {
        /// The key.
        key: &'a str,
        /// The value.
        value: &'a [u8],
        /// The key's last revision, 0 where it was never written.
        last: u64,
    },
    /// Ends the value of the key.
    Delete {
        /// The key.
        key: &'a str,
        /// Only where this is the key's last revision.
        last: Option<u64>,
    },
    /// The same, and the key's earlier entries go.
    Purge {
        /// The key.
        key: &'a str,
        /// Only where this is the key's last revision.
        last: Option<u64>,
    },
}

impl<'a> Write<'a> {
    /// Gives the key the value.
    pub fn put(key: &'a str, value: &'a (impl AsRef<[u8]> + ?Sized)) -> Write<'a> {
        Write::Put { key, value: value.as_ref() }
    }

    /// The same, where the key has no value.
    pub fn create(key: &'a str, value: &'a (impl AsRef<[u8]> + ?Sized)) -> Write<'a> {
        Write::Create { key, value: value.as_ref() }
    }

    /// The same, where `last` is the key's last revision, 0 where it was never written.
    pub fn update(key: &'a str, value: &'a (impl AsRef<[u8]> + ?Sized), last: u64) -> Write<'a> {
        Write::Update { key, value: value.as_ref(), last }
    }

    /// Ends the value of the key.
    pub fn delete(key: &'a str) -> Write<'a> {
        Write::Delete { key, last: None }
    }

    /// The same, where `last` is the key's last revision.
    pub fn delete_at(key: &'a str, last: u64) -> Write<'a> {
        Write::Delete { key, last: Some(last) }
    }

    /// Ends the value of the key, and its earlier entries go.
    pub fn purge(key: &'a str) -> Write<'a> {
        Write::Purge { key, last: None }
    }

    /// The same, where `last` is the key's last revision.
    pub fn purge_at(key: &'a str, last: u64) -> Write<'a> {
        Write::Purge { key, last: Some(last) }
    }
}

/// Why none of several writes was made. As an [`Error`] it is that of the write that was refused.
#[derive(Clone, Copy, Debug, PartialEq, Eq, Hash)]
pub struct BatchRefused {
    /// The place of the write that was refused, from 0; 0 where the bucket is closed. Those before it would have been accepted.
    pub at: usize,
    /// What it was refused with, behind those before it.
    pub error: Error,
}

impl fmt::Display for BatchRefused {
    fn fmt(&self, to: &mut fmt::Formatter<'_>) -> fmt::Result {
        write!(to, "the write {} of a batch is refused", self.at)
    }
}

impl error::Error for BatchRefused {
    fn source(&self) -> Option<&(dyn error::Error + 'static)> {
        Some(&self.error)
    }
}

impl From<BatchRefused> for Error {
    fn from(refused: BatchRefused) -> Error {
        refused.error
    }
}
