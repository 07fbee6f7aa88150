//! What a bucket answers and hands out.
use crate::Error;
use std::fmt;

/// What a write did.
#[derive(Clone, Copy, Debug, PartialEq, Eq, Hash)]
pub enum Op {
    /// It gave the key a value.
    Put,
    /// It ended the value.
    Delete,
    /// It ended the value, and the key's earlier entries went.
    Purge,
}

impl Op {
    /// Its name in answers of scripts, as `PUT`.
    pub fn name(self) -> &'static str {
        match self {
            Op::Put => "PUT",
            Op::Delete => "DEL",
            Op::Purge => "PURGE",
        }
    }
}

impl fmt::Display for Op {
    fn fmt(&self, to: &mut fmt::Formatter<'_>) -> fmt::Result {
        to.write_str(self.name())
    }
}

/// An entry of a key. Its key and its value lie in one piece of memory, which it owns.
#[derive(Clone, PartialEq, Eq)]
pub struct Entry {
    /// The value, and behind it the key.
    bytes: Vec<u8>,
    value_size: usize,
    has_value: bool,
    op: Op,
    revision: u64,
    size: u64,
}

/// The numbers of an entry.
#[derive(Clone, Copy)]
pub(crate) struct Numbers {
    pub op: Op,
    pub revision: u64,
    pub size: u64,
    pub has_value: bool,
}

impl Entry {
    #[inline]
    pub(crate) fn of(key: &[u8], value: &[u8], numbers: Numbers) -> Result<Entry, Error> {
        let mut bytes = Vec::new();
        bytes.try_reserve_exact(value.len() + key.len()).map_err(|_| Error::OutOfMemory)?;
        bytes.extend_from_slice(value);
        bytes.extend_from_slice(key);
        let Numbers { op, revision, size, has_value } = numbers;
        Ok(Entry { bytes, value_size: value.len(), has_value, op, revision, size })
    }

    /// The key.
    pub fn key(&self) -> &str {
        std::str::from_utf8(&self.bytes[self.value_size..]).unwrap_or_default()
    }

    /// The value; none where the write was a delete or a purge, or the watch shows no values.
    pub fn value(&self) -> Option<&[u8]> {
        self.has_value.then(|| &self.bytes[..self.value_size])
    }

    /// The value as one's own, in the memory of the entry.
    pub fn into_value(self) -> Option<Vec<u8>> {
        let mut bytes = self.bytes;
        bytes.truncate(self.value_size);
        self.has_value.then_some(bytes)
    }

    /// What the write did.
    pub fn op(&self) -> Op {
        self.op
    }

    /// The number of the write, from 1.
    pub fn revision(&self) -> u64 {
        self.revision
    }

    /// The bytes of the value, also where it is not shown.
    pub fn size(&self) -> u64 {
        self.size
    }
}

impl fmt::Debug for Entry {
    fn fmt(&self, to: &mut fmt::Formatter<'_>) -> fmt::Result {
        to.debug_struct("Entry")
            .field("key", &self.key())
            .field("op", &self.op)
            .field("revision", &self.revision)
            .field("size", &self.size)
            .field("value", &self.value())
            .finish()
    }
}

/// What a watch hands out.
#[derive(Clone, Debug, PartialEq, Eq)]
pub enum Item {
    /// An entry.
    Entry(Entry),
    /// The end marker, behind the entries of the moment when the watch was opened.
    Marker,
}

impl Item {
    /// The entry, where it is one.
    pub fn entry(&self) -> Option<&Entry> {
        match self {
            Item::Entry(entry) => Some(entry),
            Item::Marker => None,
        }
    }

    /// The same, as one's own.
    pub fn into_entry(self) -> Option<Entry> {
        match self {
            Item::Entry(entry) => Some(entry),
            Item::Marker => None,
        }
    }
}

/// The numbers of a bucket.
#[derive(Clone, Copy, Debug, PartialEq, Eq)]
pub struct Status {
    /// How many entries of each key are kept.
    pub history: u64,
    /// The last revision.
    pub last: u64,
    /// How many writes are stored.
    pub stored: u64,
    /// How many entries are retained, markers included.
    pub values: u64,
    /// How many held watches are open; none of a reader and of a snapshot.
    pub watches: u64,
    /// Whether writes have ended.
    pub is_sealed: bool,
}
