//! Maps that threads share, as a user of Rust would take them.

use crate::keys::{text, VALUE};
use arc_swap::{cache::Cache, ArcSwap};
use dashmap::DashMap;
use std::collections::HashMap;
use std::sync::{Arc, RwLock};

/// A map that threads share.
pub trait Side: Send + Sync + Sized + 'static {
    /// Its name.
    const NAME: &'static str;

    /// How many copies are made in a round.
    const COPIES: usize;

    /// Who reads: what one thread keeps.
    type Reader: FnMut(&str) -> usize;

    /// A map with so many keys.
    fn filled(keys: usize) -> Self;

    /// Puts the value to a key.
    fn put(&self, key: &str);

    /// A reader, which tells how many bytes the value of a key has; 0 where there is none.
    fn reader(self: &Arc<Self>) -> Self::Reader;

    /// How many keys a copy of all keys and values has.
    fn copied(&self) -> usize;
}

type Table = HashMap<String, Vec<u8>>;
type Get = Box<dyn FnMut(&str) -> usize>;

fn table(keys: usize) -> Table {
    (0..keys).map(|number| (text(number), VALUE.to_vec())).collect()
}

fn size(value: Option<&Vec<u8>>) -> usize {
    value.map_or(0, Vec::len)
}

/// std's map under std's lock.
pub struct Std(RwLock<Table>);

impl Side for Std {
    const NAME: &'static str = "HashMap under RwLock";
    const COPIES: usize = 1;
    type Reader = Get;

    fn filled(keys: usize) -> Self {
        Std(RwLock::new(table(keys)))
    }

    // The key and the value are copied before the lock is taken.
    fn put(&self, key: &str) {
        let (key, value) = (key.to_string(), VALUE.to_vec());
        self.0.write().unwrap().insert(key, value);
    }

    fn reader(self: &Arc<Self>) -> Get {
        let side = self.clone();
        Box::new(move |key| size(side.0.read().unwrap().get(key)))
    }

    fn copied(&self) -> usize {
        self.0.read().unwrap().clone().len()
    }
}

/// std's map under parking_lot's lock.
pub struct Unpoisoned(parking_lot::RwLock<Table>);

impl Side for Unpoisoned {
    const NAME: &'static str = "HashMap under parking_lot's RwLock";
    const COPIES: usize = 1;
    type Reader = Get;

    fn filled(keys: usize) -> Self {
        Unpoisoned(parking_lot::RwLock::new(table(keys)))
    }

    fn put(&self, key: &str) {
        let (key, value) = (key.to_string(), VALUE.to_vec());
        self.0.write().insert(key, value);
    }

    fn reader(self: &Arc<Self>) -> Get {
        let side = self.clone();
        Box::new(move |key| size(side.0.read().get(key)))
    }

    fn copied(&self) -> usize {
        self.0.read().clone().len()
    }
}

/// A map of many locks.
pub struct Dash(DashMap<String, Vec<u8>>);

impl Side for Dash {
    const NAME: &'static str = "DashMap";
    const COPIES: usize = 1;
    type Reader = Get;

    fn filled(keys: usize) -> Self {
        Dash((0..keys).map(|number| (text(number), VALUE.to_vec())).collect())
    }

    fn put(&self, key: &str) {
        self.0.insert(key.to_string(), VALUE.to_vec());
    }

    fn reader(self: &Arc<Self>) -> Get {
        let side = self.clone();
        Box::new(move |key| side.0.get(key).map_or(0, |value| value.len()))
    }

    fn copied(&self) -> usize {
        self.0.clone().len()
    }
}

// Its nodes share keys and values, so a copy of a node copies none of them.
type Persistent = im::HashMap<Arc<str>, Arc<[u8]>>;

fn bytes(map: &Persistent, key: &str) -> usize {
    map.get(key).map_or(0, |value| value.len())
}

/// A persistent map, each version of which is published: read by a load.
pub struct Swapped(ArcSwap<Persistent>);

impl Side for Swapped {
    const NAME: &'static str = "ArcSwap of im's HashMap, load";
    const COPIES: usize = 5000;
    type Reader = Get;

    fn filled(keys: usize) -> Self {
        let map: Persistent = (0..keys).map(|number| (Arc::from(text(number)), Arc::from(&VALUE[..]))).collect();
        Swapped(ArcSwap::from_pointee(map))
    }

    fn put(&self, key: &str) {
        let mut next = Persistent::clone(&self.0.load());
        next.insert(Arc::from(key), Arc::from(&VALUE[..]));
        self.0.store(Arc::new(next));
    }

    fn reader(self: &Arc<Self>) -> Get {
        let side = self.clone();
        Box::new(move |key| bytes(&side.0.load(), key))
    }

    fn copied(&self) -> usize {
        self.0.load_full().len()
    }
}

/// The same, read by a cache of each thread.
pub struct SwappedAndCached(Swapped);

// What a cache looks at.
struct Published(Arc<SwappedAndCached>);

impl std::ops::Deref for Published {
    type Target = ArcSwap<Persistent>;

    fn deref(&self) -> &ArcSwap<Persistent> {
        &self.0 .0 .0
    }
}

impl Side for SwappedAndCached {
    const NAME: &'static str = "ArcSwap of im's HashMap, Cache";
    const COPIES: usize = 5000;
    type Reader = Get;

    fn filled(keys: usize) -> Self {
        SwappedAndCached(Swapped::filled(keys))
    }

    fn put(&self, key: &str) {
        self.0.put(key);
    }

    fn reader(self: &Arc<Self>) -> Get {
        let mut cache = Cache::new(Published(self.clone()));
        Box::new(move |key| bytes(cache.load(), key))
    }

    fn copied(&self) -> usize {
        self.0.copied()
    }
}
