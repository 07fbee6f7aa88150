//! The library's functions, and all that is unsafe about them: handles that are closed once, used by as many calls at a time as
//! the library allows, and never through two copies; pointers that are never null; and rooms whose sizes are told.
#![allow(unsafe_code)]

use crate::entry::Numbers;
use crate::{BatchRefused, Entry, Error, Item, Limits, Op, Options, Start, Status, Write};
use std::cell::UnsafeCell;
use std::marker::PhantomData;
use std::mem::MaybeUninit;
use std::ops::Range;
use std::os::raw::{c_int, c_void};
use std::os::unix::ffi::OsStrExt;
use std::os::unix::io::{BorrowedFd, RawFd};
use std::path::Path;
use std::ptr;
use std::slice;
use std::sync::{Arc, Mutex, MutexGuard};

const OK: u64 = 0;
const TOO_LITTLE_ROOM: u64 = 33;
const KEY_NOT_FOUND: u64 = 12;
/// Values up to this size are read into a room on the stack.
const SMALL: usize = 1024;
/// The longest key, in bytes.
const KEY: usize = 255;

/// The declarations of vilgoued.h and vilgoued_shared.h.
mod c {
    use super::{c_int, c_void};

    #[repr(C)]
    pub struct Shared {
        pub state: u64,
        pub at: *mut c_void,
    }

    /// kv_view, kv_reader, kv_follower and kv_batch.
    #[repr(C)]
    pub struct Handle {
        pub is_open: bool,
        pub at: *mut c_void,
    }

    #[repr(C)]
    pub struct Limits {
        pub history: u64,
        pub value_limit: u64,
        pub write_limit: u64,
        pub revision_limit: u64,
    }

    #[repr(C)]
    pub struct Options {
        pub start: u32,
        pub from: u64,
        pub ignore_deletes: bool,
        pub headers_only: bool,
    }

    #[derive(Clone, Copy, Default)]
    #[repr(C)]
    pub struct Item {
        pub kind: u32,
        pub op: u32,
        pub revision: u64,
        pub key_size: usize,
        pub size: u64,
        pub value_size: usize,
        pub has_value: bool,
    }

    #[derive(Default)]
    #[repr(C)]
    pub struct Status {
        pub history: u64,
        pub last: u64,
        pub stored: u64,
        pub values: u64,
        pub watches: u64,
        pub sealed: bool,
    }

    pub const EMPTY: u32 = 0;
    pub const MARKER: u32 = 1;

    /// Functions of which each of the handles that are read has one.
    pub type Get<H> = unsafe extern "C" fn(*mut H, *const u8, usize, *mut u8, usize, *mut usize, *mut u64) -> u64;
    pub type GetAt<H> = unsafe extern "C" fn(*mut H, *const u8, usize, u64, *mut u8, usize, *mut usize, *mut u64) -> u64;
    pub type Keys<H> = unsafe extern "C" fn(*mut H, *const u8, usize, *mut u8, usize, *mut usize, *mut usize) -> u64;
    pub type GetStatus<H> = unsafe extern "C" fn(*mut H, *mut Status) -> u64;

    macro_rules! reads {
        ($handle:ty: $get:ident $get_at:ident $keys:ident $get_status:ident) => {
            extern "C" {
                pub fn $get(
                    at: *mut $handle,
                    key: *const u8,
                    key_size: usize,
                    room: *mut u8,
                    room_size: usize,
                    size: *mut usize,
                    revision: *mut u64,
                ) -> u64;
                pub fn $get_at(
                    at: *mut $handle,
                    key: *const u8,
                    key_size: usize,
                    revision_asked: u64,
                    room: *mut u8,
                    room_size: usize,
                    size: *mut usize,
                    revision: *mut u64,
                ) -> u64;
                pub fn $keys(
                    at: *mut $handle,
                    filters: *const u8,
                    filters_size: usize,
                    room: *mut u8,
                    room_size: usize,
                    size: *mut usize,
                    count: *mut usize,
                ) -> u64;
                pub fn $get_status(at: *mut $handle, status: *mut Status) -> u64;
            }
        };
    }
    reads!(Shared: kv_shared_get kv_shared_get_at kv_shared_keys kv_shared_get_status);
    reads!(Handle: kv_reader_get kv_reader_get_at kv_reader_keys kv_reader_get_status);
    reads!(Handle: kv_view_get kv_view_get_at kv_view_keys kv_view_get_status);

    extern "C" {
        pub fn kv_shared_open(at: *mut Shared, name: *const u8, name_size: usize, limits: *const Limits) -> u64;
        pub fn kv_shared_open_file(
            at: *mut Shared,
            path: *const u8,
            path_size: usize,
            name: *const u8,
            name_size: usize,
            limits: *const Limits,
            sync: u64,
            dropped: *mut u64,
            offset: *mut u64,
        ) -> u64;
        pub fn kv_shared_sync(at: *mut Shared) -> u64;
        pub fn kv_shared_checkpoint(at: *mut Shared) -> u64;
        pub fn kv_shared_finish(at: *mut Shared) -> u64;
        pub fn kv_shared_close(at: *mut Shared) -> u64;
        pub fn kv_shared_put(
            at: *mut Shared,
            key: *const u8,
            key_size: usize,
            value: *const u8,
            value_size: usize,
            revision: *mut u64,
        ) -> u64;
        pub fn kv_shared_create(
            at: *mut Shared,
            key: *const u8,
            key_size: usize,
            value: *const u8,
            value_size: usize,
            revision: *mut u64,
        ) -> u64;
        pub fn kv_shared_update(
            at: *mut Shared,
            key: *const u8,
            key_size: usize,
            value: *const u8,
            value_size: usize,
            last: u64,
            revision: *mut u64,
        ) -> u64;
        pub fn kv_shared_delete(
            at: *mut Shared,
            key: *const u8,
            key_size: usize,
            has_last: bool,
            last: u64,
            revision: *mut u64,
        ) -> u64;
        pub fn kv_shared_purge(
            at: *mut Shared,
            key: *const u8,
            key_size: usize,
            has_last: bool,
            last: u64,
            revision: *mut u64,
        ) -> u64;
        pub fn kv_shared_write_all(at: *mut Shared, batch: *mut Handle, revision: *mut u64, index: *mut usize) -> u64;
        pub fn kv_batch_put(at: *mut Handle, key: *const u8, key_size: usize, value: *const u8, value_size: usize) -> u64;
        pub fn kv_batch_create(at: *mut Handle, key: *const u8, key_size: usize, value: *const u8, value_size: usize) -> u64;
        pub fn kv_batch_update(
            at: *mut Handle,
            key: *const u8,
            key_size: usize,
            value: *const u8,
            value_size: usize,
            last: u64,
        ) -> u64;
        pub fn kv_batch_delete(at: *mut Handle, key: *const u8, key_size: usize, has_last: bool, last: u64) -> u64;
        pub fn kv_batch_purge(at: *mut Handle, key: *const u8, key_size: usize, has_last: bool, last: u64) -> u64;
        pub fn kv_batch_close(at: *mut Handle);
        pub fn kv_shared_seal(at: *mut Shared) -> u64;
        pub fn kv_shared_compact(at: *mut Shared, floor: u64, watch: *mut u64) -> u64;
        pub fn kv_shared_reach(at: *mut Shared, floor: *mut u64) -> u64;
        pub fn kv_shared_snapshot(at: *mut Shared, view: *mut Handle) -> u64;
        pub fn kv_shared_watch(
            at: *mut Shared,
            filters: *const u8,
            filters_size: usize,
            options: *const Options,
            number: *mut u64,
        ) -> u64;
        pub fn kv_shared_take(
            at: *mut Shared,
            number: u64,
            keys: *mut u8,
            keys_size: usize,
            values: *mut u8,
            values_size: usize,
            item: *mut Item,
        ) -> u64;
        pub fn kv_shared_stop(at: *mut Shared, number: u64, handed: *mut u64) -> u64;
        pub fn kv_view_history(
            at: *mut Handle,
            key: *const u8,
            key_size: usize,
            index: usize,
            room: *mut u8,
            room_size: usize,
            item: *mut Item,
            count: *mut usize,
        ) -> u64;
        pub fn kv_view_close(at: *mut Handle);
        pub fn kv_reader_open(shared: *mut Shared, at: *mut Handle) -> u64;
        pub fn kv_reader_close(at: *mut Handle);
        pub fn kv_follower_open(
            shared: *mut Shared,
            filters: *const u8,
            filters_size: usize,
            options: *const Options,
            at: *mut Handle,
        ) -> u64;
        pub fn kv_follower_next(
            at: *mut Handle,
            milliseconds: u64,
            keys: *mut u8,
            keys_size: usize,
            values: *mut u8,
            values_size: usize,
            item: *mut Item,
            floor: *mut u64,
        ) -> u64;
        pub fn kv_follower_fd(at: *mut Handle, fd: *mut c_int) -> u64;
        pub fn kv_follower_stop(at: *mut Handle) -> u64;
        pub fn kv_follower_close(at: *mut Handle);
    }
}

/// A handle whose bytes are all 0.
fn closed() -> UnsafeCell<c::Handle> {
    UnsafeCell::new(c::Handle { is_open: false, at: ptr::null_mut() })
}

#[inline]
fn check(code: u64, number: u64) -> Result<u64, Error> {
    if code == OK {
        Ok(number)
    } else {
        Err(Error::of(code, number))
    }
}

fn op_of(op: u32) -> Op {
    match op {
        0 => Op::Put,
        1 => Op::Delete,
        _ => Op::Purge,
    }
}

fn numbers_of(item: &c::Item) -> Numbers {
    Numbers { op: op_of(item.op), revision: item.revision, size: item.size, has_value: item.has_value }
}

/// Memory for so many bytes, with nothing in it.
fn reserved(size: usize) -> Result<Vec<u8>, Error> {
    let mut bytes = Vec::new();
    bytes.try_reserve_exact(size).map_err(|_| Error::OutOfMemory)?;
    Ok(bytes)
}

/// Reads one value, by a call that is told a room and its size, and tells the value's size and revision.
///
/// # Safety
/// Where the call answers OK, it has copied so many bytes to the room as it tells, and these fit.
#[inline]
unsafe fn one_value(key: &[u8], read: impl Fn(*mut u8, usize, &mut usize, &mut u64) -> u64) -> Result<Option<Entry>, Error> {
    let mut room = MaybeUninit::<[u8; SMALL]>::uninit();
    let (mut size, mut revision) = (0, 0);
    let mut code = read(room.as_mut_ptr().cast(), SMALL, &mut size, &mut revision);
    if code == OK {
        // SAFETY: the caller says that so many bytes were copied.
        let value = unsafe { slice::from_raw_parts(room.as_ptr().cast(), size) };
        return entry_of(key, value, revision).map(Some);
    }
    while code == TOO_LITTLE_ROOM {
        let mut room = reserved(size)?;
        code = read(room.as_mut_ptr(), room.capacity(), &mut size, &mut revision);
        if code == OK {
            // SAFETY: the caller says that so many bytes were copied, and they fit.
            unsafe { room.set_len(size) };
            return entry_of(key, &room, revision).map(Some);
        }
    }
    if code == KEY_NOT_FOUND {
        return Ok(None);
    }
    Err(Error::of(code, 0))
}

#[inline]
fn entry_of(key: &[u8], value: &[u8], revision: u64) -> Result<Entry, Error> {
    Entry::of(key, value, Numbers { op: Op::Put, revision, size: value.len() as u64, has_value: true })
}

/// The functions by which a handle is read.
struct Functions<H> {
    get: c::Get<H>,
    get_at: c::GetAt<H>,
    keys: c::Keys<H>,
    get_status: c::GetStatus<H>,
}

const OF_SHARED: Functions<c::Shared> =
    Functions { get: c::kv_shared_get, get_at: c::kv_shared_get_at, keys: c::kv_shared_keys, get_status: c::kv_shared_get_status };
const OF_READER: Functions<c::Handle> =
    Functions { get: c::kv_reader_get, get_at: c::kv_reader_get_at, keys: c::kv_reader_keys, get_status: c::kv_reader_get_status };
const OF_VIEW: Functions<c::Handle> =
    Functions { get: c::kv_view_get, get_at: c::kv_view_get_at, keys: c::kv_view_keys, get_status: c::kv_view_get_status };

/// A handle that can be read, with the functions for it.
pub(crate) struct Reads<'a, H: 'static> {
    at: *mut H,
    functions: &'static Functions<H>,
    of: PhantomData<&'a H>,
}

// Each of these is made by `reads` of a type below, which borrows it: so the handle is there, stays where it is, and no more calls
// use it at once than the library allows.
impl<H> Reads<'_, H> {
    #[inline]
    pub fn get(&self, key: &str) -> Result<Option<Entry>, Error> {
        let key = key.as_bytes();
        // SAFETY: the handle is as said above, the pointers are of borrows that last for the call, with their sizes, and the
        // library copies what it tells.
        unsafe {
            one_value(key, |room, room_size, size, revision| {
                (self.functions.get)(self.at, key.as_ptr(), key.len(), room, room_size, size, revision)
            })
        }
    }

    pub fn get_at(&self, key: &str, asked: u64) -> Result<Option<Entry>, Error> {
        let key = key.as_bytes();
        // SAFETY: as that of `get`.
        unsafe {
            one_value(key, |room, room_size, size, revision| {
                (self.functions.get_at)(self.at, key.as_ptr(), key.len(), asked, room, room_size, size, revision)
            })
        }
    }

    pub fn keys(&self, filters: &str) -> Result<Vec<String>, Error> {
        let mut room = reserved(SMALL)?;
        loop {
            let (mut size, mut count) = (0, 0);
            // SAFETY: the handle is as said above, and the pointers are of borrows that last for the call, with their sizes.
            let code = unsafe {
                (self.functions.keys)(
                    self.at,
                    filters.as_ptr(),
                    filters.len(),
                    room.as_mut_ptr(),
                    room.capacity(),
                    &mut size,
                    &mut count,
                )
            };
            if code == OK {
                // SAFETY: the library copied so many bytes, and they fit.
                unsafe { room.set_len(size) };
                return keys_in(&room, count);
            }
            if code != TOO_LITTLE_ROOM {
                return Err(Error::of(code, 0));
            }
            room = reserved(size)?;
        }
    }

    pub fn status(&self) -> Result<Status, Error> {
        let mut told = c::Status::default();
        // SAFETY: the handle is as said above, and the numbers are ours.
        check(unsafe { (self.functions.get_status)(self.at, &mut told) }, 0)?;
        let c::Status { history, last, stored, values, watches, sealed } = told;
        Ok(Status { history, last, stored, values, watches, is_sealed: sealed })
    }
}

/// The keys that stand in a room, each with a zero byte behind it.
fn keys_in(room: &[u8], count: usize) -> Result<Vec<String>, Error> {
    let mut keys = Vec::new();
    keys.try_reserve_exact(count).map_err(|_| Error::OutOfMemory)?;
    for key in room.split(|byte| *byte == 0).take(count) {
        let mut own = String::new();
        own.try_reserve_exact(key.len()).map_err(|_| Error::OutOfMemory)?;
        own.push_str(std::str::from_utf8(key).unwrap_or_default());
        keys.push(own);
    }
    Ok(keys)
}

/// A bucket that threads share. It stays where it is, as its owners share it by an `Arc`.
pub(crate) struct Shared(UnsafeCell<c::Shared>);

// SAFETY: the library says that any number of threads use a kv_shared at once, its close among them.
unsafe impl Send for Shared {}
// SAFETY: as above.
unsafe impl Sync for Shared {}

fn limits_of(limits: &Limits) -> c::Limits {
    let Limits { history, value_limit, write_limit, revision_limit } = *limits;
    c::Limits { history, value_limit, write_limit, revision_limit }
}

impl Shared {
    fn closed() -> Arc<Shared> {
        Arc::new(Shared(UnsafeCell::new(c::Shared { state: 0, at: ptr::null_mut() })))
    }

    pub fn open(name: &str, limits: &Limits) -> Result<Arc<Shared>, Error> {
        let (shared, limits) = (Shared::closed(), limits_of(limits));
        // SAFETY: the handle is closed, in its place, and nobody else has it yet; the others are borrows that last for the call.
        check(unsafe { c::kv_shared_open(shared.at(), name.as_ptr(), name.len(), &limits) }, 0)?;
        Ok(shared)
    }

    /// The bucket of a file, and how many bytes of it were dropped.
    pub fn open_file(path: &Path, name: &str, limits: &Limits, sync: u64) -> Result<(Arc<Shared>, u64), Error> {
        let (shared, limits, path) = (Shared::closed(), limits_of(limits), path.as_os_str().as_bytes());
        let (mut dropped, mut offset) = (0, 0);
        // SAFETY: as in `open`, and the numbers are ours.
        let code = unsafe {
            c::kv_shared_open_file(
                shared.at(),
                path.as_ptr(),
                path.len(),
                name.as_ptr(),
                name.len(),
                &limits,
                sync,
                &mut dropped,
                &mut offset,
            )
        };
        check(code, offset)?;
        Ok((shared, dropped))
    }

    pub fn sync(&self) -> Result<(), Error> {
        // SAFETY: the handle may be used by any thread.
        check(unsafe { c::kv_shared_sync(self.at()) }, 0).map(drop)
    }

    pub fn checkpoint(&self) -> Result<(), Error> {
        // SAFETY: as that of `sync`.
        check(unsafe { c::kv_shared_checkpoint(self.at()) }, 0).map(drop)
    }

    #[inline]
    fn at(&self) -> *mut c::Shared {
        self.0.get()
    }

    /// Reads under the lock.
    #[inline]
    pub fn reads(&self) -> Reads<'_, c::Shared> {
        Reads { at: self.at(), functions: &OF_SHARED, of: PhantomData }
    }

    /// Makes a call that tells a number, also where it is refused.
    #[inline]
    fn told(&self, call: impl FnOnce(*mut c::Shared, *mut u64) -> u64) -> Result<u64, Error> {
        let mut number = 0;
        let code = call(self.at(), &mut number);
        check(code, number)
    }

    #[inline]
    pub fn put(&self, key: &str, value: &[u8]) -> Result<u64, Error> {
        // SAFETY: the handle may be used by any thread, and the others are borrows that last for the call, with their sizes.
        self.told(|at, revision| unsafe { c::kv_shared_put(at, key.as_ptr(), key.len(), value.as_ptr(), value.len(), revision) })
    }

    pub fn create(&self, key: &str, value: &[u8]) -> Result<u64, Error> {
        // SAFETY: as that of `put`.
        self.told(|at, revision| unsafe { c::kv_shared_create(at, key.as_ptr(), key.len(), value.as_ptr(), value.len(), revision) })
    }

    pub fn update(&self, key: &str, value: &[u8], last: u64) -> Result<u64, Error> {
        // SAFETY: as that of `put`.
        self.told(|at, revision| unsafe {
            c::kv_shared_update(at, key.as_ptr(), key.len(), value.as_ptr(), value.len(), last, revision)
        })
    }

    pub fn delete(&self, key: &str, last: Option<u64>) -> Result<u64, Error> {
        // SAFETY: as that of `put`.
        self.told(|at, revision| unsafe {
            c::kv_shared_delete(at, key.as_ptr(), key.len(), last.is_some(), last.unwrap_or(0), revision)
        })
    }

    pub fn purge(&self, key: &str, last: Option<u64>) -> Result<u64, Error> {
        // SAFETY: as that of `put`.
        self.told(|at, revision| unsafe {
            c::kv_shared_purge(at, key.as_ptr(), key.len(), last.is_some(), last.unwrap_or(0), revision)
        })
    }

    pub fn write_all(&self, writes: &[Write<'_>]) -> Result<Range<u64>, BatchRefused> {
        let mut batch = Batch(closed().into_inner());
        for (at, write) in writes.iter().enumerate() {
            if let Err(error) = batch.gather(write) {
                // That the bucket is closed comes before every other refusal.
                self.reads().status().map_err(|error| BatchRefused { at: 0, error })?;
                return Err(BatchRefused { at, error });
            }
        }
        let (mut revision, mut at) = (0, 0);
        // SAFETY: the bucket may be used by any thread, the batch is ours, and so are the numbers.
        let code = unsafe { c::kv_shared_write_all(self.at(), &mut batch.0, &mut revision, &mut at) };
        check(code, revision).map_err(|error| BatchRefused { at, error })?;
        let first = if writes.is_empty() { revision + 1 } else { revision };
        Ok(first..first + writes.len() as u64)
    }

    pub fn seal(&self) -> Result<(), Error> {
        // SAFETY: the handle may be used by any thread.
        check(unsafe { c::kv_shared_seal(self.at()) }, 0).map(drop)
    }

    pub fn compact(&self, floor: u64) -> Result<(), Error> {
        // SAFETY: the handle may be used by any thread, and the number is ours.
        self.told(|at, watch| unsafe { c::kv_shared_compact(at, floor, watch) }).map(drop)
    }

    pub fn reach(&self) -> Result<u64, Error> {
        // SAFETY: as that of `compact`.
        self.told(|at, floor| unsafe { c::kv_shared_reach(at, floor) })
    }

    pub fn finish(&self) -> Result<(), Error> {
        // SAFETY: the handle may be used by any thread.
        check(unsafe { c::kv_shared_finish(self.at()) }, 0).map(drop)
    }

    pub fn close(&self) {
        // SAFETY: the handle may be closed by any thread, also while others use it, and more than once; its memory stays.
        unsafe { c::kv_shared_close(self.at()) };
    }

    pub fn watch(&self, filters: &str, options: &Options) -> Result<u64, Error> {
        let options = options_of(options);
        // SAFETY: as that of `put`.
        self.told(|at, number| unsafe { c::kv_shared_watch(at, filters.as_ptr(), filters.len(), &options, number) })
    }

    pub fn take(&self, number: u64, room: &mut Room) -> Result<Option<Item>, Error> {
        room.taken(|keys, values, values_size, item, _| {
            // SAFETY: the handle may be used by any thread, and the room has the memory that it says.
            unsafe { c::kv_shared_take(self.at(), number, keys, KEY, values, values_size, item) }
        })
    }

    pub fn stop(&self, number: u64) -> Result<u64, Error> {
        // SAFETY: as that of `compact`.
        self.told(|at, handed| unsafe { c::kv_shared_stop(at, number, handed) })
    }
}

impl Drop for Shared {
    fn drop(&mut self) {
        self.close();
    }
}

fn options_of(options: &Options) -> c::Options {
    let (start, from) = match options.start {
        Start::Latest => (0, 0),
        Start::History => (1, 0),
        Start::Updates => (2, 0),
        Start::From(revision) => (3, revision),
    };
    c::Options { start, from, ignore_deletes: options.ignore_deletes, headers_only: options.headers_only }
}

/// Room for an item's key and value, and an item that was taken but for which there was no memory.
pub(crate) struct Room {
    key: [u8; KEY],
    value: Vec<u8>,
    waiting: Option<c::Item>,
}

impl Room {
    pub fn new() -> Result<Room, Error> {
        Ok(Room { key: [0; KEY], value: reserved(SMALL)?, waiting: None })
    }

    /// Takes an item by a call that is told where the key and the value go, how much room that has, and where the item and a
    /// number are told. It has to copy no more than fits, and to tell in the item how much it copied.
    #[inline]
    fn taken(&mut self, take: impl Fn(*mut u8, *mut u8, usize, *mut c::Item, *mut u64) -> u64) -> Result<Option<Item>, Error> {
        let mut item = c::Item::default();
        let mut number = 0;
        if let Some(waiting) = self.waiting {
            item = waiting;
        } else {
            loop {
                let values_size = self.value.capacity();
                let code = take(self.key.as_mut_ptr(), self.value.as_mut_ptr(), values_size, &mut item, &mut number);
                if code == OK {
                    break;
                }
                if code != TOO_LITTLE_ROOM {
                    return Err(Error::of(code, number));
                }
                self.value = reserved(item.value_size)?;
            }
        }
        let told = match item.kind {
            c::EMPTY => Ok(None),
            c::MARKER => Ok(Some(Item::Marker)),
            _ => self.shown(&item).map(|entry| Some(Item::Entry(entry))),
        };
        self.waiting = if told.is_err() { Some(item) } else { None };
        told
    }

    #[inline]
    fn shown(&self, item: &c::Item) -> Result<Entry, Error> {
        // SAFETY: the call that took the item copied so many bytes, which fit, and nothing has been copied since.
        let value = unsafe { slice::from_raw_parts(self.value.as_ptr(), item.value_size) };
        Entry::of(&self.key[..item.key_size], value, numbers_of(item))
    }
}

/// Writes that are gathered for one call.
struct Batch(c::Handle);

impl Batch {
    fn gather(&mut self, write: &Write<'_>) -> Result<(), Error> {
        let at = &mut self.0;
        // SAFETY: the handle is ours, and the others are borrows that last for the call, with their sizes.
        let code = unsafe {
            match *write {
                Write::Put { key, value } => c::kv_batch_put(at, key.as_ptr(), key.len(), value.as_ptr(), value.len()),
                Write::Create { key, value } => c::kv_batch_create(at, key.as_ptr(), key.len(), value.as_ptr(), value.len()),
                Write::Update { key, value, last } => {
                    c::kv_batch_update(at, key.as_ptr(), key.len(), value.as_ptr(), value.len(), last)
                }
                Write::Delete { key, last } => c::kv_batch_delete(at, key.as_ptr(), key.len(), last.is_some(), last.unwrap_or(0)),
                Write::Purge { key, last } => c::kv_batch_purge(at, key.as_ptr(), key.len(), last.is_some(), last.unwrap_or(0)),
            }
        };
        check(code, 0).map(drop)
    }
}

impl Drop for Batch {
    fn drop(&mut self) {
        // SAFETY: nobody else has the handle. One that is empty stays so.
        unsafe { c::kv_batch_close(&mut self.0) }
    }
}

/// A handle for reads of a bucket: one of a reader or of a view. It is closed where it is dropped.
struct Own {
    handle: UnsafeCell<c::Handle>,
    functions: &'static Functions<c::Handle>,
    close: unsafe extern "C" fn(*mut c::Handle),
}

// SAFETY: the library says that a kv_reader and a kv_view may go to another thread. It is not Sync: one call at a time uses it.
unsafe impl Send for Own {}

impl Own {
    fn at(&self) -> *mut c::Handle {
        self.handle.get()
    }

    #[inline]
    fn reads(&self) -> Reads<'_, c::Handle> {
        Reads { at: self.at(), functions: self.functions, of: PhantomData }
    }
}

impl Drop for Own {
    fn drop(&mut self) {
        // SAFETY: nobody else has the handle, and it is of the kind that this closes. One that is closed stays so.
        unsafe { (self.close)(self.at()) }
    }
}

/// A view that goes on by itself.
pub(crate) struct Reader(Own);

impl Reader {
    pub fn open(shared: &Shared) -> Result<Reader, Error> {
        let own = Own { handle: closed(), functions: &OF_READER, close: c::kv_reader_close };
        // SAFETY: the bucket may be used by any thread, and the reader's handle is closed and ours.
        check(unsafe { c::kv_reader_open(shared.at(), own.at()) }, 0)?;
        Ok(Reader(own))
    }

    #[inline]
    pub fn reads(&self) -> Reads<'_, c::Handle> {
        self.0.reads()
    }
}

/// What a bucket had accepted by a moment.
pub(crate) struct View(Own);

impl View {
    pub fn open(shared: &Shared) -> Result<View, Error> {
        let own = Own { handle: closed(), functions: &OF_VIEW, close: c::kv_view_close };
        // SAFETY: the bucket may be used by any thread, and the view's handle is closed and ours.
        check(unsafe { c::kv_shared_snapshot(shared.at(), own.at()) }, 0)?;
        Ok(View(own))
    }

    #[inline]
    pub fn reads(&self) -> Reads<'_, c::Handle> {
        self.0.reads()
    }

    /// The retained entries of a key, oldest first.
    pub fn history(&self, key: &str) -> Result<Vec<Entry>, Error> {
        let (mut room, mut entries) = (reserved(SMALL)?, Vec::new());
        loop {
            let (mut item, mut count) = (c::Item::default(), 0);
            // SAFETY: no other call uses the handle, which is not Sync, and the others are borrows that last for the call, with
            // their sizes.
            let code = unsafe {
                c::kv_view_history(
                    self.0.at(),
                    key.as_ptr(),
                    key.len(),
                    entries.len(),
                    room.as_mut_ptr(),
                    room.capacity(),
                    &mut item,
                    &mut count,
                )
            };
            match code {
                OK if item.kind == c::EMPTY => return Ok(entries),
                OK => {
                    // SAFETY: the library copied so many bytes, and they fit.
                    unsafe { room.set_len(item.value_size) };
                    entries.try_reserve_exact(count - entries.len()).map_err(|_| Error::OutOfMemory)?;
                    entries.push(Entry::of(key.as_bytes(), &room, numbers_of(&item))?);
                }
                TOO_LITTLE_ROOM => room = reserved(item.value_size)?,
                KEY_NOT_FOUND => return Ok(entries),
                code => return Err(Error::of(code, 0)),
            }
        }
    }
}

/// The handle of a follower, which its `Following` uses, and its stoppers where that is there.
pub(crate) struct Following {
    of: Arc<Stopping>,
    descriptor: RawFd,
}

/// By this any thread stops a follower that is open.
pub(crate) struct Stopping {
    handle: UnsafeCell<c::Handle>,
    is_open: Mutex<bool>,
}

// SAFETY: the library says that a kv_follower may go to another thread, and that any thread may stop it while it is open. What is
// used by one call at a time is used by `Following::next` alone, which borrows the one `Following` alone.
unsafe impl Send for Stopping {}
// SAFETY: as above. The handle itself is written by the open and the close alone: the one before it is shared, and the other under
// the lock that each stop holds, and behind the last next.
unsafe impl Sync for Stopping {}

impl Following {
    pub fn open(shared: &Shared, filters: &str, options: &Options) -> Result<Following, Error> {
        let options = options_of(options);
        let mut opened = Following { of: Arc::new(Stopping { handle: closed(), is_open: Mutex::new(true) }), descriptor: -1 };
        let at = opened.of.handle.get();
        // SAFETY: the bucket may be used by any thread, and the follower's handle is closed and ours.
        check(unsafe { c::kv_follower_open(shared.at(), filters.as_ptr(), filters.len(), &options, at) }, 0)?;
        // SAFETY: the handle is ours alone, and so is the number.
        check(unsafe { c::kv_follower_fd(at, &mut opened.descriptor) }, 0)?;
        Ok(opened)
    }

    /// Hands out the next item, and sleeps for it so long.
    #[inline]
    pub fn next(&mut self, milliseconds: u64, room: &mut Room) -> Result<Option<Item>, Error> {
        let at = self.of.handle.get();
        room.taken(|keys, values, values_size, item, floor| {
            // SAFETY: this is borrowed alone, so it is the one next; stops may be made beside it. The room has the memory that it
            // says.
            unsafe { c::kv_follower_next(at, milliseconds, keys, KEY, values, values_size, item, floor) }
        })
    }

    pub fn stopping(&self) -> &Arc<Stopping> {
        &self.of
    }

    pub fn descriptor(&self) -> BorrowedFd<'_> {
        // SAFETY: the descriptor is open as long as the follower is, which the answer borrows.
        unsafe { BorrowedFd::borrow_raw(self.descriptor) }
    }
}

impl Drop for Following {
    fn drop(&mut self) {
        let mut is_open = self.of.is_open();
        *is_open = false;
        // SAFETY: nobody makes a next, as this is borrowed alone, and none a stop, as the lock is held; and none will. A handle that
        // is closed stays so.
        unsafe { c::kv_follower_close(self.of.handle.get()) }
    }
}

impl Stopping {
    fn is_open(&self) -> MutexGuard<'_, bool> {
        self.is_open.lock().unwrap_or_else(|it| it.into_inner())
    }

    /// Ends the follower, and wakes who sleeps in it.
    pub fn stop(&self) -> Result<(), Error> {
        let is_open = self.is_open();
        if !*is_open {
            return Err(Error::Closed);
        }
        // SAFETY: the handle is open and stays so, as the close waits for the lock. A stop may be made beside a next.
        check(unsafe { c::kv_follower_stop(self.handle.get()) }, 0).map(drop)
    }
}
