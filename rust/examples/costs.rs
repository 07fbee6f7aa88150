//! Prints what calls take here, and the calls of C that they make: nanoseconds, the least of some rounds, and what is added.
#![allow(unsafe_code)]
use std::os::raw::c_void;
use std::time::Instant;
use vilgoued::{Bucket, Limits, Options, Start};

/// So few that all stay in the caches: what the calls themselves take there is seen best.
const KEYS: usize = 16;
const CALLS: usize = 2_000;
const ROUNDS: usize = 200;

#[repr(C)]
struct Handle {
    is_open: u64,
    at: *mut c_void,
}

#[repr(C)]
#[derive(Default)]
struct Item {
    kind: u32,
    op: u32,
    revision: u64,
    key_size: usize,
    size: u64,
    value_size: usize,
    has_value: bool,
}

#[repr(C)]
struct Wanted {
    start: u32,
    from: u64,
    ignore_deletes: bool,
    headers_only: bool,
}

extern "C" {
    fn kv_shared_open(at: *mut Handle, name: *const u8, size: usize, limits: *const [u64; 4]) -> u64;
    fn kv_shared_put(at: *mut Handle, key: *const u8, size: usize, value: *const u8, value_size: usize, revision: *mut u64) -> u64;
    fn kv_shared_get(
        at: *mut Handle,
        key: *const u8,
        key_size: usize,
        room: *mut u8,
        room_size: usize,
        size: *mut usize,
        revision: *mut u64,
    ) -> u64;
    fn kv_reader_open(shared: *mut Handle, at: *mut Handle) -> u64;
    fn kv_reader_get(
        at: *mut Handle,
        key: *const u8,
        key_size: usize,
        room: *mut u8,
        room_size: usize,
        size: *mut usize,
        revision: *mut u64,
    ) -> u64;
    fn kv_follower_open(shared: *mut Handle, filters: *const u8, size: usize, options: *const Wanted, at: *mut Handle) -> u64;
    fn kv_follower_next(
        at: *mut Handle,
        milliseconds: u64,
        keys: *mut u8,
        keys_size: usize,
        values: *mut u8,
        values_size: usize,
        item: *mut Item,
        floor: *mut u64,
    ) -> u64;
}

/// So that what a call answered is not left out.
#[inline(never)]
fn used<T>(answer: T) {
    drop(answer);
}

/// The nanoseconds that each of the calls takes in each of the rounds.
fn timed(mut call: impl FnMut(usize)) -> f64 {
    let began = Instant::now();
    for at in 0..CALLS {
        call(at);
    }
    began.elapsed().as_nanos() as f64 / CALLS as f64
}

/// Times the two in turn, so that what else the machine does is beside both, and prints the least.
fn compare(name: &str, mut of_c: impl FnMut() -> f64, mut here: impl FnMut() -> f64) {
    let (mut least, mut least_here) = (f64::MAX, f64::MAX);
    for _ in 0..ROUNDS {
        least = least.min(of_c());
        least_here = least_here.min(here());
    }
    println!("{name}: {least:.0} ns in C, {least_here:.0} ns here, {:.0} ns added", least_here - least);
}

fn main() {
    let keys: Vec<String> = (0..KEYS).map(|it| format!("device.{it}.state")).collect();
    let value = b"0123456789abcdef";
    let bucket = Bucket::open("costs", Limits::default()).unwrap();
    let mut shared = Handle { is_open: 0, at: std::ptr::null_mut() };
    let mut reading = Handle { is_open: 0, at: std::ptr::null_mut() };
    let (mut revision, mut size) = (0, 0);
    let mut room = [0; 1024];
    // SAFETY: the handles are closed, and everything else is borrowed for the call.
    unsafe {
        assert_eq!(kv_shared_open(&mut shared, "costs".as_ptr(), 5, &[1, 1 << 20, 1_000_000, (1 << 32) - 1]), 0);
    }
    for key in &keys {
        bucket.put(key, value).unwrap();
        // SAFETY: the handle is open, and everything else is borrowed for the call.
        unsafe { kv_shared_put(&mut shared, key.as_ptr(), key.len(), value.as_ptr(), value.len(), &mut revision) };
    }
    let reader = bucket.reader().unwrap();
    // SAFETY: the handles are open and closed.
    assert_eq!(unsafe { kv_reader_open(&mut shared, &mut reading) }, 0);
    let key = |at: usize| &keys[at % KEYS];
    let options = Options { start: Start::Updates, ..Options::default() };
    let wanted = Wanted { start: 2, from: 0, ignore_deletes: false, headers_only: false };
    let shared: *mut Handle = &mut shared;

    compare(
        "get of a reader",
        || {
            timed(|at| {
                // SAFETY: as above.
                used(unsafe {
                    kv_reader_get(&mut reading, key(at).as_ptr(), key(at).len(), room.as_mut_ptr(), 1024, &mut size, &mut revision)
                });
            })
        },
        || timed(|at| used(reader.get(key(at)).unwrap())),
    );
    compare(
        "get of a bucket",
        || {
            timed(|at| {
                // SAFETY: as above.
                used(unsafe {
                    kv_shared_get(shared, key(at).as_ptr(), key(at).len(), room.as_mut_ptr(), 1024, &mut size, &mut revision)
                });
            })
        },
        || timed(|at| used(bucket.get(key(at)).unwrap())),
    );
    let mut floor = 0;
    let mut item = Item::default();
    let (mut of_c, mut here) = (vec![], vec![]);
    for _ in 0..ROUNDS {
        let mut following = Handle { is_open: 0, at: std::ptr::null_mut() };
        // SAFETY: as above.
        assert_eq!(unsafe { kv_follower_open(shared, ">".as_ptr(), 1, &wanted, &mut following) }, 0);
        let mut follower = bucket.follow(">", options).unwrap();
        // SAFETY: as above.
        let puts = timed(|at| unsafe {
            used(kv_shared_put(shared, key(at).as_ptr(), key(at).len(), value.as_ptr(), value.len(), &mut revision));
        });
        let puts_here = timed(|at| {
            used(bucket.put(key(at), value).unwrap());
        });
        // SAFETY: as above.
        let items = timed(|_| unsafe {
            let mut names = [0; 255];
            let names_at = names.as_mut_ptr();
            used(kv_follower_next(&mut following, 0, names_at, 255, room.as_mut_ptr(), 1024, &mut item, &mut floor));
        });
        let items_here = timed(|_| used(follower.next().unwrap().unwrap()));
        of_c.push((puts, items));
        here.push((puts_here, items_here));
    }
    let least = |all: &[(f64, f64)], of: fn(&(f64, f64)) -> f64| all.iter().map(of).fold(f64::MAX, f64::min);
    compare("put", || least(&of_c, |it| it.0), || least(&here, |it| it.0));
    compare("item of a follower", || least(&of_c, |it| it.1), || least(&here, |it| it.1));
}
