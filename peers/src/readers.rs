//! One thread writes without a pause for a time, others read.

use crate::keys::{spread, VALUE};
use crate::maps::Side;
use crate::series::Series;
use crate::Plan;
use std::sync::atomic::{AtomicBool, Ordering};
use std::sync::{Arc, Barrier};
use std::thread;
use std::time::{Duration, Instant};

/// How many keys are asked for, unless all are, and how many reads a reader makes before it looks whether the round is over.
pub const ASKED: usize = 500;

const TIME: Duration = Duration::from_millis(150);

// What a round gave: reads a second of all readers together, writes a second, and the processor time of a write.
struct Round {
    reads: f64,
    writes: f64,
    busy: f64,
}

/// The nanoseconds that this thread had a processor.
pub fn thread_time() -> f64 {
    let mut time = libc::timespec { tv_sec: 0, tv_nsec: 0 };
    let status = unsafe { libc::clock_gettime(libc::CLOCK_THREAD_CPUTIME_ID, &mut time) };
    assert_eq!(status, 0);
    time.tv_sec as f64 * 1e9 + time.tv_nsec as f64
}

fn next(place: usize, asked: usize) -> usize {
    if place + 1 >= asked {
        0
    } else {
        place + 1
    }
}

fn read<S: Side>(side: &Arc<S>, keys: &[String], first: usize, is_over: &AtomicBool, begin: &Barrier) -> f64 {
    let mut get = side.reader();
    begin.wait();
    let start = Instant::now();
    let (mut count, mut place) = (0, first);
    while !is_over.load(Ordering::SeqCst) {
        let mut found = 0;
        for _ in 0..ASKED {
            found += get(&keys[place]);
            place = next(place, keys.len());
        }
        assert_eq!(found, ASKED * VALUE.len());
        count += ASKED;
    }
    count as f64 / start.elapsed().as_secs_f64()
}

// How many writes, in how many seconds, and the nanoseconds of processor.
fn write<S: Side>(side: &S, keys: &[String]) -> (f64, f64, f64) {
    let (start, before) = (Instant::now(), thread_time());
    let (mut count, mut place) = (0, 0);
    loop {
        side.put(&keys[place]);
        place = next(place, keys.len());
        count += 1;
        if count % 128 == 0 && start.elapsed() >= TIME {
            return (count as f64, start.elapsed().as_secs_f64(), thread_time() - before);
        }
    }
}

fn round<S: Side>(side: &Arc<S>, keys: &[String], readers: usize) -> Round {
    let (is_over, begin) = (AtomicBool::new(false), Barrier::new(readers + 1));
    thread::scope(|scope| {
        let (is_over, begin) = (&is_over, &begin);
        let all: Vec<_> = (0..readers)
            .map(|number| scope.spawn(move || read(side, keys, number * (keys.len() / 7) % keys.len(), is_over, begin)))
            .collect();
        begin.wait();
        let (count, seconds, busy) = write(&**side, keys);
        is_over.store(true, Ordering::SeqCst);
        let reads = all.into_iter().map(|reader| reader.join().unwrap()).sum();
        Round { reads, writes: count / seconds, busy: busy / count }
    })
}

/// Measures rounds with each number of readers, one number after the other.
pub fn measure<S: Side>(plan: Plan, group: &str, asked: usize, numbers: &[usize]) {
    let side = Arc::new(S::filled(plan.keys));
    let keys = spread(plan.keys, asked);
    let mut rounds: Vec<Vec<Round>> = numbers.iter().map(|_| Vec::new()).collect();
    for _ in 0..plan.rounds {
        for (readers, found) in numbers.iter().zip(&mut rounds) {
            found.push(round(&side, &keys, *readers));
        }
    }
    for (&others, found) in numbers.iter().zip(&rounds) {
        let tell = |what, unit, value: &dyn Fn(&Round) -> f64| {
            let values = found.iter().map(value).collect();
            Series { group: group.into(), what, of: S::NAME, others, keys: plan.keys, unit, values }.tell();
        };
        if others > 0 {
            tell("reads", "a second", &|it| it.reads);
        }
        tell("writes", "a second", &|it| it.writes);
        tell("processor time of a write", "ns", &|it| it.busy);
    }
}
