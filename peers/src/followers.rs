//! One thread writes to a map under a lock and sends each write to all who follow.

use crate::channels::{Channels, Message, Sends, Takes, ALL};
use crate::keys::{spread, text, VALUE};
use crate::readers::{thread_time, ASKED};
use crate::series::Series;
use crate::Plan;
use std::collections::HashMap;
use std::sync::{Barrier, RwLock};
use std::thread;
use std::time::{Duration, Instant};

const WRITES: usize = 10_000;

const PAUSED_WRITES: usize = 1000;

const PAUSE: Duration = Duration::from_micros(100);

// A map under a lock, and the keys that are asked for.
struct Ground {
    map: RwLock<HashMap<String, Vec<u8>>>,
    asked: Vec<String>,
}

impl Ground {
    fn new(plan: Plan) -> Ground {
        Ground {
            map: RwLock::new((0..plan.keys).map(|number| (text(number), VALUE.to_vec())).collect()),
            asked: spread(plan.keys, ASKED.min(plan.keys)),
        }
    }

    // Sends while it has the lock, so that all followers see one order.
    fn put(&self, turn: usize, send: &Sends) {
        let key = &self.asked[turn % self.asked.len()];
        let message = Message::new((key.clone(), VALUE.to_vec()));
        let (key, value) = (key.clone(), VALUE.to_vec());
        let mut map = self.map.write().unwrap();
        map.insert(key, value);
        send(message);
    }
}

fn take_all(take: &mut Takes, begin: &Barrier) -> Instant {
    begin.wait();
    for _ in 0..WRITES {
        assert!(take());
    }
    Instant::now()
}

// Items a second of all followers together, up to the end of the last; writes a second; and the processor time of a write.
fn items(ground: &Ground, channels: &Channels, followers: usize) -> [f64; 3] {
    let (send, takes) = (channels.open)(followers);
    let begin = Barrier::new(followers + 1);
    thread::scope(|scope| {
        let begin = &begin;
        let all: Vec<_> = takes.into_iter().map(|mut take| scope.spawn(move || take_all(&mut take, begin))).collect();
        begin.wait();
        let (start, before) = (Instant::now(), thread_time());
        (0..WRITES).for_each(|turn| ground.put(turn, &send));
        let (took, busy) = (start.elapsed().as_secs_f64(), thread_time() - before);
        let last = all.into_iter().map(|follower| follower.join().unwrap()).max().unwrap_or(start);
        let writes = WRITES as f64;
        [writes * followers as f64 / (last - start).as_secs_f64(), writes / took, busy / writes]
    })
}

/// Measures followers of a writer without a pause.
pub fn measure_items(plan: Plan) {
    let ground = Ground::new(plan);
    for channels in &ALL {
        for others in [1, 8, 31] {
            let rounds: Vec<_> = (0..plan.rounds).map(|_| items(&ground, channels, others)).collect();
            for (at, (what, unit)) in
                [("items", "a second"), ("writes", "a second"), ("processor time of a write", "ns")].into_iter().enumerate()
            {
                let values = rounds.iter().map(|round| round[at]).collect();
                Series { group: "rust-feeds".into(), what, of: channels.name, others, keys: plan.keys, unit, values }.tell();
            }
        }
    }
}

fn moments(take: &mut Takes, start: Instant) -> Vec<u128> {
    (0..PAUSED_WRITES)
        .map(|_| {
            assert!(take());
            start.elapsed().as_nanos()
        })
        .collect()
}

// The nanoseconds from the writes' returns to their items.
fn delays(ground: &Ground, channels: &Channels, followers: usize) -> Vec<f64> {
    let (send, takes) = (channels.open)(followers);
    let start = Instant::now();
    thread::scope(|scope| {
        let all: Vec<_> = takes.into_iter().map(|mut take| scope.spawn(move || moments(&mut take, start))).collect();
        let mut written = Vec::new();
        for turn in 0..PAUSED_WRITES {
            ground.put(turn, &send);
            written.push(start.elapsed().as_nanos());
            thread::sleep(PAUSE);
        }
        let handed = all.into_iter().flat_map(|follower| follower.join().unwrap());
        written.iter().cycle().zip(handed).map(|(from, to)| to.saturating_sub(*from) as f64).collect()
    })
}

/// Measures the delays of a writer with pauses. What is told as the most is what 99 of 100 are not above.
pub fn measure_delays(plan: Plan) {
    let ground = Ground::new(plan);
    for channels in &ALL {
        for others in [1, 2, 3] {
            let values = (0..plan.rounds).flat_map(|_| delays(&ground, channels, others)).collect();
            Series { group: "rust-delay".into(), what: "delay", of: channels.name, others, keys: plan.keys, unit: "ns", values }
                .tell_up_to(99);
        }
    }
}
