//! Gets, puts and copies of a map, on one thread.

use crate::keys::{spread, VALUE};
use crate::maps::Side;
use crate::series::Series;
use crate::Plan;
use std::sync::Arc;
use std::time::Instant;

// The most keys that a round asks for.
const MOST_ASKED: usize = 5000;

fn tell<S: Side>(plan: Plan, what: &'static str, count: usize, mut round: impl FnMut()) {
    let values = (0..plan.rounds)
        .map(|_| {
            let start = Instant::now();
            round();
            start.elapsed().as_nanos() as f64 / count as f64
        })
        .collect();
    Series { group: "rust-beside".into(), what, of: S::NAME, others: 0, keys: plan.keys, unit: "ns", values }.tell();
}

pub fn measure<S: Side>(plan: Plan) {
    let side = Arc::new(S::filled(plan.keys));
    let asked = spread(plan.keys, plan.keys.min(MOST_ASKED));
    let mut get = side.reader();
    tell::<S>(plan, "get", asked.len(), || {
        let found: usize = asked.iter().map(|key| get(key)).sum();
        assert_eq!(found, asked.len() * VALUE.len());
    });
    tell::<S>(plan, "put", asked.len(), || asked.iter().for_each(|key| side.put(key)));
    tell::<S>(plan, "copy", S::COPIES, || {
        for _ in 0..S::COPIES {
            assert_eq!(side.copied(), plan.keys);
        }
    });
}
