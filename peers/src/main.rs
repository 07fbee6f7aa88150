//! Measures maps and channels of Rust's own crates as kv_bench measures the bucket: with the same keys and values, in the same
//! loops, by lines of the same form.
//!
//!     peers GROUP KEYS ROUNDS      GROUP is beside, threads, threads-all, feeds or delay

mod alone;
mod channels;
mod followers;
mod keys;
mod maps;
mod readers;
mod series;

use maps::{Dash, Side, Std, Swapped, SwappedAndCached, Unpoisoned};

/// How much is measured.
#[derive(Clone, Copy)]
pub struct Plan {
    pub keys: usize,
    pub rounds: usize,
}

fn readers_of<S: Side>(plan: Plan, group: &str) {
    let (asked, numbers): (usize, &[usize]) = match group {
        "threads" => (readers::ASKED.min(plan.keys), &[0, 1, 2, 3, 4]),
        _ => (plan.keys, &[0, 1, 4]),
    };
    readers::measure::<S>(plan, &format!("rust-{group}"), asked, numbers);
}

fn main() {
    let words: Vec<String> = std::env::args().collect();
    let number = |at: usize| words.get(at).and_then(|word| word.parse().ok());
    let (Some(group), Some(keys), Some(rounds)) = (words.get(1), number(2), number(3)) else {
        eprintln!("peers GROUP KEYS ROUNDS");
        std::process::exit(2);
    };
    let plan = Plan { keys, rounds };
    match group.as_str() {
        "beside" => {
            alone::measure::<Std>(plan);
            alone::measure::<Unpoisoned>(plan);
            alone::measure::<Dash>(plan);
            alone::measure::<Swapped>(plan);
            alone::measure::<SwappedAndCached>(plan);
        }
        "threads" | "threads-all" => {
            readers_of::<Std>(plan, group);
            readers_of::<Unpoisoned>(plan, group);
            readers_of::<Dash>(plan, group);
            readers_of::<Swapped>(plan, group);
            readers_of::<SwappedAndCached>(plan, group);
        }
        "feeds" => followers::measure_items(plan),
        "delay" => followers::measure_delays(plan),
        _ => {
            eprintln!("peers: there is no group {group}");
            std::process::exit(2);
        }
    }
}
