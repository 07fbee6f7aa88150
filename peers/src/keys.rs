//! The keys and values of kv_bench.

/// The value of each put: 16 bytes.
pub const VALUE: &[u8; 16] = b"0123456789012345";

// A prime, so that its multiples are spread over all keys.
const STRIDE: usize = 7919;

/// The key of a number. One of a hundred lies below `a`, the others below `b`.
pub fn text(number: usize) -> String {
    format!("{}.{}", if number % 100 == 0 { "a" } else { "b" }, number)
}

/// Some keys among so many, spread over them, in the order in which they are asked for.
pub fn spread(count: usize, asked: usize) -> Vec<String> {
    (0..asked).map(|turn| text(turn * STRIDE % count)).collect()
}
