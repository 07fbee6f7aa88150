//! A key-value bucket in the memory of one process, with wildcard watches.
//!
//! ```
//! use vilgoued::{Bucket, Error, Item, Limits, Options};
//!
//! let bucket = Bucket::open("settings", Limits::with_history(5))?;
//! bucket.put("app.port", "80")?;
//! let mut follower = bucket.follow("app.>", Options::default())?;
//! for item in &mut follower {
//!     match item? {
//!         Item::Entry(entry) => println!("{} {} at {}", entry.key(), entry.op(), entry.revision()),
//!         Item::Marker => println!("that was all"),
//!     }
//! }
//! if let Err(Error::WrongLastRevision { last }) = bucket.update("app.port", "8080", 7) {
//!     bucket.update("app.port", "8080", last)?;
//! }
//! # assert_eq!(bucket.get("app.port")?.unwrap().value(), Some(&b"8080"[..]));
//! # Ok::<(), Error>(())
//! ```
//!
//! A watch is handed the entries of the moment when it was opened, the end marker, and then each later matching change once
//! and in order, however slowly it is read. The rules are those of `docs/semantics.md`, and so are the names of refusals.
//!
//! | | goes to another thread | is used by several threads at once |
//! |---|---|---|
//! | [`Bucket`], [`Stopper`] | yes | yes |
//! | [`Follower`], [`Watch`] | yes | yes, but what takes an item borrows it alone |
//! | [`Reader`], [`Snapshot`] | yes | no: each thread has its own |
#![deny(unsafe_code)]
#![deny(unsafe_op_in_unsafe_fn)]
#![warn(missing_docs)]
#![warn(clippy::undocumented_unsafe_blocks)]

mod batch;
mod bucket;
mod entry;
mod follower;
mod options;
mod reads;
mod refusals;
mod sys;
mod watch;

pub use batch::{BatchRefused, Write};
pub use bucket::Bucket;
pub use entry::{Entry, Item, Op, Status};
pub use follower::{Follower, Stopper};
pub use options::{Durability, Limits, Options, Start};
pub use reads::{Reader, Snapshot};
pub use refusals::Error;
pub use watch::Watch;

/// The examples of the page.
#[cfg(doctest)]
#[doc = include_str!("../../docs/rust.md")]
pub struct Page;
