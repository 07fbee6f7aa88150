//! A package of tests alone: a follower in tokio, by its descriptor.
