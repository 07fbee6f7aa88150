//! Channels from one writer to each of its followers.

use std::sync::{mpsc, Arc};
use tokio::sync::broadcast;

/// What a follower is sent: one block for all of them.
pub type Message = Arc<(String, Vec<u8>)>;

/// Sends to all.
pub type Sends = Box<dyn Fn(Message)>;

/// Waits for the next message; whether there is one.
pub type Takes = Box<dyn FnMut() -> bool + Send>;

pub struct Channels {
    pub name: &'static str,
    pub open: fn(usize) -> (Sends, Vec<Takes>),
}

pub const ALL: [Channels; 3] = [
    Channels { name: "HashMap under RwLock and std's channels", open: of_std },
    Channels { name: "HashMap under RwLock and crossbeam's channels", open: of_crossbeam },
    Channels { name: "HashMap under RwLock and tokio's broadcast", open: of_tokio },
];

// No message waits for room: what a round sends is less.
const ROOM: usize = 16_384;

fn of_std(followers: usize) -> (Sends, Vec<Takes>) {
    let (ends, others): (Vec<_>, Vec<_>) = (0..followers).map(|_| mpsc::channel::<Message>()).unzip();
    let send = Box::new(move |message: Message| ends.iter().for_each(|end| end.send(message.clone()).unwrap()));
    (send, others.into_iter().map(|end| Box::new(move || end.recv().is_ok()) as Takes).collect())
}

fn of_crossbeam(followers: usize) -> (Sends, Vec<Takes>) {
    let (ends, others): (Vec<_>, Vec<_>) = (0..followers).map(|_| crossbeam_channel::unbounded::<Message>()).unzip();
    let send = Box::new(move |message: Message| ends.iter().for_each(|end| end.send(message.clone()).unwrap()));
    (send, others.into_iter().map(|end| Box::new(move || end.recv().is_ok()) as Takes).collect())
}

fn of_tokio(followers: usize) -> (Sends, Vec<Takes>) {
    let (all, _) = broadcast::channel::<Message>(ROOM);
    let takes = (0..followers)
        .map(|_| {
            let mut end = all.subscribe();
            let runtime = tokio::runtime::Builder::new_current_thread().build().unwrap();
            Box::new(move || runtime.block_on(end.recv()).is_ok()) as Takes
        })
        .collect();
    (Box::new(move |message| drop(all.send(message))), takes)
}
