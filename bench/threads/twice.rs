//! Threads pair, each call with one that began after it.

mod common;
#[path = "../emitted/twice.rs"]
mod twice;

use common::in_threads;
use std::thread;
use twice::Twice;

static TWICE: Twice = Twice::new();

fn main() {
    // The last call of all waits for another. So this thread makes calls up to the end.
    thread::spawn(|| loop {
        TWICE.pair().unwrap();
    });
    in_threads(8, |_| {
        for _ in 0..1024 {
            assert!(TWICE.pair().unwrap() >= 0);
        }
    });
}
