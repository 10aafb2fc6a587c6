//! What the programs of this folder share.

use std::fmt::Debug;
use std::thread;

/// Has so many threads do the work, each with its number from 0.
pub fn in_threads(threads: usize, work: impl Fn(usize) + Sync) {
    thread::scope(|scope| {
        for thread in 0..threads {
            let work = &work;
            scope.spawn(move || work(thread));
        }
    });
}

/// Panics unless the monitor is in this state. A program may have none to look at.
#[allow(dead_code)]
pub fn assert_state(monitor: &impl Debug, state: &str) {
    let seen = format!("{monitor:?}");
    assert!(seen.contains(&format!("State {{ {state} }}")), "{seen}");
}
