//! Threads read, write, and ask to write and think better of it.

mod common;
#[path = "../emitted/derived_readers_writers.rs"]
mod readers_writers;

use common::{assert_state, in_threads};
use readers_writers::{ReadersWriters, Refused};

fn main() {
    let monitor = ReadersWriters::new();
    in_threads(32, |thread| {
        for _ in 0..200 {
            if thread < 16 {
                monitor.start_read();
                monitor.end_read();
            } else if thread < 24 {
                monitor.ask().unwrap();
                monitor.start_write();
                monitor.end_write();
            } else {
                monitor.ask().unwrap();
                monitor.cancel();
            }
        }
    });
    assert_state(&monitor, "readers: 0, queued: 0, writing: false");
    assert_eq!(monitor.try_cancel(), Err(Refused));
}
