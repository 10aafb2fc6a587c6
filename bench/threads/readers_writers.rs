//! Twenty-four threads read, and eight write.

mod common;
#[path = "../emitted/readers_writers.rs"]
mod readers_writers;

use common::{assert_state, in_threads};
use readers_writers::{ReadersWriters, Refused};

fn main() {
    let monitor = ReadersWriters::new();
    in_threads(32, |thread| {
        for _ in 0..200 {
            if thread < 24 {
                monitor.start_read().unwrap();
                monitor.end_read();
            } else {
                monitor.ask().unwrap();
                monitor.start_write();
                monitor.end_write();
            }
        }
    });
    assert_state(&monitor, "readers: 0, queued: 0, writing: false");
    assert_eq!(monitor.try_end_write(), Err(Refused));
    assert_eq!(monitor.try_start_read(), Ok(()));
}
