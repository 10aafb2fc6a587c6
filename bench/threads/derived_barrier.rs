//! Three threads meet, and a fourth watches; then one dismisses the others.

#[path = "../emitted/derived_barrier.rs"]
mod barrier;
mod common;

use barrier::{Barrier, Refused};
use common::{assert_state, in_threads};

fn main() {
    let barrier = Barrier::new();
    in_threads(4, |thread| {
        for _ in 0..2048 {
            if thread < 3 {
                barrier.arrive();
                barrier.leave();
            } else {
                barrier.watch();
            }
        }
    });
    in_threads(3, |_| {
        assert!(barrier.arrive() <= Barrier::PARTIES)
    });
    barrier.dismiss();
    assert_state(&barrier, "waiting: 0, open: false");
    assert_eq!(barrier.try_dismiss(), Err(Refused));
}
